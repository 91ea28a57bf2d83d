//! Credentials. An acceptor's has none of MIT's mechanism: MIT's mechanism may have no key at all, so that it admits nobody by itself.

use crate::abi::*;
use crate::behind::*;
use crate::buffers::set;
use crate::cache::Source;
use crate::guard::guard;
use crate::oids::{self, KRB5, Specials};
use crate::status::{INITIATOR, NOT_OFFERED, Refused, SETTINGS, words};
use crate::{config, keys, keytab, names, say, trace};
use std::ffi::{CStr, c_int, c_void};
use std::ptr::{null, null_mut};

/// A credential: that of MIT's mechanism, and what the proved acceptor needs.
pub struct Credential {
    pub behind: Cred,
    pub accepts: bool,
    pub keytab: Option<String>,
    /// The service that it is for, as "host/server.example.com@"; none is any of the keytab.
    pub service: Option<String>,
    /// Where an initiator's tickets are.
    pub source: Source,
}

pub unsafe fn credential<'a>(cred: *mut c_void) -> Option<&'a mut Credential> {
    // SAFETY: a credential of the mechglue's is one that we made.
    unsafe { cred.cast::<Credential>().as_mut() }
}

pub unsafe fn behind(cred: *mut c_void) -> Cred {
    // SAFETY: of the caller.
    unsafe { credential(cred) }.map_or(null_mut(), |it| it.behind)
}

pub fn own(it: Credential) -> *mut c_void {
    Box::into_raw(Box::new(it)).cast()
}

/// An initiator's credential that MIT's mechanism alone has.
pub fn of_behind(behind: Cred) -> *mut c_void {
    own(Credential {
        behind,
        accepts: false,
        keytab: None,
        service: None,
        source: Source::Behind,
    })
}

/// Where the tickets of a credential from this store are.
unsafe fn source_of(store: CredStore) -> Source {
    // SAFETY: of the caller.
    unsafe {
        if stored(store, b"client_keytab").is_some() {
            return Source::Behind;
        }
        stored(store, b"ccache").map_or(Source::Default, Source::Cache)
    }
}

/// The value of a word in a credential store, as `keytab`.
pub unsafe fn stored(store: CredStore, word: &[u8]) -> Option<String> {
    if store.is_null() {
        return None;
    }
    // SAFETY: a store of the mechglue's, whose texts end with 0.
    unsafe {
        let all = (0..(*store).count as usize).map(|n| &*(*store).elements.add(n));
        let mut all = all.filter(|it| !it.key.is_null() && !it.value.is_null());
        let found = all.find(|it| CStr::from_ptr(it.key).to_bytes() == word)?;
        Some(CStr::from_ptr(found.value).to_string_lossy().into_owned())
    }
}

/// A set of one mechanism.
pub unsafe fn one(minor: *mut u32, mech: Oid, out: *mut OidSet) -> u32 {
    if out.is_null() {
        return COMPLETE;
    }
    // SAFETY: of the caller.
    unsafe {
        match gss_create_empty_oid_set(minor, out) {
            COMPLETE => gss_add_oid_set_member(minor, mech, out),
            status => status,
        }
    }
}

/// Checks that there is a keytab with keys, for a mechanism that is accepted at all: Kerberos itself.
unsafe fn acceptor_there(mech: Oid, keytab: Option<&str>) -> Result<(), Refused> {
    // SAFETY: of the caller.
    if unsafe { oids::octets(mech) != oids::octets(&KRB5) } {
        return Err(Refused::of(
            UNAVAILABLE,
            NOT_OFFERED,
            "an older OID or IAKERB",
        ));
    }
    let settings = config::get().map_err(|it| Refused::of(FAILURE, SETTINGS, it))?;
    let name = keytab::name(keytab, settings.keytab.as_deref());
    keys::of_file(keytab::path(&name), settings.skew).map(|_| ())
}

/// The part of a credential that MIT's mechanism has: to initiate alone, where it is to accept too.
unsafe fn acquire_behind(
    minor: *mut u32,
    name: Name,
    time: u32,
    mechs: OidSet,
    store: CredStore,
    actual: *mut OidSet,
    life: *mut u32,
) -> (u32, Cred) {
    let mut cred = null_mut();
    // SAFETY: of the caller.
    unsafe {
        let mut specials = Specials::of(mechs);
        let mut set = specials.set();
        let status = gss_acquire_cred_from(
            minor, name, time, &mut set, INITIATE, store, &mut cred, actual, life,
        );
        (status, cred)
    }
}

/// Reports why there is no credential.
unsafe fn refuse(minor: *mut u32, it: &Refused) -> u32 {
    if it.major != UNAVAILABLE {
        say!(
            "no credential: {} ({})",
            words(it.minor),
            it.further.escape_debug()
        );
    }
    // SAFETY: of the caller.
    unsafe { set(minor, it.minor) };
    it.major
}

unsafe fn acquire(
    minor: *mut u32,
    name: Name,
    time: u32,
    mechs: OidSet,
    usage: c_int,
    store: CredStore,
    actual: *mut OidSet,
    life: *mut u32,
) -> (u32, *mut c_void) {
    // SAFETY: of the caller.
    unsafe {
        let is_any = mechs.is_null() || (*mechs).count == 0;
        let mech = if is_any {
            &raw const KRB5
        } else {
            (*mechs).elements.cast_const()
        };
        let keytab = stored(store, b"keytab");
        let is_there = match usage {
            INITIATE => Ok(()),
            _ => acceptor_there(mech, keytab.as_deref()),
        };
        if let Err(it) = is_there {
            return (refuse(minor, &it), null_mut());
        }
        let (status, behind) = if usage == ACCEPT {
            set(life, INDEFINITE);
            (one(minor, mech, actual), null_mut())
        } else {
            acquire_behind(minor, name, time, mechs, store, actual, life)
        };
        let made = |behind| Credential {
            behind,
            accepts: usage != INITIATE,
            keytab,
            service: names::shown(name),
            source: source_of(store),
        };
        match status {
            COMPLETE => (status, own(made(behind))),
            _ => (status, null_mut()),
        }
    }
}

#[unsafe(no_mangle)]
pub unsafe extern "C" fn gssi_acquire_cred_from(
    minor: *mut u32,
    name: Name,
    time: u32,
    mechs: OidSet,
    usage: c_int,
    store: CredStore,
    cred: *mut *mut c_void,
    actual: *mut OidSet,
    life: *mut u32,
) -> u32 {
    guard(minor, || unsafe {
        set(minor, 0);
        let (status, made) = acquire(minor, name, time, mechs, usage, store, actual, life);
        trace!(
            "acquire_cred_from usage={usage} name={:?} keytab={:?} -> {status:#x}",
            names::shown(name),
            stored(store, b"keytab")
        );
        if let Some(cache) = stored(store, b"rcache") {
            trace!("the replay cache {cache:?} is not used: the store of the settings is");
        }
        set(cred, made);
        status
    })
}

#[unsafe(no_mangle)]
pub unsafe extern "C" fn gssi_acquire_cred(
    minor: *mut u32,
    name: Name,
    time: u32,
    mechs: OidSet,
    usage: c_int,
    cred: *mut *mut c_void,
    actual: *mut OidSet,
    life: *mut u32,
) -> u32 {
    unsafe { gssi_acquire_cred_from(minor, name, time, mechs, usage, null(), cred, actual, life) }
}

#[unsafe(no_mangle)]
pub unsafe extern "C" fn gssi_acquire_cred_with_password(
    minor: *mut u32,
    name: Name,
    password: Buffer,
    time: u32,
    mechs: OidSet,
    usage: c_int,
    cred: *mut *mut c_void,
    actual: *mut OidSet,
    life: *mut u32,
) -> u32 {
    guard(minor, || unsafe {
        trace!(
            "acquire_cred_with_password usage={usage} name={:?}",
            names::shown(name)
        );
        if usage != INITIATE {
            set(minor, INITIATOR);
            return UNAVAILABLE;
        }
        let mut specials = Specials::of(mechs);
        let (mut mechs, mut got) = (specials.set(), null_mut());
        let status = gss_acquire_cred_with_password(
            minor, name, password, time, &mut mechs, usage, &mut got, actual, life,
        );
        if status == COMPLETE {
            set(cred, of_behind(got));
        }
        status
    })
}

#[unsafe(no_mangle)]
pub unsafe extern "C" fn gssi_acquire_cred_impersonate_name(
    minor: *mut u32,
    from: *mut c_void,
    name: Name,
    time: u32,
    mechs: OidSet,
    usage: c_int,
    cred: *mut *mut c_void,
    actual: *mut OidSet,
    life: *mut u32,
) -> u32 {
    guard(minor, || unsafe {
        trace!("acquire_cred_impersonate_name {:?}", names::shown(name));
        let mut specials = Specials::of(mechs);
        let (mut mechs, mut got) = (specials.set(), null_mut());
        let status = gss_acquire_cred_impersonate_name(
            minor,
            behind(from),
            name,
            time,
            &mut mechs,
            usage,
            &mut got,
            actual,
            life,
        );
        if status == COMPLETE {
            set(cred, of_behind(got));
        }
        status
    })
}

#[unsafe(no_mangle)]
pub unsafe extern "C" fn gssi_release_cred(minor: *mut u32, cred: *mut *mut c_void) -> u32 {
    guard(minor, || unsafe {
        set(minor, 0);
        if cred.is_null() || (*cred).is_null() {
            return COMPLETE;
        }
        let mut it = Box::from_raw((*cred).cast::<Credential>());
        *cred = null_mut();
        if it.behind.is_null() {
            COMPLETE
        } else {
            gss_release_cred(minor, &mut it.behind)
        }
    })
}
