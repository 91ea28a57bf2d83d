//! Calls about credentials, and calls that are passed on for those with a credential of MIT's mechanism.

use crate::abi::*;
use crate::behind::*;
use crate::buffers::set;
use crate::cache::Source;
use crate::credentials::{Credential, behind, credential, of_behind, one, stored};
use crate::guard::guard;
use crate::names;
use crate::oids::{self, KRB5, special};
use crate::status::NOT_OFFERED;
use crate::trace;
use std::ffi::{c_int, c_void};
use std::ptr::{null, null_mut};

/// Answers for an acceptor's credential, which has none of MIT's mechanism.
unsafe fn tell(
    minor: *mut u32,
    it: &Credential,
    name: *mut Name,
    life: *mut u32,
    usage: *mut c_int,
    mechs: *mut OidSet,
) -> u32 {
    // SAFETY: of the caller.
    unsafe {
        set(minor, 0);
        if !name.is_null() {
            *name = it
                .service
                .as_deref()
                .and_then(|it| names::of(it))
                .unwrap_or(null_mut());
        }
        set(life, INDEFINITE);
        set(usage, ACCEPT);
        one(minor, &KRB5, mechs)
    }
}

#[unsafe(no_mangle)]
pub unsafe extern "C" fn gssi_inquire_cred(
    minor: *mut u32,
    cred: *mut c_void,
    name: *mut Name,
    life: *mut u32,
    usage: *mut c_int,
    mechs: *mut OidSet,
) -> u32 {
    guard(minor, || unsafe {
        match credential(cred) {
            Some(it) if it.behind.is_null() => tell(minor, it, name, life, usage, mechs),
            _ => gss_inquire_cred(minor, behind(cred), name, life, usage, mechs),
        }
    })
}

#[unsafe(no_mangle)]
pub unsafe extern "C" fn gssi_inquire_cred_by_mech(
    minor: *mut u32,
    cred: *mut c_void,
    mech: Oid,
    name: *mut Name,
    ilife: *mut u32,
    alife: *mut u32,
    usage: *mut c_int,
) -> u32 {
    guard(minor, || unsafe {
        match credential(cred) {
            Some(it) if it.behind.is_null() => {
                set(ilife, 0);
                tell(minor, it, name, alife, usage, null_mut())
            }
            _ => gss_inquire_cred_by_mech(
                minor,
                behind(cred),
                &special(mech),
                name,
                ilife,
                alife,
                usage,
            ),
        }
    })
}

/// Returns true if a credential has one of MIT's mechanism, for the calls that are passed on.
unsafe fn has_behind(minor: *mut u32, cred: *mut c_void) -> bool {
    // SAFETY: of the caller.
    unsafe {
        let is_there = credential(cred).is_some_and(|it| !it.behind.is_null());
        if !is_there {
            set(minor, NOT_OFFERED);
        }
        is_there
    }
}

#[unsafe(no_mangle)]
pub unsafe extern "C" fn gssi_inquire_cred_by_oid(
    minor: *mut u32,
    cred: *mut c_void,
    what: Oid,
    out: *mut BufferSet,
) -> u32 {
    guard(minor, || unsafe {
        if has_behind(minor, cred) {
            gss_inquire_cred_by_oid(minor, behind(cred), what, out)
        } else {
            UNAVAILABLE
        }
    })
}

#[unsafe(no_mangle)]
pub unsafe extern "C" fn gssi_set_cred_option(
    minor: *mut u32,
    cred: *mut *mut c_void,
    what: Oid,
    value: Buffer,
) -> u32 {
    guard(minor, || unsafe {
        trace!("set_cred_option {}", oids::shown(what));
        match credential(if cred.is_null() { null_mut() } else { *cred }) {
            Some(it) if !it.behind.is_null() => {
                it.source = Source::Behind; // (an option is one of MIT's mechanism)
                gss_set_cred_option(minor, &mut it.behind, what, value)
            }
            _ => UNAVAILABLE,
        }
    })
}

#[unsafe(no_mangle)]
pub unsafe extern "C" fn gssi_store_cred(
    minor: *mut u32,
    cred: *mut c_void,
    usage: c_int,
    mech: Oid,
    overwrite: u32,
    default: u32,
    done: *mut OidSet,
    usage_done: *mut c_int,
) -> u32 {
    unsafe {
        gssi_store_cred_into(
            minor,
            cred,
            usage,
            mech,
            overwrite,
            default,
            null(),
            done,
            usage_done,
        )
    }
}

#[unsafe(no_mangle)]
pub unsafe extern "C" fn gssi_store_cred_into(
    minor: *mut u32,
    cred: *mut c_void,
    usage: c_int,
    mech: Oid,
    overwrite: u32,
    default: u32,
    store: CredStore,
    done: *mut OidSet,
    usage_done: *mut c_int,
) -> u32 {
    guard(minor, || unsafe {
        trace!("store_cred_into ccache={:?}", stored(store, b"ccache"));
        if !has_behind(minor, cred) {
            return UNAVAILABLE;
        }
        gss_store_cred_into(
            minor,
            behind(cred),
            usage,
            &special(mech),
            overwrite,
            default,
            store,
            done,
            usage_done,
        )
    })
}

#[unsafe(no_mangle)]
pub unsafe extern "C" fn gssi_export_cred(
    minor: *mut u32,
    cred: *mut c_void,
    token: Buffer,
) -> u32 {
    guard(minor, || unsafe {
        if has_behind(minor, cred) {
            gss_export_cred(minor, behind(cred), token)
        } else {
            UNAVAILABLE
        }
    })
}

#[unsafe(no_mangle)]
pub unsafe extern "C" fn gssi_import_cred_by_mech(
    minor: *mut u32,
    _mech: Oid,
    token: Buffer,
    cred: *mut *mut c_void,
) -> u32 {
    guard(minor, || unsafe {
        let mut got = null_mut();
        let status = gss_import_cred(minor, token, &mut got);
        if status == COMPLETE {
            set(cred, of_behind(got));
        }
        status
    })
}
