//! The mechanisms that are interposed, and their attributes.

use crate::abi::*;
use crate::behind::*;
use crate::buffers::{octets, put, set, text};
use crate::guard::guard;
use crate::oids::{self, CCACHE_NAME, FAMILY, REGISTER_IDENTITY, special};
use crate::{cache, config, keytab, krb5, status, trace};
use std::ptr::{null, null_mut};

/// Returns the mechanisms that are interposed: the mechglue asks this first.
#[unsafe(no_mangle)]
pub unsafe extern "C" fn gss_mech_interposer(mech: Oid) -> OidSet {
    let all = std::panic::catch_unwind(|| unsafe {
        oids::learn(mech);
        let (mut minor, mut all) = (0, null_mut());
        if gss_create_empty_oid_set(&mut minor, &mut all) != COMPLETE {
            return null_mut();
        }
        for it in FAMILY {
            if gss_add_oid_set_member(&mut minor, it, &mut all) != COMPLETE {
                gss_release_oid_set(&mut minor, &mut all);
                return null_mut();
            }
        }
        trace!("loaded");
        all
    });
    all.unwrap_or(null_mut())
}

/// The answer to a check before a service starts (`menolavuri-status --loaded`).
fn told() -> Result<String, String> {
    let settings = config::get()?;
    Ok(format!(
        "menolavuri-gss {} of menolavuri {}: settings {}, keytab {}, store {:?}",
        env!("CARGO_PKG_VERSION"),
        menolavuri::version(),
        config::path(),
        keytab::name(None, settings.keytab.as_deref()),
        settings.store
    ))
}

/// Only this interposer knows its own OID with a 1 after it.
unsafe fn is_loaded(minor: *mut u32, value: Buffer) -> u32 {
    let (status, words) = match told() {
        Ok(words) => (0, words),
        Err(words) => (status::SETTINGS, words),
    };
    // SAFETY: of the caller.
    unsafe {
        set(minor, status);
        if status == 0 && put(value, words.as_bytes()) {
            COMPLETE
        } else {
            FAILURE
        }
    }
}

#[unsafe(no_mangle)]
pub unsafe extern "C" fn gssi_mech_invoke(
    minor: *mut u32,
    mech: Oid,
    what: Oid,
    value: Buffer,
) -> u32 {
    guard(minor, || unsafe {
        trace!("mech_invoke {} {:?}", oids::shown(what), text(value));
        let asked = oids::octets(what);
        if oids::is_own(asked, b"\x01") {
            return is_loaded(minor, value);
        }
        if asked == REGISTER_IDENTITY {
            let name = octets(value)
                .split(|it| *it == 0)
                .next()
                .unwrap_or_default();
            keytab::register(&String::from_utf8_lossy(name));
        }
        if asked == CCACHE_NAME {
            cache::rename();
        }
        gssspi_mech_invoke(minor, &special(mech), what, value)
    })
}

#[unsafe(no_mangle)]
pub unsafe extern "C" fn gssi_indicate_mechs(minor: *mut u32, out: *mut OidSet) -> u32 {
    guard(minor, || unsafe { gss_indicate_mechs(minor, out) })
}

#[unsafe(no_mangle)]
pub unsafe extern "C" fn gssi_inquire_names_for_mech(
    minor: *mut u32,
    mech: Oid,
    types: *mut OidSet,
) -> u32 {
    guard(minor, || unsafe {
        gss_inquire_names_for_mech(minor, &special(mech), types)
    })
}

#[unsafe(no_mangle)]
pub unsafe extern "C" fn gssi_inquire_attrs_for_mech(
    minor: *mut u32,
    mech: Oid,
    attributes: *mut OidSet,
    known: *mut OidSet,
) -> u32 {
    guard(minor, || unsafe {
        gss_inquire_attrs_for_mech(minor, &special(mech), attributes, known)
    })
}

#[unsafe(no_mangle)]
pub unsafe extern "C" fn gssi_inquire_saslname_for_mech(
    minor: *mut u32,
    mech: Oid,
    sasl: Buffer,
    name: Buffer,
    words: Buffer,
) -> u32 {
    guard(minor, || unsafe {
        gss_inquire_saslname_for_mech(minor, &special(mech), sasl, name, words)
    })
}

#[unsafe(no_mangle)]
pub unsafe extern "C" fn gssi_inquire_mech_for_saslname(
    minor: *mut u32,
    sasl: Buffer,
    mech: *mut Oid,
) -> u32 {
    guard(minor, || unsafe {
        gss_inquire_mech_for_saslname(minor, sasl, mech)
    })
}

/// A minor status of ours is given in words, and that of a KRB-ERROR in those of MIT krb5. Others are those of MIT's mechanism.
#[unsafe(no_mangle)]
pub unsafe extern "C" fn gssi_display_status(
    minor: *mut u32,
    value: u32,
    of: i32,
    _mech: Oid,
    more: *mut u32,
    out: Buffer,
) -> u32 {
    guard(minor, || unsafe {
        let words = match of {
            MECH_CODE if status::is_ours(value) => {
                format!("refused by Menolavuri: {}", status::words(value))
            }
            MECH_CODE if krb5::code_of(value).is_some() => krb5::words(value),
            _ => return gss_display_status(minor, value, of, null(), more, out),
        };
        set(more, 0);
        set(minor, 0);
        if put(out, words.as_bytes()) {
            COMPLETE
        } else {
            FAILURE
        }
    })
}
