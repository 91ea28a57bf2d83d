//! Names: all are names of MIT's mechanism.

use crate::abi::*;
use crate::behind::*;
use crate::buffers::text;
use crate::guard::guard;
use crate::oids::{self, KRB5, NT_PRINCIPAL, special};
use crate::trace;
use std::ffi::c_int;
use std::ptr::null_mut;

/// A name as text, for a log and to compare it with a service.
pub unsafe fn shown(name: Name) -> Option<String> {
    if name.is_null() {
        return None;
    }
    let (mut minor, mut out) = (0, BufferDesc::EMPTY);
    // SAFETY: a name of the mechglue's.
    unsafe {
        if gss_display_name(&mut minor, name, &mut out, null_mut()) != COMPLETE {
            return None;
        }
        let it = text(&mut out);
        gss_release_buffer(&mut minor, &mut out);
        Some(it)
    }
}

/// The name of a principal in the form of RFC 1964, section 2.1.1, which has no octet 0.
pub unsafe fn of(principal: &str) -> Option<Name> {
    let (mut minor, mut plain, mut canonical) = (0, null_mut(), null_mut());
    let mut text = BufferDesc::lent(principal.as_bytes());
    // SAFETY: the buffer is read by the call alone.
    unsafe {
        if gss_import_name(&mut minor, &mut text, &NT_PRINCIPAL, &mut plain) != COMPLETE {
            return None;
        }
        let status = gss_canonicalize_name(&mut minor, plain, &special(&KRB5), &mut canonical);
        gss_release_name(&mut minor, &mut plain);
        (status == COMPLETE).then_some(canonical)
    }
}

/// The name of this machine.
pub fn machine() -> String {
    let name = std::fs::read_to_string("/proc/sys/kernel/hostname").unwrap_or_default();
    match name.trim() {
        "" => "localhost".into(),
        name => name.into(),
    }
}

/// Gives a name back that nobody asked for.
pub unsafe fn release(mut name: Name) {
    let mut minor = 0;
    // SAFETY: of the caller.
    unsafe { gss_release_name(&mut minor, &mut name) };
}

#[unsafe(no_mangle)]
pub unsafe extern "C" fn gssi_import_name_by_mech(
    minor: *mut u32,
    mech: Oid,
    input: Buffer,
    of: Oid,
    out: *mut Name,
) -> u32 {
    guard(minor, || unsafe {
        let (mut plain, mut scratch) = (null_mut(), 0);
        let mut status = gss_import_name(minor, input, of, &mut plain);
        if status == COMPLETE {
            status = gss_canonicalize_name(minor, plain, &special(mech), out);
            gss_release_name(&mut scratch, &mut plain);
        }
        trace!(
            "import_name {:?} of {} -> {status:#x}",
            text(input),
            oids::shown(of)
        );
        status
    })
}

#[unsafe(no_mangle)]
pub unsafe extern "C" fn gssi_import_name(
    minor: *mut u32,
    input: Buffer,
    of: Oid,
    out: *mut Name,
) -> u32 {
    unsafe { gssi_import_name_by_mech(minor, &KRB5, input, of, out) }
}

#[unsafe(no_mangle)]
pub unsafe extern "C" fn gssi_release_name(minor: *mut u32, name: *mut Name) -> u32 {
    guard(minor, || unsafe { gss_release_name(minor, name) })
}

#[unsafe(no_mangle)]
pub unsafe extern "C" fn gssi_duplicate_name(minor: *mut u32, name: Name, out: *mut Name) -> u32 {
    guard(minor, || unsafe { gss_duplicate_name(minor, name, out) })
}

#[unsafe(no_mangle)]
pub unsafe extern "C" fn gssi_compare_name(
    minor: *mut u32,
    one: Name,
    other: Name,
    equal: *mut c_int,
) -> u32 {
    guard(minor, || unsafe {
        gss_compare_name(minor, one, other, equal)
    })
}

#[unsafe(no_mangle)]
pub unsafe extern "C" fn gssi_display_name(
    minor: *mut u32,
    name: Name,
    out: Buffer,
    of: *mut Oid,
) -> u32 {
    guard(minor, || unsafe {
        let status = gss_display_name(minor, name, out, of);
        trace!("display_name {:?} -> {status:#x}", text(out));
        status
    })
}

#[unsafe(no_mangle)]
pub unsafe extern "C" fn gssi_display_name_ext(
    minor: *mut u32,
    name: Name,
    of: Oid,
    out: Buffer,
) -> u32 {
    guard(minor, || unsafe {
        gss_display_name_ext(minor, name, of, out)
    })
}

#[unsafe(no_mangle)]
pub unsafe extern "C" fn gssi_export_name(minor: *mut u32, name: Name, out: Buffer) -> u32 {
    guard(minor, || unsafe { gss_export_name(minor, name, out) })
}

#[unsafe(no_mangle)]
pub unsafe extern "C" fn gssi_export_name_composite(
    minor: *mut u32,
    name: Name,
    out: Buffer,
) -> u32 {
    guard(minor, || unsafe {
        gss_export_name_composite(minor, name, out)
    })
}

#[unsafe(no_mangle)]
pub unsafe extern "C" fn gssi_inquire_name(
    minor: *mut u32,
    name: Name,
    is_mn: *mut c_int,
    mech: *mut Oid,
    attributes: *mut BufferSet,
) -> u32 {
    guard(minor, || unsafe {
        gss_inquire_name(minor, name, is_mn, mech, attributes)
    })
}

#[unsafe(no_mangle)]
pub unsafe extern "C" fn gssi_get_name_attribute(
    minor: *mut u32,
    name: Name,
    attribute: Buffer,
    authenticated: *mut c_int,
    complete: *mut c_int,
    value: Buffer,
    shown: Buffer,
    more: *mut c_int,
) -> u32 {
    guard(minor, || unsafe {
        gss_get_name_attribute(
            minor,
            name,
            attribute,
            authenticated,
            complete,
            value,
            shown,
            more,
        )
    })
}

#[unsafe(no_mangle)]
pub unsafe extern "C" fn gssi_set_name_attribute(
    minor: *mut u32,
    name: Name,
    complete: c_int,
    attribute: Buffer,
    value: Buffer,
) -> u32 {
    guard(minor, || unsafe {
        gss_set_name_attribute(minor, name, complete, attribute, value)
    })
}

#[unsafe(no_mangle)]
pub unsafe extern "C" fn gssi_delete_name_attribute(
    minor: *mut u32,
    name: Name,
    attribute: Buffer,
) -> u32 {
    guard(minor, || unsafe {
        gss_delete_name_attribute(minor, name, attribute)
    })
}

#[unsafe(no_mangle)]
pub unsafe extern "C" fn gssi_localname(
    minor: *mut u32,
    name: Name,
    mech: Oid,
    out: Buffer,
) -> u32 {
    guard(minor, || unsafe {
        let status = gss_localname(minor, name, &special(mech), out);
        trace!("localname -> {status:#x} {:?}", text(out));
        status
    })
}

#[unsafe(no_mangle)]
pub unsafe extern "C" fn gssi_authorize_localname(
    minor: *mut u32,
    name: Name,
    user: Buffer,
    of: Oid,
) -> u32 {
    guard(minor, || unsafe {
        let (mut it, mut scratch) = (null_mut(), 0);
        let mut status = gss_import_name(minor, user, of, &mut it);
        if status == COMPLETE {
            status = gss_authorize_localname(minor, name, it);
            gss_release_name(&mut scratch, &mut it);
        }
        trace!("authorize_localname {:?} -> {status:#x}", text(user));
        status
    })
}
