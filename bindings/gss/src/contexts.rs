//! Contexts: an acceptor's is the library's session. An initiator's is that too, or MIT's mechanism has it.

use crate::abi::*;
use crate::behind::*;
use crate::buffers::{put, set};
use crate::guard::guard;
use crate::initiate::Begun;
use crate::names;
use crate::oids::{self, KEY_TYPE, KRB5, SASL_SSF, SESSION_KEY, TICKET_FLAGS};
use crate::trace;
use menolavuri::Session;
use std::ffi::{c_int, c_void};
use std::ptr::null_mut;
use std::sync::{Mutex, MutexGuard, PoisonError};
use std::time::SystemTime;

pub enum Context {
    /// An initiator's of MIT's mechanism.
    Behind(Ctx),
    /// The library's initiator, which awaits the service's token.
    Begun(Box<Mutex<Option<Begun>>>),
    Proved(Box<Mutex<Proved>>),
}

pub struct Proved {
    pub session: Session,
    pub client: String,
    pub service: String,
    pub flags: u32,
    /// Until when the ticket is valid, if that is known.
    pub ends: Option<SystemTime>,
    /// True if it is an initiator's.
    pub is_local: bool,
}

pub unsafe fn context<'a>(ctx: *mut c_void) -> Option<&'a mut Context> {
    // SAFETY: a context of the mechglue's is one that we made.
    unsafe { ctx.cast::<Context>().as_mut() }
}

pub fn made(context: Context) -> *mut c_void {
    Box::into_raw(Box::new(context)).cast()
}

pub fn lock<T>(it: &Mutex<T>) -> MutexGuard<'_, T> {
    it.lock().unwrap_or_else(PoisonError::into_inner)
}

/// A call on a context: `$behind` if MIT's mechanism has it, and `$ours` if it is the library's session. A context that is not established
/// has no call.
#[macro_export]
macro_rules! on {
    ($ctx:expr, $inner:ident => $behind:expr, $it:ident => $ours:expr) => {
        match $crate::contexts::context($ctx) {
            None | Some($crate::contexts::Context::Begun(_)) => $crate::abi::NO_CONTEXT,
            Some($crate::contexts::Context::Behind($inner)) => $behind,
            Some($crate::contexts::Context::Proved(it)) => {
                #[allow(unused_mut)]
                let mut $it = $crate::contexts::lock(it);
                $ours
            }
        }
    };
    ($ctx:expr, $inner:ident => $behind:expr) => {
        match $crate::contexts::context($ctx) {
            None | Some($crate::contexts::Context::Begun(_)) => $crate::abi::NO_CONTEXT,
            Some($crate::contexts::Context::Behind($inner)) => $behind,
            Some($crate::contexts::Context::Proved(_)) => $crate::abi::UNAVAILABLE,
        }
    };
}

/// For how many seconds the ticket is still valid. A time that is not known has no end.
pub fn left(it: &Proved) -> u32 {
    let Some(ends) = it.ends else {
        return INDEFINITE;
    };
    let left = ends.duration_since(SystemTime::now()).ok();
    left.map_or(0, |it| u32::try_from(it.as_secs()).unwrap_or(INDEFINITE))
}

#[unsafe(no_mangle)]
pub unsafe extern "C" fn gssi_delete_sec_context(
    minor: *mut u32,
    ctx: *mut *mut c_void,
    token: Buffer,
) -> u32 {
    guard(minor, || unsafe {
        set(minor, 0);
        put(token, &[]);
        if ctx.is_null() || (*ctx).is_null() {
            return COMPLETE;
        }
        let it = Box::from_raw((*ctx).cast::<Context>());
        *ctx = null_mut();
        match *it {
            Context::Behind(mut inner) if !inner.is_null() => {
                gss_delete_sec_context(minor, &mut inner, token)
            }
            _ => COMPLETE,
        }
    })
}

#[unsafe(no_mangle)]
pub unsafe extern "C" fn gssi_process_context_token(
    minor: *mut u32,
    ctx: *mut c_void,
    token: Buffer,
) -> u32 {
    guard(minor, || unsafe {
        on!(ctx, inner => gss_process_context_token(minor, *inner, token))
    })
}

#[unsafe(no_mangle)]
pub unsafe extern "C" fn gssi_context_time(
    minor: *mut u32,
    ctx: *mut c_void,
    life: *mut u32,
) -> u32 {
    guard(minor, || unsafe {
        on!(ctx, inner => gss_context_time(minor, *inner, life), it => {
            let left = left(&it);
            set(minor, 0);
            set(life, left);
            if left == 0 { CONTEXT_EXPIRED } else { COMPLETE }
        })
    })
}

unsafe fn inquire(
    it: &Proved,
    source: *mut Name,
    target: *mut Name,
    life: *mut u32,
    mech: *mut Oid,
    flags: *mut u32,
    local: *mut c_int,
    open: *mut c_int,
) -> u32 {
    // SAFETY: of the caller.
    unsafe {
        if !source.is_null() {
            *source = names::of(&it.client).unwrap_or(null_mut());
        }
        if !target.is_null() {
            *target = names::of(&it.service).unwrap_or(null_mut());
        }
        set(life, left(it));
        set(mech, &raw const KRB5);
        set(flags, it.flags);
        set(local, c_int::from(it.is_local));
        set(open, 1);
    }
    COMPLETE
}

#[unsafe(no_mangle)]
pub unsafe extern "C" fn gssi_inquire_context(
    minor: *mut u32,
    ctx: *mut c_void,
    source: *mut Name,
    target: *mut Name,
    life: *mut u32,
    mech: *mut Oid,
    flags: *mut u32,
    local: *mut c_int,
    open: *mut c_int,
) -> u32 {
    guard(minor, || unsafe {
        on!(ctx, inner => gss_inquire_context(minor, *inner, source, target, life, mech, flags, local, open), it => {
            set(minor, 0);
            inquire(&it, source, target, life, mech, flags, local, open)
        })
    })
}

/// The octets, one or two of them, by which a session answers an OID.
fn told(it: &mut Proved, what: &[u8]) -> Option<Vec<Vec<u8>>> {
    match what {
        TICKET_FLAGS => Some(vec![it.session.ticket_flags()?.to_ne_bytes().to_vec()]),
        SASL_SSF => Some(vec![
            (it.session.key().ok()?.len() as u32 * 8)
                .to_be_bytes()
                .to_vec(),
        ]),
        SESSION_KEY => {
            let key = it.session.key().ok()?;
            let etype = if key.len() == 32 { 18 } else { 17 };
            Some(vec![key, [KEY_TYPE, &[etype]].concat()])
        }
        _ => None,
    }
}

#[unsafe(no_mangle)]
pub unsafe extern "C" fn gssi_inquire_sec_context_by_oid(
    minor: *mut u32,
    ctx: *mut c_void,
    what: Oid,
    out: *mut BufferSet,
) -> u32 {
    guard(minor, || unsafe {
        trace!("inquire_sec_context_by_oid {}", oids::shown(what));
        on!(ctx, inner => gss_inquire_sec_context_by_oid(minor, *inner, what, out), it => {
            let Some(all) = told(&mut it, oids::octets(what)) else { return UNAVAILABLE };
            set(minor, 0);
            let add = |octets: &Vec<u8>| gss_add_buffer_set_member(minor, &mut BufferDesc::lent(octets), out);
            all.iter().map(add).find(|it| *it != COMPLETE).unwrap_or(COMPLETE)
        })
    })
}

#[unsafe(no_mangle)]
pub unsafe extern "C" fn gssi_set_sec_context_option(
    minor: *mut u32,
    ctx: *mut *mut c_void,
    what: Oid,
    value: Buffer,
) -> u32 {
    guard(minor, || unsafe {
        trace!("set_sec_context_option {}", oids::shown(what));
        if ctx.is_null() || (*ctx).is_null() {
            return UNAVAILABLE;
        }
        on!(*ctx, inner => gss_set_sec_context_option(minor, inner, what, value))
    })
}

/// No server of docs/GSSAPI.md exports an acceptor's context.
#[unsafe(no_mangle)]
pub unsafe extern "C" fn gssi_export_sec_context(
    minor: *mut u32,
    ctx: *mut *mut c_void,
    token: Buffer,
) -> u32 {
    guard(minor, || unsafe {
        let status = on!(*ctx, inner => gss_export_sec_context(minor, inner, token));
        if status == COMPLETE {
            drop(Box::from_raw((*ctx).cast::<Context>()));
            *ctx = null_mut();
        }
        status
    })
}

#[unsafe(no_mangle)]
pub unsafe extern "C" fn gssi_import_sec_context_by_mech(
    minor: *mut u32,
    _mech: Oid,
    _token: Buffer,
    _ctx: *mut *mut c_void,
) -> u32 {
    guard(minor, || UNAVAILABLE)
}
