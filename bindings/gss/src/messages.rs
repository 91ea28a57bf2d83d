//! Messages (RFC 4121, section 4.2). A message that comes again is refused, and not returned with a supplementary bit.

use crate::abi::*;
use crate::behind::*;
use crate::buffers::{octets, put, set};
use crate::guard::guard;
use crate::on;
use crate::status::{NO_MEMORY, of_message, words};
use crate::{say, trace};
use menolavuri::Error;
use std::ffi::{c_int, c_void};

/// The number of octets that an encrypted message has more than its text, and a message in the clear.
const SEALED: u32 = 60;
const IN_CLEAR: u32 = 28;

/// Copies octets for the caller.
unsafe fn give(minor: *mut u32, to: Buffer, octets: &[u8]) -> u32 {
    // SAFETY: of the caller.
    unsafe {
        let is_done = put(to, octets);
        set(minor, if is_done { 0 } else { NO_MEMORY });
        if is_done { COMPLETE } else { FAILURE }
    }
}

unsafe fn failed(minor: *mut u32, call: &str, error: &Error, altered: u32) -> u32 {
    let (major, number) = of_message(error, altered);
    say!("{call} refused: {}", words(number));
    // SAFETY: of the caller.
    unsafe { set(minor, number) };
    major
}

#[unsafe(no_mangle)]
pub unsafe extern "C" fn gssi_get_mic(
    minor: *mut u32,
    ctx: *mut c_void,
    qop: u32,
    message: Buffer,
    token: Buffer,
) -> u32 {
    guard(minor, || unsafe {
        on!(ctx, inner => gss_get_mic(minor, *inner, qop, message, token), it => {
            trace!("get_mic {} octets", octets(message).len());
            match it.session.mic(octets(message)) {
                _ if qop != 0 => BAD_QOP,
                Ok(mic) => give(minor, token, &mic),
                Err(error) => failed(minor, "get_mic", &error, FAILURE),
            }
        })
    })
}

#[unsafe(no_mangle)]
pub unsafe extern "C" fn gssi_verify_mic(
    minor: *mut u32,
    ctx: *mut c_void,
    message: Buffer,
    token: Buffer,
    qop: *mut u32,
) -> u32 {
    guard(minor, || unsafe {
        on!(ctx, inner => gss_verify_mic(minor, *inner, message, token, qop), it => {
            set(qop, 0);
            set(minor, 0);
            trace!("verify_mic {} octets", octets(message).len());
            match it.session.verify(octets(token), octets(message)) {
                Ok(()) => COMPLETE,
                Err(error) => failed(minor, "verify_mic", &error, BAD_MIC),
            }
        })
    })
}

#[unsafe(no_mangle)]
pub unsafe extern "C" fn gssi_wrap(
    minor: *mut u32,
    ctx: *mut c_void,
    conf: c_int,
    qop: u32,
    input: Buffer,
    state: *mut c_int,
    output: Buffer,
) -> u32 {
    guard(minor, || unsafe {
        on!(ctx, inner => gss_wrap(minor, *inner, conf, qop, input, state, output), it => {
            if qop != 0 {
                return BAD_QOP;
            }
            trace!("wrap {} octets, sealed={}", octets(input).len(), conf != 0);
            let text = octets(input);
            let made = if conf != 0 { it.session.wrap(text) } else { it.session.wrap_in_clear(text) };
            match made {
                Ok(message) => {
                    set(state, c_int::from(conf != 0));
                    give(minor, output, &message)
                }
                Err(error) => failed(minor, "wrap", &error, FAILURE),
            }
        })
    })
}

#[unsafe(no_mangle)]
pub unsafe extern "C" fn gssi_unwrap(
    minor: *mut u32,
    ctx: *mut c_void,
    input: Buffer,
    output: Buffer,
    state: *mut c_int,
    qop: *mut u32,
) -> u32 {
    guard(minor, || unsafe {
        on!(ctx, inner => gss_unwrap(minor, *inner, input, output, state, qop), it => {
            set(qop, 0);
            match it.session.unwrap(octets(input)) {
                Ok(opened) => {
                    trace!("unwrap {} octets, sealed={}", opened.text.len(), opened.sealed);
                    set(state, c_int::from(opened.sealed));
                    give(minor, output, &opened.text)
                }
                Err(error) => failed(minor, "unwrap", &error, BAD_MIC),
            }
        })
    })
}

#[unsafe(no_mangle)]
pub unsafe extern "C" fn gssi_wrap_size_limit(
    minor: *mut u32,
    ctx: *mut c_void,
    conf: c_int,
    qop: u32,
    size: u32,
    most: *mut u32,
) -> u32 {
    guard(minor, || unsafe {
        on!(ctx, inner => gss_wrap_size_limit(minor, *inner, conf, qop, size, most), _it => {
            if qop != 0 {
                return BAD_QOP;
            }
            set(minor, 0);
            set(most, size.saturating_sub(if conf != 0 { SEALED } else { IN_CLEAR }));
            COMPLETE
        })
    })
}

#[unsafe(no_mangle)]
pub unsafe extern "C" fn gssi_wrap_iov(
    minor: *mut u32,
    ctx: *mut c_void,
    conf: c_int,
    qop: u32,
    state: *mut c_int,
    iov: Iov,
    count: c_int,
) -> u32 {
    guard(minor, || unsafe {
        on!(ctx, inner => gss_wrap_iov(minor, *inner, conf, qop, state, iov, count))
    })
}

#[unsafe(no_mangle)]
pub unsafe extern "C" fn gssi_unwrap_iov(
    minor: *mut u32,
    ctx: *mut c_void,
    state: *mut c_int,
    qop: *mut u32,
    iov: Iov,
    count: c_int,
) -> u32 {
    guard(minor, || unsafe {
        on!(ctx, inner => gss_unwrap_iov(minor, *inner, state, qop, iov, count))
    })
}

#[unsafe(no_mangle)]
pub unsafe extern "C" fn gssi_wrap_iov_length(
    minor: *mut u32,
    ctx: *mut c_void,
    conf: c_int,
    qop: u32,
    state: *mut c_int,
    iov: Iov,
    count: c_int,
) -> u32 {
    guard(minor, || unsafe {
        on!(ctx, inner => gss_wrap_iov_length(minor, *inner, conf, qop, state, iov, count))
    })
}

#[unsafe(no_mangle)]
pub unsafe extern "C" fn gssi_get_mic_iov(
    minor: *mut u32,
    ctx: *mut c_void,
    qop: u32,
    iov: Iov,
    count: c_int,
) -> u32 {
    guard(minor, || unsafe {
        on!(ctx, inner => gss_get_mic_iov(minor, *inner, qop, iov, count))
    })
}

#[unsafe(no_mangle)]
pub unsafe extern "C" fn gssi_get_mic_iov_length(
    minor: *mut u32,
    ctx: *mut c_void,
    qop: u32,
    iov: Iov,
    count: c_int,
) -> u32 {
    guard(minor, || unsafe {
        on!(ctx, inner => gss_get_mic_iov_length(minor, *inner, qop, iov, count))
    })
}

#[unsafe(no_mangle)]
pub unsafe extern "C" fn gssi_verify_mic_iov(
    minor: *mut u32,
    ctx: *mut c_void,
    qop: *mut u32,
    iov: Iov,
    count: c_int,
) -> u32 {
    guard(minor, || unsafe {
        on!(ctx, inner => gss_verify_mic_iov(minor, *inner, qop, iov, count))
    })
}

#[unsafe(no_mangle)]
pub unsafe extern "C" fn gssi_pseudo_random(
    minor: *mut u32,
    ctx: *mut c_void,
    key: c_int,
    input: Buffer,
    length: isize,
    output: Buffer,
) -> u32 {
    guard(minor, || unsafe {
        on!(ctx, inner => gss_pseudo_random(minor, *inner, key, input, length, output))
    })
}
