//! Moments, random bytes, and buffers that calls fill.

use crate::Error;
use crate::error::done;
use menolavuri_sys::{self as sys, mk_moment, mk_reply};
use std::io;
use std::time::{SystemTime, UNIX_EPOCH};

/// Returns the microseconds since 1970-01-01T00:00:00Z.
pub fn microseconds(time: SystemTime) -> Result<u64, Error> {
    let since = time
        .duration_since(UNIX_EPOCH)
        .map_err(|_| Error::Argument)?;
    u64::try_from(since.as_micros()).map_err(|_| Error::Argument)
}

pub fn moment_of(time: SystemTime, random: [u8; 64]) -> Result<mk_moment, Error> {
    let moment = microseconds(time)?;
    Ok(mk_moment { moment, random })
}

/// Returns random bytes of the system.
pub fn random<const N: usize>() -> Result<[u8; N], Error> {
    let mut octets = [0; N];
    // SAFETY: the pointer and the length are those of one array.
    match unsafe { sys::mk_random(octets.as_mut_ptr(), octets.len()) } {
        0 => Ok(octets),
        errno => Err(Error::Random(io::Error::from_raw_os_error(errno))),
    }
}

/// Returns the bytes that a call writes into a buffer, which grows if the call needs more. Memory for it that there is not is an error.
pub fn filled(
    room: usize,
    mut call: impl FnMut(*mut u8, usize) -> mk_reply,
) -> Result<Vec<u8>, Error> {
    let mut out = Vec::new();
    reserve(&mut out, room.max(1))?;
    loop {
        let reply = call(out.as_mut_ptr(), out.capacity());
        if reply.status == sys::MK_ROOM && out.capacity() < reply.length {
            reserve(&mut out, reply.length)?;
            continue;
        }
        let length = done(reply)?;
        // SAFETY: a call that is done has written the bytes of its length into the buffer.
        unsafe { out.set_len(length.min(out.capacity())) };
        return Ok(out);
    }
}

fn reserve(out: &mut Vec<u8>, length: usize) -> Result<(), Error> {
    out.try_reserve_exact(length).map_err(|_| Error::Memory)
}

/// Returns the name that a call writes into a buffer.
pub fn named(call: impl FnMut(*mut u8, usize) -> mk_reply) -> Result<String, Error> {
    String::from_utf8(filled(64, call)?).map_err(|_| Error::NotUtf8)
}

#[cfg(test)]
mod tests {
    use super::*;

    fn reply(status: u32, length: usize) -> mk_reply {
        mk_reply {
            status,
            length,
            ..mk_reply::default()
        }
    }

    /// A call that writes these bytes.
    fn writes(text: &[u8]) -> impl FnMut(*mut u8, usize) -> mk_reply + '_ {
        |out, room| {
            if room < text.len() {
                return reply(sys::MK_ROOM, text.len());
            }
            // SAFETY: the buffer has that many bytes.
            unsafe { out.copy_from(text.as_ptr(), text.len()) };
            reply(sys::MK_OK, text.len())
        }
    }

    #[test]
    fn a_buffer_grows_once() {
        for length in [0, 1, 63, 64, 65, 1000] {
            let text = vec![b'a'; length];
            assert_eq!(filled(64, writes(&text)).unwrap(), text);
        }
        let error = filled(8, |_, _| reply(sys::MK_ROOM, 1)).unwrap_err();
        assert!(matches!(error, Error::Unknown(sys::MK_ROOM)));
    }

    #[test]
    fn memory_that_there_is_not_is_an_error() {
        let error = filled(usize::MAX, |_, _| reply(sys::MK_OK, 0)).unwrap_err();
        assert!(matches!(error, Error::Memory));
        let error = filled(1, |_, _| reply(sys::MK_ROOM, usize::MAX)).unwrap_err();
        assert!(matches!(error, Error::Memory));
    }

    #[test]
    fn a_name_that_is_not_utf_8_is_refused() {
        assert_eq!(
            named(writes("al\u{e4}@X".as_bytes())).unwrap(),
            "al\u{e4}@X"
        );
        for octets in [&b"\xff@X"[..], b"al\xe4@X", b"\xc3"] {
            assert!(matches!(named(writes(octets)), Err(Error::NotUtf8)));
        }
    }
}
