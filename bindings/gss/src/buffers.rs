//! Octets that come from the mechglue and go to it. A null pointer is no octets, and nothing is written through one.

use crate::abi::{Buffer, BufferDesc};
use std::ffi::c_void;
use std::ptr::null_mut;

unsafe extern "C" {
    fn malloc(size: usize) -> *mut c_void;
}

/// # Safety
/// The pointer and the length are those of octets that can be read for `'a`, or the pointer is null.
pub unsafe fn slice<'a>(at: *const u8, length: usize) -> &'a [u8] {
    if at.is_null() || length == 0 {
        return &[];
    }
    // SAFETY: of the caller.
    unsafe { std::slice::from_raw_parts(at, length) }
}

/// # Safety
/// The buffer is null or one of the mechglue's.
pub unsafe fn octets<'a>(buffer: Buffer) -> &'a [u8] {
    if buffer.is_null() {
        return &[];
    }
    // SAFETY: of the caller.
    unsafe { slice((*buffer).value.cast(), (*buffer).length) }
}

/// # Safety
/// As [`octets`].
pub unsafe fn text(buffer: Buffer) -> String {
    // SAFETY: of the caller.
    String::from_utf8_lossy(unsafe { octets(buffer) }).into_owned()
}

/// Puts octets into a buffer for the caller, which frees them by `free`. An octet 0 comes after them and is not counted, since programs
/// print the words of a status as text of C, and MIT's mechanism has it. Returns true if there was memory; otherwise the buffer is empty.
///
/// # Safety
/// The buffer is null or can be written.
pub unsafe fn put(buffer: Buffer, octets: &[u8]) -> bool {
    if buffer.is_null() {
        return true;
    }
    // SAFETY: of the caller, and a block of malloc has the length that was asked for.
    unsafe {
        buffer.write(BufferDesc::EMPTY);
        if octets.is_empty() {
            return true;
        }
        let at: *mut u8 = malloc(octets.len() + 1).cast();
        if at.is_null() {
            return false;
        }
        std::ptr::copy_nonoverlapping(octets.as_ptr(), at, octets.len());
        at.add(octets.len()).write(0);
        buffer.write(BufferDesc {
            length: octets.len(),
            value: at.cast(),
        });
    }
    true
}

/// Writes a value, unless the pointer is null.
///
/// # Safety
/// The pointer is null or can be written.
pub unsafe fn set<T>(to: *mut T, value: T) {
    if !to.is_null() {
        // SAFETY: of the caller.
        unsafe { to.write(value) }
    }
}

impl BufferDesc {
    pub const EMPTY: BufferDesc = BufferDesc {
        length: 0,
        value: null_mut(),
    };

    /// A buffer over octets, for a call that only reads.
    pub fn lent(octets: &[u8]) -> BufferDesc {
        BufferDesc {
            length: octets.len(),
            value: octets.as_ptr().cast_mut().cast(),
        }
    }
}

#[cfg(test)]
mod tests {
    use super::*;

    unsafe extern "C" {
        fn free(at: *mut c_void);
    }

    #[test]
    fn null_is_no_octets() {
        // SAFETY: null pointers alone.
        unsafe {
            assert_eq!(octets(null_mut()), b"");
            let mut none = BufferDesc::EMPTY;
            assert_eq!(octets(&mut none), b"");
            let mut odd = BufferDesc {
                length: 7,
                value: null_mut(),
            };
            assert_eq!(octets(&mut odd), b"");
            assert!(put(null_mut(), b"abc"));
            set(null_mut(), 7);
        }
    }

    #[test]
    fn what_is_put_is_the_callers() {
        let mut buffer = BufferDesc::EMPTY;
        // SAFETY: the buffer is ours.
        unsafe {
            assert!(put(&mut buffer, b"abc"));
            assert_eq!(octets(&mut buffer), b"abc");
            assert_eq!(slice(buffer.value.cast(), 4), b"abc\0");
            free(buffer.value);
            assert!(put(&mut buffer, b""));
            assert!(buffer.value.is_null() && buffer.length == 0);
        }
    }
}
