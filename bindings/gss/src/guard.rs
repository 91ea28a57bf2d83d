//! No panic crosses into C.

use crate::abi::FAILURE;
use crate::buffers::set;
use crate::status::FAULT;
use std::panic::{AssertUnwindSafe, catch_unwind};

/// The status of a call. A panic is a failure with the minor status of a fault, and its message goes to standard error. Every lock is
/// taken again after a panic: no state is left half changed under one.
pub fn guard(minor: *mut u32, body: impl FnOnce() -> u32) -> u32 {
    catch_unwind(AssertUnwindSafe(body)).unwrap_or_else(|_| {
        // SAFETY: the mechglue's, or null.
        unsafe { set(minor, FAULT) };
        FAILURE
    })
}

#[cfg(test)]
mod tests {
    use super::*;

    #[test]
    fn a_panic_is_a_failure() {
        let mut minor = 0;
        assert_eq!(guard(&mut minor, || panic!("a fault on purpose")), FAILURE);
        assert_eq!(minor, FAULT);
        assert_eq!(guard(std::ptr::null_mut(), || panic!("another")), FAILURE);
        assert_eq!(guard(&mut minor, || 7), 7);
    }
}
