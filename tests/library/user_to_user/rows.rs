//! Octets in hex.

use std::alloc::Global;

/// Whether the octets are those.
pub fn is_hex(alloc: Global, octets: &[u8], digits: &str) -> bool {
    match hex::decode(alloc, digits) {
        Ok(wanted) => octets == wanted.as_slice(),
        Err(_) => false,
    }
}
