//! Initiators whose contexts go by rules of their own, over replies and answers that were recorded with KDCs and services of others.
//! Lines that were not recorded then are those of a second implementation. A line `rules` has the bits.

mod kdcs;
mod services;

use kdcs::{EARLY, OF_AN_AES_128_USER};
pub use kdcs::{OF_AES_128, TAGGED_26, TAGGED_26_AT_ONCE};
use services::ONE_WAY;
pub use services::{WITHOUT_A_SUBKEY, WITHOUT_A_SUBKEY_AS_SHOWN};

pub static SESSIONS: [&str; 8] = [
    OF_AES_128,
    TAGGED_26,
    TAGGED_26_AT_ONCE,
    OF_AN_AES_128_USER,
    EARLY,
    WITHOUT_A_SUBKEY,
    WITHOUT_A_SUBKEY_AS_SHOWN,
    ONE_WAY,
];
