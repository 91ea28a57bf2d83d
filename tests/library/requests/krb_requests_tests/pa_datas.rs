//! Pre-authentication, and its octets.

use sspi_core::Cause;

/// A wish for a PAC alone.
pub const PLAIN: &str = "30133011a10402020080a20904073005a0030101ff";

/// Alice's time, and a wish for a PAC.
pub const TIMED: &str =
    "3062304da103020102a24604443042a003020112a23b0439ea4e7829e23710c65c8728307afb1e89055b39d168e283eb4115eda44f32367026d1a928\
     177cab2f9d706155c856f1525138e115d183d7fb693011a10402020080a20904073005a0030101ff";

/// The time under a key of 32 zero octets, and a wish for a PAC.
pub const TIMED_BY_ZEROS: &str =
    "3062304da103020102a24604443042a003020112a23b0439b34f44e79ba8a278c0d9f585e387b448678483bfcf573fc10b2c9d383852358a0c671571\
     5ffb1271dcc97d51562ac1dfc71d9e9c4ffc8113333011a10402020080a20904073005a0030101ff";

/// A key in hex, whether it is one of AES-128, whether the time is sealed, and what that leads to.
pub type Keyed = (&'static str, bool, bool, Result<&'static str, Cause>);

pub static KEYED: [Keyed; 6] = [
    (
        "0000000000000000000000000000000000000000000000000000000000000000",
        false,
        false,
        Ok(PLAIN),
    ),
    (
        "0000000000000000000000000000000000000000000000000000000000000000",
        false,
        true,
        Ok(TIMED_BY_ZEROS),
    ),
    (
        "00000000000000000000000000000000",
        false,
        true,
        Err(Cause::KeyLength),
    ),
    (
        "0000000000000000000000000000000000000000000000000000000000000000",
        true,
        true,
        Err(Cause::KeyLength),
    ),
    ("", false, true, Err(Cause::KeyLength)),
    ("00000000000000000000000000000000", false, false, Ok(PLAIN)),
];
