//! Options that the flags of a request ask for, by the bits of RFC 4120 (5.5.1), RFC 2744 (appendix A) and RFC 4121 (4.1.1.1).

use bitflags::Flags;
use krb_context::{ApOptions, GssFlags, KdcOptions};
use sspi_core::ClientRequestFlags;

/// The bits of a request's flags, of the options of an AP-REQ, and of a context's services.
static ROWS: [(u32, u32, u32); 12] = [
    (0x0, 0x0, 0x0),
    // To delegate, to answer, to tell replays, to tell the order, to seal.
    (0x1, 0x0, 0x1),
    (0x2, 0x20000000, 0x2),
    (0x4, 0x0, 0x4),
    (0x8, 0x0, 0x8),
    (0x10, 0x0, 0x10),
    // User-to-user is an option of the AP-REQ alone.
    (0x20, 0x40000000, 0x0),
    (0x22, 0x60000000, 0x2),
    // DCE style.
    (0x200, 0x0, 0x1000),
    // Integrity, and none.
    (0x10000, 0x0, 0x20),
    (0x810000, 0x0, 0x0),
    // All, and bits that are no flags.
    (0xffffffff, 0x60000000, 0x101f),
];

fn rows() -> &'static [(u32, u32, u32)] {
    &ROWS
}

#[test]
fn flags_ask_for_their_options(rt: HostRuntime) {
    for (flags, options, services) in rows() {
        let asked = ClientRequestFlags::from_bits_retain(*flags);
        assert_eq!(rt;
            ApOptions::from_client_flags(asked).bits(),
            *options,
            "{flags}"
        );
        assert_eq!(rt;
            GssFlags::from_client_flags(asked).bits(),
            *services,
            "{flags}"
        );
    }
}

/// Bits count from the first octet's highest: forwardable is bit 1, canonicalize bit 15, renewable-ok bit 27 (RFC 4120, 5.4.1;
/// RFC 6806, 4).
#[test]
fn options_have_their_bits(rt: HostRuntime) {
    assert_eq!(rt; KdcOptions::FORWARDABLE.bits(), 0x80000000 >> 1);
    assert_eq!(rt; KdcOptions::CANONICALIZE.bits(), 0x80000000 >> 15);
    assert_eq!(rt; KdcOptions::RENEWABLE_OK.bits(), 0x80000000 >> 27);
    assert_eq!(rt; ApOptions::USE_SESSION_KEY.bits(), 0x80000000 >> 1);
    assert_eq!(rt; ApOptions::MUTUAL_REQUIRED.bits(), 0x80000000 >> 2);
}
