//! Tokens of refusals. Each message was written by MIT krb5 1.20.1 (`krb5_mk_error`), and framed by hand (RFC 4121, section 4.1).

use krb_refusals::error_token;
use sspi_core::{Cause, MAX_MOMENT};
use std::alloc::Global;
use std::test::Fail;

/// 123456 microseconds after 2023-11-14T22:13:20Z.
const MOMENT: u64 = 1_700_000_000_123_456;

/// The octets before the code and after it, of host/server.example.com in EXAMPLE.COM at that moment.
const BEFORE: &str =
    "607006092a864886f71201020203007e61305fa003020105a10302011ea411180f32303233313131343232313332305aa505020301e240a6030201";

const AFTER: &str =
    "a90d1b0b4558414d504c452e434f4daa253023a003020102a11c301a1b04686f73741b127365727665722e6578616d706c652e636f6d";

/// A cause, and the code that the client gets, in hex.
static TOLD: [(Cause, &str); 10] = [
    (Cause::Skew, "25"),
    (Cause::NotYet, "21"),
    (Cause::Expired, "20"),
    (Cause::Replayed, "22"),
    (Cause::Names, "3c"),
    (Cause::Transited, "3c"),
    (Cause::Altered, "3c"),
    (Cause::Bindings, "3c"),
    (Cause::ReplyTime, "3c"),
    (Cause::Kdc(37), "3c"),
];

fn told() -> &'static [(Cause, &'static str)] {
    &TOLD
}

fn is_told(alloc: Global, cause: Cause, code: &str) -> Result<bool, Fail> {
    let token = error_token(
        alloc,
        cause,
        "host/server.example.com",
        "EXAMPLE.COM",
        MOMENT,
    );
    let Ok(token) = token else {
        return Ok(false);
    };
    let digits = hex::encode(alloc, token.as_slice())?;
    let expected = format!(in alloc; "{}{code}{}", BEFORE, AFTER)?;
    Ok(digits.as_str() == expected.as_str())
}

#[test]
fn a_client_is_told_the_clock_and_replays_alone(rt: HostRuntime) -> Result<(), Fail> {
    for (cause, code) in told() {
        assert!(rt; is_told(rt.alloc(), *cause, code)?, "{cause}");
    }
    Ok(())
}

/// Microseconds, and the token of the service `a` in the realm `A` this many after 2023-11-14T22:13:20Z.
static MICROSECONDS: [(u64, &str); 6] = [
    (
        0,
        "604d06092a864886f71201020203007e3e303ca003020105a10302011ea411180f32303233313131343232313332305aa503020100a60302013ca9031b0141aa0e300ca003020102a10530031b0161",
    ),
    (
        127,
        "604d06092a864886f71201020203007e3e303ca003020105a10302011ea411180f32303233313131343232313332305aa50302017fa60302013ca9031b0141aa0e300ca003020102a10530031b0161",
    ),
    (
        128,
        "604e06092a864886f71201020203007e3f303da003020105a10302011ea411180f32303233313131343232313332305aa50402020080a60302013ca9031b0141aa0e300ca003020102a10530031b0161",
    ),
    (
        32_767,
        "604e06092a864886f71201020203007e3f303da003020105a10302011ea411180f32303233313131343232313332305aa50402027fffa60302013ca9031b0141aa0e300ca003020102a10530031b0161",
    ),
    (
        32_768,
        "604f06092a864886f71201020203007e40303ea003020105a10302011ea411180f32303233313131343232313332305aa5050203008000a60302013ca9031b0141aa0e300ca003020102a10530031b0161",
    ),
    (
        999_999,
        "604f06092a864886f71201020203007e40303ea003020105a10302011ea411180f32303233313131343232313332305aa50502030f423fa60302013ca9031b0141aa0e300ca003020102a10530031b0161",
    ),
];

fn microseconds() -> &'static [(u64, &'static str)] {
    &MICROSECONDS
}

fn is_written(alloc: Global, microseconds: u64, expected: &str) -> Result<bool, Fail> {
    let moment = 1_700_000_000_000_000 + microseconds % 1_000_000;
    let Ok(token) = error_token(alloc, Cause::Shape, "a", "A", moment) else {
        return Ok(false);
    };
    let digits = hex::encode(alloc, token.as_slice())?;
    Ok(digits.as_str() == expected)
}

#[test]
fn microseconds_have_as_few_octets_as_they_need(rt: HostRuntime) -> Result<(), Fail> {
    for (microseconds, expected) in microseconds() {
        assert!(rt;
            is_written(rt.alloc(), *microseconds, expected)?,
            "{microseconds}"
        );
    }
    Ok(())
}

fn refusal(alloc: Global, service: &str, realm: &str, moment: u64) -> Option<Cause> {
    error_token(alloc, Cause::Skew, service, realm, moment).err()
}

#[test]
fn no_token_is_made_of_other_names_and_moments(rt: HostRuntime) -> Result<(), Fail> {
    for (service, realm, moment, expected) in [
        ("host/a", "EXAMPLE.COM", 0, None),
        ("", "", MAX_MOMENT, None),
        ("host/a", "EXAMPLE.COM", MAX_MOMENT + 1, Some(Cause::Moment)),
        ("host/büro", "BÜRO", MAX_MOMENT + 1, Some(Cause::Moment)),
        ("host/a", "BÜRO", 0, Some(Cause::NotAscii)),
        ("host/büro", "EXAMPLE.COM", 0, Some(Cause::NotAscii)),
    ] {
        assert_eq!(rt;
            refusal(rt.alloc(), service, realm, moment),
            expected,
            "{service} {realm}"
        );
    }
    Ok(())
}

/// A text of this many slashes.
fn slashes(alloc: Global, count: usize) -> Result<String, Fail> {
    Ok("/".repeat(alloc, count)?)
}

#[test]
fn names_have_65536_bytes_at_the_most(rt: HostRuntime) -> Result<(), Fail> {
    let alloc = rt.alloc();
    let long = slashes(alloc, 65_536)?;
    let longer = slashes(alloc, 65_537)?;
    assert_eq!(rt; refusal(alloc, &long, &long, 0), None);
    assert_eq!(rt; refusal(alloc, &longer, "A", 0), Some(Cause::Room));
    assert_eq!(rt; refusal(alloc, "a", &longer, 0), Some(Cause::Room));
    assert_eq!(rt; refusal(alloc, &longer, "Ü", 0), Some(Cause::Room));
    Ok(())
}
