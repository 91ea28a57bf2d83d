//! The KDC of EXAMPLE.COM, and what it answers to single requests.

use super::Row;
use super::parties::{add_alice, add_principal, add_route, add_trust, draw_at, new_kdc};
use krb_crypto::CipherSuite;
use krb_kdc::Kdc;
use std::alloc::Global;
use std::test::Fail;

const SUITE: CipherSuite = CipherSuite::Aes256CtsHmacSha196;

/// It has a client with a salt, one without, a service, and a route to a service of another realm.
fn fill(alloc: Global, kdc: &mut Kdc) -> Result<(), Fail> {
    add_alice(alloc, kdc)?;
    add_principal(alloc, kdc, "bare", &draw_at(0, 32).random[..32])?;
    add_principal(alloc, kdc, "host/server", &[7; 32])?;
    add_trust(alloc, kdc, "B.COM", &[9; 32])?;
    add_route(alloc, kdc, "host/b", "B.COM")
}

/// The KDC that the rows ask.
pub fn example(alloc: Global) -> Result<Box<Kdc>, Fail> {
    let key = draw_at(0, 0);
    let mut kdc = new_kdc(alloc, "EXAMPLE.COM", SUITE, &key.random[..32])?;
    fill(alloc, &mut kdc)?;
    Ok(kdc)
}

/// Whether a request that comes at this moment is answered so.
fn is_reply(
    alloc: Global,
    kdc: &Kdc,
    moment: u64,
    request: &[u8],
    reply: &str,
) -> Result<bool, Fail> {
    let wanted = hex::decode(alloc, reply)?;
    let answer = kdc.answer(request, &draw_at(moment, 0))?;
    Ok(answer.as_slice() == wanted.as_slice())
}

/// Whether the KDC answers a row's request by its reply.
pub fn is_answered(alloc: Global, kdc: &Kdc, row: &Row) -> Result<bool, Fail> {
    let request = hex::decode(alloc, row.request)?;
    is_reply(alloc, kdc, row.moment, &request, row.reply)
}

/// The moment of the requests below.
const MOMENT: u64 = 1_700_000_000_123_456;

/// Whether each front of fewer than a hundred octets, and than all, is refused with code 60.
pub fn cuts_are_refused(alloc: Global, kdc: &Kdc, row: &Row) -> Result<bool, Fail> {
    let request = hex::decode(alloc, row.request)?;
    for count in 0..request.len().min(100) {
        if !is_reply(alloc, kdc, MOMENT, &request[..count], TO_NEITHER)? {
            return Ok(false);
        }
    }
    Ok(true)
}

/// The reply to what is neither message.
pub const TO_NEITHER: &str =
    "0000005f7e5d305ba003020105a10302011ea411180f32303233313131343232313332305aa50602040001e240a60302013ca90d1b0b4558414d504c452e434f4daa20301ea003020102a11730151b066b72627467741b0b4558414d504c452e434f4d";

/// The reply to the long request, and the octets after its zero octets.
pub const TO_LONG: &str =
    "000000797e773075a003020105a10302011ea411180f32303233313131343232313332305aa50602040001e240a603020119a90d1b0b4558414d504c452e434f4daa20301ea003020102a11730151b066b72627467741b0b4558414d504c452e434f4dac18041630143012a103020113a20b040930073005a003020112";

const BEHIND: &str =
    "a48188308185a00703050000810010a111300fa003020101a10830061b0462617265a20d1b0b4558414d504c452e434f4da320301ea003020102a11730151b066b72627467741b0b4558414d504c452e434f4da511180f32303233313131373232313332305aa611180f32303233313131373232313332305aa706020401020304a8083006020112020111";

/// The octets before the zero octets of a long AS-REQ: its first length is that of the request less four.
fn front(alloc: Global, length: usize) -> Result<Vec<u8>, Fail> {
    let digits = if length == 16_777_216 {
        "00fffffc6a83fffff73083fffff2a103020105a20302010aa383ffff583083ffff533083ffff4ea103020180a283ffff440483ffff3f"
    } else {
        "00fffffd6a83fffff83083fffff3a103020105a20302010aa383ffff593083ffff543083ffff4fa103020180a283ffff450483ffff40"
    };
    Ok(hex::decode(alloc, digits)?)
}

/// An AS-REQ of that length, with one element of pre-authentication whose value are zero octets.
fn long_request(alloc: Global, length: usize) -> Result<Vec<u8>, Fail> {
    let behind = hex::decode(alloc, BEHIND)?;
    let mut request = front(alloc, length)?;
    request.resize(length.saturating_sub(behind.len()), 0)?;
    request.extend_from_slice(&behind)?;
    Ok(request)
}

/// Whether an AS-REQ of that length is answered so.
pub fn long_is_answered(
    alloc: Global,
    kdc: &Kdc,
    length: usize,
    reply: &str,
) -> Result<bool, Fail> {
    let request = long_request(alloc, length)?;
    Ok(request.len() == length && is_reply(alloc, kdc, MOMENT, &request, reply)?)
}
