//! Where messages go, the octets that are sent, and what the octets of replies bring.

use crate::rows::octets;
use krb_as::{Kdc, find_kdc, read_reply, request_to, unwrap_reply};
use krb_conf::Env;
use krb_der::{Octets, OutOfMemory, boxed};
use krb_exchange::{AsRep, KrbResult};
use krb_requests::name_of;
use sspi_core::{Cause, NetworkProtocol};
use sspi_generator::{NetFault, NetworkRequest};
use std::alloc::Global;
use std::test::Fail;
use url::Url;

fn kdc_at(alloc: Global, text: &str) -> Result<Kdc, Cause> {
    let Ok(url) = Url::parse(alloc, text) else {
        return Err(Cause::NoKdc);
    };
    match name_of(alloc, "EXAMPLE.COM") {
        Ok(realm) => find_kdc(alloc, &Some(url), &Env::new(alloc), &realm),
        Err(cause) => Err(cause),
    }
}

/// Whether a KDC is spoken to so.
fn is_kdc(found: &Result<Kdc, Cause>, end: Result<NetworkProtocol, Cause>) -> bool {
    match (found, &end) {
        (Ok(kdc), Ok(protocol)) => kdc.protocol == *protocol,
        (Err(cause), Err(wanted)) => cause == wanted,
        _ => false,
    }
}

/// URLs, and how the KDC there is spoken to.
static URLS: [(&str, Result<NetworkProtocol, Cause>); 6] = [
    ("tcp://kdc.example:88", Ok(NetworkProtocol::Tcp)),
    ("udp://kdc.example:88", Ok(NetworkProtocol::Udp)),
    ("https://p.example/k", Ok(NetworkProtocol::Https)),
    ("http://p.example:80/k?a=b", Ok(NetworkProtocol::Http)),
    ("ftp://kdc.example", Err(Cause::Scheme)),
    ("HTTP://p.example", Ok(NetworkProtocol::Http)),
];

#[test]
fn urls_name_protocols(rt: HostRuntime) {
    for (text, end) in &URLS {
        assert!(rt; is_kdc(&kdc_at(rt.alloc(), text), *end), "{text}");
    }
}

/// Whether no KDC is found where none is known.
fn has_none(alloc: Global) -> bool {
    match name_of(alloc, "EXAMPLE.COM") {
        Ok(realm) => is_kdc(
            &find_kdc(alloc, &None, &Env::new(alloc), &realm),
            Err(Cause::NoKdc),
        ),
        Err(_) => false,
    }
}

#[test]
fn no_url_is_no_kdc(rt: HostRuntime) {
    assert!(rt; has_none(rt.alloc()));
}

fn sent(alloc: Global, kdc: &Kdc) -> Result<NetworkRequest, OutOfMemory> {
    if kdc.realm.as_str().len() > 64 {
        return Err(OutOfMemory);
    }
    let abc = Octets::from_slice(alloc, b"abc")?;
    request_to(alloc, kdc, abc)
}

/// Whether `abc` goes to a KDC in these octets.
fn is_sent(alloc: Global, kdc: &Result<Kdc, Cause>, payload: &[u8]) -> bool {
    let Ok(kdc) = kdc else {
        return false;
    };
    match sent(alloc, kdc) {
        Ok(request) => request.protocol == kdc.protocol && request.payload.as_slice() == payload,
        Err(_) => false,
    }
}

/// URLs, and the octets in which `abc` goes there.
static PAYLOADS: [(&str, &str); 4] = [
    ("udp://kdc.example:88", "616263"),
    ("tcp://kdc.example:88", "00000003616263"),
    (
        "http://p.example/k",
        "301aa009040700000003616263a10d1b0b4558414d504c452e434f4d",
    ),
    (
        "https://p.example/k",
        "301aa009040700000003616263a10d1b0b4558414d504c452e434f4d",
    ),
];

#[test]
fn messages_go_as_each_protocol_carries_them(rt: HostRuntime) -> Result<(), Fail> {
    for (text, digits) in &PAYLOADS {
        let row = octets(digits)?;
        let kdc = kdc_at(rt.alloc(), text);
        assert!(rt; is_sent(rt.alloc(), &kdc, row.as_slice()), "{text}");
    }
    Ok(())
}

fn reply_of(alloc: Global, octets: &[u8]) -> Result<Octets, NetFault> {
    match Octets::from_slice(alloc, octets) {
        Ok(octets) => Ok(octets),
        Err(OutOfMemory) => Err(NetFault::OutOfMemory),
    }
}

/// Whether these octets, or none for a refusal, are brought.
fn is_brought(found: &Result<Octets, Cause>, end: &Result<&str, Cause>) -> bool {
    match (found, end) {
        (Ok(message), Ok(wanted)) => message.as_slice() == wanted.as_bytes(),
        (Err(cause), Err(wanted)) => cause == wanted,
        _ => false,
    }
}

/// Replies, and the message that each brings.
static REPLIES: [(NetworkProtocol, &str, Result<&str, Cause>); 9] = [
    (NetworkProtocol::Tcp, "00000003616263", Ok("abc")),
    (NetworkProtocol::Udp, "ffffffff616263", Ok("abc")),
    (NetworkProtocol::Tcp, "00000000", Ok("")),
    (NetworkProtocol::Tcp, "000000", Err(Cause::ReplyShort)),
    (
        NetworkProtocol::Https,
        "301aa009040700000003616263a10d1b0b4558414d504c452e434f4d",
        Ok("abc"),
    ),
    (
        NetworkProtocol::Http,
        "300ba009040700000003616263",
        Ok("abc"),
    ),
    (NetworkProtocol::Https, "00000000", Err(Cause::Shape)),
    (
        NetworkProtocol::Https,
        "3007a0050403616263",
        Err(Cause::ReplyShort),
    ),
    (
        NetworkProtocol::Https,
        "3004a0020400",
        Err(Cause::ReplyShort),
    ),
];

#[test]
fn replies_bring_messages(rt: HostRuntime) -> Result<(), Fail> {
    for (protocol, digits, end) in &REPLIES {
        let row = octets(digits)?;
        let reply = reply_of(rt.alloc(), row.as_slice());
        assert!(rt;
            is_brought(&unwrap_reply(rt.alloc(), *protocol, reply), end),
            "{digits}"
        );
    }
    Ok(())
}

#[test]
fn a_fault_keeps_its_number(rt: HostRuntime) {
    for code in [0, 7, u32::MAX] {
        let found = unwrap_reply(
            rt.alloc(),
            NetworkProtocol::Https,
            Err(NetFault::Failed(code)),
        );
        assert!(rt; is_brought(&found, &Err(Cause::Network(code))), "{code}");
    }
}

/// Whether a reply is a KRB-ERROR with this code.
fn is_error(found: &KrbResult<AsRep>, code: u32) -> bool {
    match found {
        KrbResult::Err(error) => error.error_code.value() == code,
        KrbResult::Ok(_) => false,
    }
}

/// The value that a reply over TCP is read as.
fn read_at(alloc: Global, octets: &[u8]) -> Result<Box<KrbResult<AsRep>>, Cause> {
    let read = read_reply::<AsRep>(alloc, NetworkProtocol::Tcp, reply_of(alloc, octets))?;
    Ok(boxed(alloc, read)?)
}

fn has_code(alloc: Global, octets: &[u8], code: u32) -> bool {
    match read_at(alloc, octets) {
        Ok(found) => is_error(&found, code),
        Err(_) => false,
    }
}

fn is_no_reply(alloc: Global, octets: &[u8]) -> bool {
    read_at(alloc, octets).err() == Some(Cause::Shape)
}

/// A KRB-ERROR with the code 6.
static KRB_ERROR: &str =
    "0000005f7e5d305ba003020105a10302011ea411180f32303233313131343232313332305aa506020400000000a603020106a90d1b0b4558414d504c\
     452e434f4daa20301ea003020102a11730151b066b72627467741b0b4558414d504c452e434f4d";

#[test]
fn a_krb_error_may_stand_for_a_reply(rt: HostRuntime) -> Result<(), Fail> {
    let row = octets(KRB_ERROR)?;
    assert!(rt; has_code(rt.alloc(), row.as_slice(), 6));
    assert!(rt; is_no_reply(rt.alloc(), b"\x00\x00\x00\x03abc"));
    Ok(())
}
