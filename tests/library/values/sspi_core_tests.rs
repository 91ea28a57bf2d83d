//! Values from outside: the table of codes, printed words, written-out names and buffers.

mod errors;
mod messages;
mod names;

use bitflags::Flags;
use krb_der::Octets;
use sspi_core::{
    BufferType, Cause, ChannelBindings, ClientRequestFlags, Error, ErrorKind, NetworkProtocol,
    SecurityBufferFlags, SecurityBufferRef, ServerRequestFlags, Username, UsernameError, hold,
    map_keb_error_code_to_sspi_error, pass, take,
};
use std::alloc::Global;
use std::test::Fail;

/// The kinds of RFC 4120's error codes, by kind.
static KINDS: [(ErrorKind, &[u32]); 17] = [
    (
        ErrorKind::InvalidParameter,
        &[1, 2, 23, 38, 52, 62, 63, 66, 71, 75, 76],
    ),
    (
        ErrorKind::KdcInvalidRequest,
        &[
            3, 10, 11, 12, 13, 15, 16, 17, 24, 25, 26, 27, 28, 29, 34, 36, 39, 44, 51, 61, 69, 70,
        ],
    ),
    (ErrorKind::EncryptFailure, &[4, 5, 9, 65]),
    (ErrorKind::UnknownCredentials, &[6, 7, 18, 19, 20, 21, 22]),
    (ErrorKind::TooManyPrincipals, &[8]),
    (ErrorKind::OperationNotSupported, &[14]),
    (ErrorKind::MessageAltered, &[31, 41, 64]),
    (ErrorKind::ContextExpired, &[32]),
    (ErrorKind::InvalidToken, &[33, 35, 40, 48, 50]),
    (ErrorKind::TimeSkew, &[37]),
    (ErrorKind::OutOfSequence, &[42, 47, 49]),
    (ErrorKind::NoKerbKey, &[45]),
    (ErrorKind::MutualAuthFailed, &[46]),
    (ErrorKind::InternalError, &[60, 73, 74]),
    (ErrorKind::NoTgtReply, &[67]),
    (ErrorKind::NoAuthenticatingAuthority, &[68]),
    (ErrorKind::KdcCertRevoked, &[72]),
];

fn kinds() -> &'static [(ErrorKind, &'static [u32])] {
    &KINDS
}

fn kind_by_table(code: u32) -> ErrorKind {
    for (kind, codes) in kinds() {
        if codes.contains(&code) {
            return *kind;
        }
    }
    ErrorKind::Unknown
}

#[test]
fn each_error_code_has_the_kind_of_its_row(rt: HostRuntime) {
    for code in 0..=100 {
        assert_eq!(rt;
            map_keb_error_code_to_sspi_error(code),
            kind_by_table(code),
            "at {code}"
        );
    }
}

fn is_mixed(name: Result<Username, UsernameError>) -> bool {
    matches!(name, Err(UsernameError::MixedFormat))
}

#[test]
fn a_name_with_both_signs_is_refused(rt: HostRuntime) {
    let alloc = rt.alloc();
    for text in ["a\\b@c", "a\\b\\c", "@\\"] {
        assert!(rt; is_mixed(Username::parse(alloc, text)));
    }
    assert!(rt; is_mixed(Username::new(alloc, "a", Some("b@c"))));
    assert!(rt; is_mixed(Username::new_upn(alloc, "a", "b@c")));
    assert!(rt; !is_mixed(Username::new_upn(alloc, "a@b", "c")));
}

#[test]
fn a_refused_name_is_printed_by_its_variant(rt: HostRuntime) -> Result<(), Fail> {
    let printed = format!(in rt.alloc();
        "{}, {}",
        UsernameError::MixedFormat,
        UsernameError::OutOfMemory
    )?;
    assert_eq!(rt; printed.as_str(), "MixedFormat, OutOfMemory");
    Ok(())
}

fn is_data_of_three(buffer: &SecurityBufferRef, octets: &[u8]) -> bool {
    buffer.data() == octets
        && buffer.limit() == 3
        && buffer.kind() == BufferType::Data
        && buffer.flags() == SecurityBufferFlags::NONE
}

#[test]
fn a_buffer_takes_what_its_limit_allows(rt: HostRuntime) {
    let alloc = rt.alloc();
    let mut buffer = SecurityBufferRef::data_buf(Octets::new(Vec::new(alloc)), 3);
    assert!(rt; buffer.write_data(alloc, b"abc") == Ok(()));
    assert!(rt; buffer.write_data(alloc, b"defg") == Err(Error::from(Cause::TooSmall)));
    assert!(rt; is_data_of_three(&buffer, b"abc"));
}

/// Type 2 and `ab`, type 3 and `cde`, and `f`, after the eight numbers.
static BINDINGS: &[u8] =
    b"\x02\0\0\0\x02\0\0\0\x20\0\0\0\x03\0\0\0\x03\0\0\0\x22\0\0\0\x01\0\0\0\x25\0\0\0abcdef";

fn bindings() -> &'static [u8] {
    BINDINGS
}

fn are_those(read: &ChannelBindings) -> bool {
    read.initiator_addr_type == 2
        && read.initiator.as_slice() == b"ab".as_slice()
        && read.acceptor_addr_type == 3
        && read.acceptor.as_slice() == b"cde".as_slice()
        && read.application_data.as_slice() == b"f".as_slice()
}

#[test]
fn bindings_are_numbers_and_parts(rt: HostRuntime) -> Result<(), Fail> {
    let read = ChannelBindings::from_bytes(rt.alloc(), bindings())?;
    assert!(rt; are_those(&read));
    Ok(())
}

fn without_last(octets: &[u8]) -> &[u8] {
    match octets.split_last() {
        Some((_, front)) => front,
        None => octets,
    }
}

fn is_refused(alloc: Global, octets: &[u8]) -> bool {
    ChannelBindings::from_bytes(alloc, octets).err() == Some(Error::from(Cause::Bindings))
}

#[test]
fn bindings_want_eight_numbers_and_whole_parts(rt: HostRuntime) {
    let zeros = [0; 32];
    assert!(rt; !is_refused(rt.alloc(), &zeros));
    assert!(rt; is_refused(rt.alloc(), &zeros[..31]));
    assert!(rt; is_refused(rt.alloc(), without_last(bindings())));
}

static SCHEMES: [(&str, Option<NetworkProtocol>); 6] = [
    ("tcp", Some(NetworkProtocol::Tcp)),
    ("udp", Some(NetworkProtocol::Udp)),
    ("http", Some(NetworkProtocol::Http)),
    ("https", Some(NetworkProtocol::Https)),
    ("TCP", None),
    ("ftp", None),
];

fn schemes() -> &'static [(&'static str, Option<NetworkProtocol>)] {
    &SCHEMES
}

#[test]
fn a_protocol_is_named_by_its_scheme(rt: HostRuntime) {
    for (scheme, protocol) in schemes() {
        assert!(rt;
            NetworkProtocol::from_url_scheme(scheme) == *protocol,
            "{scheme}"
        );
    }
}

#[test]
fn a_check_passes_or_refuses(rt: HostRuntime) {
    assert_eq!(rt; hold(true, Cause::Shape), Ok(()));
    assert_eq!(rt; take(Some(1), Cause::Salt), Ok(1));
    assert_eq!(rt; pass(None), Ok(()));
    assert_eq!(rt; pass(Some(Cause::Skew)), Err(Cause::Skew));
}

#[test]
fn a_flag_has_its_bit(rt: HostRuntime) {
    assert_eq!(rt; ClientRequestFlags::USE_DCE_STYLE.bits(), 0x200);
    assert_eq!(rt; ServerRequestFlags::USE_SESSION_KEY.bits(), 0x20);
    assert_eq!(rt; ClientRequestFlags::all().bits(), 0x81023f);
    assert_eq!(rt; SecurityBufferFlags::SECBUFFER_READONLY.bits(), 0x80000000);
}
