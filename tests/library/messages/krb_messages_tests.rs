//! Records and frames, on octets spelled by hand and on what real clients sent.

mod changed;
mod fields;
mod samples;

use krb_der::{Asn1, Fault, Octets, TryCopy};
use krb_messages::constants::{AP_REP_TOKEN_ID, AP_REQ_TOKEN_ID, KRB5_OID, TGT_REQ_TOKEN_ID};
use krb_messages::{
    ApRep, ApReq, Authenticator, AuthorizationData, Checksum, EncApRepPart, EncTicketPart,
    EncryptedData, EncryptionKey, HostAddresses, Oid, PrincipalName, Ticket, TransitedEncoding,
    read_framed, serialize_message, write_framed,
};
use std::alloc::Global;
use std::process::Abort;
use std::test::Fail;

/// The octets of a record that was read, copied and written again.
fn rewritten<T: Asn1 + TryCopy>(alloc: Global, octets: &[u8]) -> Result<Octets, Fault> {
    if octets.len() > 4096 {
        return Err(Fault::Shape);
    }
    let record: T = T::read(alloc, octets)?;
    let copy = record.copy(alloc)?;
    Ok(copy.write(alloc)?)
}

fn is_refused<T: Asn1>(alloc: Global, octets: &[u8]) -> bool {
    matches!(&T::read(alloc, octets), Err(Fault::Shape))
}

/// Whether the octets are read and written back as they are, and refused with one more and at each proper prefix.
fn is_one_spelling<T: Asn1 + TryCopy>(alloc: Global, octets: &[u8]) -> Result<bool, Fail> {
    let again = rewritten::<T>(alloc, octets)?;
    let mut longer = Vec::from_slice(alloc, octets)?;
    longer.push(0)?;
    let mut is_one = again.as_slice() == octets && is_refused::<T>(alloc, &longer);
    for end in 0..octets.len() {
        is_one = is_one && is_refused::<T>(alloc, &octets[..end]);
    }
    Ok(is_one)
}

/// The frame that was read, written again.
fn framed_again(alloc: Global, token: &[u8], token_id: [u8; 2]) -> Result<Octets, Fault> {
    let (oid, message) = read_framed(token, token_id)?;
    Ok(write_framed(alloc, oid, token_id, message)?)
}

fn parts_have_one_spelling_of(rt: &(impl AllocGlobal + Abort)) -> Result<(), Fail> {
    let alloc = rt.alloc();
    assert!(rt; is_one_spelling::<PrincipalName>(alloc, samples::PRINCIPAL_NAME)?);
    assert!(rt; is_one_spelling::<EncryptedData>(alloc, samples::ENCRYPTED_DATA)?);
    assert!(rt; is_one_spelling::<EncryptedData>(alloc, samples::ENCRYPTED_DATA_LEAST)?);
    assert!(rt; is_one_spelling::<EncryptionKey>(alloc, samples::ENCRYPTION_KEY)?);
    assert!(rt; is_one_spelling::<Checksum>(alloc, samples::CHECKSUM)?);
    assert!(rt; is_one_spelling::<HostAddresses>(alloc, samples::HOST_ADDRESSES)?);
    assert!(rt; is_one_spelling::<AuthorizationData>(alloc, samples::AUTHORIZATION_DATA)?);
    assert!(rt; is_one_spelling::<TransitedEncoding>(alloc, samples::TRANSITED_ENCODING)?);
    Ok(())
}

#[test]
fn parts_have_one_spelling(rt: HostRuntime) -> Result<(), Fail> {
    parts_have_one_spelling_of(&rt)
}

fn messages_have_one_spelling_of(rt: &(impl AllocGlobal + Abort)) -> Result<(), Fail> {
    let alloc = rt.alloc();
    assert!(rt; is_one_spelling::<Ticket>(alloc, samples::TICKET)?);
    assert!(rt; is_one_spelling::<EncTicketPart>(alloc, samples::ENC_TICKET_PART)?);
    assert!(rt; is_one_spelling::<EncTicketPart>(alloc, samples::ENC_TICKET_PART_LEAST)?);
    assert!(rt; is_one_spelling::<ApReq>(alloc, samples::AP_REQ)?);
    assert!(rt; is_one_spelling::<Authenticator>(alloc, samples::AUTHENTICATOR)?);
    assert!(rt; is_one_spelling::<Authenticator>(alloc, samples::AUTHENTICATOR_LEAST)?);
    assert!(rt; is_one_spelling::<ApRep>(alloc, samples::AP_REP)?);
    assert!(rt; is_one_spelling::<EncApRepPart>(alloc, samples::ENC_AP_REP_PART)?);
    assert!(rt; is_one_spelling::<EncApRepPart>(alloc, samples::ENC_AP_REP_PART_LEAST)?);
    assert!(rt; is_one_spelling::<Ticket>(alloc, samples::krb5_ticket())?);
    assert!(rt; is_one_spelling::<EncryptedData>(alloc, samples::krb5_authenticator())?);
    Ok(())
}

#[test]
fn messages_have_one_spelling(rt: HostRuntime) -> Result<(), Fail> {
    messages_have_one_spelling_of(&rt)
}

#[test]
fn fields_out_of_the_table_are_refused(rt: HostRuntime) {
    let cases: [(&str, &[u8]); 9] = [
        (
            "kvno before etype",
            b"\x30\x10\xa1\x03\x02\x01\x02\xa0\x03\x02\x01\x12\xa2\x04\x04\x02\xaa\xbb",
        ),
        (
            "etype twice",
            b"\x30\x10\xa0\x03\x02\x01\x12\xa0\x03\x02\x01\x12\xa2\x04\x04\x02\xaa\xbb",
        ),
        (
            "kvno twice",
            b"\x30\x15\xa0\x03\x02\x01\x12\xa1\x03\x02\x01\x02\xa1\x03\x02\x01\x02\xa2\x04\x04\x02\xaa\xbb",
        ),
        (
            "an unknown field",
            b"\x30\x10\xa0\x03\x02\x01\x12\xa2\x04\x04\x02\xaa\xbb\xa3\x03\x02\x01\x01",
        ),
        (
            "no etype",
            b"\x30\x0b\xa1\x03\x02\x01\x02\xa2\x04\x04\x02\xaa\xbb",
        ),
        (
            "no cipher",
            b"\x30\x0a\xa0\x03\x02\x01\x12\xa1\x03\x02\x01\x02",
        ),
        (
            "an etype that is no INTEGER",
            b"\x30\x0b\xa0\x03\x04\x01\x12\xa2\x04\x04\x02\xaa\xbb",
        ),
        (
            "an INTEGER without octets",
            b"\x30\x0a\xa0\x02\x02\x00\xa2\x04\x04\x02\xaa\xbb",
        ),
        (
            "an implicit tag",
            b"\x30\x09\xa0\x01\x12\xa2\x04\x04\x02\xaa\xbb",
        ),
    ];
    for (what, octets) in cases {
        assert!(rt; is_refused::<EncryptedData>(rt.alloc(), octets), "{what}");
    }
}

/// Whether the message of a frame is read and written back as it is.
fn is_whole(alloc: Global, token_id: [u8; 2], message: &[u8]) -> Result<bool, Fail> {
    if token_id == AP_REQ_TOKEN_ID {
        is_one_spelling::<ApReq>(alloc, message)
    } else {
        is_one_spelling::<ApRep>(alloc, message)
    }
}

/// Whether a token is refused with an octet more, under another token id and at each proper prefix.
fn is_one_frame(alloc: Global, token: &[u8], token_id: [u8; 2]) -> Result<bool, Fail> {
    let mut longer = Vec::from_slice(alloc, token)?;
    longer.push(0)?;
    let mut is_one = read_framed(&longer, token_id).is_err();
    is_one = is_one && read_framed(token, [0x04, 0x00]).is_err();
    for end in 0..token.len() {
        is_one = is_one && read_framed(&token[..end], token_id).is_err();
    }
    Ok(is_one)
}

#[test]
fn frames_of_real_clients(rt: HostRuntime) -> Result<(), Fail> {
    let alloc = rt.alloc();
    for (token, token_id, oid) in [
        (samples::KRB5_TOKEN, AP_REQ_TOKEN_ID, Oid::Krb5),
        (samples::MS_KRB5_TOKEN, AP_REQ_TOKEN_ID, Oid::MsKrb5),
        (samples::AP_REP_TOKEN, AP_REP_TOKEN_ID, Oid::Krb5),
    ] {
        assert!(rt; framed_again(alloc, token, token_id)?.as_slice() == token);
        let (found, message) = read_framed(token, token_id)?;
        assert!(rt; found == oid);
        assert!(rt; is_whole(alloc, token_id, message)?);
        assert!(rt; is_one_frame(alloc, token, token_id)?);
    }
    Ok(())
}

/// A frame of three octets of a message, of the mechanism that it names: Kerberos, as Windows first spelled it, user-to-user
/// (1.2.840.113554.1.2.2.3) and SPNEGO (1.3.6.1.5.5.2).
static NAMED: [(&[u8], Oid); 4] = [
    (
        b"\x60\x10\x06\x09\x2a\x86\x48\x86\xf7\x12\x01\x02\x02\x04\x00abc",
        Oid::Krb5,
    ),
    (
        b"\x60\x10\x06\x09\x2a\x86\x48\x82\xf7\x12\x01\x02\x02\x04\x00abc",
        Oid::MsKrb5,
    ),
    (
        b"\x60\x11\x06\x0a\x2a\x86\x48\x86\xf7\x12\x01\x02\x02\x03\x04\x00abc",
        Oid::UserToUser,
    ),
    (
        b"\x60\x0d\x06\x06\x2b\x06\x01\x05\x05\x02\x04\x00abc",
        Oid::Other(b"\x2b\x06\x01\x05\x05\x02"),
    ),
];

fn named() -> &'static [(&'static [u8], Oid<'static>)] {
    &NAMED
}

#[test]
fn frames_name_their_mechanisms(rt: HostRuntime) -> Result<(), Fail> {
    for &(token, oid) in named() {
        let (found, message) = read_framed(token, TGT_REQ_TOKEN_ID)?;
        assert!(rt; found == oid && message == b"abc".as_slice());
        assert_eq!(rt;
            framed_again(rt.alloc(), token, TGT_REQ_TOKEN_ID)?.as_slice(),
            token
        );
    }
    Ok(())
}

/// Whether the ticket is for this service of EXAMPLE.COM, sealed in this type.
fn is_for(ticket: &Ticket, host: &str, server: &str, etype: u8) -> bool {
    match ticket.sname.name_string.as_slice() {
        [first, second] => {
            ticket.realm.as_str() == "EXAMPLE.COM"
                && first.as_str() == host
                && second.as_str() == server
                && ticket.enc_part.etype.as_slice() == [etype].as_slice()
        }
        _ => false,
    }
}

#[test]
fn a_real_ticket_names_its_service(rt: HostRuntime) -> Result<(), Fail> {
    let ticket = Ticket::read(rt.alloc(), samples::krb5_ticket())?;
    assert!(rt; is_for(&ticket, "host", "server.example.com", 18));
    Ok(())
}

#[test]
fn a_message_is_framed_by_its_length(rt: HostRuntime) -> Result<(), Fail> {
    let framed = serialize_message(rt.alloc(), &KRB5_OID)?;
    assert_eq!(rt;
        framed.as_slice(),
        [0, 0, 0, 9, 0x2a, 0x86, 0x48, 0x86, 0xf7, 0x12, 1, 2, 2].as_slice()
    );
    Ok(())
}
