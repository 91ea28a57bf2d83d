//! Records with a field too few, too many or out of its place.

use super::fields::*;
use super::{is_one_spelling, is_refused, samples};
use krb_der::{Asn1, TryCopy};
use krb_messages::{
    ApRep, ApReq, Authenticator, AuthorizationDataElement, Checksum, EncApRepPart, EncTicketPart,
    EncryptedData, EncryptionKey, HostAddress, PrincipalName, Ticket, TransitedEncoding,
};
use std::alloc::Global;
use std::test::Fail;

/// The value of a tag, under 256 octets (X.690 8.1).
fn value(alloc: Global, tag: u8, contents: &[u8]) -> Result<Vec<u8>, Fail> {
    let length = u8::try_from(contents.len())?;
    let mut octets = Vec::new(alloc);
    octets.push(tag)?;
    if length > 127 {
        octets.push(0x81)?;
    }
    octets.push(length)?;
    octets.extend_from_slice(contents)?;
    Ok(octets)
}

fn put(octets: &mut Vec<u8>, fields: &[&[u8]]) -> Result<(), Fail> {
    for field in fields {
        octets.extend_from_slice(field)?;
    }
    Ok(())
}

/// The record of these fields, in this order.
fn record(
    alloc: Global,
    tag: u8,
    front: &[&[u8]],
    middle: &[&[u8]],
    back: &[&[u8]],
) -> Result<Vec<u8>, Fail> {
    let mut contents = Vec::new(alloc);
    put(&mut contents, front)?;
    put(&mut contents, middle)?;
    put(&mut contents, back)?;
    let sequence = value(alloc, 0x30, &contents)?;
    if tag == 0x30 {
        Ok(sequence)
    } else {
        value(alloc, tag, &sequence)
    }
}

/// Whether the record is read without this field exactly where the field may be absent.
fn may_be_absent<T: Asn1 + TryCopy>(alloc: Global, table: &Table, at: usize) -> Result<bool, Fail> {
    let (front, back) = table.fields.split_at_checked(at).ok_or("past the end")?;
    let (_, rest) = back.split_first().ok_or("no field")?;
    let without = record(alloc, table.tag, front, &[], rest)?;
    if table.optional.contains(&at) {
        is_one_spelling::<T>(alloc, &without)
    } else {
        Ok(is_refused::<T>(alloc, &without))
    }
}

/// Whether the record is refused with this field twice, and with it after the next one.
fn stands_once<T: Asn1>(alloc: Global, table: &Table, at: usize) -> Result<bool, Fail> {
    let (front, back) = table.fields.split_at_checked(at).ok_or("past the end")?;
    let (field, rest) = back.split_first().ok_or("no field")?;
    let twice = record(alloc, table.tag, front, &[field], back)?;
    let Some((next, rest)) = rest.split_first() else {
        return Ok(is_refused::<T>(alloc, &twice));
    };
    let exchanged = record(alloc, table.tag, front, &[next, field], rest)?;
    Ok(is_refused::<T>(alloc, &twice) && is_refused::<T>(alloc, &exchanged))
}

/// Whether the octets are the record of its fields, which is refused with an unknown one after them.
fn is_whole<T: Asn1>(alloc: Global, table: &Table, octets: &[u8]) -> Result<bool, Fail> {
    let whole = record(alloc, table.tag, table.fields, &[], &[])?;
    let longer = record(alloc, table.tag, table.fields, &[UNKNOWN], &[])?;
    Ok(whole.as_slice() == octets && is_refused::<T>(alloc, &longer))
}

fn has_its_fields<T: Asn1 + TryCopy>(
    alloc: Global,
    table: &Table,
    octets: &[u8],
) -> Result<bool, Fail> {
    let mut has_all = is_whole::<T>(alloc, table, octets)?;
    for at in 0..table.fields.len() {
        has_all = has_all
            && may_be_absent::<T>(alloc, table, at)?
            && stands_once::<T>(alloc, table, at)?;
    }
    Ok(has_all)
}

#[test]
fn parts_have_their_fields(rt: HostRuntime) -> Result<(), Fail> {
    let alloc = rt.alloc();
    assert!(rt; has_its_fields::<PrincipalName>(alloc, &PRINCIPAL_NAME, samples::PRINCIPAL_NAME)?);
    assert!(rt; has_its_fields::<EncryptedData>(alloc, &ENCRYPTED_DATA, samples::ENCRYPTED_DATA)?);
    assert!(rt; has_its_fields::<EncryptionKey>(alloc, &ENCRYPTION_KEY, samples::ENCRYPTION_KEY)?);
    assert!(rt; has_its_fields::<Checksum>(alloc, &CHECKSUM, samples::CHECKSUM)?);
    assert!(rt;
        has_its_fields::<HostAddress>(alloc, &HOST_ADDRESS, &samples::HOST_ADDRESSES[2..])?
    );
    assert!(rt;
        has_its_fields::<AuthorizationDataElement>(
            alloc,
            &AUTHORIZATION_DATA_ELEMENT,
            &samples::AUTHORIZATION_DATA[2..]
        )?
    );
    assert!(rt;
        has_its_fields::<TransitedEncoding>(
            alloc,
            &TRANSITED_ENCODING,
            samples::TRANSITED_ENCODING
        )?
    );
    Ok(())
}

#[test]
fn messages_have_their_fields(rt: HostRuntime) -> Result<(), Fail> {
    let alloc = rt.alloc();
    assert!(rt; has_its_fields::<Ticket>(alloc, &TICKET, samples::TICKET)?);
    assert!(rt;
        has_its_fields::<EncTicketPart>(alloc, &ENC_TICKET_PART, samples::ENC_TICKET_PART)?
    );
    assert!(rt; has_its_fields::<ApReq>(alloc, &AP_REQ, samples::AP_REQ)?);
    assert!(rt; has_its_fields::<Authenticator>(alloc, &AUTHENTICATOR, samples::AUTHENTICATOR)?);
    assert!(rt; has_its_fields::<ApRep>(alloc, &AP_REP, samples::AP_REP)?);
    assert!(rt; has_its_fields::<EncApRepPart>(alloc, &ENC_AP_REP_PART, samples::ENC_AP_REP_PART)?);
    Ok(())
}
