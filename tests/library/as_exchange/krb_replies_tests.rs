//! Values that a client takes from replies, and octets from which it takes nothing.

mod answers;
mod facts;
pub mod replies;

use crate::rows::{is_row, octets};
use answers::Found;
use krb_context::EncryptionParams;
use krb_der::{Asn1, Fault, Name, Octets, OutOfMemory, Text, boxed};
use krb_exchange::{AsRep, KrbError, KrbPrivMessage, TgsRep};
use krb_messages::{ApRep, Oid, PrincipalName, Ticket};
use krb_replies::{
    extract_encryption_params_from_as_rep, extract_salt_from_krb_error,
    extract_seq_number_from_ap_rep, extract_session_key_from_as_rep,
    extract_session_key_from_as_rep_with_key, extract_session_key_from_tgs_rep,
    extract_status_code_from_krb_priv_response, extract_sub_session_key_from_ap_rep,
    extract_tgt_ticket_with_oid, referral_target_realm,
};
use sspi_core::{Cause, Error, Secret};
use std::alloc::Global;
use std::test::Fail;

/// The value that was read, on the heap; None if there was none.
fn found<T: Drop>(alloc: Global, read: Result<T, Fault>) -> Option<Box<T>> {
    match read {
        Ok(value) => boxed(alloc, value).ok(),
        Err(_) => None,
    }
}

/// The key 20 to 3f hex.
fn key_20(alloc: Global) -> Result<Secret<Octets>, OutOfMemory> {
    let row: [u8; 32] = [
        0x20, 0x21, 0x22, 0x23, 0x24, 0x25, 0x26, 0x27, 0x28, 0x29, 0x2a, 0x2b, 0x2c, 0x2d, 0x2e,
        0x2f, 0x30, 0x31, 0x32, 0x33, 0x34, 0x35, 0x36, 0x37, 0x38, 0x39, 0x3a, 0x3b, 0x3c, 0x3d,
        0x3e, 0x3f,
    ];
    Ok(Secret::new(Octets::from_slice(alloc, &row)?))
}

/// Whether a salt is named so.
fn is_salt(answer: &Result<Option<Text>, Error>, end: &Result<Option<&str>, Cause>) -> bool {
    match (answer, end) {
        (Ok(Some(salt)), Ok(Some(wanted))) => salt.as_str() == *wanted,
        (Ok(None), Ok(None)) => true,
        (Err(error), Err(cause)) => error.cause == *cause,
        _ => false,
    }
}

fn names_salt(alloc: Global, octets: &[u8], end: &Result<Option<&str>, Cause>) -> bool {
    match found(alloc, KrbError::read(alloc, octets)) {
        Some(error) => is_salt(&extract_salt_from_krb_error(alloc, &error), end),
        None => false,
    }
}

#[test]
fn errors_name_salts(rt: HostRuntime) -> Result<(), Fail> {
    for (digits, end) in &replies::SALTS {
        let row = octets(digits)?;
        assert!(rt; names_salt(rt.alloc(), row.as_slice(), end), "{digits}");
    }
    Ok(())
}

/// True if an encryption type and a salt are read so.
fn is_told(answer: &Result<(u8, Text), Error>, end: &Result<(u8, &str), Cause>) -> bool {
    match (answer, end) {
        (Ok((etype, salt)), Ok((number, wanted))) => etype == number && salt.as_str() == *wanted,
        (Err(error), Err(cause)) => error.cause == *cause,
        _ => false,
    }
}

fn tells(alloc: Global, octets: &[u8], end: &Result<(u8, &str), Cause>) -> bool {
    match found(alloc, AsRep::read(alloc, octets)) {
        Some(as_rep) => is_told(
            &extract_encryption_params_from_as_rep(alloc, &as_rep, "used"),
            end,
        ),
        None => false,
    }
}

#[test]
fn as_reps_tell_the_type_and_the_salt(rt: HostRuntime) -> Result<(), Fail> {
    for (digits, end) in &replies::ETYPES {
        let row = octets(digits)?;
        assert!(rt; tells(rt.alloc(), row.as_slice(), end), "{digits}");
    }
    Ok(())
}

/// Whether a key is found so.
fn is_key(answer: &Result<Secret<Octets>, Error>, end: &Result<&str, Cause>) -> bool {
    match (answer, end) {
        (Ok(key), Ok(digits)) => is_row(key.as_ref().as_slice(), digits),
        (Err(error), Err(cause)) => error.cause == *cause,
        _ => false,
    }
}

/// Whether an AS-REP under alice's key brings this key.
fn brings(alloc: Global, octets: &[u8], end: &Result<&str, Cause>) -> bool {
    let params = EncryptionParams::default_for_client();
    match found(alloc, AsRep::read(alloc, octets)) {
        Some(reply) => is_key(
            &extract_session_key_from_as_rep(alloc, &reply, "EXAMPLE.COMalice", "secret", &params),
            end,
        ),
        None => false,
    }
}

#[test]
fn as_reps_bring_keys(rt: HostRuntime) -> Result<(), Fail> {
    for (digits, end) in &replies::AS_KEYS {
        let row = octets(digits)?;
        assert!(rt; brings(rt.alloc(), row.as_slice(), end), "{digits}");
    }
    Ok(())
}

/// Whether an AS-REP is refused so under a key of the caller's.
fn is_refused_under(alloc: Global, octets: &[u8], key: &[u8], cause: Cause) -> bool {
    let params = EncryptionParams::default_for_client();
    match found(alloc, AsRep::read(alloc, octets)) {
        Some(reply) => is_key(
            &extract_session_key_from_as_rep_with_key(alloc, &reply, key, &params),
            &Err(cause),
        ),
        None => false,
    }
}

#[test]
fn keys_of_another_length_or_client_open_no_as_rep(rt: HostRuntime) -> Result<(), Fail> {
    let (digits, _) = &replies::AS_KEYS[0];
    let row = octets(digits)?;
    assert!(rt; is_refused_under(rt.alloc(), row.as_slice(), &[7; 31], Cause::KeyLength));
    assert!(rt; is_refused_under(rt.alloc(), row.as_slice(), &[7; 16], Cause::KeyLength));
    assert!(rt; is_refused_under(rt.alloc(), row.as_slice(), &[7; 32], Cause::Altered));
    Ok(())
}

fn hands_on(alloc: Global, octets: &[u8], key: &Secret<Octets>, end: &Result<&str, Cause>) -> bool {
    let params = EncryptionParams::default_for_client();
    match found(alloc, TgsRep::read(alloc, octets)) {
        Some(reply) => is_key(
            &extract_session_key_from_tgs_rep(alloc, &reply, key, &params),
            end,
        ),
        None => false,
    }
}

#[test]
fn tgs_reps_bring_keys(rt: HostRuntime) -> Result<(), Fail> {
    let key = Secret::new(Octets::from_slice(rt.alloc(), &[0xc8; 32])?);
    for (digits, end) in &replies::TGS_KEYS {
        let row = octets(digits)?;
        assert!(rt; hands_on(rt.alloc(), row.as_slice(), &key, end), "{digits}");
    }
    Ok(())
}

/// Whether a number is found so.
fn is_number(answer: &Result<Octets, Error>, end: &Result<&str, Cause>) -> bool {
    match (answer, end) {
        (Ok(number), Ok(digits)) => is_row(number.as_slice(), digits),
        (Err(error), Err(cause)) => error.cause == *cause,
        _ => false,
    }
}

fn numbers(alloc: Global, octets: &[u8], key: &Secret<Octets>, end: &Result<&str, Cause>) -> bool {
    let params = EncryptionParams::default_for_client();
    match found(alloc, ApRep::read(alloc, octets)) {
        Some(reply) => is_number(
            &extract_seq_number_from_ap_rep(alloc, &reply, key, &params),
            end,
        ),
        None => false,
    }
}

fn has_sub_key(
    alloc: Global,
    octets: &[u8],
    key: &Secret<Octets>,
    end: &Result<&str, Cause>,
) -> bool {
    let params = EncryptionParams::default_for_client();
    match found(alloc, ApRep::read(alloc, octets)) {
        Some(reply) => is_key(
            &extract_sub_session_key_from_ap_rep(alloc, &reply, key, &params),
            end,
        ),
        None => false,
    }
}

#[test]
fn ap_reps_have_numbers(rt: HostRuntime) -> Result<(), Fail> {
    let key = key_20(rt.alloc())?;
    for (digits, end) in &answers::NUMBERS {
        let row = octets(digits)?;
        assert!(rt; numbers(rt.alloc(), row.as_slice(), &key, end), "{digits}");
    }
    Ok(())
}

#[test]
fn ap_reps_have_sub_keys(rt: HostRuntime) -> Result<(), Fail> {
    let key = key_20(rt.alloc())?;
    for (digits, end) in &answers::SUB_KEYS {
        let row = octets(digits)?;
        assert!(rt;
            has_sub_key(rt.alloc(), row.as_slice(), &key, end),
            "{digits}"
        );
    }
    Ok(())
}

/// Whether a result code is found so.
fn is_status(answer: &Result<u16, Error>, end: &Result<u16, Cause>) -> bool {
    match (answer, end) {
        (Ok(status), Ok(wanted)) => status == wanted,
        (Err(error), Err(cause)) => error.cause == *cause,
        _ => false,
    }
}

fn has_status(alloc: Global, octets: &[u8], key: &[u8], end: &Result<u16, Cause>) -> bool {
    let params = EncryptionParams::default_for_client();
    match found(alloc, KrbPrivMessage::read(alloc, octets)) {
        Some(message) => is_status(
            &extract_status_code_from_krb_priv_response(alloc, &message.krb_priv, key, &params),
            end,
        ),
        None => false,
    }
}

#[test]
fn answers_to_a_new_password_have_codes(rt: HostRuntime) -> Result<(), Fail> {
    let key = octets("000102030405060708090a0b0c0d0e0f101112131415161718191a1b1c1d1e1f")?;
    for (digits, end) in &answers::STATUSES {
        let row = octets(digits)?;
        assert!(rt;
            has_status(rt.alloc(), row.as_slice(), key.as_slice(), end),
            "{digits}"
        );
    }
    Ok(())
}

/// Names of tickets, and the realm that each refers to: `krbtgt` in letters of either case with one component after it.
static REALMS: [(&str, Option<&str>); 6] = [
    (
        "3020a003020102a11930171b066b72627467741b0d4445562e524a4d2e4c4f43414c",
        Some("DEV.RJM.LOCAL"),
    ),
    (
        "3023a003020102a11c301a1b064b72625467741b10434f52502e4558414d504c452e434f4d",
        Some("CORP.EXAMPLE.COM"),
    ),
    (
        "3029a003020102a12230201b04636966731b1866696c657365727665722e6465762e726a6d2e6c6f63616c",
        None,
    ),
    ("3009a003020102a1023000", None),
    ("3011a003020102a10a30081b066b7262746774", None),
    (
        "301fa003020102a11830161b066b72627467741b05412e434f4d1b05422e434f4d",
        None,
    ),
];

fn is_realm(found: Option<&Name>, wanted: Option<&str>) -> bool {
    match (found, wanted) {
        (Some(realm), Some(text)) => realm.as_str() == text,
        (None, None) => true,
        _ => false,
    }
}

fn refers(alloc: Global, octets: &[u8], wanted: Option<&str>) -> bool {
    match found(alloc, PrincipalName::read(alloc, octets)) {
        Some(name) => is_realm(referral_target_realm(&name), wanted),
        None => false,
    }
}

#[test]
fn tickets_refer_to_realms(rt: HostRuntime) -> Result<(), Fail> {
    for (digits, wanted) in &REALMS {
        let row = octets(digits)?;
        assert!(rt; refers(rt.alloc(), row.as_slice(), *wanted), "{digits}");
    }
    Ok(())
}

/// Whether a token has this ticket.
fn is_found(answer: &Result<Option<(Ticket, Oid<'_>)>, Error>, end: &Result<Found, Cause>) -> bool {
    match (answer, end) {
        (Ok(Some((ticket, oid))), Ok(Some((wanted, cipher)))) => {
            is_row(oid.contents(), wanted) && is_row(ticket.enc_part.cipher.as_slice(), cipher)
        }
        (Ok(None), Ok(None)) => true,
        (Err(error), Err(cause)) => error.cause == *cause,
        _ => false,
    }
}

#[test]
fn tokens_for_user_to_user_have_tickets(rt: HostRuntime) -> Result<(), Fail> {
    for (digits, end) in &answers::TICKETS {
        let row = octets(digits)?;
        let answer = extract_tgt_ticket_with_oid(rt.alloc(), row.as_slice());
        assert!(rt; is_found(&answer, end), "{digits}");
    }
    Ok(())
}
