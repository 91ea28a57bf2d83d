//! Records and messages, taken apart and put together again, and octets that are none.

mod refused;
mod replies;
mod requests;

use crate::rows::{Row, octets};
use krb_der::{Asn1, Fault, Items, Octets, TryCopy};
use krb_exchange::{
    AsRep, AsReq, EncAsRepPart, EncKdcRepPart, EncKrbPrivPart, EncTgsRepPart, EtypeInfo2Entry,
    KdcProxyMessage, KdcReqBody, KerbPaPacRequest, KrbError, KrbPriv, KrbPrivMessage, KrbResult,
    LastReqEntry, PaData, PaEncTsEnc, PaPacOptions, TgsRep, TgsReq, TgtRep, TgtReq, read_result,
};
use std::alloc::Global;
use std::process::Abort;
use std::test::Fail;

/// The octets of a record that was read, copied and written again.
fn rewritten<T: Asn1 + TryCopy>(alloc: Global, octets: &[u8]) -> Result<Octets, Fault> {
    if octets.len() > 4096 {
        return Err(Fault::Shape);
    }
    let record: T = T::read(alloc, octets)?;
    let copy = record.copy(alloc)?;
    Ok(copy.write(alloc)?)
}

fn is_refused<T: Asn1>(alloc: Global, octets: &[u8]) -> bool {
    matches!(&T::read(alloc, octets), Err(Fault::Shape))
}

/// Whether the octets are read and written back as they are, and refused with one more and at each proper prefix.
fn is_one_spelling<T: Asn1 + TryCopy>(alloc: Global, row: &Row) -> Result<bool, Fail> {
    let octets = row.as_slice();
    let again = rewritten::<T>(alloc, octets)?;
    let mut is_one = again.as_slice() == octets && is_refused::<T>(alloc, row.with_one_more());
    for end in 0..octets.len() {
        is_one = is_one && is_refused::<T>(alloc, &octets[..end]);
    }
    Ok(is_one)
}

fn assert_spelled<T: Asn1 + TryCopy>(
    rt: &(impl Abort + AllocGlobal),
    rows: &str,
) -> Result<(), Fail> {
    for line in rows.lines() {
        let row = octets(line)?;
        assert!(rt; is_one_spelling::<T>(rt.alloc(), &row)?, "{line}");
    }
    Ok(())
}

/// Each row has a word for what is wrong with it.
fn assert_refused<T: Asn1>(rt: &(impl Abort + AllocGlobal), rows: &str) -> Result<(), Fail> {
    for line in rows.lines() {
        let (_, digits) = line.split_once(' ').ok_or("a row has one word")?;
        let row = octets(digits)?;
        assert!(rt; is_refused::<T>(rt.alloc(), row.as_slice()), "{line}");
    }
    Ok(())
}

#[test]
fn parts_of_requests_have_one_spelling(rt: HostRuntime) -> Result<(), Fail> {
    assert_spelled::<PaData>(&rt, requests::PA_DATA)?;
    assert_spelled::<Items<PaData>>(&rt, requests::PA_DATAS)?;
    assert_spelled::<EtypeInfo2Entry>(&rt, requests::ETYPE_INFO2_ENTRY)?;
    assert_spelled::<Items<EtypeInfo2Entry>>(&rt, requests::ETYPE_INFO2)?;
    assert_spelled::<PaEncTsEnc>(&rt, requests::PA_ENC_TS_ENC)?;
    assert_spelled::<KerbPaPacRequest>(&rt, requests::KERB_PA_PAC_REQUEST)?;
    assert_spelled::<PaPacOptions>(&rt, requests::PA_PAC_OPTIONS)?;
    assert_spelled::<KdcReqBody>(&rt, requests::KDC_REQ_BODY)
}

#[test]
fn requests_have_one_spelling(rt: HostRuntime) -> Result<(), Fail> {
    assert_spelled::<AsReq>(&rt, requests::AS_REQ)?;
    assert_spelled::<TgsReq>(&rt, requests::TGS_REQ)?;
    assert_spelled::<TgtReq>(&rt, requests::TGT_REQ)?;
    assert_spelled::<KdcProxyMessage>(&rt, requests::KDC_PROXY_MESSAGE)
}

#[test]
fn replies_have_one_spelling(rt: HostRuntime) -> Result<(), Fail> {
    assert_spelled::<AsRep>(&rt, replies::AS_REP)?;
    assert_spelled::<TgsRep>(&rt, replies::TGS_REP)?;
    assert_spelled::<KrbError>(&rt, replies::KRB_ERROR)?;
    assert_spelled::<TgtRep>(&rt, replies::TGT_REP)?;
    assert_spelled::<KrbPriv>(&rt, replies::KRB_PRIV)
}

#[test]
fn sealed_parts_have_one_spelling(rt: HostRuntime) -> Result<(), Fail> {
    assert_spelled::<LastReqEntry>(&rt, replies::LAST_REQ_ENTRY)?;
    assert_spelled::<Items<LastReqEntry>>(&rt, replies::LAST_REQ)?;
    assert_spelled::<EncKdcRepPart>(&rt, replies::ENC_KDC_REP_PART)?;
    assert_spelled::<EncAsRepPart>(&rt, replies::ENC_AS_REP_PART)?;
    assert_spelled::<EncTgsRepPart>(&rt, replies::ENC_TGS_REP_PART)?;
    assert_spelled::<EncKrbPrivPart>(&rt, replies::ENC_KRB_PRIV_PART)
}

#[test]
fn requests_outside_the_grammar_are_refused(rt: HostRuntime) -> Result<(), Fail> {
    assert_refused::<PaData>(&rt, refused::PA_DATA)?;
    assert_refused::<EtypeInfo2Entry>(&rt, refused::ETYPE_INFO2_ENTRY)?;
    assert_refused::<PaEncTsEnc>(&rt, refused::PA_ENC_TS_ENC)?;
    assert_refused::<KerbPaPacRequest>(&rt, refused::KERB_PA_PAC_REQUEST)?;
    assert_refused::<PaPacOptions>(&rt, refused::PA_PAC_OPTIONS)?;
    assert_refused::<KdcReqBody>(&rt, refused::KDC_REQ_BODY)?;
    assert_refused::<AsReq>(&rt, refused::AS_REQ)?;
    assert_refused::<TgsReq>(&rt, refused::TGS_REQ)?;
    assert_refused::<TgtReq>(&rt, refused::TGT_REQ)?;
    assert_refused::<KdcProxyMessage>(&rt, refused::KDC_PROXY_MESSAGE)
}

#[test]
fn replies_outside_the_grammar_are_refused(rt: HostRuntime) -> Result<(), Fail> {
    assert_refused::<AsRep>(&rt, refused::AS_REP)?;
    assert_refused::<TgsRep>(&rt, refused::TGS_REP)?;
    assert_refused::<LastReqEntry>(&rt, refused::LAST_REQ_ENTRY)?;
    assert_refused::<EncKdcRepPart>(&rt, refused::ENC_KDC_REP_PART)?;
    assert_refused::<EncAsRepPart>(&rt, refused::ENC_AS_REP_PART)?;
    assert_refused::<EncTgsRepPart>(&rt, refused::ENC_TGS_REP_PART)?;
    assert_refused::<KrbError>(&rt, refused::KRB_ERROR)?;
    assert_refused::<TgtRep>(&rt, refused::TGT_REP)?;
    assert_refused::<KrbPriv>(&rt, refused::KRB_PRIV)?;
    assert_refused::<EncKrbPrivPart>(&rt, refused::ENC_KRB_PRIV_PART)
}

/// Why the octets are no message with an AP message, if they are none.
fn refusal(alloc: Global, octets: &[u8]) -> Option<Fault> {
    KrbPrivMessage::read(alloc, octets).err()
}

/// Whether the octets are read, and refused with one more.
fn is_message(alloc: Global, row: &Row) -> bool {
    refusal(alloc, row.as_slice()) == None
        && refusal(alloc, row.with_one_more()) == Some(Fault::Shape)
}

#[test]
fn changes_of_a_password_are_read(rt: HostRuntime) -> Result<(), Fail> {
    let alloc = rt.alloc();
    for line in replies::KRB_PRIV_MESSAGE.lines() {
        assert!(rt; is_message(alloc, &octets(line)?), "{line}");
    }
    for line in replies::UNCOMPARED.lines() {
        assert!(rt; is_message(alloc, &octets(line)?), "{line}");
    }
    for line in replies::UNCUT.lines() {
        let row = octets(line)?;
        assert!(rt;
            refusal(alloc, row.as_slice()) == Some(Fault::Shape),
            "{line}"
        );
    }
    Ok(())
}

/// The code of the error that the octets are in the place of a reply, or that they are a reply.
fn code_in<T: Asn1>(alloc: Global, octets: &[u8]) -> Result<Option<u32>, Fault> {
    match read_result::<T>(alloc, octets)? {
        KrbResult::Ok(_) => Ok(None),
        KrbResult::Err(error) => Ok(Some(error.error_code.value())),
    }
}

#[test]
fn a_kdc_answers_a_reply_or_an_error(rt: HostRuntime) -> Result<(), Fail> {
    let alloc = rt.alloc();
    let reply = octets(replies::AN_AS_REP)?;
    let error = octets(replies::AN_ERROR)?;
    assert_eq!(rt; code_in::<AsRep>(alloc, reply.as_slice()), Ok(None));
    assert_eq!(rt; code_in::<AsRep>(alloc, error.as_slice()), Ok(Some(25)));
    assert_eq!(rt; code_in::<TgsRep>(alloc, error.as_slice()), Ok(Some(25)));
    assert_eq!(rt;
        code_in::<TgsRep>(alloc, reply.as_slice()),
        Err(Fault::Shape)
    );
    assert_eq!(rt;
        code_in::<AsRep>(alloc, error.with_one_more()),
        Err(Fault::Shape)
    );
    Ok(())
}

/// Whether the body of every field has each moment in its own place.
fn has_moments(body: &KdcReqBody) -> bool {
    body.from.map(|time| time.seconds()) == Some(1_700_000_001)
        && body.till.seconds() == 1_700_000_002
        && body.rtime.map(|time| time.seconds()) == Some(1_700_000_003)
}

/// Whether the sealed part of every field has each moment in its own place.
fn has_times(part: &EncKdcRepPart) -> bool {
    part.key_expiration.map(|time| time.seconds()) == Some(1_700_000_001)
        && part.authtime.seconds() == 1_700_000_002
        && part.starttime.map(|time| time.seconds()) == Some(1_700_000_003)
        && part.endtime.seconds() == 1_700_000_004
        && part.renew_till.map(|time| time.seconds()) == Some(1_700_000_005)
}

/// Whether the error of every field has each name in its own place.
fn has_names(error: &KrbError) -> bool {
    error.realm.as_str() == "A"
        && error.crealm.as_ref().map(|realm| realm.as_str()) == Some("B")
        && error.e_text.as_ref().map(|text| text.as_str()) == Some("text")
        && error.ctime.map(|time| time.seconds()) == Some(1_700_000_001)
        && error.stime.seconds() == 1_700_000_000
        && error.susec.as_slice() == [1].as_slice()
        && error.error_code.value() == u32::MAX
}

fn body_in(alloc: Global, row: &Row) -> Result<bool, Fault> {
    let body = KdcReqBody::read(alloc, row.as_slice())?;
    Ok(has_moments(&body))
}

fn part_in(alloc: Global, row: &Row) -> Result<bool, Fault> {
    let part = EncKdcRepPart::read(alloc, row.as_slice())?;
    Ok(has_times(&part))
}

fn error_in(alloc: Global, row: &Row) -> Result<bool, Fault> {
    let error = KrbError::read(alloc, row.as_slice())?;
    Ok(has_names(&error))
}

#[test]
fn fields_of_one_kind_have_their_own_places(rt: HostRuntime) -> Result<(), Fail> {
    let alloc = rt.alloc();
    assert!(rt; body_in(alloc, &octets(replies::WHOLE_BODY)?)?);
    assert!(rt; part_in(alloc, &octets(replies::WHOLE_PART)?)?);
    assert!(rt; error_in(alloc, &octets(replies::WHOLE_ERROR)?)?);
    Ok(())
}
