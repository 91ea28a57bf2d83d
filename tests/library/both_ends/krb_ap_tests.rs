//! An initiator and the answer of a service in Java, by the rules of its context.

use crate::krb_ends_tests::tokens::is_hex;
use krb_ap::{Initiator, take_ap_rep};
use krb_as::InitDone;
use krb_context::{EncryptionParams, Rules};
use krb_crypto::CipherSuite;
use krb_der::{Octets, boxed};
use sspi_core::{Cause, ClientRequestFlags, Draw, Secret};
use std::alloc::Global;
use std::test::Fail;

/// The AP-REP that a service of Java 17 answered with, which has no subkey.
const ANSWER: &str =
    "606a06092a864886f71201020202006f5b3059a003020105a10302010fa24d304ba003020112a2440442059a4a92e436011061939d94cf\
     2edd4c7f7e62f2b0943e5ee4f37e9db777b33556b63fa704c6f1161b7327a49775b49976bab7f24f21613377ad0dc79da1636d3fe8";

/// The session key of the service's ticket, as another implementation of RFC 3962 opened it in the KDC's reply.
const SESSION_KEY: &str = "c59262f943304b6d578d7f84ca8d2884f4eaf229da9e38a31542087b812bc214";

/// The subkey of the authenticator that was answered.
const SUBKEY: &str = "327fdd3ab63720327f53a6b770caf132077d9e8f71929f3a4604e3d6b0de2140";

fn secret(alloc: Global, digits: &str) -> Result<Option<Secret<Octets>>, Fail> {
    Ok(Some(Secret::new(Octets::new(hex::decode(alloc, digits)?))))
}

/// An initiator that showed the ticket, with the number 16909060 of its own.
fn initiator(alloc: Global, rules: Rules, kept: bool) -> Result<Initiator, Fail> {
    let mut params = EncryptionParams::of_suite(CipherSuite::Aes256CtsHmacSha196);
    params.session_key = secret(alloc, SESSION_KEY)?;
    if kept {
        params.sub_session_key = secret(alloc, SUBKEY)?;
    }
    Ok(Initiator {
        params,
        number: 16_909_060,
        realm: None,
        user_to_user: false,
        flags: ClientRequestFlags::MUTUAL_AUTH,
        rules,
        asked_at: None,
    })
}

/// Its result after the answer, if it showed its authenticator at this moment.
fn taken_at(
    alloc: Global,
    rules: Rules,
    asked_at: Option<u64>,
) -> Result<Result<InitDone, Cause>, Fail> {
    let mut initiator = boxed(alloc, initiator(alloc, rules, true)?)?;
    initiator.asked_at = asked_at;
    let token = hex::decode(alloc, ANSWER)?;
    let draw = Draw {
        moment: 1_795_798_317_719_310,
        random: [0; 64],
    };
    Ok(take_ap_rep(alloc, &initiator, &token, &draw))
}

/// Its result after the answer.
fn taken(alloc: Global, rules: Rules, kept: bool) -> Result<Result<InitDone, Cause>, Fail> {
    let initiator = boxed(alloc, initiator(alloc, rules, kept)?)?;
    let token = hex::decode(alloc, ANSWER)?;
    let draw = Draw {
        moment: 1_795_798_317_719_310,
        random: [0; 64],
    };
    Ok(take_ap_rep(alloc, &initiator, &token, &draw))
}

fn is_refused(answer: Result<InitDone, Cause>) -> bool {
    match answer {
        Ok(_) => false,
        Err(cause) => cause == Cause::NoSubKey,
    }
}

/// Whether the context is established with the authenticator's subkey and this number.
fn is_established(alloc: Global, answer: &Result<InitDone, Cause>, number: u32) -> bool {
    let Ok(done) = answer else {
        return false;
    };
    let params = &done.change.encryption_params;
    match &params.sub_session_key {
        Some(key) => {
            is_hex(alloc, key.as_ref().as_slice(), SUBKEY)
                && !params.acceptor_subkey
                && done.change.seq_number == number
        }
        None => false,
    }
}

#[test]
fn an_answer_without_a_subkey_leaves_the_own_one(rt: HostRuntime) -> Result<(), Fail> {
    let alloc = rt.alloc();
    let alone = Rules::AP_REP_WITHOUT_SUBKEY;
    let with_number = alone | Rules::FIRST_NUMBER_AS_SHOWN;
    assert!(rt; is_established(alloc, &taken(alloc, alone, true)?, 16_909_061));
    assert!(rt; is_established(alloc, &taken(alloc, with_number, true)?, 16_909_060));
    Ok(())
}

#[test]
fn an_answer_without_a_subkey_is_refused_else(rt: HostRuntime) -> Result<(), Fail> {
    let alloc = rt.alloc();
    let rule = Rules::AP_REP_WITHOUT_SUBKEY;
    assert!(rt; is_refused(taken(alloc, Rules::none(), true)?));
    assert!(rt; is_refused(taken(alloc, rule, false)?));
    Ok(())
}

/// When an authenticator was shown, and whether the answer, of 2026-11-27, 16:51:57, and 52807 microseconds, is its own.
static MOMENTS: [(Option<u64>, bool); 8] = [
    (Some(1_795_798_317_052_807), true),
    (Some(1_795_798_317_052_806), false),
    (Some(1_795_798_317_052_808), false),
    (Some(1_795_798_316_052_807), false),
    (Some(1_795_798_318_052_807), false),
    // The moment at which the answer comes.
    (Some(1_795_798_317_719_310), false),
    (Some(0), false),
    (None, false),
];

fn moments() -> &'static [(Option<u64>, bool)] {
    &MOMENTS
}

fn cause_of(answer: Result<InitDone, Cause>) -> Option<Cause> {
    match answer {
        Ok(_) => None,
        Err(cause) => Some(cause),
    }
}

#[test]
fn an_answer_has_the_time_of_its_authenticator(rt: HostRuntime) -> Result<(), Fail> {
    let without = Rules::AP_REP_WITHOUT_SUBKEY;
    let with = without | Rules::ANSWERS_ITS_AUTHENTICATOR;
    for (moment, is_own) in moments() {
        let refusal = if *is_own {
            None
        } else {
            Some(Cause::ReplyTime)
        };
        assert_eq!(rt; cause_of(taken_at(rt.alloc(), with, *moment)?), refusal);
        assert_eq!(rt; cause_of(taken_at(rt.alloc(), without, *moment)?), None);
    }
    Ok(())
}

/// The time is looked at before the subkey.
#[test]
fn an_answer_of_another_time_is_refused_before_its_subkey(rt: HostRuntime) -> Result<(), Fail> {
    let rules = Rules::ANSWERS_ITS_AUTHENTICATOR;
    let own = taken_at(rt.alloc(), rules, Some(1_795_798_317_052_807))?;
    assert_eq!(rt; cause_of(own), Some(Cause::NoSubKey));
    let other = taken_at(rt.alloc(), rules, Some(0))?;
    assert_eq!(rt; cause_of(other), Some(Cause::ReplyTime));
    Ok(())
}
