//! An initiator over the replies of honest KDCs, an acceptor that holds the service's key, the tokens between them, and messages of
//! each to the other: each law of `krb_laws_ends` has values here that meet its premises, and calls whose answers it tells.

mod network;
pub mod parties;
pub mod sessions;
mod talk;
pub mod tokens;

use krb_context::{Kerberos, Rules};
use krb_crypto::CipherSuite;
use krb_der::Octets;
use krb_replay::ReplayBook;
use parties::{acceptor_of, both_rules, initiator_of};
use sessions::{
    FRAMED, IN_DCE_STYLE, OF_A_KEYTAB, OVER_A_REFERRAL, OVER_A_REFERRAL_IN_DCE_STYLE,
    OVER_NINE_REFERRALS, without_an_error,
};
use sspi_core::Secret;
use std::alloc::Global;
use std::test::Fail;
use talk::{IN_ANOTHER_ORDER, IN_ORDER, IN_TURNS, Turn, WITH_LOSSES, understand};
use tokens::{answer, ends_so, establishes, establishes_one_way, is_answered_so, is_hex, offer};

/// The name of a client.
#[derive(Drop)]
pub enum Has {
    /// The user `alice` of EXAMPLE.COM, with this password.
    Password(&'static str),
    /// A client with this key in hex, and its encryption type.
    Key(&'static str, u8),
}

/// A client, the service's key, what the KDCs reply, the tokens that then go from one end to the other, and what both ends then
/// have. Octets are in hex.
#[derive(Drop)]
pub struct Session {
    pub has: Has,
    /// The number that the client's context begins with.
    pub number: [u8; 4],
    /// The client's machine.
    pub machine: &'static str,
    /// Whether it asks for all that a context can do, or for mutual authentication alone.
    pub all: bool,
    pub dce: bool,
    pub key: &'static str,
    pub replies: &'static [&'static str],
    /// The AP-REQ.
    pub offer: &'static str,
    /// The AP-REP.
    pub answer: &'static str,
    /// The third leg, or nothing.
    pub last: &'static str,
    pub suite: CipherSuite,
    /// The key in the service's ticket.
    pub session_key: &'static str,
    /// The key that the service drew.
    pub sub_session_key: &'static str,
}

impl Session {
    /// The reply of a KDC that has this place among those of the session, in hex.
    pub fn reply(&self, place: usize) -> &'static str {
        match self.replies.get(place) {
            Some(digits) => digits,
            None => "",
        }
    }
}

/// A test of both ends of a session.
#[derive(Clone, Copy)]
enum Trial {
    /// The initiator begins, over the replies of the KDCs: twice, and each time it ends with the offer.
    Offers,
    /// The acceptor answers the offer.
    Answers,
    /// Both are established by their tokens, and then understand each other.
    Talks(&'static [Turn]),
}

fn is_key(alloc: Global, key: &Option<Secret<Octets>>, digits: &str) -> bool {
    match key {
        Some(key) => is_hex(alloc, key.as_ref().as_slice(), digits),
        None => false,
    }
}

/// Whether an end is established as the session says.
pub fn is_established(alloc: Global, session: &Session, context: &Kerberos) -> bool {
    let params = &context.encryption_params;
    let filler = if session.dce { 16 } else { 0 };
    context.state.is_final()
        && params.suite() == session.suite
        && params.ec == filler
        && is_key(alloc, &params.session_key, session.session_key)
        && is_key(alloc, &params.sub_session_key, session.sub_session_key)
}

/// Whether an initiator ends with its offer over the replies, each time that it is called.
fn offers(alloc: Global, session: &Session, initiator: &Kerberos) -> Result<bool, Fail> {
    let first = ends_so(alloc, initiator, session, &offer(session))?;
    let second = ends_so(alloc, initiator, session, &offer(session))?;
    Ok(first && second)
}

/// Whether both ends are established by their tokens, and then understand each other.
fn talks(
    alloc: Global,
    session: &Session,
    turns: &[Turn],
    initiator: &mut Kerberos,
    acceptor: &mut Kerberos,
    book: &mut ReplayBook,
) -> Result<bool, Fail> {
    let tokens = establishes(alloc, session, initiator, acceptor, book)?;
    let keys = is_established(alloc, session, initiator)
        && is_established(alloc, session, acceptor);
    Ok(tokens && keys && understand(alloc, initiator, acceptor, turns)?)
}

fn holds_between(
    alloc: Global,
    session: &Session,
    trial: Trial,
    initiator: &mut Kerberos,
    acceptor: &mut Kerberos,
    book: &mut ReplayBook,
) -> Result<bool, Fail> {
    match trial {
        Trial::Offers => offers(alloc, session, initiator),
        Trial::Answers => is_answered_so(alloc, acceptor, book, &answer(session), true),
        Trial::Talks(turns) => talks(alloc, session, turns, initiator, acceptor, book),
    }
}

fn holds_at_both(
    alloc: Global,
    session: &Session,
    trial: Trial,
    initiator: &mut Kerberos,
    acceptor: &mut Kerberos,
) -> Result<bool, Fail> {
    let mut book = ReplayBook::new(alloc, 300)?;
    holds_between(alloc, session, trial, initiator, acceptor, &mut book)
}

fn holds_at(
    alloc: Global,
    session: &Session,
    trial: Trial,
    initiator: &mut Kerberos,
) -> Result<bool, Fail> {
    let mut acceptor = acceptor_of(alloc, session, initiator.rules)?;
    holds_at_both(alloc, session, trial, initiator, &mut acceptor)
}

/// Whether that holds between two new ends with these rules.
fn holds_by(alloc: Global, session: &Session, trial: Trial, rules: Rules) -> Result<bool, Fail> {
    let mut initiator = initiator_of(alloc, session, rules)?;
    holds_at(alloc, session, trial, &mut initiator)
}

/// Whether it holds without a rule and by those of the RFCs.
fn holds(alloc: Global, session: &Session, trial: Trial) -> Result<bool, Fail> {
    for rules in both_rules() {
        if !holds_by(alloc, session, trial, rules)? {
            return Ok(false);
        }
    }
    Ok(true)
}

/// An initiator begins to ask; over honest KDCs it asks for all their replies, and ends with one offer and no other.
#[test]
fn honest_kdcs_lead_to_an_offer(rt: HostRuntime) -> Result<(), Fail> {
    assert!(rt; holds(rt.alloc(), &IN_DCE_STYLE, Trial::Offers)?);
    assert!(rt; holds(rt.alloc(), &OF_A_KEYTAB, Trial::Offers)?);
    assert!(rt; holds(rt.alloc(), &OVER_A_REFERRAL, Trial::Offers)?);
    assert!(rt; holds(rt.alloc(), &OVER_NINE_REFERRALS, Trial::Offers)?);
    Ok(())
}

/// The AP-REQ of an honest offer is admitted, and answered by an AP-REP.
#[test]
fn honest_requests_are_answered(rt: HostRuntime) -> Result<(), Fail> {
    assert!(rt; holds(rt.alloc(), &IN_DCE_STYLE, Trial::Answers)?);
    assert!(rt; holds(rt.alloc(), &OF_A_KEYTAB, Trial::Answers)?);
    assert!(rt; holds(rt.alloc(), &OVER_A_REFERRAL, Trial::Answers)?);
    Ok(())
}

/// From the credentials of a client to established ends: in frames the acceptor's answer is the last token.
#[test]
fn both_ends_reach_one_context(rt: HostRuntime) -> Result<(), Fail> {
    assert!(rt; holds(rt.alloc(), &FRAMED, Trial::Talks(&[]))?);
    assert!(rt; holds(rt.alloc(), &OF_A_KEYTAB, Trial::Talks(&[]))?);
    assert!(rt; holds(rt.alloc(), &OVER_A_REFERRAL, Trial::Talks(&[]))?);
    assert!(rt; holds(rt.alloc(), &OVER_NINE_REFERRALS, Trial::Talks(&[]))?);
    Ok(())
}

/// In DCE style the initiator has the third leg.
#[test]
fn both_ends_reach_one_context_in_dce_style(rt: HostRuntime) -> Result<(), Fail> {
    assert!(rt; holds(rt.alloc(), &IN_DCE_STYLE, Trial::Talks(&[]))?);
    assert!(rt; holds(rt.alloc(), &OVER_A_REFERRAL_IN_DCE_STYLE, Trial::Talks(&[]))?);
    Ok(())
}

#[test]
fn messages_open_in_their_order(rt: HostRuntime) -> Result<(), Fail> {
    assert!(rt; holds(rt.alloc(), &OF_A_KEYTAB, Trial::Talks(&IN_ORDER))?);
    assert!(rt; holds(rt.alloc(), &IN_DCE_STYLE, Trial::Talks(&IN_ORDER))?);
    Ok(())
}

#[test]
fn messages_open_in_any_order(rt: HostRuntime) -> Result<(), Fail> {
    assert!(rt; holds(rt.alloc(), &OF_A_KEYTAB, Trial::Talks(&IN_ANOTHER_ORDER))?);
    assert!(rt; holds(rt.alloc(), &IN_DCE_STYLE, Trial::Talks(&IN_ANOTHER_ORDER))?);
    Ok(())
}

#[test]
fn messages_open_where_others_are_lost(rt: HostRuntime) -> Result<(), Fail> {
    assert!(rt; holds(rt.alloc(), &OF_A_KEYTAB, Trial::Talks(&WITH_LOSSES))?);
    assert!(rt; holds(rt.alloc(), &IN_DCE_STYLE, Trial::Talks(&WITH_LOSSES))?);
    Ok(())
}

/// Both directions go on next to each other, also where MIC tokens take numbers.
#[test]
fn established_ends_understand_each_other(rt: HostRuntime) -> Result<(), Fail> {
    assert!(rt; holds(rt.alloc(), &OVER_A_REFERRAL, Trial::Talks(&IN_TURNS))?);
    assert!(rt;
        holds(
            rt.alloc(),
            &OVER_A_REFERRAL_IN_DCE_STYLE,
            Trial::Talks(&IN_TURNS)
        )?
    );
    Ok(())
}

/// Where a rule says so, a KDC asks for no pre-authentication, and both ends are the same.
#[test]
fn no_error_comes_where_that_is_a_rule(rt: HostRuntime) -> Result<(), Fail> {
    let alloc = rt.alloc();
    let session = without_an_error();
    for rules in [Rules::NO_PREAUTHENTICATION, Rules::rfc()] {
        assert!(rt; holds_by(alloc, &session, Trial::Talks(&IN_ORDER), rules)?);
    }
    Ok(())
}

/// Whether both ends are established by one token, and then understand each other, where the initiator has these rules.
fn talks_one_way(alloc: Global, rules: Rules) -> Result<bool, Fail> {
    let mut initiator = initiator_of(alloc, &FRAMED, rules)?;
    let mut acceptor = acceptor_of(alloc, &FRAMED, Rules::none())?;
    let mut book = ReplayBook::new(alloc, 300)?;
    let tokens = establishes_one_way(alloc, &FRAMED, &mut initiator, &mut acceptor, &mut book)?;
    Ok(tokens && understand(alloc, &mut initiator, &mut acceptor, &IN_ORDER)?)
}

/// An initiator that asks for no answer is established if that is a rule.
#[test]
fn no_answer_is_awaited_where_that_is_a_rule(rt: HostRuntime) -> Result<(), Fail> {
    let alloc = rt.alloc();
    let alone = Rules::ONE_WAY_IS_SETTLED;
    let more = Rules::FIRST_NUMBER_AS_SHOWN | Rules::SUBKEY_FLAG_BY_ORIGIN;
    assert!(rt; talks_one_way(alloc, alone)?);
    assert!(rt; talks_one_way(alloc, alone | more)?);
    assert!(rt; talks_one_way(alloc, Rules::rfc())?);
    assert!(rt; !talks_one_way(alloc, more)?);
    Ok(())
}
