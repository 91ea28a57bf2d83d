//! Refusals and admissions of each rule of an acceptor, of tokens that other programs made: by no rule, by this one alone, and by all.

use super::recorded::{
    ADMIN, ALICE, AT_ONCE, BOUND, BOUND_TO_OTHERS, CHECKED, DELEGATED, DIRECT, ENTERPRISE, HEIMDAL,
    HEIMDAL_BOUND, HOST, INVALID, JAVA, JAVA_BOUND, KEY, NO_GSS_CHECKSUM, OTHER_COMPONENT,
    OTHER_REALM, OTHER_TYPE, Recorded, UNCHECKED,
};
use super::{ONE_WAY, context_of, context_with, draw};
use bitflags::Flags;
use krb_conf::Env;
use krb_context::{Kerberos, Rules, ServerProperties};
use krb_der::{Octets, boxed};
use krb_replay::{ReplayBook, ReplayGate};
use krb_server::{Accepted, accept_security_context};
use sspi_core::{Cause, Draw, Secret, ServerRequestFlags, Username};
use std::alloc::Global;
use std::test::Fail;

/// The user name of an admitted client, no text where it has none; or why it is refused.
type Outcome = Result<&'static str, Cause>;

const USER: Outcome = Ok("alice@example.com");

const GUEST: Outcome = Ok("alice@home.org");

const NO_USER: Outcome = Ok("");

/// The MD5 of the bindings `tls-server-end-point:one` without addresses (RFC 4121, section 4.1.1.2).
const ONE: [u8; 16] = [
    0x48, 0x6b, 0x55, 0xae, 0xd1, 0xff, 0x64, 0x35, 0x75, 0xfa, 0xc8, 0x9b, 0x1e, 0x01, 0x70, 0x92,
];

/// Bindings with addresses of type 255 and no octets, as Java gives them.
const ONE_OF_JAVA: [u8; 16] = [
    0x7c, 0xcc, 0x71, 0x08, 0x5e, 0x69, 0x6e, 0x39, 0x43, 0x07, 0x0c, 0x8b, 0x39, 0xd5, 0x40, 0x09,
];

const NOT_BOUND: [Outcome; 3] = [USER, Err(Cause::Bindings), Err(Cause::Bindings)];

/// A token, a rule, the channel of the acceptor, and what it answers by no rule, by this one, and by all.
type Row = (Recorded, Rules, Option<[u8; 16]>, [Outcome; 3]);

static ROWS: [Row; 32] = [
    (ALICE, Rules::NAMES_BY_COMPONENTS, None, [USER; 3]),
    (
        OTHER_TYPE,
        Rules::NAMES_BY_COMPONENTS,
        None,
        [Err(Cause::Names), Err(Cause::ClientName), NO_USER],
    ),
    (
        OTHER_COMPONENT,
        Rules::NAMES_BY_COMPONENTS,
        None,
        [Err(Cause::Names); 3],
    ),
    (
        OTHER_REALM,
        Rules::NAMES_BY_COMPONENTS,
        None,
        [Err(Cause::Names); 3],
    ),
    (ALICE, Rules::CLIENTS_OF_ANY_NAME, None, [USER; 3]),
    (
        ADMIN,
        Rules::CLIENTS_OF_ANY_NAME,
        None,
        [USER, NO_USER, NO_USER],
    ),
    (
        HOST,
        Rules::CLIENTS_OF_ANY_NAME,
        None,
        [Err(Cause::ClientName), NO_USER, NO_USER],
    ),
    (
        ENTERPRISE,
        Rules::CLIENTS_OF_ANY_NAME,
        None,
        [Ok("alice@example.org"), NO_USER, NO_USER],
    ),
    (
        OTHER_TYPE,
        Rules::CLIENTS_OF_ANY_NAME,
        None,
        [Err(Cause::Names), Err(Cause::Names), NO_USER],
    ),
    (ALICE, Rules::VALID_TICKETS, None, [USER; 3]),
    (
        INVALID,
        Rules::VALID_TICKETS,
        None,
        [USER, Err(Cause::NotYet), Err(Cause::NotYet)],
    ),
    (ALICE, Rules::CHECKED_TRANSIT, None, [USER; 3]),
    (DIRECT, Rules::CHECKED_TRANSIT, None, [GUEST; 3]),
    (CHECKED, Rules::CHECKED_TRANSIT, None, [GUEST; 3]),
    (
        UNCHECKED,
        Rules::CHECKED_TRANSIT,
        None,
        [GUEST, Err(Cause::Transited), Err(Cause::Transited)],
    ),
    (
        INVALID,
        Rules::CHECKED_TRANSIT,
        None,
        [USER, USER, Err(Cause::NotYet)],
    ),
    (AT_ONCE, Rules::RECORDS_BY_TAG, None, [USER; 3]),
    // An acceptor without a channel holds nobody to one.
    (ALICE, Rules::BOUND_TO_ITS_CHANNEL, None, [USER; 3]),
    (BOUND, Rules::BOUND_TO_ITS_CHANNEL, None, [USER; 3]),
    (
        NO_GSS_CHECKSUM,
        Rules::BOUND_TO_ITS_CHANNEL,
        None,
        [USER; 3],
    ),
    (BOUND, Rules::BOUND_TO_ITS_CHANNEL, Some(ONE), [USER; 3]),
    (DELEGATED, Rules::BOUND_TO_ITS_CHANNEL, Some(ONE), [USER; 3]),
    (
        HEIMDAL_BOUND,
        Rules::BOUND_TO_ITS_CHANNEL,
        Some(ONE),
        [USER; 3],
    ),
    (
        JAVA_BOUND,
        Rules::BOUND_TO_ITS_CHANNEL,
        Some(ONE_OF_JAVA),
        [USER; 3],
    ),
    (
        BOUND_TO_OTHERS,
        Rules::BOUND_TO_ITS_CHANNEL,
        Some(ONE),
        NOT_BOUND,
    ),
    (
        JAVA_BOUND,
        Rules::BOUND_TO_ITS_CHANNEL,
        Some(ONE),
        NOT_BOUND,
    ),
    (ALICE, Rules::BOUND_TO_ITS_CHANNEL, Some(ONE), NOT_BOUND),
    (HEIMDAL, Rules::BOUND_TO_ITS_CHANNEL, Some(ONE), NOT_BOUND),
    (JAVA, Rules::BOUND_TO_ITS_CHANNEL, Some(ONE), NOT_BOUND),
    (
        NO_GSS_CHECKSUM,
        Rules::BOUND_TO_ITS_CHANNEL,
        Some(ONE),
        [USER, Err(Cause::Checksum), Err(Cause::Checksum)],
    ),
    // The ticket is looked at before the channel.
    (
        INVALID,
        Rules::BOUND_TO_ITS_CHANNEL,
        Some(ONE),
        [USER, Err(Cause::Bindings), Err(Cause::NotYet)],
    ),
    (
        UNCHECKED,
        Rules::BOUND_TO_ITS_CHANNEL,
        Some(ONE),
        [GUEST, Err(Cause::Bindings), Err(Cause::Transited)],
    ),
];

fn rows() -> &'static [Row] {
    &ROWS
}

/// The service that the recorded tokens are for.
fn service(alloc: Global) -> Result<Box<ServerProperties>, Fail> {
    let key = Secret::new(Octets::new(hex::decode(alloc, KEY)?));
    let server = ServerProperties::new(
        alloc,
        &["host", "server.example.com"],
        None,
        300,
        Some(key),
    )?;
    Ok(boxed(alloc, server)?)
}

/// An acceptor of that service by these rules.
pub(super) fn acceptor(
    alloc: Global,
    rules: Rules,
    channel: Option<[u8; 16]>,
) -> Result<Box<Kerberos>, Fail> {
    let mut context = context_with(alloc, service(alloc)?, 100)?;
    context.rules = rules;
    context.channel = channel;
    Ok(context)
}

/// The random octets of each draw, at this moment.
pub(super) fn draw_at(moment: u64) -> Draw {
    Draw {
        moment,
        random: draw().random,
    }
}

/// Why the token is refused, if it is, at this moment.
pub(super) fn refusal_at<G: ReplayGate>(
    alloc: Global,
    server: &mut Kerberos,
    gate: &mut G,
    token: &str,
    moment: u64,
) -> Result<Option<Cause>, Fail> {
    let token = hex::decode(alloc, token)?;
    let flags = ServerRequestFlags::empty();
    match accept_security_context(
        alloc,
        server,
        gate,
        &token,
        flags,
        &Env::new(alloc),
        &draw_at(moment),
    ) {
        Ok(Accepted::Done { .. }) => Ok(None),
        // The service is no user, so no token begins an exchange.
        Ok(Accepted::Run(_)) => Ok(Some(Cause::Credentials)),
        Err(error) => Ok(Some(error.cause)),
    }
}

/// The user name of the client that was admitted.
fn user(server: &Kerberos) -> Option<&Username> {
    match &server.server {
        Some(properties) => properties.client.as_ref(),
        None => None,
    }
}

fn is_user(alloc: Global, user: Option<&Username>, text: &str) -> Result<bool, Fail> {
    match user {
        Some(user) => {
            let wanted = Username::parse(alloc, text)?;
            Ok(*user == wanted)
        }
        None => Ok(text.is_empty()),
    }
}

fn is_so(
    alloc: Global,
    server: &mut Kerberos,
    token: &Recorded,
    outcome: &Outcome,
) -> Result<bool, Fail> {
    let mut book = ReplayBook::new(alloc, 300)?;
    let refusal = refusal_at(alloc, server, &mut book, token.token, token.moment)?;
    match (refusal, outcome) {
        (None, Ok(text)) => is_user(alloc, user(server), text),
        (Some(cause), Err(wanted)) => Ok(cause == *wanted && user(server).is_none()),
        _ => Ok(false),
    }
}

fn is_answered_so(
    alloc: Global,
    (token, _, channel, _): &Row,
    rules: Rules,
    outcome: &Outcome,
) -> Result<bool, Fail> {
    let mut server = acceptor(alloc, rules, *channel)?;
    is_so(alloc, &mut server, token, outcome)
}

#[test]
fn a_rule_refuses_and_admits(rt: HostRuntime) -> Result<(), Fail> {
    for (place, row) in rows().iter().enumerate() {
        let (_, rule, _, [without, with, all]) = row;
        assert!(rt;
            is_answered_so(rt.alloc(), row, Rules::none(), without)?,
            "row {place}, by no rule"
        );
        assert!(rt;
            is_answered_so(rt.alloc(), row, *rule, with)?,
            "row {place}, by its rule"
        );
        assert!(rt;
            is_answered_so(rt.alloc(), row, Rules::rfc(), all)?,
            "row {place}, by all"
        );
    }
    Ok(())
}

/// A rule that refuses a token is asked before the gate: what the gate would refuse too is refused by the rule, and leaves no record.
struct Early {
    token: Recorded,
    channel: Option<[u8; 16]>,
    cause: Cause,
}

static EARLY: [Early; 4] = [
    Early {
        token: INVALID,
        channel: None,
        cause: Cause::NotYet,
    },
    Early {
        token: UNCHECKED,
        channel: None,
        cause: Cause::Transited,
    },
    Early {
        token: NO_GSS_CHECKSUM,
        channel: Some(ONE),
        cause: Cause::Checksum,
    },
    Early {
        token: BOUND_TO_OTHERS,
        channel: Some(ONE),
        cause: Cause::Bindings,
    },
];

fn early() -> &'static [Early] {
    &EARLY
}

/// The answer of a new acceptor with this book.
fn answer_by(
    alloc: Global,
    row: &Early,
    rules: Rules,
    book: &mut ReplayBook,
    moment: u64,
) -> Result<Option<Cause>, Fail> {
    let mut server = acceptor(alloc, rules, row.channel)?;
    refusal_at(alloc, &mut server, book, row.token.token, moment)
}

/// By all rules and by none an hour later, each at a book of its own, and then at one book by all, by none, and by none again.
fn answers(alloc: Global, row: &Early) -> Result<[Option<Cause>; 5], Fail> {
    let (now, later) = (row.token.moment, row.token.moment + 3_600_000_000);
    let (all, none) = (Rules::rfc(), Rules::none());
    let mut book = ReplayBook::new(alloc, 300)?;
    let mut late = ReplayBook::new(alloc, 300)?;
    Ok([
        answer_by(alloc, row, all, &mut late, later)?,
        answer_by(alloc, row, none, &mut late, later)?,
        answer_by(alloc, row, all, &mut book, now)?,
        answer_by(alloc, row, none, &mut book, now)?,
        answer_by(alloc, row, none, &mut book, now)?,
    ])
}

#[test]
fn a_rule_is_asked_before_the_gate(rt: HostRuntime) -> Result<(), Fail> {
    for row in early() {
        let refusal = Some(row.cause);
        let expected = [
            refusal,
            Some(Cause::Skew),
            refusal,
            None,
            Some(Cause::Replayed),
        ];
        assert_eq!(rt; answers(rt.alloc(), row)?, expected);
    }
    Ok(())
}

/// A ticket of the service's own realm whose flags are all clear came through no realm, and is taken by all rules.
#[test]
fn a_ticket_without_flags_is_direct(rt: HostRuntime) -> Result<(), Fail> {
    let mut server = context_of(rt.alloc(), 100)?;
    server.rules = Rules::rfc();
    let mut book = ReplayBook::new(rt.alloc(), 300)?;
    let refusal = refusal_at(rt.alloc(), &mut server, &mut book, ONE_WAY, draw().moment)?;
    assert_eq!(rt; refusal, None);
    assert!(rt; is_user(rt.alloc(), user(&server), "alice@example.com")?);
    Ok(())
}
