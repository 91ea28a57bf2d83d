//! Where the session key of an initiator comes from: the replies that its own events brought.

use crate::krb_ends_tests::Session;
use crate::krb_ends_tests::parties::{add_initiator, both_rules, client_draw, env, octets};
use crate::krb_ends_tests::sessions::OVER_A_REFERRAL;
use crate::krb_ends_tests::tokens::is_hex;
use krb_context::Rules;
use krb_der::Octets;
use krb_machine::{Event, Input, Reply, Service};
use krb_replay::ReplayBook;
use sspi_core::{ClientRequestFlags, Secret};
use std::alloc::Global;
use std::test::Fail;

/// The input of an event.
enum Brought {
    Start,
    /// The reply of a KDC that has this place among those of the session.
    Reply(usize),
    /// An event past the last moment.
    LateReply(usize),
    Fault(u32),
}

/// Tokens at connections one after another, and whether the initiator at connection 10 then has a session key.
struct Stretch {
    events: &'static [(u32, Brought)],
    has_key: bool,
}

/// An exchange that ends with a fault in the place of the last reply, with events next to it that bring it nothing; and then one that
/// ends well.
static STRETCHES: [Stretch; 4] = [
    Stretch {
        events: &[
            (10, Brought::Start),
            (10, Brought::Reply(0)),
            (11, Brought::Start),
            (10, Brought::Reply(1)),
            (10, Brought::LateReply(2)),
            (11, Brought::Reply(0)),
            (10, Brought::Reply(2)),
        ],
        has_key: false,
    },
    Stretch {
        events: &[(10, Brought::Fault(5)), (10, Brought::Reply(3))],
        has_key: false,
    },
    Stretch {
        events: &[
            (10, Brought::Start),
            (10, Brought::Reply(0)),
            (10, Brought::Reply(1)),
            (10, Brought::Reply(2)),
        ],
        has_key: false,
    },
    Stretch {
        events: &[(10, Brought::Reply(3))],
        has_key: true,
    },
];

fn stretches() -> &'static [Stretch] {
    &STRETCHES
}

fn input(alloc: Global, session: &Session, brought: &Brought) -> Result<Input, Fail> {
    match brought {
        Brought::Start => Ok(Input::Start),
        Brought::Reply(place) | Brought::LateReply(place) => {
            Ok(Input::KdcReply(octets(alloc, session.reply(*place))?))
        }
        Brought::Fault(code) => Ok(Input::KdcFault(*code)),
    }
}

fn moment(brought: &Brought) -> u64 {
    match brought {
        Brought::LateReply(_) => 253_402_041_600_000_000,
        Brought::Start | Brought::Reply(_) | Brought::Fault(_) => 1_700_000_000_000_000,
    }
}

fn event(
    alloc: Global,
    session: &Session,
    connection: u32,
    brought: &Brought,
) -> Result<Event, Fail> {
    Ok(Event {
        connection,
        moment: moment(brought),
        random: client_draw().random,
        flags: ClientRequestFlags::MUTUAL_AUTH,
        input: input(alloc, session, brought)?,
    })
}

fn push_all(
    alloc: Global,
    session: &Session,
    stretch: &Stretch,
    events: &mut Vec<Event>,
) -> Result<(), Fail> {
    for (connection, brought) in stretch.events {
        events.push(event(alloc, session, *connection, brought)?)?;
    }
    Ok(())
}

/// Whether the key of an initiator is the session's, or there is none.
fn is_key(alloc: Global, key: &Option<Secret<Octets>>, session: &Session, has_key: bool) -> bool {
    match key {
        Some(key) => has_key && is_hex(alloc, key.as_ref().as_slice(), session.session_key),
        None => !has_key,
    }
}

/// Whether connection 10 has the session's key, or none, and connection 11 has none.
fn are_keys(
    alloc: Global,
    service: &Service<ReplayBook>,
    session: &Session,
    has_key: bool,
) -> bool {
    match (service.connection(10), service.connection(11)) {
        (Some(one), Some(other)) => {
            is_key(alloc, &one.encryption_params.session_key, session, has_key)
                && is_key(alloc, &other.encryption_params.session_key, session, false)
        }
        _ => false,
    }
}

fn runs(
    alloc: Global,
    service: &mut Service<ReplayBook>,
    session: &Session,
    stretch: &Stretch,
    events: &mut Vec<Event>,
    replies: &mut Vec<Reply>,
) -> Result<bool, Fail> {
    push_all(alloc, session, stretch, events)?;
    let ran = service.run(alloc, events.as_slice(), replies).is_ok();
    Ok(ran && are_keys(alloc, service, session, stretch.has_key))
}

/// Whether a service has the keys of a stretch after its events.
fn leads_to_keys(
    alloc: Global,
    service: &mut Service<ReplayBook>,
    session: &Session,
    stretch: &Stretch,
) -> Result<bool, Fail> {
    let (mut events, mut replies) = (Vec::new(alloc), Vec::new(alloc));
    runs(alloc, service, session, stretch, &mut events, &mut replies)
}

fn keys_come(
    alloc: Global,
    service: &mut Service<ReplayBook>,
    session: &Session,
    rules: Rules,
) -> Result<bool, Fail> {
    service.set_env(env(alloc)?);
    add_initiator(alloc, service, session, rules, 10)?;
    add_initiator(alloc, service, session, rules, 11)?;
    let begins = are_keys(alloc, service, session, false);
    for stretch in stretches() {
        if !leads_to_keys(alloc, service, session, stretch)? {
            return Ok(false);
        }
    }
    Ok(begins)
}

/// Whether initiators of a new service have keys by their own replies alone.
fn keys_come_so(alloc: Global, session: &Session, rules: Rules) -> Result<bool, Fail> {
    let mut service = Service::new(alloc, ReplayBook::new(alloc, 300)?);
    keys_come(alloc, &mut service, session, rules)
}

#[test]
fn session_keys_come_from_credentials(rt: HostRuntime) -> Result<(), Fail> {
    for rules in both_rules() {
        assert!(rt; keys_come_so(rt.alloc(), &OVER_A_REFERRAL, rules)?);
    }
    Ok(())
}
