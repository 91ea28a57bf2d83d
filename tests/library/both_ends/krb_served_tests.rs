//! Both ends at two connections of one service, with events of a third between: one list of events brings both to one context, as
//! the laws of `krb_laws_service` tell.

use crate::krb_ends_tests::parties::{
    acceptor_of, add_initiator, both_rules, client_draw, client_flags, env, octets, service_draw,
};
use crate::krb_ends_tests::sessions::{FRAMED, IN_DCE_STYLE};
use crate::krb_ends_tests::tokens::is_hex;
use crate::krb_ends_tests::{Session, is_established};
use krb_context::Rules;
use krb_machine::{Event, Input, Reply, Service};
use krb_replay::ReplayBook;
use sspi_core::{Draw, SecurityStatus};
use std::alloc::Global;
use std::test::Fail;

/// The input of an event.
enum Brought {
    Start,
    /// The reply of a KDC that has this place among those of the session.
    Reply(usize),
    /// The initiator's token.
    Offer,
    /// The acceptor's.
    Answer,
    /// The initiator's third leg.
    LastWord,
}

/// The input of the initiator, connection 10, at the acceptor, connection 20, and at an initiator next to them.
static EVENTS: [(u32, Brought); 8] = [
    (10, Brought::Start),
    (10, Brought::Reply(0)),
    (11, Brought::Start),
    (10, Brought::Reply(1)),
    (10, Brought::Reply(2)),
    (20, Brought::Offer),
    (11, Brought::Reply(0)),
    (10, Brought::Answer),
];

/// And after these in DCE style.
static LAST: [(u32, Brought); 1] = [(20, Brought::LastWord)];

fn input(alloc: Global, session: &Session, brought: &Brought) -> Result<Input, Fail> {
    match brought {
        Brought::Start => Ok(Input::Start),
        Brought::Reply(place) => Ok(Input::KdcReply(octets(alloc, session.reply(*place))?)),
        Brought::Offer => Ok(Input::Token(octets(alloc, session.offer)?)),
        Brought::Answer => Ok(Input::Token(octets(alloc, session.answer)?)),
        Brought::LastWord => Ok(Input::Token(octets(alloc, session.last)?)),
    }
}

/// The draw of a connection.
fn draw_at(connection: u32) -> Draw {
    if connection == 20 {
        service_draw()
    } else {
        client_draw()
    }
}

fn event(
    alloc: Global,
    session: &Session,
    connection: u32,
    brought: &Brought,
) -> Result<Event, Fail> {
    let draw = draw_at(connection);
    Ok(Event {
        connection,
        moment: draw.moment,
        random: draw.random,
        flags: client_flags(session.all, session.dce),
        input: input(alloc, session, brought)?,
    })
}

fn is_done(
    alloc: Global,
    reply: &Reply,
    wanted: SecurityStatus,
    digits: &str,
    admitting: bool,
) -> bool {
    match reply {
        Reply::Done {
            status,
            token,
            admits,
        } => {
            *status == wanted && *admits == admitting && is_hex(alloc, token.as_slice(), digits)
        }
        Reply::Ask(_) | Reply::Buffers(_) | Reply::Mic(_) | Reply::Verified | Reply::Refused(_) =>
            false,
    }
}

/// The status of an acceptor that has answered the initiator's token.
fn answered(session: &Session) -> SecurityStatus {
    if session.dce {
        SecurityStatus::ContinueNeeded
    } else {
        SecurityStatus::Ok
    }
}

/// Whether an event is answered as the session says.
fn is_told(alloc: Global, session: &Session, brought: &Brought, reply: &Reply) -> bool {
    match brought {
        Brought::Start | Brought::Reply(0 | 1) => matches!(reply, Reply::Ask(_)),
        Brought::Reply(_) => {
            is_done(
                alloc,
                reply,
                SecurityStatus::ContinueNeeded,
                session.offer,
                false,
            )
        }
        Brought::Offer => is_done(alloc, reply, answered(session), session.answer, true),
        Brought::Answer => is_done(alloc, reply, SecurityStatus::Ok, session.last, false),
        Brought::LastWord => is_done(alloc, reply, SecurityStatus::Ok, "", false),
    }
}

/// Whether both ends are established as the session says.
fn have_one_context(alloc: Global, session: &Session, service: &Service<ReplayBook>) -> bool {
    match (service.connection(10), service.connection(20)) {
        (Some(initiator), Some(acceptor)) => {
            is_established(alloc, session, initiator) && is_established(alloc, session, acceptor)
        }
        _ => false,
    }
}

fn push_all(
    alloc: Global,
    session: &Session,
    brought: &[(u32, Brought)],
    events: &mut Vec<Event>,
) -> Result<(), Fail> {
    for (connection, brought) in brought {
        events.push(event(alloc, session, *connection, brought)?)?;
    }
    Ok(())
}

fn are_told(
    alloc: Global,
    session: &Session,
    brought: &[(u32, Brought)],
    replies: &[Reply],
) -> bool {
    brought.len() == replies.len()
        && brought.iter().zip(replies).all(|((_, brought), reply)| is_told(
            alloc, session, brought, reply,
        ))
}

fn runs(
    alloc: Global,
    service: &mut Service<ReplayBook>,
    session: &Session,
    brought: &[(u32, Brought)],
    events: &mut Vec<Event>,
    replies: &mut Vec<Reply>,
) -> Result<bool, Fail> {
    push_all(alloc, session, brought, events)?;
    let ran = service.run(alloc, events.as_slice(), replies).is_ok();
    Ok(ran && are_told(alloc, session, brought, replies.as_slice()))
}

/// Whether a service answers these events so.
fn answers(
    alloc: Global,
    service: &mut Service<ReplayBook>,
    session: &Session,
    brought: &[(u32, Brought)],
) -> Result<bool, Fail> {
    let (mut events, mut replies) = (Vec::new(alloc), Vec::new(alloc));
    runs(alloc, service, session, brought, &mut events, &mut replies)
}

fn add_all(
    alloc: Global,
    service: &mut Service<ReplayBook>,
    session: &Session,
    rules: Rules,
) -> Result<(), Fail> {
    service.set_env(env(alloc)?);
    add_initiator(alloc, service, session, rules, 10)?;
    add_initiator(alloc, service, session, rules, 11)?;
    let acceptor = acceptor_of(alloc, session, rules)?;
    Ok(service.add_acceptor(20, Box::into_inner(acceptor))?)
}

/// Whether both ends have one context after the events, and none before them.
fn reach_one_context(
    alloc: Global,
    service: &mut Service<ReplayBook>,
    session: &Session,
    rules: Rules,
) -> Result<bool, Fail> {
    add_all(alloc, service, session, rules)?;
    let before = have_one_context(alloc, session, service);
    let told = answers(alloc, service, session, &EVENTS)?;
    let last = !session.dce || answers(alloc, service, session, &LAST)?;
    Ok(!before && told && last && have_one_context(alloc, session, service))
}

/// Whether the ends of a new service reach one context with these rules.
fn holds(alloc: Global, session: &Session, rules: Rules) -> Result<bool, Fail> {
    let mut service = Service::new(alloc, ReplayBook::new(alloc, 300)?);
    reach_one_context(alloc, &mut service, session, rules)
}

#[test]
fn one_list_of_events_brings_both_to_one_context(rt: HostRuntime) -> Result<(), Fail> {
    for rules in both_rules() {
        assert!(rt; holds(rt.alloc(), &FRAMED, rules)?);
        assert!(rt; holds(rt.alloc(), &IN_DCE_STYLE, rules)?);
    }
    Ok(())
}
