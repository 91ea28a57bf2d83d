//! Dialogues of a user that has a ticket, in a credential cache of MIT krb5.

use crate::files::MIT;
use crate::krb_tickets_tests::{host_ticket, read, tgt};
use krb_dialogue::{CacheTicket, Cause, ClientRequestFlags, Dialogue, Draw, Error, Flags, Next};
use krb_tickets::held_of;
use std::alloc::Global;
use std::test::Fail;

/// A second in which the tickets of the cache are valid: their first is 1796096853.
const VALID: u32 = 1_796_096_900;

/// The first second in which they have ended.
const ENDED: u32 = 1_796_183_253;

fn draw() -> Draw {
    Draw {
        moment: 1_796_096_900_000_000,
        random: [7; 64],
    }
}

/// An initiator's dialogue with this service.
fn dialogue_with(alloc: Global, target: &str) -> Result<Box<Dialogue>, Error> {
    let mut dialogue = Dialogue::new(
        alloc,
        target,
        "hostname",
        ClientRequestFlags::MUTUAL_AUTH,
        [0, 0, 4, 0xd2],
    )?;
    dialogue.set_kdc(alloc, "tcp://kdc.example:88")?;
    Ok(dialogue)
}

/// The ticket that was found in the cache for this service, and the step that begins with it.
fn begun(alloc: Global, dialogue: &mut Dialogue) -> Result<(CacheTicket, Next), Fail> {
    let cache = read(alloc, MIT)?;
    let found = dialogue.set_ccache(alloc, &cache, VALID)?;
    Ok((found, dialogue.start(alloc, &draw())?))
}

/// Whether octets are somewhere in others.
fn is_within(part: &[u8], whole: &[u8]) -> bool {
    let mut rest = whole;
    while let [_, further @ ..] = rest {
        if rest.starts_with(part) {
            return true;
        }
        rest = further;
    }
    part.is_empty()
}

#[test]
fn a_ticket_for_the_service_is_sent_at_once(rt: HostRuntime) -> Result<(), Fail> {
    let alloc = rt.alloc();
    let mut dialogue = dialogue_with(alloc, "host/server.example.com")?;
    let begun = begun(alloc, &mut dialogue)?;
    assert_eq!(rt; begun, (CacheTicket::Service, Next::SendToken));
    let mut room = [0; 2048];
    let length = dialogue.token(&mut room)?;
    let ticket = host_ticket(alloc)?.ticket;
    assert!(rt; is_within(ticket.as_slice(), &room[..length]));
    assert!(rt; dialogue.awaiting().is_none());
    Ok(())
}

#[test]
fn a_tgt_is_sent_to_a_kdc(rt: HostRuntime) -> Result<(), Fail> {
    let alloc = rt.alloc();
    let mut dialogue = dialogue_with(alloc, "HTTP/server.example.com")?;
    let begun = begun(alloc, &mut dialogue)?;
    assert_eq!(rt; begun, (CacheTicket::Granting, Next::AskKdc));
    let mut room = [0; 2048];
    let length = dialogue.request(&mut room)?;
    let ticket = tgt(alloc)?.ticket;
    assert!(rt; is_within(ticket.as_slice(), &room[..length]));
    assert_eq!(rt; dialogue.requests_left(), 9);
    assert!(rt; dialogue.awaiting().is_some());
    Ok(())
}

/// Why no ticket of the cache is set for this service in this second.
fn cause_of(alloc: Global, target: &str, seconds: u32) -> Result<Option<Cause>, Fail> {
    let cache = read(alloc, MIT)?;
    let mut dialogue = dialogue_with(alloc, target)?;
    match dialogue.set_ccache(alloc, &cache, seconds) {
        Ok(_) => Ok(None),
        Err(error) => Ok(Some(error.cause)),
    }
}

#[test]
fn a_ticket_has_to_be_there(rt: HostRuntime) -> Result<(), Fail> {
    let alloc = rt.alloc();
    let host = "host/server.example.com";
    assert_eq!(rt; cause_of(alloc, host, ENDED - 1)?, None);
    assert_eq!(rt; cause_of(alloc, host, ENDED)?, Some(Cause::NoIdentity));
    assert_eq!(rt; cause_of(alloc, "server", VALID)?, Some(Cause::Target));
    Ok(())
}

/// The step that begins where a password is set after the ticket, or before it.
fn begun_with_both(alloc: Global, is_ticket_last: bool) -> Result<Next, Fail> {
    let mut dialogue = dialogue_with(alloc, "host/server.example.com")?;
    let Ok(held) = held_of(alloc, &host_ticket(alloc)?) else {
        return Err(Fail::from("no ticket"));
    };
    if is_ticket_last {
        dialogue.set_password(alloc, "alice", "EXAMPLE.COM", "secret")?;
    }
    dialogue.set_ticket(alloc, held)?;
    if !is_ticket_last {
        dialogue.set_password(alloc, "alice", "EXAMPLE.COM", "secret")?;
    }
    Ok(dialogue.start(alloc, &draw())?)
}

#[test]
fn the_last_that_is_set_counts(rt: HostRuntime) -> Result<(), Fail> {
    let alloc = rt.alloc();
    assert_eq!(rt; begun_with_both(alloc, true)?, Next::SendToken);
    assert_eq!(rt; begun_with_both(alloc, false)?, Next::AskKdc);
    Ok(())
}
