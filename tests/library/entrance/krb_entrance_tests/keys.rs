//! Keys without a book, the longest token, and a new book.

use super::{ADMIN, MUTUAL, draw, octets, service};
use krb_der::{TryCopy, boxed};
use krb_entrance::{Candidate, Cause, Error, Keys, Service, admit, judge_in_turn};
use krb_server::ReplayBook;
use std::alloc::Global;
use std::test::Fail;

fn refusal(alloc: Global, service: &mut Service, token: &str) -> Result<Option<Cause>, Fail> {
    let token = hex::decode(alloc, token)?;
    match service.accept(alloc, &token, &draw()) {
        Ok(session) => {
            drop(session);
            Ok(None)
        }
        Err(error) => Ok(Some(error.cause)),
    }
}

/// Both tokens by a service whose tokens may have this many octets.
fn refusals_within(alloc: Global, limit: usize) -> Result<[Option<Cause>; 2], Fail> {
    let mut service = service(alloc)?;
    service.keys.token_limit = limit;
    Ok([
        refusal(alloc, &mut service, MUTUAL)?,
        refusal(alloc, &mut service, ADMIN)?,
    ])
}

/// The tokens have 445 and 491 octets.
#[test]
fn a_longer_token_is_not_looked_at(rt: HostRuntime) -> Result<(), Fail> {
    const LONG: Option<Cause> = Some(Cause::Shape);
    for (limit, expected) in [
        (444, [LONG, LONG]),
        (445, [None, LONG]),
        (490, [None, LONG]),
        (491, [None, None]),
    ] {
        assert_eq!(rt; refusals_within(rt.alloc(), limit)?, expected, "{limit}");
    }
    let service = service(rt.alloc())?;
    assert_eq!(rt; service.keys.token_limit, 65_536);
    Ok(())
}

#[test]
fn a_new_book_was_asked_nothing(rt: HostRuntime) -> Result<(), Fail> {
    let mut service = service(rt.alloc())?;
    assert_eq!(rt; refusal(rt.alloc(), &mut service, MUTUAL)?, None);
    assert_eq!(rt;
        refusal(rt.alloc(), &mut service, MUTUAL)?,
        Some(Cause::Replayed)
    );
    service.begin_book(rt.alloc(), 300)?;
    assert_eq!(rt; service.kept(), 0);
    assert_eq!(rt; refusal(rt.alloc(), &mut service, MUTUAL)?, None);
    assert_eq!(rt; service.kept(), 1);
    Ok(())
}

/// The key of this service, of this many octets.
fn keys(alloc: Global, name: &str, count: u8) -> Result<Box<Keys>, Fail> {
    let keys = Keys::new(alloc, name, octets(alloc, count)?, 300)?;
    Ok(boxed(alloc, keys)?)
}

fn refused_by(
    alloc: Global,
    book: &mut ReplayBook,
    judged: Result<Candidate, Error>,
) -> Option<Cause> {
    let candidate = match judged {
        Ok(candidate) => candidate,
        Err(error) => return Some(error.cause),
    };
    match admit(alloc, candidate, book) {
        Ok(session) => {
            drop(session);
            None
        }
        Err(error) => Some(error.cause),
    }
}

/// A token is judged by the keys and by their copy, and both candidates come to one book.
fn both_ways(alloc: Global, keys: &Keys, copy: &Keys) -> Result<[Option<Cause>; 2], Fail> {
    let token = hex::decode(alloc, MUTUAL)?;
    let mut book = ReplayBook::new(alloc, 300)?;
    let first = keys.judge(alloc, None, &token, &draw());
    let second = copy.judge(alloc, None, &token, &draw());
    Ok([
        refused_by(alloc, &mut book, first),
        refused_by(alloc, &mut book, second),
    ])
}

#[test]
fn a_copy_of_keys_judges_and_the_book_admits_once(rt: HostRuntime) -> Result<(), Fail> {
    let keys = keys(rt.alloc(), "host/server.example.com", 32)?;
    let copy = boxed(rt.alloc(), keys.copy(rt.alloc())?)?;
    assert_eq!(rt;
        both_ways(rt.alloc(), &keys, &copy)?,
        [None, Some(Cause::Replayed)]
    );
    Ok(())
}

/// The service of the newest key, how many octets this and two older ones have, of which 32 are those of the ticket's, and the refusal.
static IN_TURN: [(&str, [u8; 3], Option<Cause>); 6] = [
    ("host/server.example.com", [32, 16, 16], None),
    ("host/server.example.com", [16, 32, 16], None),
    ("host/server.example.com", [16, 16, 32], None),
    (
        "host/server.example.com",
        [16, 16, 16],
        Some(Cause::KeyLength),
    ),
    ("kafka/a", [32, 16, 16], Some(Cause::NoServiceKey)),
    ("kafka/a", [16, 16, 32], None),
];

fn in_turn() -> &'static [(&'static str, [u8; 3], Option<Cause>)] {
    &IN_TURN
}

fn refusal_in_turn(alloc: Global, name: &str, counts: &[u8; 3]) -> Result<Option<Cause>, Fail> {
    let [newest, second, third] = *counts;
    let newest = keys(alloc, name, newest)?;
    let second = keys(alloc, "host/server.example.com", second)?;
    let third = keys(alloc, "host/server.example.com", third)?;
    let mut older = Vec::new(alloc);
    older.push(Box::into_inner(second))?;
    older.push(Box::into_inner(third))?;
    let token = hex::decode(alloc, MUTUAL)?;
    let mut book = ReplayBook::new(alloc, 300)?;
    let judged = judge_in_turn(alloc, &newest, &older, None, &token, &draw());
    Ok(refused_by(alloc, &mut book, judged))
}

#[test]
fn older_keys_open_tickets_under_them(rt: HostRuntime) -> Result<(), Fail> {
    for (name, counts, expected) in in_turn() {
        assert_eq!(rt; refusal_in_turn(rt.alloc(), name, counts)?, *expected);
    }
    Ok(())
}
