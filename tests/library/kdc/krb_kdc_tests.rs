//! Entries of a KDC, its answers to single requests, and initiators that get through it to an acceptor.

mod as_rows;
mod chains;
mod faults;
mod journeys;
mod parties;
mod registers;
mod requests;
mod talk;
mod tgs_rows;

use as_rows::AS_ROWS;
use faults::failures_are_told;
use journeys::{JOURNEYS, Journey, ends_so};
use krb_context::Rules;
use krb_kdc::Kdc;
use registers::{REGISTERS, are_taken, sizes_are_told};
use requests::{TO_LONG, TO_NEITHER, cuts_are_refused, example, is_answered, long_is_answered};
use std::alloc::Global;
use std::rt::HostRuntime;
use std::test::Fail;
use tgs_rows::TGS_ROWS;

/// A request and the reply to it, in hex, and the moment at which it comes, in microseconds.
#[derive(Clone, Copy)]
pub struct Row {
    pub name: &'static str,
    pub moment: u64,
    pub request: &'static str,
    pub reply: &'static str,
}

/// The row of a line: four words.
fn row_of(line: &'static str) -> Result<Row, Fail> {
    let mut words = line.split(' ');
    match (words.next(), words.next(), words.next(), words.next()) {
        (Some(name), Some(moment), Some(request), Some(reply)) => Ok(Row {
            name,
            moment: moment.parse()?,
            request: if request == "-" { "" } else { request },
            reply,
        }),
        _ => Err("a row has four words".into()),
    }
}

/// The first row that is answered otherwise.
fn answered_otherwise(
    alloc: Global,
    kdc: &Kdc,
    rows: &'static str,
) -> Result<Option<&'static str>, Fail> {
    for line in rows.lines() {
        let row = row_of(line)?;
        if !is_answered(alloc, kdc, &row)? {
            return Ok(Some(row.name));
        }
    }
    Ok(None)
}

/// The first row of which a front is answered otherwise than as neither message.
fn front_taken(alloc: Global, kdc: &Kdc, rows: &'static str) -> Result<Option<&'static str>, Fail> {
    for line in rows.lines() {
        let row = row_of(line)?;
        if !cuts_are_refused(alloc, kdc, &row)? {
            return Ok(Some(row.name));
        }
    }
    Ok(None)
}

/// The first journey that has another end by these rules.
fn ended_otherwise(
    alloc: Global,
    journeys: &'static [Journey],
    rules: Rules,
) -> Result<Option<&'static str>, Fail> {
    for journey in journeys {
        if !ends_so(alloc, journey, rules)? {
            return Ok(Some(journey.name));
        }
    }
    Ok(None)
}

#[test]
fn requests_are_answered(rt: HostRuntime) -> Result<(), Fail> {
    let kdc = example(rt.alloc())?;
    assert_eq!(rt; answered_otherwise(rt.alloc(), &kdc, AS_ROWS)?, None);
    assert_eq!(rt; answered_otherwise(rt.alloc(), &kdc, TGS_ROWS)?, None);
    Ok(())
}

/// Each front of fewer than a hundred octets is neither message.
#[test]
fn fronts_are_neither_message(rt: HostRuntime) -> Result<(), Fail> {
    let kdc = example(rt.alloc())?;
    assert_eq!(rt; front_taken(rt.alloc(), &kdc, AS_ROWS)?, None);
    Ok(())
}

/// A request of 16,777,216 octets is read, and one of an octet more is not.
#[test]
fn long_requests_are_read(rt: HostRuntime) -> Result<(), Fail> {
    let kdc = example(rt.alloc())?;
    assert!(rt; long_is_answered(rt.alloc(), &kdc, 16_777_216, TO_LONG)?);
    assert!(rt; long_is_answered(rt.alloc(), &kdc, 16_777_217, TO_NEITHER)?);
    Ok(())
}

#[test]
fn what_is_there_is_not_taken_again(rt: HostRuntime) -> Result<(), Fail> {
    assert_eq!(rt; are_taken(rt.alloc(), &REGISTERS)?, REGISTERS.len());
    assert!(rt; sizes_are_told(rt.alloc())?);
    Ok(())
}

/// A network of KDCs tells which requests nobody can answer, and counts them.
#[test]
fn failures_of_the_network_are_told(rt: HostRuntime) -> Result<(), Fail> {
    assert!(rt; failures_are_told(rt.alloc())?);
    Ok(())
}

/// From a password, or a key of a keytab, to a token that the service admits, and to messages between both ends.
#[test]
fn initiators_get_through(rt: HostRuntime) -> Result<(), Fail> {
    assert_eq!(rt;
        ended_otherwise(rt.alloc(), &JOURNEYS, Rules::none())?,
        None
    );
    Ok(())
}

/// The KDC repeats the nonces and the names that it was asked by, and its tickets are valid: the same ways lead to the same tokens.
#[test]
fn initiators_get_through_by_the_rules_of_the_rfcs(rt: HostRuntime) -> Result<(), Fail> {
    assert_eq!(rt; ended_otherwise(rt.alloc(), &JOURNEYS, Rules::rfc())?, None);
    Ok(())
}
