//! Clients that are let in by two halves.

use super::{ADMIN, draw, service};
use krb_entrance::{Candidate, Cause, Error, Service, admit_told, stored_record};
use std::alloc::Global;
use std::test::Fail;

/// The refusals of each half.
type Refusals = [Option<Cause>; 2];

fn judged(alloc: Global, service: &Service, token: &str) -> Result<Result<Candidate, Error>, Fail> {
    let token = hex::decode(alloc, token)?;
    Ok(service.judge(alloc, &token, &draw()))
}

fn refused(alloc: Global, service: &mut Service, candidate: Candidate) -> Option<Cause> {
    match service.admit(alloc, candidate) {
        Ok(_) => None,
        Err(error) => Some(error.cause),
    }
}

fn refusals(alloc: Global, service: &mut Service, token: &str) -> Result<Refusals, Fail> {
    match judged(alloc, service, token)? {
        Ok(candidate) => Ok([None, refused(alloc, service, candidate)]),
        Err(error) => Ok([Some(error.cause), None]),
    }
}

/// Its time, its client and the octet 0, and then its microseconds and the tag of its cipher.
const STORED: &[u8] = b"20231114221322Zalice/admin@EXAMPLE.COM\0";

/// The last twelve octets of the token, whose authenticator is at its end.
const TAG: &[u8] = &[
    0x02, 0x61, 0xed, 0x13, 0xc0, 0x0c, 0xdf, 0x91, 0x15, 0xe9, 0xae, 0x31,
];

fn tells(alloc: Global, candidate: &Candidate) -> Result<bool, Fail> {
    let name = candidate.client.principal(alloc)?;
    let stored = stored_record(alloc, &candidate.judged)?;
    Ok(
        name.as_slice() == b"alice/admin@EXAMPLE.COM".as_slice()
            && stored.as_slice().starts_with(STORED)
            && stored.as_slice().ends_with(TAG)
            && candidate.client.tag.as_slice() == TAG
            && candidate.client.endtime.seconds() == 1_700_036_000
            && candidate.judged.clock_distance() == 2_000_000,
    )
}

fn is_told(alloc: Global, service: &Service) -> Result<bool, Fail> {
    match judged(alloc, service, ADMIN)? {
        Ok(candidate) => tells(alloc, &candidate),
        Err(_) => Err(Fail::from("refused")),
    }
}

#[test]
fn a_candidate_tells_its_client(rt: HostRuntime) -> Result<(), Fail> {
    let service = service(rt.alloc())?;
    assert!(rt; is_told(rt.alloc(), &service)?);
    Ok(())
}

#[test]
fn the_book_is_asked_in_the_second_half(rt: HostRuntime) -> Result<(), Fail> {
    let mut service = service(rt.alloc())?;
    for (token, expected) in [
        (ADMIN, [None, None]),
        (ADMIN, [None, Some(Cause::Replayed)]),
        ("6000", [Some(Cause::Shape), None]),
    ] {
        assert_eq!(rt; refusals(rt.alloc(), &mut service, token)?, expected);
    }
    Ok(())
}

/// The answer of a store: true if it had the record.
fn refused_as_told(alloc: Global, candidate: Candidate, seen: bool) -> Option<Cause> {
    match admit_told(alloc, candidate, 300, draw().moment, seen) {
        Ok(_) => None,
        Err(error) => Some(error.cause),
    }
}

fn told(alloc: Global, service: &Service, seen: bool) -> Result<Option<Cause>, Fail> {
    match judged(alloc, service, ADMIN)? {
        Ok(candidate) => Ok(refused_as_told(alloc, candidate, seen)),
        Err(error) => Ok(Some(error.cause)),
    }
}

#[test]
fn a_store_is_asked_in_the_place_of_the_book(rt: HostRuntime) -> Result<(), Fail> {
    let service = service(rt.alloc())?;
    assert_eq!(rt; told(rt.alloc(), &service, false)?, None);
    assert_eq!(rt; told(rt.alloc(), &service, true)?, Some(Cause::Replayed));
    Ok(())
}
