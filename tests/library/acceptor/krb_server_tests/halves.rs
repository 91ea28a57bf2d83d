//! Admissions in two halves: the value between them has the client's name, and the second refuses what the whole call would.

use super::gates::SHORT_OPTIONS;
use super::{ONE_WAY, context_of, draw};
use bitflags::Flags;
use krb_context::Kerberos;
use krb_der::Time;
use krb_replay::{ReplayBook, ReplayGate, TellingGate};
use krb_server::{Judged, TicketTimes, admit, judge};
use sspi_core::{Cause, Error, ServerRequestFlags};
use std::alloc::Global;
use std::test::Fail;

/// An AP-REQ of alice/admin for host/server.example.com, as a second implementation made it from the parts below. Its client's
/// clock is two seconds ahead of the draw's time.
const ADMIN: &str =
    "608201e706092a864886f71201020201006e8201d6308201d2a003020105a10302010ea20703050000000000a38201426182013e3082013aa003020105a10d1b0b4558414d504c452e434f4da2253023a003020102a11c301a1b04686f73741b127365727665722e6578616d706c652e636f6da381fc3081f9a003020112a281f10481eea34a3611027585d846c6094548d3e361c2bc5b24f50a34ed24828883ba41b5ac0f452aacbd16a1d6b41c071f28d2ceb91f987ceef5d0e7d96deeb2f5bf9bdfe3f44da75ccebf4c9a47d37fa64c98eb4851cb3d7fd50930a6886950220acf02699fba6a8768136924470192ebce825142d2e7faacecbd3e02bc1914675d60f2b0b1c298c59d980f157869577323c58849c84ae5725ee59768a1d18a78b23d52b8a6c24bb3c82645d66a1105ab8b9b2fcde69b5b07a50358765926fbb69fa74118a2ac4839ce3f3fe200788ea82e7d9ff7f73a41832f4db7c1d67c85fcd496e368ea5e03949257d604cb406036af15a4773075a003020112a26e046cdfd6ba0d5cb1f9b23d0e0590ae0da6943dc5a2c427837de72d8d2b0d41c3dfd1550387f0e2ac149d956feace481690ab76c9a21d1df874f26ac51764284c186537009fd99c97136089770cc50d47240c3b18869f7c137b2682f395db55b5e8cf0261ed13c00cdf9115e9ae31";

/// 2023-11-14T21:00:00Z, and then five hours and more, to 2023-11-21T22:13:20Z.
fn times() -> TicketTimes {
    TicketTimes {
        authtime: Time::new(1_699_995_600),
        starttime: Some(Time::new(1_700_000_000)),
        endtime: Time::new(1_700_036_000),
        renew_till: Some(Time::new(1_700_604_800)),
    }
}

/// The first half at this acceptor.
fn half(alloc: Global, server: &mut Kerberos, token: &str) -> Result<Result<Judged, Error>, Fail> {
    let token = hex::decode(alloc, token)?;
    Ok(judge(alloc, server, &token, ServerRequestFlags::empty(), &draw()))
}

fn tells_the_client(judged: &Judged) -> bool {
    let [first, second] = judged.client_name().name_string.as_slice() else {
        return false;
    };
    first.as_str() == "alice"
        && second.as_str() == "admin"
        && judged.client_realm().as_str() == "EXAMPLE.COM"
}

fn tells_the_service(judged: &Judged) -> bool {
    let [first, second] = judged.service_name().name_string.as_slice() else {
        return false;
    };
    first.as_str() == "host"
        && second.as_str() == "server.example.com"
        && judged.service_realm().as_str() == "EXAMPLE.COM"
}

fn tells_the_data(judged: &Judged) -> bool {
    let Some(data) = judged.authorization_data() else {
        return false;
    };
    let [element] = data.as_slice() else {
        return false;
    };
    matches!(element.ad_type.as_slice(), [0x01])
        && matches!(element.ad_data.as_slice(), [0x30, 0x00, 0x30, 0x01])
}

fn tells_the_times(judged: &Judged) -> bool {
    judged.ticket_times() == times()
        && matches!(
            judged.ticket_flags().octets.as_slice(),
            [0x50, 0xa1, 0x00, 0x00]
        )
        && judged.clock_distance() == 2_000_000
}

fn tells_all(alloc: Global, server: &mut Kerberos) -> Result<[bool; 4], Fail> {
    match half(alloc, server, ADMIN)? {
        Ok(judged) => Ok([
            tells_the_client(&judged),
            tells_the_service(&judged),
            tells_the_data(&judged),
            tells_the_times(&judged),
        ]),
        Err(_) => Err(Fail::from("refused")),
    }
}

#[test]
fn what_was_judged_tells_its_client(rt: HostRuntime) -> Result<(), Fail> {
    let mut server = context_of(rt.alloc(), 100)?;
    assert_eq!(rt; tells_all(rt.alloc(), &mut server)?, [true; 4]);
    Ok(())
}

/// The refusals of the second half.
fn second<G: ReplayGate>(
    alloc: Global,
    server: &mut Kerberos,
    gate: &mut G,
    judged: Judged,
) -> Option<Cause> {
    match admit(alloc, judged, server, gate) {
        Ok(_) => None,
        Err(error) => Some(error.cause),
    }
}

/// The refusals of each half.
type Refusals = [Option<Cause>; 2];

fn refusals_at(
    alloc: Global,
    server: &mut Kerberos,
    book: &mut ReplayBook,
    token: &str,
) -> Result<Refusals, Fail> {
    match half(alloc, server, token)? {
        Ok(judged) => Ok([None, second(alloc, server, book, judged)]),
        Err(error) => Ok([Some(error.cause), None]),
    }
}

/// At a new acceptor with this book.
fn refusals(alloc: Global, book: &mut ReplayBook, token: &str) -> Result<Refusals, Fail> {
    let mut server = context_of(alloc, 100)?;
    refusals_at(alloc, &mut server, book, token)
}

/// Tokens that come to acceptors of their own over one book. The second has the authenticator of the first, whose options are
/// refused after the gate.
static TOKENS: [(&str, Refusals); 5] = [
    (SHORT_OPTIONS, [None, Some(Cause::ApOptions)]),
    (ONE_WAY, [None, Some(Cause::Replayed)]),
    (ADMIN, [None, None]),
    (ADMIN, [None, Some(Cause::Replayed)]),
    ("6000", [Some(Cause::Shape), None]),
];

fn tokens() -> &'static [(&'static str, Refusals)] {
    &TOKENS
}

#[test]
fn the_halves_refuse_what_the_whole_does(rt: HostRuntime) -> Result<(), Fail> {
    let mut book = ReplayBook::new(rt.alloc(), 300)?;
    for (token, expected) in tokens() {
        assert_eq!(rt; refusals(rt.alloc(), &mut book, token)?, *expected);
    }
    Ok(())
}

/// Judges two tokens at one acceptor, and then admits both.
fn second_of_two(alloc: Global, server: &mut Kerberos) -> Result<Refusals, Fail> {
    let mut book = ReplayBook::new(alloc, 300)?;
    let early = half(alloc, server, ONE_WAY)?;
    let first = refusals_at(alloc, server, &mut book, ADMIN)?;
    match early {
        Ok(judged) => Ok([first[1], second(alloc, server, &mut book, judged)]),
        Err(_) => Err(Fail::from("refused")),
    }
}

#[test]
fn an_established_acceptor_admits_nobody(rt: HostRuntime) -> Result<(), Fail> {
    let mut server = context_of(rt.alloc(), 100)?;
    assert_eq!(rt;
        second_of_two(rt.alloc(), &mut server)?,
        [None, Some(Cause::Sequence)]
    );
    Ok(())
}

/// The refusal if a store outside had the record, or did not, at its own time.
fn refused_by_a_store(
    alloc: Global,
    server: &mut Kerberos,
    seen: bool,
    moment: u64,
) -> Result<Option<Cause>, Fail> {
    let Ok(judged) = half(alloc, server, ADMIN)? else {
        return Err(Fail::from("refused"));
    };
    let mut gate = TellingGate {
        skew: 300,
        moment,
        told: judged.question(alloc)?,
        seen,
    };
    Ok(second(alloc, server, &mut gate, judged))
}

fn refused_at_a_store(alloc: Global, seen: bool, moment: u64) -> Result<Option<Cause>, Fail> {
    let mut server = context_of(alloc, 100)?;
    refused_by_a_store(alloc, &mut server, seen, moment)
}

#[test]
fn a_store_outside_may_decide(rt: HostRuntime) -> Result<(), Fail> {
    for (seen, moment, refusal) in [
        (false, 0, None),
        (true, 0, Some(Cause::Replayed)),
        (false, 1_700_000_302_000_000, None),
        (false, 1_700_000_302_000_001, Some(Cause::Skew)),
    ] {
        assert_eq!(rt; refused_at_a_store(rt.alloc(), seen, moment)?, refusal);
    }
    Ok(())
}
