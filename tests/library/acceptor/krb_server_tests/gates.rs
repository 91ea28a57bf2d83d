//! Two tokens that come to the gate of `sspi`, whose records have the service's name in the clear part of the ticket. What a
//! book answers to the same tokens is shown by the inputs of tests/cases.

use super::{ONE_WAY, answer_at, context_of};
use bitflags::Flags;
use krb_context::Kerberos;
use krb_replay::CacheGate;
use sspi_core::{Cause, ServerRequestFlags};
use std::alloc::Global;
use std::test::Fail;

/// The AP-REQ with three octets of options.
pub(super) const SHORT_OPTIONS: &str =
    "608201b806092a864886f71201020201006e8201a7308201a3a003020105a10302010ea206030400000000a3820115618201113082010da003020105a10d1b0b4558414d504c452e434f4da2253023a003020102a11c301a1b04686f73741b127365727665722e6578616d706c652e636f6da381cf3081cca003020112a281c40481c15c112a47a169c3267a9ff3afbdc5f126179eb939d1669b6d4c3033c2154b15e507170affa88bdd8b06aa49b779a104602531976088d214bc08a463fab523069fb7c94ea703b6e00281e48ed27136bca13d61c864e575f489e30a33c70c11b7bd9ba6027437381531a755ffae453277ca7a5eaaf8984e949155f774b66049188699095c77f195e32b49f019b3598f6601434cb5fe852befebef4ca476341c6b34d6fa7ce2fa1e5fa3a7da091cc1ea32013bca694ae5498b2645c1e94afb3888eed5a4763074a003020112a26d046b1ff72444274c816836e6309012203556e5cff8258d53b31409abe24459c6bc95ed5f7617f8309492bbb2cd02ed22dac4d510c48803e5bd9319679929712b670874c86bb9117ffa2395eecfb38cc5922055cd42465c5be3debf481fd0ed7a975cc255fcb4c013872857dca8";

/// The AP-REQ with another type of the service's name in the clear part of its ticket.
const OTHER_NAME: &str =
    "608201b906092a864886f71201020201006e8201a8308201a4a003020105a10302010ea20703050000000000a3820115618201113082010da003020105a10d1b0b4558414d504c452e434f4da2253023a003020101a11c301a1b04686f73741b127365727665722e6578616d706c652e636f6da381cf3081cca003020112a281c40481c15c112a47a169c3267a9ff3afbdc5f126179eb939d1669b6d4c3033c2154b15e507170affa88bdd8b06aa49b779a104602531976088d214bc08a463fab523069fb7c94ea703b6e00281e48ed27136bca13d61c864e575f489e30a33c70c11b7bd9ba6027437381531a755ffae453277ca7a5eaaf8984e949155f774b66049188699095c77f195e32b49f019b3598f6601434cb5fe852befebef4ca476341c6b34d6fa7ce2fa1e5fa3a7da091cc1ea32013bca694ae5498b2645c1e94afb3888eed5a4763074a003020112a26d046b1ff72444274c816836e6309012203556e5cff8258d53b31409abe24459c6bc95ed5f7617f8309492bbb2cd02ed22dac4d510c48803e5bd9319679929712b670874c86bb9117ffa2395eecfb38cc5922055cd42465c5be3debf481fd0ed7a975cc255fcb4c013872857dca8";

/// Two tokens, which come to acceptors of their own, each with its refusal.
struct Pair {
    first: &'static str,
    first_refusal: Option<Cause>,
    second: &'static str,
    second_refusal: Option<Cause>,
}

static PAIRS: [Pair; 3] = [
    Pair {
        first: ONE_WAY,
        first_refusal: None,
        second: ONE_WAY,
        second_refusal: Some(Cause::Replayed),
    },
    // The clear part of a ticket is nobody's word, and this gate believes it.
    Pair {
        first: ONE_WAY,
        first_refusal: None,
        second: OTHER_NAME,
        second_refusal: None,
    },
    // The gate admitted the records of later refusals.
    Pair {
        first: SHORT_OPTIONS,
        first_refusal: Some(Cause::ApOptions),
        second: ONE_WAY,
        second_refusal: Some(Cause::Replayed),
    },
];

fn pairs() -> &'static [Pair] {
    &PAIRS
}

fn refusal_at(
    alloc: Global,
    server: &mut Kerberos,
    gate: &mut CacheGate,
    token: &str,
) -> Result<Option<Cause>, Fail> {
    let token = hex::decode(alloc, token)?;
    Ok(answer_at(alloc, server, gate, &token, ServerRequestFlags::empty()).err())
}

/// The refusal of the token at a new acceptor with this gate.
fn refusal_of(alloc: Global, gate: &mut CacheGate, token: &str) -> Result<Option<Cause>, Fail> {
    let mut server = context_of(alloc, 100)?;
    refusal_at(alloc, &mut server, gate, token)
}

fn is_refused_so(alloc: Global, pair: &Pair) -> Result<bool, Fail> {
    let mut gate = CacheGate::new(alloc, 300);
    Ok(
        refusal_of(alloc, &mut gate, pair.first)? == pair.first_refusal
            && refusal_of(alloc, &mut gate, pair.second)? == pair.second_refusal,
    )
}

#[test]
fn a_cache_refuses_what_it_admitted(rt: HostRuntime) -> Result<(), Fail> {
    for pair in pairs() {
        assert!(rt; is_refused_so(rt.alloc(), pair)?);
    }
    Ok(())
}
