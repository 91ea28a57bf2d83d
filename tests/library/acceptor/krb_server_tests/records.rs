//! Two log-ins of one client in one microsecond, which two processes of MIT's library made, and the records that a gate keeps of them.

use super::recorded::{AT_ONCE, ONCE, Recorded};
use super::rules::{acceptor, draw_at, refusal_at};
use bitflags::Flags;
use krb_context::{Kerberos, Rules};
use krb_replay::{CacheGate, ReplayBook, ReplayGate};
use krb_server::judge;
use sspi_core::{Cause, ServerRequestFlags};
use std::alloc::Global;
use std::test::Fail;

const REPLAYED: Option<Cause> = Some(Cause::Replayed);

/// The refusals of these log-ins in turn, by no rule and by records that have the tag.
static IN_TURN: [(Recorded, [Option<Cause>; 2]); 4] = [
    (ONCE, [None, None]),
    (AT_ONCE, [REPLAYED, None]),
    (ONCE, [REPLAYED, REPLAYED]),
    (AT_ONCE, [REPLAYED, REPLAYED]),
];

fn in_turn() -> &'static [(Recorded, [Option<Cause>; 2])] {
    &IN_TURN
}

/// The refusal of a new acceptor with this gate.
fn refusal<G: ReplayGate>(
    alloc: Global,
    gate: &mut G,
    rules: Rules,
    token: &Recorded,
) -> Result<Option<Cause>, Fail> {
    let mut server = acceptor(alloc, rules, None)?;
    refusal_at(alloc, &mut server, gate, token.token, token.moment)
}

#[test]
fn a_book_tells_log_ins_of_one_microsecond_apart_by_their_tags(
    rt: HostRuntime,
) -> Result<(), Fail> {
    let mut plain = ReplayBook::new(rt.alloc(), 300)?;
    let mut tagged = ReplayBook::new(rt.alloc(), 300)?;
    for (token, [without, with]) in in_turn() {
        assert_eq!(rt;
            refusal(rt.alloc(), &mut plain, Rules::none(), token)?,
            *without
        );
        assert_eq!(rt;
            refusal(rt.alloc(), &mut tagged, Rules::RECORDS_BY_TAG, token)?,
            *with
        );
    }
    assert_eq!(rt; (plain.kept(), tagged.kept()), (1, 2));
    Ok(())
}

/// The records of the cache of `sspi` have no tag, whatever the rules.
#[test]
fn a_cache_does_not(rt: HostRuntime) -> Result<(), Fail> {
    let mut cache = CacheGate::new(rt.alloc(), 300);
    for (token, [without, _]) in in_turn() {
        assert_eq!(rt;
            refusal(rt.alloc(), &mut cache, Rules::rfc(), token)?,
            *without
        );
    }
    Ok(())
}

/// Whether the question to the gate has the tag, and whether it has one at all.
fn asks_by(alloc: Global, server: &mut Kerberos, token: &Recorded) -> Result<[bool; 2], Fail> {
    let octets = hex::decode(alloc, token.token)?;
    let draw = draw_at(token.moment);
    match judge(alloc, server, &octets, ServerRequestFlags::empty(), &draw) {
        Ok(judged) => {
            let ask = judged.question(alloc)?;
            let tag = ask.entry.tag.as_slice();
            Ok([tag == judged.tag(), tag.is_empty()])
        }
        Err(_) => Err(Fail::from("refused")),
    }
}

#[test]
fn the_question_has_the_tag_by_the_rule_alone(rt: HostRuntime) -> Result<(), Fail> {
    for (rules, expected) in [
        (Rules::none(), [false, true]),
        (Rules::RECORDS_BY_TAG, [true, false]),
        (Rules::rfc(), [true, false]),
    ] {
        let mut server = acceptor(rt.alloc(), rules, None)?;
        assert_eq!(rt; asks_by(rt.alloc(), &mut server, &ONCE)?, expected);
    }
    Ok(())
}
