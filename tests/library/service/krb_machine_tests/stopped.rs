//! A run over a gate whose memory ends, and what is left of it.

ghost use Rattle.krb_replay.specs.Book.{Follows, StandsFor, IsUnchanged, IsUnchanged-same, goes_on};

use super::{add_acceptors, add_events};
use krb_der::{OutOfMemory, boxed};
use krb_machine::{Event, Reply, Service, Stopped};
use krb_replay::{Ask, ReplayBook, ReplayGate, Verdict};
use std::alloc::{AllocError, Global};
use std::process::Abort;
use std::test::Fail;

/// A replay book that has no memory at its third call, and has some again at the next.
#[derive(Drop)]
struct ScantGate {
    book: ReplayBook,
    calls: u64,
}

impl ReplayGate for ScantGate {
    ghost skew = { λ gate. gate.book.skew };

    ghost moment = { λ gate. gate.book.moment };

    ghost admits = { λ old ask verdict new. Follows StandsFor old.book ask verdict new.book };

    ghost is_same = { λ old new. IsUnchanged old.book new.book };

    ghost same = { λ gate. IsUnchanged-same gate.book };

    ghost same_moment = { λ a b same. same.moment };

    ghost same_skew = { λ a b same. same.skew };

    ghost judges = { λ old new ask verdict step. step.judged };

    ghost keeps_skew = { λ old new ask verdict step. step.skew };

    ghost goes_on = { λ a b c ask verdict same step. goes_on a.book b.book c.book ask verdict same step };

    fn admit(&mut self, ask: Ask) -> Result<Verdict, OutOfMemory> {
        self.calls = self.calls.saturating_add(1);
        if self.calls == 3 {
            return Err(OutOfMemory);
        }
        self.book.admit(ask)
    }

    fn last_moment(&self) -> u64 {
        self.book.moment()
    }
}

/// Connections over such a gate.
fn scant_service(alloc: Global) -> Result<Box<Service<ScantGate>>, Fail> {
    let book = ReplayBook::new(alloc, 300)?;
    Ok(boxed(alloc, Service::new(alloc, ScantGate { book, calls: 0 }))?)
}

/// A token is admitted, does not reach the gate, comes again, comes a third time, and does not reach the gate.
fn add_five_events(alloc: Global, events: &mut Vec<Event>) -> Result<(), Fail> {
    add_events(alloc, events, &[2, 2, 1, 1, 1])?;
    // These come past the last moment.
    for late in [1, 4] {
        if let Some(event) = events.get_mut(late) {
            event.moment = 253_402_041_600_000_000;
        }
    }
    Ok(())
}

/// The lines that tell these replies.
fn lines(alloc: Global, replies: &[Reply]) -> Result<String, AllocError> {
    let mut lines = String::new(alloc);
    for reply in replies {
        let line = reply.line(alloc)?;
        lines.push_str(line.as_str())?;
    }
    Ok(lines)
}

/// The number of the connection's context.
fn number_of(service: &Service<ScantGate>, connection: u32) -> Option<u32> {
    match service.connection(connection) {
        Some(context) => Some(context.seq_number),
        None => None,
    }
}

static FIRST_LINES: &str = "ok -\nrefused InvalidParameter Moment\nrefused InvalidToken Replayed\n";

static ALL_LINES: &str = "ok -\nrefused InvalidParameter Moment\nrefused InvalidToken Replayed\n\
refused InvalidToken Replayed\nrefused InvalidParameter Moment\n";

/// A run over these events ends so after these replies, and one record is kept.
fn check_run(
    rt: &(impl AllocGlobal + Abort),
    service: &mut Service<ScantGate>,
    events: &[Event],
    replies: &mut Vec<Reply>,
    wanted: (Result<(), Stopped>, &str),
) -> Result<(), AllocError> {
    let ran = service.run(rt.alloc(), events, replies);
    let lines = lines(rt.alloc(), replies.as_slice())?;
    assert_eq!(rt; ran, wanted.0);
    assert_eq!(rt; lines.as_str(), wanted.1);
    assert_eq!(rt; service.gate().book.kept(), 1);
    Ok(())
}

fn check_both_runs(
    rt: &(impl AllocGlobal + Abort),
    service: &mut Service<ScantGate>,
    events: &[Event],
    replies: &mut Vec<Reply>,
) -> Result<(), AllocError> {
    let stopped = (Err(Stopped { taken: 3 }), FIRST_LINES);
    check_run(rt, service, events, replies, stopped)?;
    assert_eq!(rt;
        (number_of(service, 1), number_of(service, 2)),
        (Some(100), Some(41))
    );
    // The events that were not taken are answered as if memory had not run out.
    let rest = events.get(3..).unwrap_or(&[]);
    check_run(rt, service, rest, replies, (Ok(()), ALL_LINES))
}

fn check_five_events(
    rt: &(impl AllocGlobal + Abort),
    service: &mut Service<ScantGate>,
    events: &mut Vec<Event>,
    replies: &mut Vec<Reply>,
) -> Result<(), Fail> {
    add_acceptors(rt.alloc(), service)?;
    add_five_events(rt.alloc(), events)?;
    Ok(check_both_runs(rt, service, events.as_slice(), replies)?)
}

fn check_service(
    rt: &(impl AllocGlobal + Abort),
    service: &mut Service<ScantGate>,
) -> Result<(), Fail> {
    let mut events = Vec::new(rt.alloc());
    let mut replies = Vec::new(rt.alloc());
    check_five_events(rt, service, &mut events, &mut replies)
}

#[test]
fn a_run_stops_where_memory_ends_and_goes_on_behind(rt: HostRuntime) -> Result<(), Fail> {
    let mut service = scant_service(rt.alloc())?;
    check_service(&rt, &mut service)
}
