//! Admissions by two threads, each with a stream of its own, that share a book: one under a lock, and one on a table.

ghost use Rattle.std.specs.Prelude.{◌≡◌};

use crate::replay::{Stretch, asks_of};
use anyhow::{Context, Result};
use krb_replay::Ask;
use krb_shared::{Calls, Pass, Seat, SharedBook, TableBook};
use std::alloc::Global;
use std::marker::Brand;
use std::rt::Clock;
use std::sync::Wait;
use std::sync::ledger::Blank;
use std::thread::{Threads, join};
use std::time::{Duration, Instant};

/// The skew of each book, in seconds.
const SKEW: u32 = 300;

/// The number of microseconds by which the asks of one thread come after those of the other.
const APART: u32 = 200_000_000;

/// How many batches of asks each thread has.
const FULL_BATCHES: u32 = 50;

/// Asks of one thread, all at moments within the skew, in batches.
type Stream = Vec<Vec<Ask>>;

/// Batches of asks, of which no record comes twice, nor in a stream that begins elsewhere.
fn stream(alloc: Global, first: u32, batches: u32) -> Option<Stream> {
    let stretch = Stretch {
        name: "two threads",
        window: 300_000_000,
        first,
        count: batches.saturating_mul(1_000),
        step: 1,
        late: 0,
    };
    let mut stream = Vec::with_capacity(alloc, batches as usize).ok()?;
    for batch in 0..batches {
        stream.push(asks_of(alloc, &stretch, batch)?).ok()?;
    }
    Some(stream)
}

/// Puts the asks to the book under a lock, and counts those that were answered.
fn ask_locked<L: Calls, R: Wait>(
    rt: &R,
    book: &SharedBook<L>,
    seat: &mut Seat<L>,
    asks: &[Ask],
) -> u32 {
    let mut answered = 0u32;
    for ask in asks {
        if book.admit(rt, seat, ask).is_ok() {
            answered = answered.saturating_add(1);
        }
    }
    answered
}

fn ask_locked_stream<L: Calls, R: Wait>(
    rt: &R,
    book: &SharedBook<L>,
    seat: &mut Seat<L>,
    stream: &Stream,
) -> u32 {
    let mut answered = 0u32;
    for asks in stream {
        answered = answered.saturating_add(ask_locked(rt, book, seat, asks.as_slice()));
    }
    answered
}

/// Both streams at a book under a lock: how many were answered, and how long that took.
fn measure_locked<L: Calls + Send + Sync, R: Threads + Wait + Sync + Clock>(
    rt: &R,
    alloc: Global,
    blank: Blank,
    streams: &(Stream, Stream),
) -> Option<(u32, Duration)>
    requires name { blank.name ≡ L.name }
    requires parts { blank.parts ≡ L.parts }
    requires two { blank.parts ≡ 2 }
    requires skew { L.skew ≡ 300 }
{
    let (book, all) = blank.open::<L>();
    let (book, seats) = SharedBook::with_seats(alloc, book, all, SKEW, 2).ok()?;
    let mut seats = seats.into_inner();
    let mut second = seats.pop()?;
    let mut first = seats.pop()?;
    let (one, two) = streams;
    let shared = &book;
    let start = Instant::now(rt).ok()?;
    let (a, b) = join(
        rt,
        move || ask_locked_stream(rt, shared, &mut first, one),
        move || ask_locked_stream(rt, shared, &mut second, two),
    );
    let spent = start.elapsed(rt).ok()?;
    Some((a.saturating_add(b), spent))
}

fn is_answered<R: Wait>(rt: &R, book: &TableBook, pass: &mut Pass, ask: &Ask) -> bool
    requires { pass.old.table ≡ book.now.table }
    ensures { pass.new.table ≡ book.now.table }
{
    match book.admit(rt, pass, ask) {
        Ok(_) => true,
        Err(_) => false,
    }
}

/// Puts the asks to the book on a table, and counts those that were answered.
fn ask_table<R: Wait>(rt: &R, book: &TableBook, pass: &mut Pass, asks: &[Ask]) -> u32
    requires { pass.old.table ≡ book.now.table }
    ensures { pass.new.table ≡ book.now.table }
{
    let mut answered = 0u32;
    for ask in asks {
        if is_answered(rt, book, pass, ask) {
            answered = answered.saturating_add(1);
        }
    }
    answered
}

fn ask_table_stream<R: Wait>(rt: &R, book: &TableBook, pass: Pass, stream: &Stream) -> u32
    requires { pass.table ≡ book.now.table }
{
    let mut pass = pass;
    let mut answered = 0u32;
    for asks in stream {
        answered = answered.saturating_add(ask_table(rt, book, &mut pass, asks.as_slice()));
    }
    answered
}

/// Both streams at a book on a table.
fn measure_table<R: Threads + Wait + Sync + Clock>(
    rt: &R,
    alloc: Global,
    streams: &(Stream, Stream),
) -> Option<(u32, Duration)> {
    let (book, passes) = TableBook::with_passes(alloc, SKEW, 2).ok()?;
    let mut passes = passes.into_inner();
    let second = passes.pop().unwrap();
    let first = passes.pop().unwrap();
    let (one, two) = streams;
    let shared = &book;
    let start = Instant::now(rt).ok()?;
    let (a, b) = join(
        rt,
        move || -> u32
            requires { first.table ≡ shared.now.table }
        { ask_table_stream(rt, shared, first, one) },
        move || -> u32
            requires { second.table ≡ shared.now.table }
        { ask_table_stream(rt, shared, second, two) },
    );
    let spent = start.elapsed(rt).ok()?;
    Some((a.saturating_add(b), spent))
}

fn report(rt: &(impl Print + Eprint), book: &str, answered: u32, spent: Duration) -> Result<()> {
    println!(rt; "two threads, {book}: {answered} answered")?;
    let each = spent
        .as_nanos()
        .checked_div(u128::from(answered))
        .unwrap_or(0);
    eprintln!(rt; "two threads, {book}: {each} ns each")?;
    Ok(())
}

/// Both streams of this many batches.
fn both_streams(alloc: Global, batches: u32) -> Option<(Stream, Stream)> {
    let first = stream(alloc, 0, batches)?;
    Some((first, stream(alloc, APART, batches)?))
}

fn measure_both<R: Print + Eprint + Clock + AllocGlobal + Threads + Wait + Sync>(
    rt: &R,
    streams: &(Stream, Stream),
) -> Result<()> {
    let locked = measure_locked::<Brand, R>(rt, rt.alloc(), Blank::new(2), streams);
    let (answered, spent) = locked.context("out of memory")?;
    report(rt, "a book under a lock", answered, spent)?;
    let (answered, spent) = measure_table(rt, rt.alloc(), streams).context("out of memory")?;
    report(rt, "a book on a table", answered, spent)
}

/// Measures both books over the same asks: with `full` 100,000 of them, otherwise 2,000.
pub fn run<R: Print + Eprint + Clock + AllocGlobal + Threads + Wait + Sync>(
    rt: &R,
    full: bool,
) -> Result<()> {
    let batches = if full { FULL_BATCHES } else { 1 };
    let streams = both_streams(rt.alloc(), batches).context("out of memory")?;
    measure_both(rt, &streams)
}
