//! `threads` next to `serve`, over the same inputs in memory: an admission a connection, and messages that two connections seal.

use crate::messages::wraps;
use crate::serving::{admissions, command, last_line, served};
use anyhow::{Context, Result};
use krb_machine::{Calls, MemSink, MemSource, Words};
use krb_threads::{NoPause, threads};
use std::rt::Clock;
use std::sync::Wait;
use std::thread::Threads;
use std::time::{Duration, Instant};

/// How long two threads answer a source, and what they write.
fn time_threads<R: Clock + AllocGlobal + Threads + Wait + Sync>(
    rt: &R,
    words: &Words,
    source: &mut MemSource,
    sink: &mut MemSink,
) -> Result<Duration> {
    let alloc = rt.alloc();
    let start = Instant::now(rt)?;
    let _status = threads(rt, alloc, words, source, sink, &mut NoPause, &mut NoPause);
    Ok(start.elapsed(rt)?)
}

/// How long two threads answer an input, and what they write.
fn answer_by_two<R: Clock + AllocGlobal + Threads + Wait + Sync>(
    rt: &R,
    input: &[u8],
    sink: &mut MemSink,
) -> Result<Duration> {
    let alloc = rt.alloc();
    let words = command(alloc, "threads").context("out of memory")?;
    let mut source = MemSource::new(input, Calls::sound(alloc));
    time_threads(rt, &words, &mut source, sink)
}

/// How much is measured: connections with an admission each, messages at two connections, and how often each is answered in
/// either way.
#[derive(Clone, Copy)]
pub(crate) struct Amount {
    connections: u32,
    messages: u32,
    rounds: u32,
}

/// Enough to try the measurement.
pub(crate) const TRIAL: Amount = Amount {
    connections: 20,
    messages: 20,
    rounds: 1,
};

/// Enough to measure.
pub(crate) fn full(rounds: u32) -> Amount {
    Amount {
        connections: 10_000,
        messages: 20_000,
        rounds,
    }
}

/// How long one thread answers an input, and how long two do, and what two write.
fn answer_both_ways<R: Clock + AllocGlobal + Threads + Wait + Sync>(
    rt: &R,
    input: &[u8],
    sink: &mut MemSink,
) -> Result<(Duration, Duration)> {
    let (_written, one) = served(rt, input)?;
    let two = answer_by_two(rt, input, sink)?;
    Ok((one, two))
}

/// Prints the last line that two threads wrote.
fn tell_end(rt: &impl Print, name: &str, count: u32, output: &[u8]) -> Result<()> {
    let end = last_line(output);
    println!(rt; "threads: {name}, {count} events: {end}")?;
    Ok(())
}

/// One round of both ways: how long each took. The last line that two threads write is printed where `is_first`.
fn answer_and_tell<R: Print + Clock + AllocGlobal + Threads + Wait + Sync>(
    rt: &R,
    (name, count): (&str, u32),
    is_first: bool,
    input: &[u8],
    sink: &mut MemSink,
) -> Result<(Duration, Duration)> {
    let spent = answer_both_ways(rt, input, sink)?;
    if is_first {
        tell_end(rt, name, count, sink.bytes())?;
    }
    Ok(spent)
}

/// One round with a sink of its own for what two threads write.
fn measure_round<R: Print + Clock + AllocGlobal + Threads + Wait + Sync>(
    rt: &R,
    named: (&str, u32),
    is_first: bool,
    input: &[u8],
) -> Result<(Duration, Duration)> {
    let mut sink = MemSink::new(rt.alloc(), Calls::sound(rt.alloc()));
    answer_and_tell(rt, named, is_first, input, &mut sink)
}

/// Answers an input of this many events on one thread and on two, in turn. Prints the last line that two threads write, and the
/// least time of each way, with their ratio in hundredths.
fn measure<R: Print + Eprint + Clock + AllocGlobal + Threads + Wait + Sync>(
    rt: &R,
    (name, count): (&str, u32),
    rounds: u32,
    input: &[u8],
) -> Result<()> {
    let (mut one, mut two) = (u128::MAX, u128::MAX);
    for round in 0..rounds {
        let (by_one, by_two) = measure_round(rt, (name, count), round == 0, input)?;
        one = one.min(by_one.as_micros());
        two = two.min(by_two.as_micros());
    }
    let ratio = one.saturating_mul(100).checked_div(two).unwrap_or(0);
    eprintln!(rt;
        "threads: {name}, {count} events, the least of {rounds}: {one} us on one thread, {two} us on two, ratio {ratio} of 100"
    )?;
    Ok(())
}

/// Measures messages that two connections seal.
fn measure_wraps<R: Print + Eprint + Clock + AllocGlobal + Threads + Wait + Sync>(
    rt: &R,
    messages: u32,
    rounds: u32,
) -> Result<()> {
    let input = wraps(rt.alloc(), 2, messages).context("out of memory")?;
    measure(rt, ("messages of 1 KiB", messages), rounds, &input)
}

/// Measures connections with an admission each, and messages at two connections.
pub(crate) fn run<R: Print + Eprint + Clock + AllocGlobal + Threads + Wait + Sync>(
    rt: &R,
    amount: Amount,
) -> Result<()> {
    let Amount {
        connections,
        messages,
        rounds,
    } = amount;
    let input = admissions(rt.alloc(), connections, true).context("out of memory")?;
    measure(rt, ("ten a second", connections), rounds, &input)?;
    measure_wraps(rt, messages, rounds)
}
