//! The service over inputs that lie in memory: the demonstration's, and longer ones, which show how its time grows with the
//! number of connections and events.

ghost use Rattle.std.specs.Prelude.{◌≤◌};

use anyhow::{Context, Result};
use krb_demo::{DemoClient, demonstration};
use krb_der::{OutOfMemory, Time, boxed};
use krb_machine::{Calls, MemSink, MemSource, Words, serve};
use std::alloc::Global;
use std::rt::Clock;
use std::str;
use std::time::{Duration, Instant};

/// The second of the first event, from the beginning of 1970.
const START: u32 = 1_700_000_000;

/// How many events of a long input come in a second.
const EVENTS_A_SECOND: u32 = 10;

/// Room for the lines of one acceptor and its event.
const OCTETS_A_CONNECTION: usize = 1_280;

/// The service's key, in hex.
const KEY: &str = "000102030405060708090a0b0c0d0e0f101112131415161718191a1b1c1d1e1f";

/// 64 octets of zero in hex.
pub(crate) const ZEROS: &str =
    "00000000000000000000000000000000000000000000000000000000000000000000000000000000000000000000000000000000000000000000000000000000";

/// An input in memory, and its last line.
#[derive(Clone, Copy)]
pub(crate) struct Load<'a> {
    pub(crate) name: &'a str,
    pub(crate) events: u32,
    /// The words with which each answer begins that is counted.
    pub(crate) answer: &'a str,
    /// How many octets go through the service: of the input, or of the messages' texts.
    pub(crate) octets: usize,
    pub(crate) input: &'a [u8],
}

/// An acceptor and its key.
fn acceptor_lines(alloc: Global, k: u32) -> Option<String> {
    let service = "host/server.example.com";
    format!(in alloc; "acceptor {k} 0 bench {service}\nkey {k} {service} {KEY}\n").ok()
}

/// The second of event number `k`, from the beginning of 1970.
fn second(k: u32) -> u32 {
    START + k / EVENTS_A_SECOND
}

/// The event of an acceptor, whose token is the one of event number `sender`.
fn event_line(alloc: Global, client: &DemoClient, k: u32, sender: u32) -> Option<String> {
    let sent = Time::new(i64::from(second(sender)));
    let confounder = u128::from(sender).to_be_bytes();
    let token = client
        .token(alloc, sent, sender.to_be_bytes(), confounder)
        .ok()?;
    let digits = hex::encode(alloc, token.as_slice()).ok()?;
    let moment = u64::from(second(k)) * 1_000_000;
    format!(in alloc; "event {k} {moment} {ZEROS} - token {digits}\n").ok()
}

/// Whose token an event has: each tenth one may repeat the token before it.
fn sender_of(k: u32, repeats: bool) -> u32 {
    if repeats && k % 10 == 0 {
        k.saturating_sub(1)
    } else {
        k
    }
}

/// A client of the acceptors' service.
fn new_client(alloc: Global) -> Result<Box<DemoClient>, OutOfMemory> {
    boxed(alloc, DemoClient::new(alloc)?)
}

/// Puts an acceptor after an input.
fn put_acceptor(alloc: Global, k: u32, input: &mut Vec<u8>) -> Option<()> {
    let lines = acceptor_lines(alloc, k)?;
    input.extend_from_slice(lines.as_bytes()).ok()
}

/// Puts this many acceptors there.
fn put_acceptors(alloc: Global, count: u32, input: &mut Vec<u8>) -> Option<()> {
    for k in 1..count.saturating_add(1) {
        put_acceptor(alloc, k, input)?;
    }
    Some(())
}

/// Puts the event of an acceptor after an input.
fn put_event(
    alloc: Global,
    client: &DemoClient,
    k: u32,
    sender: u32,
    input: &mut Vec<u8>,
) -> Option<()> {
    let line = event_line(alloc, client, k, sender)?;
    input.extend_from_slice(line.as_bytes()).ok()
}

/// Puts an event at each of this many acceptors there.
fn put_events(
    alloc: Global,
    client: &DemoClient,
    count: u32,
    repeats: bool,
    input: &mut Vec<u8>,
) -> Option<()> {
    for k in 1..count.saturating_add(1) {
        put_event(alloc, client, k, sender_of(k, repeats), input)?;
    }
    Some(())
}

/// Puts this many acceptors after an input, and an event at each.
fn put_admissions(alloc: Global, count: u32, repeats: bool, input: &mut Vec<u8>) -> Option<()> {
    put_acceptors(alloc, count, input)?;
    let client = new_client(alloc).ok()?;
    put_events(alloc, &client, count, repeats, input)
}

/// An input of this many acceptors, and an event at each, ten in a second.
pub(crate) fn admissions(alloc: Global, count: u32, repeats: bool) -> Option<Vec<u8>> {
    let room = (count as usize).saturating_mul(OCTETS_A_CONNECTION);
    let mut input = Vec::with_capacity(alloc, room).ok()?;
    input.extend_from_slice(b"skew 300\n").ok()?;
    put_admissions(alloc, count, repeats, &mut input)?;
    Some(input)
}

/// A command of one word.
pub(crate) fn command(alloc: Global, word: &str) -> Option<Words> {
    let mut words = Vec::new(alloc);
    words.push(String::from_str(alloc, word).ok()?).ok()?;
    Some(Words::new(words))
}

/// An output as text.
fn text_of(output: &[u8]) -> &str {
    str::from_utf8(output).unwrap_or("")
}

/// The last line of an output.
pub(crate) fn last_line(output: &[u8]) -> &str {
    text_of(output).lines().last().unwrap_or("")
}

/// How many lines of an output begin so.
fn count_answers(output: &[u8], answer: &str) -> u32 {
    let mut count = 0u32;
    for line in text_of(output).lines() {
        if line.starts_with(answer) {
            count = count.saturating_add(1);
        }
    }
    count
}

/// How long `serve` answers a source, and what it writes.
fn time_serve(
    rt: &(impl Clock + AllocGlobal),
    words: &Words,
    source: &mut MemSource,
    sink: &mut MemSink,
) -> Result<Duration> {
    let alloc = rt.alloc();
    let start = Instant::now(rt)?;
    let _status = serve(alloc, words, source, sink);
    Ok(start.elapsed(rt)?)
}

/// The output of `serve` for an input, and the time that it takes.
pub(crate) fn served(rt: &(impl Clock + AllocGlobal), input: &[u8]) -> Result<(MemSink, Duration)> {
    let alloc = rt.alloc();
    let words = command(alloc, "serve").context("out of memory")?;
    let mut source = MemSource::new(input, Calls::sound(alloc));
    let mut sink = MemSink::new(alloc, Calls::sound(alloc));
    let spent = time_serve(rt, &words, &mut source, &mut sink)?;
    Ok((sink, spent))
}

/// Prints how long the events of an input took.
fn tell(rt: &impl Eprint, load: &Load, spent: u128) -> Result<()> {
    let (name, events, octets) = (load.name, load.events, load.octets);
    let each = spent.checked_div(u128::from(events)).unwrap_or(0);
    let a_second = 1_000_000_000u128.checked_div(each).unwrap_or(0);
    let rate = (octets as u128)
        .saturating_mul(1_000)
        .checked_div(spent)
        .unwrap_or(0);
    eprintln!(rt;
        "serve: {name}, {events} events, {octets} octets: {each} ns each, {a_second} a second, {rate} MB/s"
    )?;
    Ok(())
}

/// Prints how the events of an input were answered, and how long that took.
fn report(rt: &(impl Print + Eprint), load: &Load, output: &[u8], spent: Duration) -> Result<()> {
    let (name, events, answer) = (load.name, load.events, load.answer);
    let count = count_answers(output, answer);
    let end = last_line(output);
    println!(rt; "serve: {name}, {events} events: {count} {answer}, {end}")?;
    tell(rt, load, spent.as_nanos())
}

/// Serves an input, and prints how it was answered and how long that took.
pub(crate) fn measure(rt: &(impl Print + Eprint + Clock + AllocGlobal), load: &Load) -> Result<()> {
    let (sink, spent) = served(rt, load.input)?;
    report(rt, load, sink.bytes(), spent)
}

/// Measures an input of admissions.
fn measure_admissions(
    rt: &(impl Print + Eprint + Clock + AllocGlobal),
    name: &str,
    events: u32,
    input: &[u8],
) -> Result<()> {
    let load = Load {
        name,
        events,
        answer: "ok",
        octets: input.len(),
        input,
    };
    measure(rt, &load)
}

fn measure_demonstration(rt: &(impl Print + Eprint + Clock + AllocGlobal), count: u32) -> Result<()>
    requires some { 1 ≤ count }
    requires few { count ≤ 10000 }
{
    let input = demonstration(rt.alloc(), count)
        .ok()
        .context("out of memory")?;
    measure_admissions(rt, "the demonstration", count, input.as_slice())
}

fn measure_long(rt: &(impl Print + Eprint + Clock + AllocGlobal), count: u32) -> Result<()> {
    let input = admissions(rt.alloc(), count, true).context("out of memory")?;
    measure_admissions(rt, "ten a second", count, input.as_slice())
}

/// Measures the demonstration's input, and inputs of 1,000, 10,000 and 100,000 connections.
pub fn run(rt: &(impl Print + Eprint + Clock + AllocGlobal), full: bool) -> Result<()> {
    if full {
        measure_demonstration(rt, 10_000)?;
        measure_long(rt, 1_000)?;
        measure_long(rt, 10_000)?;
        measure_long(rt, 100_000)
    } else {
        measure_demonstration(rt, 20)?;
        measure_long(rt, 20)
    }
}
