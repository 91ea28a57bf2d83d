//! Initiators with keytabs that begin, each at its own connection: an AS-REQ each.

use crate::serving::{Load, ZEROS, measure};
use anyhow::{Context, Result};
use std::alloc::Global;
use std::rt::Clock;

/// Room for the lines of one initiator and its event.
const OCTETS_A_CONNECTION: usize = 512;

/// The key in the keytab, in hex.
const KEY: &str = "72e14c8e96dfba330802c689e06448591bc19da4f18500d9d63671d6ce24d52d";

/// An initiator for a service, with its keytab and its KDC.
fn initiator_lines(alloc: Global, k: u32) -> Option<String> {
    format!(in alloc;
        "initiator {k} 0 bench host/server.example.com\nkeytab {k} EXAMPLE.COM\\alice 18 {KEY}\nkdc {k} tcp://kdc.example:88\n"
    ).ok()
}

fn start_line(alloc: Global, k: u32) -> Option<String> {
    format!(in alloc; "event {k} 1700000000000000 {ZEROS} M start\n").ok()
}

/// Puts an initiator after an input.
fn put_initiator(alloc: Global, k: u32, input: &mut Vec<u8>) -> Option<()> {
    let lines = initiator_lines(alloc, k)?;
    input.extend_from_slice(lines.as_bytes()).ok()
}

/// Puts this many initiators there.
fn put_initiators(alloc: Global, count: u32, input: &mut Vec<u8>) -> Option<()> {
    for k in 1..count.saturating_add(1) {
        put_initiator(alloc, k, input)?;
    }
    Some(())
}

/// Puts the start of an initiator after an input.
fn put_start(alloc: Global, k: u32, input: &mut Vec<u8>) -> Option<()> {
    let line = start_line(alloc, k)?;
    input.extend_from_slice(line.as_bytes()).ok()
}

/// Puts the starts of this many there.
fn put_starts(alloc: Global, count: u32, input: &mut Vec<u8>) -> Option<()> {
    for k in 1..count.saturating_add(1) {
        put_start(alloc, k, input)?;
    }
    Some(())
}

/// An input of this many initiators, and the start of each.
fn starts(alloc: Global, count: u32) -> Option<Vec<u8>> {
    let room = (count as usize).saturating_mul(OCTETS_A_CONNECTION);
    let mut input = Vec::with_capacity(alloc, room).ok()?;
    input.extend_from_slice(b"skew 300\n").ok()?;
    put_initiators(alloc, count, &mut input)?;
    put_starts(alloc, count, &mut input)?;
    Some(input)
}

fn measure_starts(rt: &(impl Print + Eprint + Clock + AllocGlobal), count: u32) -> Result<()> {
    let input = starts(rt.alloc(), count).context("out of memory")?;
    let load = Load {
        name: "start with a keytab",
        events: count,
        answer: "ask",
        octets: input.len(),
        input: input.as_slice(),
    };
    measure(rt, &load)
}

/// Measures the starts of 1,000, 10,000 and 100,000 initiators.
pub fn run(rt: &(impl Print + Eprint + Clock + AllocGlobal), full: bool) -> Result<()> {
    if full {
        measure_starts(rt, 1_000)?;
        measure_starts(rt, 10_000)?;
        measure_starts(rt, 100_000)
    } else {
        measure_starts(rt, 10)
    }
}
