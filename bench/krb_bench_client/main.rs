//! Measures a client's exchanges with a KDC and with a service whose replies lie in memory, and prints figures.
//!
//! Standard output has a line for each measurement: its name, and the sum of the octets of the keys that were brought, which are
//! the same on every machine. Standard error has the times. With no argument each measurement is tried three times; with the word
//! `full` it runs long enough to measure.
#![tactic(auto)]

mod alice;
mod exchanges;
mod initializations;
mod replies;
mod report;

use anyhow::Result;
use std::env;
use std::env::Env;

/// Whether the first word after the program's name is `full`.
fn is_full(rt: &(impl Env + AllocGlobal)) -> Result<bool> {
    let mut words = env::args(rt)?;
    let _program = words.next();
    match words.next() {
        Some(word) => Ok(word.as_str() == "full"),
        None => Ok(false),
    }
}

fn main(rt: HostRuntime) -> Result<()> {
    let full = is_full(&rt)?;
    exchanges::run(&rt, full)?;
    initializations::run(&rt, full)
}
