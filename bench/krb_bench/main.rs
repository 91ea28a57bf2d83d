//! Measures what the libraries do, and prints figures.
//!
//! Standard output has a line for each measurement, its name and a checksum of what was done, which are the same on every
//! machine; standard error has the times. With no argument each measurement is tried once; with the word `full` it runs
//! long enough to measure.
#![tactic(auto)]

mod books;
mod replay;
mod suites;
mod timing;

use anyhow::Result;
use std::env;
use std::env::Env;

/// Whether the first word after the program's name is `full`.
fn is_full(rt: &(impl Env + AllocGlobal)) -> Result<bool> {
    let mut words = env::args(rt)?;
    let _program = words.next();
    match words.next() {
        Some(word) => Ok(word.as_str() == "full"),
        None => Ok(false),
    }
}

fn main(rt: HostRuntime) -> Result<()> {
    let full = is_full(&rt)?;
    suites::run(&rt, full)?;
    replay::run(&rt, full)?;
    books::run(&rt, full)
}
