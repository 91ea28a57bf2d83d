//! Measures the service, on one thread and on two, and prints figures.
//!
//! Standard output has a line for each measurement, its name and a checksum of what was done, which are the same on every
//! machine; standard error has the times. With no argument each measurement is tried once; with the word `full` it runs
//! long enough to measure. With the word `threads` and a number, those of two threads alone do, in this many rounds.
#![tactic(auto)]

mod messages;
mod serving;
mod starts;
mod two_threads;

use anyhow::Result;
use std::env;
use std::env::Env;
use std::rt::Clock;
use std::sync::Wait;
use std::thread::Threads;

/// How many rounds `full` has on one thread and on two, in turn.
const ROUNDS: u32 = 20;

/// The choice that the words after the program's name make.
enum Asked {
    /// Each measurement once, of a few events.
    Trial,
    Full,
    /// Two threads alone, in this many rounds.
    Threads(u32),
}

fn read_words(rt: &(impl Env + AllocGlobal)) -> Result<Asked> {
    let mut words = env::args(rt)?;
    let _program = words.next();
    let Some(word) = words.next() else {
        return Ok(Asked::Trial);
    };
    match word.as_str() {
        "full" => Ok(Asked::Full),
        "threads" => {
            let rounds = match words.next() {
                Some(number) => number.as_str().parse().unwrap_or(ROUNDS),
                None => ROUNDS,
            };
            Ok(Asked::Threads(rounds))
        }
        _ => Ok(Asked::Trial),
    }
}

/// The measurements of one thread.
fn one_thread(rt: &(impl Print + Eprint + Clock + AllocGlobal), full: bool) -> Result<()> {
    serving::run(rt, full)?;
    messages::run(rt, full)?;
    starts::run(rt, full)
}

/// The measurements of one thread, and then so much by two.
fn one_and_two<R: Print + Eprint + Clock + AllocGlobal + Threads + Wait + Sync>(
    rt: &R,
    full: bool,
    amount: two_threads::Amount,
) -> Result<()> {
    one_thread(rt, full)?;
    two_threads::run(rt, amount)
}

fn main(rt: HostRuntime) -> Result<()> {
    match read_words(&rt)? {
        Asked::Trial => one_and_two(&rt, false, two_threads::TRIAL),
        Asked::Full => one_and_two(&rt, true, two_threads::full(ROUNDS)),
        Asked::Threads(rounds) => two_threads::run(&rt, two_threads::full(rounds)),
    }
}
