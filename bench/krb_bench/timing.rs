//! A measurement: work done again and again, its checksum and its time.

use anyhow::Result;
use krb_crypto::CryptoError;
use std::rt::Clock;
use std::time::Instant;

/// How many octets a full measurement goes over, where its texts are long enough.
const FULL_OCTETS: usize = 50_000_000;

/// The most repetitions of a full measurement.
const MOST_REPETITIONS: usize = 200_000;

/// A measurement: the subject and its operation, the number of octets, and the number of repetitions.
#[derive(Clone, Copy)]
pub struct Measurement<'a> {
    pub subject: &'a str,
    pub action: &'a str,
    pub octets: usize,
    pub repetitions: usize,
}

/// The last four octets, as a number.
pub fn last_octets(text: &[u8]) -> u32 {
    match text {
        [.., a, b, c, d] => u32::from_be_bytes([*a, *b, *c, *d]),
        _ => 0,
    }
}

/// The number of times that work over this number of octets is done.
pub fn repetitions(octets: usize, full: bool) -> usize {
    if full {
        FULL_OCTETS
            .checked_div(octets)
            .unwrap_or(1)
            .clamp(1, MOST_REPETITIONS)
    } else {
        1
    }
}

impl Measurement<'_> {
    /// Does the work, and prints the checksum of its last result and its time.
    pub fn run<F: Fn() -> Result<u32, CryptoError>>(
        &self,
        rt: &(impl Print + Eprint + Clock),
        work: F,
    ) -> Result<()>
    where
        F: Drop,
        requires { F.IsAlwaysCallable work }
    {
        let mut checksum = 0;
        let start = Instant::now(rt)?;
        for _ in 0..self.repetitions {
            checksum = work()?;
        }
        self.report(rt, checksum, start.elapsed(rt)?.as_nanos())
    }

    /// Prints the checksum of the last result, and the time: this many nanoseconds for all repetitions.
    fn report(&self, rt: &(impl Print + Eprint), checksum: u32, spent: u128) -> Result<()> {
        let subject = self.subject;
        let action = self.action;
        let octets = self.octets;
        println!(rt; "{subject}: {action}, {octets} octets: {checksum:08x}")?;
        let each = spent.checked_div(self.repetitions as u128).unwrap_or(0);
        let a_second = 1_000_000_000u128.checked_div(each).unwrap_or(0);
        let rate = a_second.saturating_mul(self.octets as u128) / 1_000_000;
        eprintln!(rt;
            "{subject}: {action}, {octets} octets: {each} ns each, {a_second} a second, {rate} MB/s"
        )?;
        Ok(())
    }
}
