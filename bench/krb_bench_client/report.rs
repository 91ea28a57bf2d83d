//! The lines that a measurement prints.

use anyhow::Result;
use std::time::Duration;

/// The sum of the octets of a key.
pub fn sum(key: &[u8]) -> u64 {
    let mut sum: u64 = 0;
    for octet in key {
        sum = sum.wrapping_add(u64::from(*octet));
    }
    sum
}

/// Prints the sum of the keys that this many brought, and the time of one.
pub fn report(
    rt: &(impl Print + Eprint),
    name: &str,
    count: u32,
    sum: u64,
    spent: Duration,
) -> Result<()> {
    println!(rt; "{name}, {count} times: {sum}")?;
    let each = spent.as_nanos().checked_div(u128::from(count)).unwrap_or(0);
    let a_second = 1_000_000_000u128.checked_div(each).unwrap_or(0);
    eprintln!(rt; "{name}, {count} times: {each} ns each, {a_second} a second")?;
    Ok(())
}
