//! How long work takes.

use std::error::Error;
use std::time::{Duration, Instant};

pub type Outcome<T> = Result<T, Box<dyn Error + Send + Sync>>;

const ROUNDS: usize = 3;

/// Work over inputs.
pub type Work<'a, T> = &'a mut dyn FnMut(&[T]) -> Outcome<()>;

/// The least time that each work takes, over several rounds. Each round has inputs of its own, which are made before the clock
/// starts, and begins with another work.
pub fn least<T, const N: usize>(
    mut make: impl FnMut() -> Outcome<Vec<T>>,
    works: [Work<T>; N],
) -> Outcome<[Duration; N]> {
    let mut least = [Duration::MAX; N];
    for round in 0..ROUNDS {
        let inputs = make()?;
        for at in (0..N).map(|at| (at + round) % N) {
            let start = Instant::now();
            works[at](&inputs)?;
            least[at] = least[at].min(start.elapsed());
        }
    }
    Ok(least)
}

/// How many there are in a second, where this many take this time.
pub fn a_second(count: usize, time: Duration) -> f64 {
    count as f64 / time.as_secs_f64()
}

/// How many microseconds one takes, where this many take this time.
pub fn microseconds(count: usize, time: Duration) -> f64 {
    time.as_secs_f64() * 1e6 / count as f64
}
