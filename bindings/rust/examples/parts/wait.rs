//! The wait of a new process, before which it admits nobody.

use crate::telling::log;
use std::thread;
use std::time::{Duration, Instant};

/// Tells for how long nobody is admitted, and why. Returns the moment from which on clients are.
pub fn opening(skew: Duration, wait: Duration) -> Instant {
    let twice = 2 * skew;
    if wait < twice {
        log(&format!(
            "a wait of {} seconds is right only where no other process had the key within the last {} seconds",
            wait.as_secs(),
            twice.as_secs()
        ));
    }
    if !wait.is_zero() {
        log(&format!(
            "nobody is admitted for {} seconds: a token that an earlier process admitted, from a clock that is ahead by the skew, \
             is valid for twice the skew, and this process does not know it",
            wait.as_secs()
        ));
        thread::spawn(move || {
            thread::sleep(wait);
            log("clients are admitted from now on");
        });
    }
    Instant::now() + wait
}
