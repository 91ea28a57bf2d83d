//! A file of records that all processes of a user share. It is meant for a folder that a crash of the machine empties (/run), so nobody is
//! admitted until the machine is up for twice the skew: a client's clock may be ahead by the skew, and its token is good for the skew after
//! that. A new process does not wait.

use super::{Answer, table};
use crate::locked::Shared;
use std::ffi::c_int;
use std::time::{Duration, SystemTime, UNIX_EPOCH};

static FILE: Shared = Shared::new();
const NAME: &str = "admitted";
const BOOTTIME: c_int = 7;

#[repr(C)]
struct Timespec {
    seconds: i64,
    nanoseconds: i64,
}

unsafe extern "C" {
    fn clock_gettime(clock: c_int, to: *mut Timespec) -> c_int;
}

/// The time since the machine was started.
fn uptime() -> Duration {
    let mut it = Timespec {
        seconds: 0,
        nanoseconds: 0,
    };
    // SAFETY: it can be written.
    let status = unsafe { clock_gettime(BOOTTIME, &mut it) };
    Duration::from_secs(if status == 0 {
        it.seconds.unsigned_abs()
    } else {
        0
    })
}

/// Asks the file in this folder.
pub fn ask(folder: &str, record: &[u8], skew: Duration) -> Result<Answer, String> {
    if uptime() <= 2 * skew {
        return Err(format!(
            "the machine was started less than {} seconds ago",
            2 * skew.as_secs()
        ));
    }
    FILE.with(folder, NAME, |file| {
        let now = SystemTime::now()
            .duration_since(UNIX_EPOCH)
            .map_err(|_| "the clock is before 1970")?;
        let (now, seen) = table::ask(file, record, now, skew)?;
        Ok(Answer {
            now: UNIX_EPOCH + now,
            seen,
        })
    })
}

/// Closes the file, for a measurement.
pub fn close() {
    FILE.close();
}
