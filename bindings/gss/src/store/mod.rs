//! The store of admitted clients' records, which outlives each process. It is asked after a token passed all other checks of the library,
//! and before the client is admitted: the library judges its answer. If it does not answer nobody is admitted.

pub mod file;
#[allow(dead_code)]
#[path = "../../../rust/examples/parts/redis.rs"]
pub mod redis;
pub mod shared;
mod table;

use crate::config::Place;
use std::time::{Duration, SystemTime};

/// The store's own time, and whether it had the record. It has it from then on.
#[derive(Clone, Copy, Debug, PartialEq)]
pub struct Answer {
    pub now: SystemTime,
    pub seen: bool,
}

/// Inserts a record unless it is there, in one step.
pub fn ask(place: &Place, record: &[u8], skew: Duration) -> Result<Answer, String> {
    match place {
        Place::Folder(folder) => file::ask(folder, record, skew),
        Place::Redis(address) => shared::ask(address, record, skew),
    }
}

#[cfg(test)]
pub mod tests {
    use std::sync::atomic::{AtomicU32, Ordering};

    /// A new folder under the system's for temporary files.
    pub fn room(name: &str) -> String {
        static COUNT: AtomicU32 = AtomicU32::new(0);
        let count = COUNT.fetch_add(1, Ordering::Relaxed);
        let path =
            std::env::temp_dir().join(format!("mk-gss-{name}-{}-{count}", std::process::id()));
        let _ = std::fs::remove_dir_all(&path);
        std::fs::create_dir(&path).unwrap();
        path.to_str().unwrap().to_owned()
    }
}
