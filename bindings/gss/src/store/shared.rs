//! A Redis that the processes of several machines share.

use super::Answer;
use super::redis::Store;
use crate::behind::getpid;
use std::ffi::c_int;
use std::sync::{Mutex, PoisonError};
use std::time::Duration;

/// A connection, and the process that made it: a forked child makes its own.
static CONNECTION: Mutex<Option<(c_int, Store)>> = Mutex::new(None);

/// Asks the store at this address. A connection that fails is made anew for the next record.
pub fn ask(address: &str, record: &[u8], skew: Duration) -> Result<Answer, String> {
    let mut connection = CONNECTION.lock().unwrap_or_else(PoisonError::into_inner);
    // SAFETY: it takes nothing.
    let pid = unsafe { getpid() };
    let told = |error: std::io::Error| format!("the store at {address}: {error}");
    let mut store = match connection.take() {
        Some((maker, store)) if maker == pid => store,
        _ => Store::connect(address, skew).map_err(told)?,
    };
    let now = store.now().map_err(told)?;
    // A client's clock may be ahead by the skew, and its token is good for the skew after that.
    let seen = store.was_there(record, 3 * skew).map_err(told)?;
    *connection = Some((pid, store));
    Ok(Answer { now, seen })
}
