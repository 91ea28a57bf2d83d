//! The log of decisions: one line for each client that is admitted or refused, and with `trace` one for each call. Text from outside is
//! escaped before it gets here, so that it is one line.

use crate::behind::getpid;
use crate::config::{self, Target};
use std::ffi::{CString, c_char, c_int};
use std::fmt::Arguments;
use std::io::Write;
use std::time::{SystemTime, UNIX_EPOCH};

const AUTHPRIV: c_int = 10 << 3;
const NOTICE: c_int = 5;

unsafe extern "C" {
    fn syslog(priority: c_int, form: *const c_char, ...);
}

/// Writes a line to the log: the system's if there are no settings.
pub fn write(words: Arguments<'_>) {
    match config::get().map(|it| &it.log) {
        Ok(Target::Off) => {}
        Ok(Target::Syslog) | Err(_) => to_syslog(&words.to_string()),
        Ok(Target::Stderr) => to_stderr(&stamped(words)),
        Ok(Target::File(path)) => to_file(path, &stamped(words)),
    }
}

pub fn is_traced() -> bool {
    config::get().is_ok_and(|it| it.trace)
}

fn stamped(words: Arguments<'_>) -> String {
    let now = SystemTime::now()
        .duration_since(UNIX_EPOCH)
        .unwrap_or_default();
    // SAFETY: it takes and changes nothing.
    let pid = unsafe { getpid() };
    format!(
        "{}.{:06} menolavuri[{pid}]: {words}\n",
        now.as_secs(),
        now.subsec_micros()
    )
}

/// Keeps the program's own name and facility, which it may have set for the system's log.
fn to_syslog(text: &str) {
    if let Ok(text) = CString::new(format!("menolavuri: {}", text.replace('\0', "\\0"))) {
        // SAFETY: both texts end with 0, and the first one takes one text.
        unsafe { syslog(AUTHPRIV | NOTICE, c"%s".as_ptr(), text.as_ptr()) }
    }
}

fn to_stderr(line: &str) {
    let _ = std::io::stderr().write_all(line.as_bytes());
}

/// One write with O_APPEND, so that lines of several processes do not mix.
fn to_file(path: &str, line: &str) {
    use std::os::unix::fs::OpenOptionsExt;
    let file = std::fs::OpenOptions::new()
        .append(true)
        .create(true)
        .mode(0o600)
        .open(path);
    if let Ok(mut file) = file {
        let _ = file.write_all(line.as_bytes());
    }
}

/// A line of the log.
#[macro_export]
macro_rules! say {
    ($($word:tt)*) => { $crate::journal::write(format_args!($($word)*)) };
}

/// A line for a call, if calls are traced.
#[macro_export]
macro_rules! trace {
    ($($word:tt)*) => { if $crate::journal::is_traced() { $crate::journal::write(format_args!($($word)*)) } };
}
