//! A file that the processes of one user share, under a lock of POSIX (fcntl). The lock belongs to the process: a forked child does not
//! have it, and it ends with the process, whichever way that dies. Threads take turns by a lock of the process. Nothing is mapped, so that
//! a full disk is an error and no signal.

use crate::behind::{geteuid, getpid};
use std::ffi::c_int;
use std::fs::{DirBuilder, File, Metadata};
use std::io::ErrorKind::{AlreadyExists, PermissionDenied, WouldBlock};
use std::os::fd::{AsRawFd, IntoRawFd};
use std::os::unix::fs::{DirBuilderExt, FileExt, MetadataExt, OpenOptionsExt};
use std::sync::{Mutex, PoisonError};
use std::time::{Duration, Instant};

/// The time for which a lock is waited for.
const PATIENCE: Duration = Duration::from_secs(5);

#[repr(C)]
struct Flock {
    kind: i16,
    whence: i16,
    start: i64,
    length: i64,
    pid: c_int,
}

const SETLK: c_int = 6;
const OFD_SETLK: c_int = 37;
const READ: i16 = 0;
const WRITE: i16 = 1;
const UNLOCK: i16 = 2;
const NOFOLLOW: c_int = 0o400_000;

unsafe extern "C" {
    fn fcntl(file: c_int, command: c_int, lock: *mut Flock) -> c_int;
}

/// A file's device and number.
type Key = (u64, u64);

/// A file, and the process that opened it.
struct Open {
    pid: c_int,
    key: Key,
    folder: String,
    path: String,
    file: File,
}

/// A file that this process opens once, and anew after a fork, or if the path has another file than before.
pub struct Shared(Mutex<Option<Open>>);

fn told(path: &str) -> impl Fn(std::io::Error) -> String + '_ {
    move |error| format!("{path}: {error}")
}

/// The folder of this user in a folder, which is made if it is not there. Nobody else may write to it.
pub fn own_folder(folder: &str) -> Result<String, String> {
    // SAFETY: it takes nothing.
    let user = unsafe { geteuid() };
    let path = format!("{folder}/{user}");
    match DirBuilder::new().mode(0o700).create(&path) {
        Err(error) if error.kind() != AlreadyExists => return Err(told(&path)(error)),
        _ => {}
    }
    let state = std::fs::symlink_metadata(&path).map_err(told(&path))?;
    if !state.is_dir() || state.uid() != user || state.mode() & 0o022 != 0 {
        return Err(format!(
            "{path} is not a folder that this user alone writes to"
        ));
    }
    Ok(path)
}

fn open(folder: &str, name: &str) -> Result<Open, String> {
    let path = format!("{}/{name}", own_folder(folder)?);
    let mut how = File::options();
    how.read(true)
        .write(true)
        .create(true)
        .truncate(false)
        .mode(0o600)
        .custom_flags(NOFOLLOW);
    let file = how.open(&path).map_err(told(&path))?;
    let key = key_of(file.metadata()).ok_or("it has no state")?;
    // SAFETY: it takes nothing.
    let pid = unsafe { getpid() };
    Ok(Open {
        pid,
        key,
        folder: folder.to_owned(),
        path,
        file,
    })
}

fn key_of(state: std::io::Result<Metadata>) -> Option<Key> {
    state.ok().map(|it| (it.dev(), it.ino()))
}

impl Open {
    /// Returns true if the descriptor still is this file's. A program may close descriptors that it did not open (closefrom), and open others.
    fn is_own(&self) -> bool {
        key_of(self.file.metadata()) == Some(self.key)
    }

    /// Returns true if the path still has this file. If it was removed, another process makes a new one, and both have to use that.
    fn is_there(&self) -> bool {
        key_of(std::fs::symlink_metadata(&self.path)) == Some(self.key)
    }

    /// Closes the file, and no descriptor of somebody else.
    fn close(self) {
        if !self.is_own() {
            let _ = self.file.into_raw_fd();
        }
    }
}

impl Flock {
    fn of(kind: i16) -> Flock {
        Flock {
            kind,
            whence: 0,
            start: 0,
            length: 0,
            pid: 0,
        }
    }
}

/// Takes the lock or gives it back: true if that was done.
fn lock(file: &File, kind: i16) -> bool {
    // SAFETY: the file is open, and the lock is ours.
    unsafe { fcntl(file.as_raw_fd(), SETLK, &mut Flock::of(kind)) == 0 }
}

/// Locks a file until it is closed, whatever else the process opens and closes. Returns false if another one has it locked. A file system
/// without locks has none.
fn lock_open(file: &File, kind: i16) -> bool {
    // SAFETY: as above.
    let status = unsafe { fcntl(file.as_raw_fd(), OFD_SETLK, &mut Flock::of(kind)) };
    status == 0
        || !matches!(
            std::io::Error::last_os_error().kind(),
            WouldBlock | PermissionDenied
        )
}

/// Locks a file for reading, until it is closed. Returns false if somebody writes to it.
pub fn lock_to_read(file: &File) -> bool {
    lock_open(file, READ)
}

/// Locks a file for writing, until it is closed. Returns false if somebody reads it or writes to it.
pub fn lock_to_write(file: &File) -> bool {
    lock_open(file, WRITE)
}

/// Does something under the lock. Nothing else in the process opens the file, so no close of another ends the lock.
fn locked<T>(file: &File, work: impl FnOnce(&File) -> Result<T, String>) -> Result<T, String> {
    let start = Instant::now();
    let mut pause = Duration::from_micros(20);
    while !lock(file, WRITE) {
        if start.elapsed() > PATIENCE {
            return Err("it stays locked".into());
        }
        std::thread::sleep(pause);
        pause = (pause * 2).min(Duration::from_millis(2));
    }
    let answer = work(file);
    if !lock(file, UNLOCK) {
        return Err("it cannot be unlocked".into());
    }
    answer
}

impl Shared {
    pub const fn new() -> Shared {
        Shared(Mutex::new(None))
    }

    /// Does something with the file of this name in this user's folder, which is opened if it is not yet.
    pub fn with<T>(
        &self,
        folder: &str,
        name: &str,
        work: impl FnOnce(&File) -> Result<T, String>,
    ) -> Result<T, String> {
        let mut here = self.0.lock().unwrap_or_else(PoisonError::into_inner);
        // SAFETY: it takes nothing.
        let pid = unsafe { getpid() };
        let is_good =
            |it: &Open| it.pid == pid && it.folder == folder && it.is_own() && it.is_there();
        if !here.as_ref().is_some_and(is_good) {
            if let Some(old) = here.take() {
                old.close();
            }
            *here = Some(open(folder, name)?);
        }
        let Some(at) = here.as_ref() else {
            return Err("it is not open".into());
        };
        locked(&at.file, work).map_err(|error| format!("{}: {error}", at.path))
    }

    /// Closes the file, for a measurement.
    pub fn close(&self) {
        let mut here = self.0.lock().unwrap_or_else(PoisonError::into_inner);
        if let Some(old) = here.take() {
            old.close();
        }
    }
}

impl Default for Shared {
    fn default() -> Shared {
        Shared::new()
    }
}

/// As many octets of a file as it has at a place, up to all.
pub fn read_at(file: &File, to: &mut [u8], at: u64) -> Result<usize, String> {
    let mut filled = 0;
    while filled < to.len() {
        match file.read_at(&mut to[filled..], at + filled as u64) {
            Ok(0) => break,
            Ok(count) => filled += count,
            Err(error) => return Err(error.to_string()),
        }
    }
    Ok(filled)
}

pub fn write_at(file: &File, octets: &[u8], at: u64) -> Result<(), String> {
    file.write_all_at(octets, at)
        .map_err(|error| error.to_string())
}

#[cfg(test)]
mod tests {
    use super::*;
    use std::os::fd::FromRawFd;
    use std::os::unix::fs::PermissionsExt;

    unsafe extern "C" {
        fn dup2(from: c_int, to: c_int) -> c_int;
    }

    #[test]
    fn a_folder_of_others_is_refused() {
        let room = crate::store::tests::room("folder");
        let own = own_folder(&room).unwrap();
        assert_eq!(own_folder(&room).unwrap(), own);
        std::fs::set_permissions(&own, std::fs::Permissions::from_mode(0o777)).unwrap();
        assert!(own_folder(&room).unwrap_err().contains("this user alone"));
        std::fs::remove_dir(&own).unwrap();
        std::os::unix::fs::symlink("/tmp", &own).unwrap();
        assert!(own_folder(&room).is_err());
        assert!(own_folder("/nonexistent").is_err());
    }

    #[test]
    fn a_file_that_was_removed_is_made_anew() {
        let room = crate::store::tests::room("removed");
        let shared = Shared::new();
        let count = |file: &File| {
            let mut octet = [0];
            read_at(file, &mut octet, 0)?;
            write_at(file, &[octet[0] + 1], 0)?;
            Ok(octet[0])
        };
        assert_eq!(shared.with(&room, "one", count), Ok(0));
        assert_eq!(shared.with(&room, "one", count), Ok(1));
        std::fs::remove_file(format!("{}/one", own_folder(&room).unwrap())).unwrap();
        assert_eq!(shared.with(&room, "one", count), Ok(0));
    }

    #[test]
    fn a_descriptor_of_somebody_else_is_left_alone() {
        let room = crate::store::tests::room("stolen");
        let shared = Shared::new();
        shared.with(&room, "one", |_| Ok(())).unwrap();
        let number = shared.0.lock().unwrap().as_ref().unwrap().file.as_raw_fd();
        let other = File::open("/dev/null").unwrap();
        // SAFETY: both are open; the other end of the program takes the number.
        assert_eq!(unsafe { dup2(other.as_raw_fd(), number) }, number);
        shared.with(&room, "one", |_| Ok(())).unwrap();
        // SAFETY: it is open, and nobody else has it.
        let kept = unsafe { File::from_raw_fd(number) };
        assert_eq!(key_of(kept.metadata()), key_of(other.metadata()));
        assert_ne!(
            shared.0.lock().unwrap().as_ref().unwrap().file.as_raw_fd(),
            number
        );
    }
}
