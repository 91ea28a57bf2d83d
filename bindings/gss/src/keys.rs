//! The keys of a keytab file, in keyrings of the library. A keytab is read again when it changes.

use crate::abi::NO_CRED;
use crate::status::{NO_KEYS, Refused};
use menolavuri::{Acceptor, Error, Judged, Keyring};
use std::fs::File;
use std::io::Read;
use std::os::unix::fs::MetadataExt;
use std::sync::{Arc, Mutex, PoisonError};
use std::time::Duration;

/// A file's state: whether it is another one, or was written to.
type State = (u64, u64, i64, i64, u64);

/// The keys of a keytab. A ring judges one token at a time: each thread that judges has one of its own, and gives it back.
pub struct Keys {
    file: Vec<u8>,
    idle: Mutex<Vec<Keyring>>,
    /// It has no key and no book: it admits what a ring judged and a store answered.
    pub admits: Acceptor,
}

/// The keys of each path, and the file's state when they were read.
static KEPT: Mutex<Vec<(String, State, Arc<Keys>)>> = Mutex::new(Vec::new());

fn refused(words: String) -> Refused {
    Refused::of(NO_CRED, NO_KEYS, words)
}

fn state_of(file: &File) -> std::io::Result<State> {
    let it = file.metadata()?;
    Ok((it.dev(), it.ino(), it.mtime(), it.mtime_nsec(), it.size()))
}

/// The keys in this file, as they are now.
pub fn of_file(path: &str, skew: Duration) -> Result<Arc<Keys>, Refused> {
    let told = |error: std::io::Error| refused(format!("keytab {path}: {error}"));
    let mut kept = KEPT.lock().unwrap_or_else(PoisonError::into_inner);
    let mut file = File::open(path).map_err(told)?;
    let state = state_of(&file).map_err(told)?;
    let known = kept.iter().position(|it| it.0 == path);
    match known {
        Some(at) if kept[at].1 == state => return Ok(kept[at].2.clone()),
        _ => {}
    }
    let mut octets = Vec::new();
    file.read_to_end(&mut octets).map_err(told)?;
    let keys = Keys::of(octets, skew);
    let keys = Arc::new(keys.map_err(|it| refused(format!("keytab {path}: {it}")))?);
    let entry = (path.to_owned(), state, keys.clone());
    match known {
        Some(at) => kept[at] = entry,
        None => kept.push(entry),
    }
    Ok(keys)
}

fn ring(file: &[u8]) -> Result<Keyring, Error> {
    let mut ring = Keyring::new()?;
    ring.add_keytab(file)?;
    Ok(ring)
}

impl Keys {
    fn of(file: Vec<u8>, skew: Duration) -> Result<Keys, String> {
        let mut first = ring(&file).map_err(|it| it.to_string())?;
        if first.count() == 0 {
            return Err("it has no key".into());
        }
        Ok(Keys {
            file,
            idle: Mutex::new(vec![first]),
            admits: Acceptor::keyless(skew).map_err(|it| it.to_string())?,
        })
    }

    fn idle(&self) -> std::sync::MutexGuard<'_, Vec<Keyring>> {
        self.idle.lock().unwrap_or_else(PoisonError::into_inner)
    }

    /// The checks of a token before the store's, by the key that its ticket names.
    pub fn judge(&self, token: &[u8], bindings: Option<&[u8]>) -> Result<Judged, Error> {
        let idle = self.idle().pop();
        let mut ring = match idle {
            Some(it) => it,
            None => ring(&self.file)?,
        };
        let judged = match bindings {
            None => ring.judge(token),
            Some(data) => ring.judge_bound(token, data),
        };
        self.idle().push(ring);
        judged
    }
}
