//! Services, and the clients that they admit.

use crate::error::{Error, done};
use crate::judged::Judged;
use crate::session::Session;
use crate::{microseconds, moment_of, random};
use menolavuri_sys::{self as sys, mk_acceptor, mk_moment};
use std::fmt;
use std::sync::atomic::{AtomicU32, Ordering};
use std::sync::{Mutex, MutexGuard, PoisonError};
use std::time::{Duration, SystemTime};

/// The services of a process, their keys, and the one replay book of all their clients. Threads share it by reference: the ciphers
/// of an admission run outside of the book's lock.
pub struct Acceptor {
    /// The services and the book.
    book: Mutex<mk_acceptor>,
    copies: Mutex<Copies>,
    /// The number of seconds by which a client's clock may be wrong.
    skew: AtomicU32,
    older: Option<Box<Acceptor>>,
}

/// Copies of the services that judge tokens, each for one thread at a time.
struct Copies {
    idle: Vec<mk_acceptor>,
    /// How often the services or the limit were changed: a copy that was made before is not kept.
    changes: usize,
}

// SAFETY: the library's handle of an acceptor may go to another thread (`Send` is proved of it), and the locks give each to one
// call at a time.
unsafe impl Send for Acceptor {}
// SAFETY: as above.
unsafe impl Sync for Acceptor {}

fn lock<T>(mutex: &Mutex<T>) -> MutexGuard<'_, T> {
    // No call unwinds, so the value in a poisoned lock is whole.
    mutex.lock().unwrap_or_else(PoisonError::into_inner)
}

fn seconds(skew: Duration) -> Result<u32, Error> {
    u32::try_from(skew.as_secs()).map_err(|_| Error::Argument)
}

impl Acceptor {
    /// Makes an acceptor of the service with this name, as `host/server.example.com`, and its key, of 16 or 32 bytes. A client's clock may
    /// be wrong by up to `skew`, in whole seconds.
    pub fn new(name: &str, key: &[u8], skew: Duration) -> Result<Acceptor, Error> {
        let skew = seconds(skew)?;
        let mut handle = mk_acceptor::EMPTY;
        // SAFETY: the handle is empty, and each pointer and length are those of one slice.
        done(unsafe {
            sys::mk_acceptor_new(
                &mut handle,
                name.as_ptr(),
                name.len(),
                key.as_ptr(),
                key.len(),
                skew,
            )
        })?;
        Ok(Acceptor::of(handle, skew))
    }

    /// Makes an acceptor of all services of this realm that have a key in the bytes of a keytab file, each with one key: of type 18, or of
    /// type 17 if there is none, with the greatest version. Refused as [`Cause::NoServiceKey`](crate::Cause::NoServiceKey) if no
    /// service has a key.
    pub fn with_keytab(file: &[u8], realm: &str, skew: Duration) -> Result<Acceptor, Error> {
        let skew = seconds(skew)?;
        let mut handle = mk_acceptor::EMPTY;
        // SAFETY: the handle is empty, and each pointer and length are those of one slice.
        done(unsafe {
            sys::mk_acceptor_new_keytab(
                &mut handle,
                file.as_ptr(),
                file.len(),
                realm.as_ptr(),
                realm.len(),
                skew,
            )
        })?;
        Ok(Acceptor::of(handle, skew))
    }

    /// Makes an acceptor without a key: its replay book admits what a [`Keyring`](crate::Keyring) judged. It refuses every token that it
    /// judges itself.
    pub fn keyless(skew: Duration) -> Result<Acceptor, Error> {
        let skew = seconds(skew)?;
        let mut handle = mk_acceptor::EMPTY;
        // SAFETY: the handle is empty.
        done(unsafe { sys::mk_acceptor_new_keyless(&mut handle, skew) })?;
        Ok(Acceptor::of(handle, skew))
    }

    fn of(handle: mk_acceptor, skew: u32) -> Acceptor {
        Acceptor {
            book: Mutex::new(handle),
            copies: Mutex::new(Copies {
                idle: Vec::new(),
                changes: 0,
            }),
            skew: AtomicU32::new(skew),
            older: None,
        }
    }

    /// Decrypts tickets by the keys of this other acceptor too, if its own do not decrypt them: after a change of keys, tickets under the
    /// older ones stay valid. The other's book is never asked.
    pub fn with_older(mut self, older: Acceptor) -> Acceptor {
        self.older = Some(Box::new(older));
        self
    }

    /// Returns a copy of the services for this thread, with the number of changes before it was made.
    fn copy(&self) -> Result<(usize, mk_acceptor), Error> {
        let changes = {
            let mut copies = lock(&self.copies);
            if let Some(copy) = copies.idle.pop() {
                return Ok((copies.changes, copy));
            }
            copies.changes
        };
        let mut copy = mk_acceptor::EMPTY;
        // SAFETY: the handle is the lock's, and the other one is empty.
        done(unsafe { sys::mk_acceptor_copy(&mut *lock(&self.book), &mut copy) })?;
        Ok((changes, copy))
    }

    fn put_back(&self, changes: usize, mut copy: mk_acceptor) {
        let mut copies = lock(&self.copies);
        if copies.changes == changes {
            copies.idle.push(copy);
        } else {
            // SAFETY: the handle is ours.
            unsafe { sys::mk_acceptor_free(&mut copy) }
        }
    }

    /// Adds a service with its key.
    pub fn add_key(&self, name: &str, key: &[u8]) -> Result<(), Error> {
        // SAFETY: the handle is the lock's, and each pointer and length are those of one slice.
        done(unsafe {
            sys::mk_acceptor_add_key(
                &mut *lock(&self.book),
                name.as_ptr(),
                name.len(),
                key.as_ptr(),
                key.len(),
            )
        })?;
        self.drop_copies();
        Ok(())
    }

    fn drop_copies(&self) {
        let mut copies = lock(&self.copies);
        copies.changes += 1;
        copies.free();
    }

    /// Sets the greatest length of a token, in bytes: a longer one is refused unread. An acceptor begins with 65,536.
    pub fn set_token_limit(&self, most: usize) -> Result<(), Error> {
        if let Some(older) = &self.older {
            older.set_token_limit(most)?;
        }
        // SAFETY: the handle is the lock's.
        done(unsafe { sys::mk_acceptor_set_token_limit(&mut *lock(&self.book), most) })?;
        self.drop_copies();
        Ok(())
    }

    /// Begins a new, empty replay book, for clocks that may be wrong by up to this number of seconds. Call it after a token was judged by a
    /// clock that was far ahead, so that every client is refused.
    ///
    /// # Security
    /// A token that was admitted before can be admitted again, as after a restart: wait for twice the skew before the next admission.
    pub fn new_book(&self, skew: Duration) -> Result<(), Error> {
        let skew = seconds(skew)?;
        // SAFETY: the handle is the lock's.
        done(unsafe { sys::mk_acceptor_new_book(&mut *lock(&self.book), skew) })?;
        self.skew.store(skew, Ordering::SeqCst);
        Ok(())
    }

    /// Reserves space for this many more records of admitted clients: that many admissions then need no memory for records.
    pub fn reserve(&self, records: usize) -> Result<(), Error> {
        // SAFETY: the handle is the lock's.
        done(unsafe { sys::mk_acceptor_reserve(&mut *lock(&self.book), records) })?;
        Ok(())
    }

    fn seconds(&self) -> u32 {
        self.skew.load(Ordering::SeqCst)
    }

    /// Returns the time by which a client's clock may be wrong.
    pub fn skew(&self) -> Duration {
        Duration::from_secs(self.seconds().into())
    }

    /// Returns the number of records of admitted clients that are kept.
    pub fn kept(&self) -> u64 {
        // SAFETY: the handle is the lock's.
        unsafe { sys::mk_acceptor_kept(&mut *lock(&self.book)) }
    }

    /// Admits the client that sent this token, by the system's clock.
    pub fn accept(&self, token: &[u8]) -> Result<Session, Error> {
        self.admit(self.judge(token)?)
    }

    /// Admits the client that sent this token at this moment, with 64 bytes that are random and fresh.
    pub fn accept_at(
        &self,
        token: &[u8],
        moment: SystemTime,
        random: [u8; 64],
    ) -> Result<Session, Error> {
        self.admit(self.judge_at(token, moment, random)?)
    }

    /// Admits the client that sent this token, as [`judge_bound`](Acceptor::judge_bound) judges it, by the system's clock.
    pub fn accept_bound(&self, token: &[u8], data: &[u8]) -> Result<Session, Error> {
        self.admit(self.judge_bound(token, data)?)
    }

    /// Makes the checks of a token before the replay book's, by the system's clock. The client is not admitted yet.
    pub fn judge(&self, token: &[u8]) -> Result<Judged, Error> {
        self.judge_at(token, SystemTime::now(), random()?)
    }

    /// Makes the checks of a token before the replay book's, at this moment, with 64 bytes that are random and fresh.
    pub fn judge_at(
        &self,
        token: &[u8],
        moment: SystemTime,
        random: [u8; 64],
    ) -> Result<Judged, Error> {
        self.judge_in_turn(token, None, &moment_of(moment, random)?)
    }

    /// Judges as [`judge`](Acceptor::judge) does, and requires that the client is on this channel. The data are those of
    /// [`Initiator::bind`](crate::Initiator::bind): for a TLS channel those of RFC 5929, as `tls-server-end-point:` and the hash of the
    /// server's certificate. Refused as [`Cause::Checksum`](crate::Cause::Checksum) if the client's checksum has no room for bindings,
    /// and as [`Cause::Bindings`](crate::Cause::Bindings) if it has others, or none.
    pub fn judge_bound(&self, token: &[u8], data: &[u8]) -> Result<Judged, Error> {
        self.judge_bound_at(token, data, SystemTime::now(), random()?)
    }

    /// Judges as [`judge_bound`](Acceptor::judge_bound) does, at this moment, with 64 bytes that are random and fresh.
    pub fn judge_bound_at(
        &self,
        token: &[u8],
        data: &[u8],
        moment: SystemTime,
        random: [u8; 64],
    ) -> Result<Judged, Error> {
        self.judge_in_turn(token, Some(data), &moment_of(moment, random)?)
    }

    /// Tries the newest keys first. Returns their refusal if no keys decrypt the ticket, otherwise that of the keys that decrypt it.
    fn judge_in_turn(
        &self,
        token: &[u8],
        data: Option<&[u8]>,
        moment: &mk_moment,
    ) -> Result<Judged, Error> {
        let judged = self.judge_by_own(token, data, moment);
        let (Err(error), Some(older)) = (&judged, &self.older) else {
            return judged;
        };
        if !error.is_of_key() {
            return judged;
        }
        match older.judge_in_turn(token, data, moment) {
            Err(other) if other.is_of_key() => judged,
            other => other,
        }
    }

    fn judge_by_own(
        &self,
        token: &[u8],
        data: Option<&[u8]>,
        moment: &mk_moment,
    ) -> Result<Judged, Error> {
        let (changes, mut copy) = self.copy()?;
        let mut judged = Judged::empty();
        let (keys, to) = (&mut copy, judged.handle());
        // SAFETY: the copy is ours, the other handle is empty, and each pointer and length are those of one slice.
        let reply = unsafe {
            let (at, length) = (token.as_ptr(), token.len());
            match data {
                None => sys::mk_judge(keys, to, at, length, moment),
                Some(data) => {
                    sys::mk_judge_bound(keys, to, at, length, data.as_ptr(), data.len(), moment)
                }
            }
        };
        self.put_back(changes, copy);
        done(reply)?;
        Ok(judged)
    }

    /// Asks the replay book, and admits the client. The book's lock is held for this alone.
    pub fn admit(&self, mut judged: Judged) -> Result<Session, Error> {
        let mut session = Session::empty();
        // SAFETY: the acceptor's handle is the lock's, the session's is empty, and the judged token's is ours.
        let length = done(unsafe {
            sys::mk_admit(&mut *lock(&self.book), judged.handle(), &mut session.handle)
        })?;
        session.learn(length)?;
        Ok(session)
    }

    /// Admits the client by the reply of a store that machines share, which was asked about its [`record`](Judged::record) and keeps it from
    /// then on. `now` is the store's own time when it replied; `seen` is true if it had the record. No book is asked. If the store does
    /// not reply, admit nobody.
    pub fn admit_told(
        &self,
        mut judged: Judged,
        now: SystemTime,
        seen: bool,
    ) -> Result<Session, Error> {
        let now = microseconds(now)?;
        let mut session = Session::empty();
        // SAFETY: the judged token's handle is ours, and the session's is empty.
        let length = done(unsafe {
            sys::mk_admit_told(
                judged.handle(),
                &mut session.handle,
                self.seconds(),
                now,
                u32::from(seen),
            )
        })?;
        session.learn(length)?;
        Ok(session)
    }
}

impl Copies {
    fn free(&mut self) {
        for mut copy in self.idle.drain(..) {
            // SAFETY: nobody else has the handle.
            unsafe { sys::mk_acceptor_free(&mut copy) }
        }
    }
}

/// Keys and records are not shown.
impl fmt::Debug for Acceptor {
    fn fmt(&self, f: &mut fmt::Formatter<'_>) -> fmt::Result {
        f.debug_struct("Acceptor")
            .field("skew", &self.skew())
            .field("kept", &self.kept())
            .field("older", &self.older)
            .finish_non_exhaustive()
    }
}

impl Drop for Acceptor {
    fn drop(&mut self) {
        lock(&self.copies).free();
        // SAFETY: nobody else has the handle.
        unsafe { sys::mk_acceptor_free(&mut *lock(&self.book)) }
    }
}
