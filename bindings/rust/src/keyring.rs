//! All keys of an acceptor.

use crate::error::{Error, done};
use crate::judged::Judged;
use crate::{moment_of, random};
use menolavuri_sys::{self as sys, mk_keyring, mk_moment};
use std::time::SystemTime;

/// All keys of an acceptor, of all realms, encryption types and versions. It has no replay book: it judges tokens, and
/// [`Acceptor::admit`](crate::Acceptor::admit) or [`Acceptor::admit_by_store`](crate::Acceptor::admit_by_store) admits what it judged.
///
/// A ticket is decrypted with the key that it names in the clear, by service, realm, encryption type and version. If it names no version,
/// or one that the ring does not have, all keys of the service, the realm and the type are tried, newest first. So tickets under the key
/// before and after a change of keys are accepted.
///
/// A ring is used by one thread at a time: each thread has one of its own, or all threads have one in a lock.
#[derive(Debug)]
pub struct Keyring(mk_keyring);

// SAFETY: the library's handle of a keyring may go to another thread (`Send` is proved of it), and each call takes `&mut self`.
unsafe impl Send for Keyring {}

impl Keyring {
    /// Makes a keyring without a key.
    pub fn new() -> Result<Keyring, Error> {
        let mut ring = Keyring(mk_keyring::EMPTY);
        // SAFETY: the handle is empty.
        done(unsafe { sys::mk_keyring_new(&mut ring.0) })?;
        Ok(ring)
    }

    /// Adds all entries of a keytab, from the bytes of its file, after the existing ones. Returns their number. After an error the ring has
    /// the keys that it had.
    pub fn add_keytab(&mut self, file: &[u8]) -> Result<usize, Error> {
        // SAFETY: the handle is ours, and the pointer and the length are those of one slice.
        done(unsafe { sys::mk_keyring_add_keytab(&mut self.0, file.as_ptr(), file.len()) })
    }

    /// Sets the greatest length of a token, in bytes: a longer one is refused unread. A ring begins with 65,536.
    pub fn set_token_limit(&mut self, most: usize) -> Result<(), Error> {
        // SAFETY: the handle is ours.
        done(unsafe { sys::mk_keyring_set_token_limit(&mut self.0, most) })?;
        Ok(())
    }

    /// Returns the number of entries that were added.
    pub fn count(&mut self) -> u64 {
        // SAFETY: the handle is ours.
        unsafe { sys::mk_keyring_count(&mut self.0) }
    }

    /// Judges a token by the system's clock: all checks before the replay book's. Nobody is admitted yet.
    ///
    /// Refused as [`Cause::NoServiceKey`](crate::Cause::NoServiceKey) if the ring has no key for its ticket.
    pub fn judge(&mut self, token: &[u8]) -> Result<Judged, Error> {
        self.judge_at(token, SystemTime::now(), random()?)
    }

    /// Judges a token at this moment, with 64 bytes that are random and fresh.
    pub fn judge_at(
        &mut self,
        token: &[u8],
        moment: SystemTime,
        random: [u8; 64],
    ) -> Result<Judged, Error> {
        self.judge_if_bound(token, None, &moment_of(moment, random)?)
    }

    /// Judges a token whose client is on the channel with these data, as [`Acceptor::judge_bound`](crate::Acceptor::judge_bound) does.
    pub fn judge_bound(&mut self, token: &[u8], data: &[u8]) -> Result<Judged, Error> {
        self.judge_bound_at(token, data, SystemTime::now(), random()?)
    }

    /// Judges a token whose client is on a channel, at this moment, with 64 bytes that are random and fresh.
    pub fn judge_bound_at(
        &mut self,
        token: &[u8],
        data: &[u8],
        moment: SystemTime,
        random: [u8; 64],
    ) -> Result<Judged, Error> {
        self.judge_if_bound(token, Some(data), &moment_of(moment, random)?)
    }

    fn judge_if_bound(
        &mut self,
        token: &[u8],
        data: Option<&[u8]>,
        moment: &mk_moment,
    ) -> Result<Judged, Error> {
        let mut judged = Judged::empty();
        let octets = data.unwrap_or(&[]);
        // SAFETY: the handle is ours, the other one is empty, and each pointer and length are those of one slice.
        done(unsafe {
            sys::mk_keyring_judge(
                &mut self.0,
                judged.handle(),
                token.as_ptr(),
                token.len(),
                u32::from(data.is_some()),
                octets.as_ptr(),
                octets.len(),
                moment,
            )
        })?;
        Ok(judged)
    }
}

impl Drop for Keyring {
    fn drop(&mut self) {
        // SAFETY: the handle is ours.
        unsafe { sys::mk_keyring_free(&mut self.0) }
    }
}
