//! Clients that are not admitted yet.

use crate::error::{Error, done, told_flags};
use crate::options::GssFlags;
use crate::session::Authorization;
use crate::{filled, named};
use menolavuri_sys::{self as sys, mk_judged};

/// A client whose token passed every check but the replay book's. It is not admitted yet.
#[derive(Debug)]
pub struct Judged(mk_judged);

// SAFETY: the library's handle of a judged token may go to another thread (`Send` is proved of it), and each call uses it up.
unsafe impl Send for Judged {}

impl Drop for Judged {
    fn drop(&mut self) {
        // SAFETY: the handle is ours.
        unsafe { sys::mk_judged_free(&mut self.0) }
    }
}

impl Judged {
    pub(crate) fn empty() -> Judged {
        Judged(mk_judged::EMPTY)
    }

    pub(crate) fn handle(&mut self) -> &mut mk_judged {
        &mut self.0
    }

    /// Returns the whole name of the client, in the form of [`Session::client`](crate::Session::client). It is not admitted yet. Refused as
    /// [`Error::NotUtf8`] if it is not UTF-8.
    pub fn client(&mut self) -> Result<String, Error> {
        let handle = &mut self.0;
        // SAFETY: the handle is ours, and the pointer and the length are those of one vector.
        named(|out, room| unsafe { sys::mk_judged_get_client(handle, out, room) })
    }

    /// Returns the service that the ticket is for, as `host/server.example.com@EXAMPLE.COM`.
    pub fn service(&mut self) -> Result<String, Error> {
        let handle = &mut self.0;
        // SAFETY: as above.
        named(|out, room| unsafe { sys::mk_judged_get_service(handle, out, room) })
    }

    /// Returns the flags of the client's request, or `None` if its checksum has no flags, as that of a client of another protocol.
    pub fn flags(&mut self) -> Result<Option<GssFlags>, Error> {
        // SAFETY: the handle is ours.
        told_flags(unsafe { sys::mk_judged_get_flags(&mut self.0) })
    }

    /// Returns the last 12 bytes of the encrypted authenticator. Two log-ins have equal ones by chance alone, once in 2^96; a replay has
    /// those of the first.
    pub fn tag(&mut self) -> Result<[u8; 12], Error> {
        let mut tag = [0; 12];
        // SAFETY: the handle is ours, and the pointer and the length are those of one array.
        done(unsafe { sys::mk_judged_get_tag(&mut self.0, tag.as_mut_ptr(), tag.len()) })?;
        Ok(tag)
    }

    /// Returns the KRB-CRED by which the client delegates a ticket of its own (RFC 4121, section 4.1.1), as it came: no bytes if it asked
    /// for no delegation. It is not decrypted.
    pub fn delegation(&mut self) -> Result<Vec<u8>, Error> {
        let handle = &mut self.0;
        // SAFETY: as above.
        filled(0, |out, room| unsafe {
            sys::mk_judged_get_delegation(handle, out, room)
        })
    }

    /// Returns an element of the authorization data of the ticket, as a PAC, or `None` if there are fewer (RFC 4120, section 5.2.6). The
    /// place counts from 0, and each AD-IF-RELEVANT counts as the elements inside it, one level deep. **Nothing in it is checked here.**
    pub fn authorization(&mut self, place: usize) -> Result<Option<Authorization>, Error> {
        let handle = &mut self.0;
        // SAFETY: the handle and the number are ours, and the pointer and the length are those of one vector.
        Authorization::of(|kind, out, room| unsafe {
            sys::mk_judged_get_authorization(handle, place, kind, out, room)
        })
    }

    /// Returns the replay record, for a store that machines share and [`Acceptor::admit_by_store`](crate::Acceptor::admit_by_store). Two uses of one authenticator have equal
    /// bytes. The store inserts them and says whether it had them, in one step. It may drop them when its own time is later than the
    /// client's by more than the skew; the client's may be ahead by the skew.
    pub fn record(&mut self) -> Result<Vec<u8>, Error> {
        let handle = &mut self.0;
        // SAFETY: as above.
        filled(96, |out, room| unsafe {
            sys::mk_judged_get_record(handle, out, room)
        })
    }
}
