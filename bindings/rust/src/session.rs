//! A connection whose exchange is over, and its messages.

use crate::error::{Error, done, told_flags};
use crate::options::{GssFlags, Rules};
use crate::{Cause, filled, named, random};
use menolavuri_sys::{self as sys, mk_reply, mk_session, mk_times};
use std::fmt;
use std::time::{Duration, SystemTime, UNIX_EPOCH};

/// A connection whose exchange is over: at an acceptor's end with a client that was admitted, at an initiator's with its service.
pub struct Session {
    pub(crate) handle: mk_session,
    peer: String,
    client: Option<String>,
    local_name: Option<String>,
    flags: Option<GssFlags>,
    ticket_flags: Option<u32>,
    ends: Option<SystemTime>,
    answer: Vec<u8>,
}

// SAFETY: the library's handle of a session may go to another thread (`Send` is proved of it), and each call takes `&mut self`.
unsafe impl Send for Session {}

/// A call that writes bytes into a buffer.
type OutCall = unsafe extern "C" fn(*mut mk_session, *mut u8, usize) -> mk_reply;

/// The text of a token from the other end.
#[derive(Clone, Debug, PartialEq, Eq)]
pub struct Opened {
    /// The text.
    pub text: Vec<u8>,
    /// True if the token was encrypted, false if it was in the clear.
    pub sealed: bool,
}

/// An element of authorization data (RFC 4120, section 5.2.6).
#[derive(Clone, Debug, PartialEq, Eq)]
pub struct Authorization {
    /// The type (section 7.5.4), as 128 for a PAC.
    pub kind: i32,
    /// The bytes of the element.
    pub data: Vec<u8>,
}

impl Authorization {
    /// Returns the element that a call writes with its type, or `None` if the call says that there is none at its place.
    pub(crate) fn of(
        mut call: impl FnMut(*mut i32, *mut u8, usize) -> mk_reply,
    ) -> Result<Option<Authorization>, Error> {
        let mut kind = 0;
        match filled(0, |out, room| call(&mut kind, out, room)) {
            Ok(data) => Ok(Some(Authorization { kind, data })),
            Err(Error::Argument) => Ok(None),
            Err(error) => Err(error),
        }
    }
}

impl Session {
    pub(crate) fn empty() -> Session {
        Session {
            handle: mk_session::EMPTY,
            peer: String::new(),
            client: None,
            local_name: None,
            flags: None,
            ticket_flags: None,
            ends: None,
            answer: Vec::new(),
        }
    }

    /// Keeps the name of the service that an initiator reached, and its last token.
    pub(crate) fn reach(&mut self, peer: String) -> Result<(), Error> {
        self.peer = peer;
        self.answer = self.octets(64, sys::mk_session_get_answer)?;
        Ok(())
    }

    /// Keeps the name, flags and times of an admitted client, and the answer, which has this length in bytes.
    pub(crate) fn learn(&mut self, answer: usize) -> Result<(), Error> {
        self.answer = self.octets(answer, sys::mk_session_get_answer)?;
        let client = self.text(sys::mk_session_get_client)?;
        self.local_name = self.short_name()?;
        self.peer = self.local_name.clone().unwrap_or_else(|| client.clone());
        self.client = Some(client);
        // SAFETY: the handle is ours.
        self.flags = told_flags(unsafe { sys::mk_session_get_flags(&mut self.handle) })?;
        // SAFETY: as above.
        let reply = unsafe { sys::mk_session_get_ticket_flags(&mut self.handle) };
        done(reply)?;
        self.ticket_flags = Some(reply.number);
        let mut times = mk_times::default();
        // SAFETY: both are ours.
        done(unsafe { sys::mk_session_get_times(&mut self.handle, &mut times) })?;
        let ends = u64::try_from(times.endtime).unwrap_or(0);
        self.ends = Some(UNIX_EPOCH + Duration::from_secs(ends));
        Ok(())
    }

    fn short_name(&mut self) -> Result<Option<String>, Error> {
        match self.text(sys::mk_session_get_local_name) {
            Ok(name) => Ok(Some(name)),
            Err(error) if error.cause() == Some(Cause::NoIdentity) => Ok(None),
            Err(error) => Err(error),
        }
    }

    fn text(&mut self, call: OutCall) -> Result<String, Error> {
        let handle = &mut self.handle;
        // SAFETY: the handle is ours, and the pointer and the length are those of one vector.
        named(|out, room| unsafe { call(handle, out, room) })
    }

    fn octets(&mut self, room: usize, call: OutCall) -> Result<Vec<u8>, Error> {
        let handle = &mut self.handle;
        // SAFETY: the handle is ours, and the pointer and the length are those of one vector.
        filled(room, |out, room| unsafe { call(handle, out, room) })
    }

    /// Returns the name of the other end, for display: of a service as the initiator got it, of a client its
    /// [`local_name`](Session::local_name) if it has one, otherwise its whole name.
    pub fn peer(&self) -> &str {
        &self.peer
    }

    /// Returns the whole name of the client: all components and the realm, as `alice/admin@EXAMPLE.COM`. **Give rights by this name
    /// alone.** Every client that was admitted has one, and an initiator's session has none.
    pub fn client(&self) -> Option<&str> {
        self.client.as_deref()
    }

    /// Returns the short name of a client, `alice@example.com`: the one component of its name and the realm in small letters. A client
    /// whose name is of another type than 1 or has further components, as `alice/admin` and `host/server.example.com`, has none.
    ///
    /// # Security
    /// Clients of realms that differ in the case of letters have the same short name: give rights by [`client`](Session::client).
    pub fn local_name(&self) -> Option<&str> {
        self.local_name.as_deref()
    }

    /// Returns the flags of the client's request, or `None` if its checksum has no flags, and for an initiator's session.
    pub fn flags(&self) -> Option<GssFlags> {
        self.flags
    }

    /// Returns the first 32 flags of the client's ticket, bit 0 the highest: FORWARDABLE, bit 1, is 0x40000000 (RFC 4120, section 5.3).
    /// An initiator's session does not have them.
    pub fn ticket_flags(&self) -> Option<u32> {
        self.ticket_flags
    }

    /// Returns the user's name if the client is a user of this realm: its realm is `realm`, byte for byte, and its name has one component,
    /// of visible ASCII without `/`, `@` and `\`. Returns `None` for a service as `host/server.example.com`, for `alice/admin`, for a
    /// client of another realm, and for a session of an initiator.
    ///
    /// # Security
    /// Give rights by this name or by [`client`](Session::client), and not by [`peer`](Session::peer), which can be the same text for
    /// clients of other realms.
    pub fn user_of(&self, realm: &str) -> Option<&str> {
        plain_user(self.client()?, realm)
    }

    /// Returns the end of the client's ticket. An initiator's session does not have it.
    pub fn ends(&self) -> Option<SystemTime> {
        self.ends
    }

    /// Returns the last token for the other end; empty if there is nothing to send.
    pub fn answer(&self) -> &[u8] {
        &self.answer
    }

    /// Sets its rules: these from now on, and no others. It begins with [`Rules::RFC`], or with the rules of its initiator. Only
    /// [`Rules::SUBKEY_FLAG_BY_ORIGIN`] and [`Rules::EXTRA_COUNT_BY_TOKEN`] matter to a session.
    pub fn set_rules(&mut self, rules: Rules) -> Result<(), Error> {
        // SAFETY: the handle is ours.
        done(unsafe { sys::mk_session_set_rules(&mut self.handle, rules.0) })?;
        Ok(())
    }

    /// Sets the order of the other end's messages and MICs: in order, each must have the number after the one before it, the first that of
    /// the client's token at an acceptor's session, and any at an initiator's. Otherwise they come in any order, as at first. A message with
    /// another number is refused as [`Cause::Number`].
    pub fn set_in_order(&mut self, in_order: bool) -> Result<(), Error> {
        // SAFETY: the handle is ours.
        done(unsafe { sys::mk_session_set_order(&mut self.handle, u32::from(in_order)) })?;
        Ok(())
    }

    /// Returns the KRB-CRED by which the client delegates a ticket of its own (RFC 4121, section 4.1.1), as it came: no bytes if it asked
    /// for no delegation, and for an initiator's session. It is not decrypted.
    pub fn delegation(&mut self) -> Result<Vec<u8>, Error> {
        if self.client.is_none() {
            return Ok(Vec::new());
        }
        self.octets(0, sys::mk_session_get_delegation)
    }

    /// Returns the last 12 bytes of the encrypted authenticator by which the client was admitted, as [`Judged::tag`](crate::Judged::tag)
    /// does, or `None` for an initiator's session.
    pub fn tag(&mut self) -> Result<Option<[u8; 12]>, Error> {
        if self.client.is_none() {
            return Ok(None);
        }
        let mut tag = [0; 12];
        // SAFETY: the handle is ours, and the pointer and the length are those of one array.
        done(unsafe { sys::mk_session_get_tag(&mut self.handle, tag.as_mut_ptr(), tag.len()) })?;
        Ok(Some(tag))
    }

    /// Returns an element of the authorization data of the client's ticket, as [`Judged::authorization`](crate::Judged::authorization)
    /// does, and `None` for an initiator's session.
    pub fn authorization(&mut self, place: usize) -> Result<Option<Authorization>, Error> {
        if self.client.is_none() {
            return Ok(None);
        }
        let handle = &mut self.handle;
        // SAFETY: the handle and the number are ours, and the pointer and the length are those of one vector.
        Authorization::of(|kind, out, room| unsafe {
            sys::mk_session_get_authorization(handle, place, kind, out, room)
        })
    }

    /// Returns the key of its messages, for a program that encrypts by itself: 32 bytes for encryption type 18, and 16 for type 17
    /// (RFC 3962). **Whoever has it reads all messages of the session.**
    pub fn key(&mut self) -> Result<Vec<u8>, Error> {
        self.octets(32, sys::mk_session_get_key)
    }

    /// Encrypts a text, for the other end's `gss_unwrap`.
    pub fn wrap(&mut self, text: &[u8]) -> Result<Vec<u8>, Error> {
        let confounder: [u8; 16] = random()?;
        let handle = &mut self.handle;
        // SAFETY: the handle is ours, and each pointer and length are those of one slice or vector.
        filled(text.len() + 60, |out, room| unsafe {
            sys::mk_wrap(
                handle,
                text.as_ptr(),
                text.len(),
                confounder.as_ptr(),
                confounder.len(),
                out,
                room,
            )
        })
    }

    /// Makes a token with the text in the clear and a checksum, for the other end's `gss_unwrap`.
    pub fn wrap_in_clear(&mut self, text: &[u8]) -> Result<Vec<u8>, Error> {
        let handle = &mut self.handle;
        // SAFETY: as above.
        filled(text.len() + 28, |out, room| unsafe {
            sys::mk_wrap_in_clear(handle, text.as_ptr(), text.len(), out, room)
        })
    }

    /// Returns the text of a token that the other end's `gss_wrap` made. Each token is accepted once.
    pub fn unwrap(&mut self, token: &[u8]) -> Result<Opened, Error> {
        let handle = &mut self.handle;
        // SAFETY: as above.
        let text = filled(token.len(), |out, room| unsafe {
            sys::mk_unwrap(handle, token.as_ptr(), token.len(), out, room)
        })?;
        let sealed = token.get(2).is_some_and(|flags| flags & 2 != 0);
        Ok(Opened { text, sealed })
    }

    /// Makes a MIC over a payload, for the other end's `gss_verify_mic`.
    pub fn mic(&mut self, payload: &[u8]) -> Result<Vec<u8>, Error> {
        let handle = &mut self.handle;
        // SAFETY: as above.
        filled(28, |out, room| unsafe {
            sys::mk_mic(handle, payload.as_ptr(), payload.len(), out, room)
        })
    }

    /// Verifies that the token is a MIC over this payload that the other end's `gss_get_mic` made.
    pub fn verify(&mut self, mic: &[u8], payload: &[u8]) -> Result<(), Error> {
        // SAFETY: the handle is ours, and each pointer and length are those of one slice.
        done(unsafe {
            sys::mk_verify(
                &mut self.handle,
                mic.as_ptr(),
                mic.len(),
                payload.as_ptr(),
                payload.len(),
            )
        })?;
        Ok(())
    }
}

/// The key and the bytes of the answer are not shown.
impl fmt::Debug for Session {
    fn fmt(&self, f: &mut fmt::Formatter<'_>) -> fmt::Result {
        f.debug_struct("Session")
            .field("peer", &self.peer)
            .field("client", &self.client)
            .field("flags", &self.flags)
            .field("ticket_flags", &self.ticket_flags)
            .field("ends", &self.ends)
            .finish_non_exhaustive()
    }
}

impl Drop for Session {
    fn drop(&mut self) {
        // SAFETY: the handle is ours.
        unsafe { sys::mk_session_free(&mut self.handle) }
    }
}

/// Returns the one component of a client's whole name, if its realm is this one and the component has no character with a meaning of its own.
fn plain_user<'a>(client: &'a str, realm: &str) -> Option<&'a str> {
    let user = client.strip_suffix(realm)?.strip_suffix('@')?;
    let is_plain = |letter: char| letter.is_ascii_graphic() && !matches!(letter, '/' | '@' | '\\');
    (!user.is_empty() && user.chars().all(is_plain)).then_some(user)
}

#[cfg(test)]
mod tests {
    use super::plain_user;

    #[test]
    fn a_user_has_one_plain_component_in_this_realm() {
        let rows = [
            ("alice@EXAMPLE.COM", Some("alice")),
            ("alice/admin@EXAMPLE.COM", None),
            ("host/server.example.com@EXAMPLE.COM", None),
            ("alice@EVIL.COM", None),
            ("alice@example.com", None),
            ("alice@EVIL.EXAMPLE.COM", None),
            (r"alice\@EXAMPLE.COM", None),
            (r"alice@EVIL\@EXAMPLE.COM", None),
            (r"DOMAIN\\alice@EXAMPLE.COM", None),
            ("al ice@EXAMPLE.COM", None),
            ("alice\n@EXAMPLE.COM", None),
            ("@EXAMPLE.COM", None),
            ("EXAMPLE.COM", None),
        ];
        for (client, user) in rows {
            assert_eq!(plain_user(client, "EXAMPLE.COM"), user, "{client:?}");
        }
        assert_eq!(plain_user("alice@EXAMPLE.COM", ""), None);
    }
}
