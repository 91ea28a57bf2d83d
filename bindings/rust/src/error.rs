//! Errors of calls.

use crate::causes::numbered;
use crate::options::GssFlags;
use crate::{Cause, Kind, filled, microseconds};
use menolavuri_sys as sys;
use std::time::SystemTime;
use std::{fmt, io};

/// The error of a call. It is printed with what to do, if there is something to do.
#[derive(Debug)]
#[non_exhaustive]
pub enum Error {
    /// The library refuses it. Write it to a log, and send a client only that it was refused.
    Refused(Refusal),
    /// The rules of the security layers refuse it.
    Layer(LayerRefusal),
    /// Memory ran out. A value that the call borrows is unchanged, and one that it takes is gone. A token that was to be admitted may count
    /// as admitted: its client then needs a new one.
    Memory,
    /// An argument has a value that is not allowed: a key of a service of another length than 16 and 32 bytes, or a moment that
    /// is past the year 9999 or before 1970, or random bytes that are all 0.
    Argument,
    /// The system returned no random bytes.
    Random(io::Error),
    /// A name is not UTF-8. It is refused as it is, and no letters take the place of its bytes.
    NotUtf8,
    /// The library returned a number that this crate does not know: it is of another version.
    Unknown(u32),
}

/// A refusal: the first check that failed. It is printed as `InvalidToken Replayed` or `UnknownCredentials Kdc 6`,
/// and after a colon what failed and what to do.
#[derive(Clone, Copy, Debug, PartialEq, Eq, Hash)]
#[non_exhaustive]
pub struct Refusal {
    /// The kind.
    pub kind: Kind,
    /// The check that failed.
    pub cause: Cause,
}

numbered! {
    /// The rule of the security layers that refuses, one of `mk_sasl_refusal` in `menolavuri.h`. It is printed in words.
    LayerRefusal {
        /// There is no such size of messages, or a size without a layer.
        Layers = MK_SASL_LAYERS,
        /// This step is not the next one, or no layer is agreed on yet.
        State = MK_SASL_STATE,
        /// The text of an offer or an answer is too short, too long, or not in UTF-8.
        Offer = MK_SASL_OFFER,
        /// The layer is not offered, or there is a size without a layer.
        Layer = MK_SASL_LAYER,
        /// A message is longer than the other end, or this one, receives at most.
        TooLarge = MK_SASL_TOO_LARGE,
        /// The bytes are not one frame, or the message in it is not of the layer.
        Frame = MK_SASL_FRAME,
    }
}

impl Refusal {
    /// Returns the token that reports the refusal to the client, a KRB-ERROR (RFC 4120, section 5.9.1), by the system's clock. A client prints
    /// it, as 'Clock skew too great'. The service is named as `host/server.example.com`, with its realm. Four causes have their own codes:
    /// [`Cause::Skew`], [`Cause::NotYet`], [`Cause::Expired`] and [`Cause::Replayed`]. Every other cause has the general one.
    ///
    /// # Errors
    /// `InvalidToken Room`: a text has over 65,536 bytes. `InternalError NotAscii`: a text is not ASCII.
    pub fn error_token(&self, service: &str, realm: &str) -> Result<Vec<u8>, Error> {
        self.error_token_at(service, realm, SystemTime::now())
    }

    /// Returns the token as [`error_token`](Refusal::error_token) does, at this moment of the acceptor's.
    pub fn error_token_at(
        &self,
        service: &str,
        realm: &str,
        now: SystemTime,
    ) -> Result<Vec<u8>, Error> {
        let moment = microseconds(now)?;
        // SAFETY: each pointer and length are those of one slice or vector.
        filled(192, |out, room| unsafe {
            sys::mk_error_token(
                self.cause.number(),
                service.as_ptr(),
                service.len(),
                realm.as_ptr(),
                realm.len(),
                moment,
                out,
                room,
            )
        })
    }
}

impl fmt::Display for Refusal {
    fn fmt(&self, f: &mut fmt::Formatter<'_>) -> fmt::Result {
        let (kind, cause) = (self.kind, self.cause);
        match cause.code() {
            Some(code) => write!(f, "{kind} {cause} {code}: {}", cause.words()),
            None => write!(f, "{kind} {cause}: {}", cause.words()),
        }
    }
}

impl fmt::Display for LayerRefusal {
    fn fmt(&self, f: &mut fmt::Formatter<'_>) -> fmt::Result {
        f.write_str(match self {
            LayerRefusal::Layers => "there are no such layers, or no such size of messages",
            LayerRefusal::State => "this step is not the next one",
            LayerRefusal::Offer => "what is offered or answered is malformed",
            LayerRefusal::Layer => {
                "the layer is not offered: ask for another one, or let the server offer it"
            }
            LayerRefusal::TooLarge => "the message is too long: cut the data",
            LayerRefusal::Frame => "this is no frame of the layer",
            LayerRefusal::Other(number) => {
                return write!(
                    f,
                    "the library has a rule {number} that this crate does not know"
                );
            }
        })
    }
}

impl fmt::Display for Error {
    fn fmt(&self, f: &mut fmt::Formatter<'_>) -> fmt::Result {
        match self {
            Error::Refused(refusal) => write!(f, "refused: {refusal}"),
            Error::Layer(refusal) => write!(f, "refused by the security layers: {refusal}"),
            Error::Memory => f.write_str("memory ran out"),
            Error::Argument => f.write_str(
                "an argument has a value that it may not have: a key has 16 or 32 bytes, and a moment is from 1970 to 9999",
            ),
            Error::Random(error) => write!(f, "no random octets: {error}"),
            Error::NotUtf8 => f.write_str("a name is not UTF-8"),
            Error::Unknown(number) => write!(
                f,
                "the library returned the number {number}, which this crate does not know: link a library of its version, {}",
                env!("CARGO_PKG_VERSION")
            ),
        }
    }
}

impl std::error::Error for Error {
    fn source(&self) -> Option<&(dyn std::error::Error + 'static)> {
        match self {
            Error::Random(error) => Some(error),
            _ => None,
        }
    }
}

impl Error {
    /// Returns true if another key may decrypt the ticket: there is none of this name, it has another length, or it does not decrypt it.
    pub(crate) fn is_of_key(&self) -> bool {
        matches!(
            self.cause(),
            Some(Cause::NoServiceKey | Cause::KeyLength | Cause::Altered)
        )
    }

    /// The cause of a refusal.
    pub fn cause(&self) -> Option<Cause> {
        match self {
            Error::Refused(refusal) => Some(refusal.cause),
            _ => None,
        }
    }
}

/// The number of a reply, where the call was done, and None where the client's checksum has no flags.
pub(crate) fn told_flags(reply: sys::mk_reply) -> Result<Option<GssFlags>, Error> {
    match done(reply) {
        Ok(_) => Ok(Some(GssFlags(reply.number))),
        Err(error) if error.cause() == Some(Cause::Checksum) => Ok(None),
        Err(error) => Err(error),
    }
}

/// The length of a reply, where the call was done.
pub(crate) fn done(reply: sys::mk_reply) -> Result<usize, Error> {
    match reply.status {
        sys::MK_OK => Ok(reply.length),
        sys::MK_REFUSED => Err(Error::Refused(Refusal {
            kind: Kind::from_number(reply.kind, 0),
            cause: Cause::from_number(reply.cause, reply.number),
        })),
        sys::MK_SASL => Err(Error::Layer(LayerRefusal::from_number(reply.number, 0))),
        sys::MK_MEMORY => Err(Error::Memory),
        sys::MK_ARGUMENT => Err(Error::Argument),
        status => Err(Error::Unknown(status)),
    }
}

#[cfg(test)]
mod tests {
    use super::*;

    #[test]
    fn a_number_that_is_not_known_is_no_panic() {
        let told = |status, number| {
            done(sys::mk_reply {
                status,
                kind: number,
                cause: number,
                number,
                length: 0,
            })
            .unwrap_err()
        };
        let Error::Refused(refusal) = told(sys::MK_REFUSED, 999) else {
            panic!("no refusal");
        };
        assert_eq!(refusal.kind, Kind::Other(999));
        assert_eq!(refusal.cause, Cause::Other(999));
        assert!(
            refusal
                .to_string()
                .starts_with("999 999: the library is of another version")
        );
        assert!(matches!(
            told(sys::MK_SASL, 9),
            Error::Layer(LayerRefusal::Other(9))
        ));
        for status in [sys::MK_ROOM, sys::MK_HANDLE, 7, u32::MAX] {
            assert!(matches!(told(status, 0), Error::Unknown(it) if it == status));
        }
    }
}
