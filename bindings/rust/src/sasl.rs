//! Ends of a session with a security layer of SASL GSSAPI.

use crate::error::{Error, done};
use crate::session::Session;
use crate::{filled, random};
use menolavuri_sys::{self as sys, mk_sasl};
use std::ops::BitOr;

/// A security layer of SASL GSSAPI (RFC 4752, section 3.3).
#[derive(Clone, Copy, Debug, PartialEq, Eq, Hash)]
pub enum Layer {
    /// Data go as they are, without frames: `seal` and `unseal` are not called.
    None = 1,
    /// Data go in the clear, with a checksum.
    Integrity = 2,
    /// Data go encrypted.
    Confidentiality = 4,
}

/// The layers that a server offers: one or more, as `Layer::Integrity | Layer::Confidentiality`.
#[derive(Clone, Copy, Debug, PartialEq, Eq, Hash)]
pub struct Layers(u32);

impl Layers {
    /// All three.
    pub const ALL: Layers = Layers(7);

    /// Returns the layers of a sum of 1 (none), 2 (integrity) and 4 (confidentiality), or `None` for another number.
    pub const fn from_sum(sum: u32) -> Option<Layers> {
        match sum {
            1..=7 => Some(Layers(sum)),
            _ => None,
        }
    }

    /// Returns true if the layer is one of them.
    pub const fn contains(self, layer: Layer) -> bool {
        self.0 & layer as u32 != 0
    }
}

impl From<Layer> for Layers {
    fn from(layer: Layer) -> Layers {
        Layers(layer as u32)
    }
}

impl<T: Into<Layers>> BitOr<T> for Layers {
    type Output = Layers;

    fn bitor(self, other: T) -> Layers {
        Layers(self.0 | other.into().0)
    }
}

impl<T: Into<Layers>> BitOr<T> for Layer {
    type Output = Layers;

    fn bitor(self, other: T) -> Layers {
        Layers::from(self) | other
    }
}

/// An end, and its session.
#[derive(Debug)]
struct End {
    handle: mk_sasl,
    session: Session,
}

// SAFETY: the library's handle of an end may go to another thread (`Send` is proved of it), and each call takes `&mut self`.
unsafe impl Send for End {}

impl End {
    fn new(session: Session) -> End {
        End {
            handle: mk_sasl::EMPTY,
            session,
        }
    }

    /// Returns the length of the frame of no data, which is not made: its buffer is too short.
    fn layer(&mut self) -> Result<Layer, Error> {
        let (nothing, mut out) = ([0; 16], [0]);
        // SAFETY: the handle is ours, and each pointer and length are those of one array, or the length is less.
        let told = unsafe {
            sys::mk_sasl_seal(
                &mut self.handle,
                nothing.as_ptr(),
                0,
                nothing.as_ptr(),
                nothing.len(),
                out.as_mut_ptr(),
                0,
            )
        };
        match (told.status, told.length) {
            (sys::MK_ROOM, 4) => Ok(Layer::None),
            (sys::MK_ROOM, 32) => Ok(Layer::Integrity),
            (sys::MK_ROOM, _) => Ok(Layer::Confidentiality),
            _ => Err(done(told).err().unwrap_or(Error::Argument)),
        }
    }

    fn seal(&mut self, data: &[u8]) -> Result<Vec<u8>, Error> {
        let confounder: [u8; 16] = random()?;
        let handle = &mut self.handle;
        // SAFETY: the handle is ours, and each pointer and length are those of one slice or vector.
        filled(data.len() + 64, |out, room| unsafe {
            sys::mk_sasl_seal(
                handle,
                data.as_ptr(),
                data.len(),
                confounder.as_ptr(),
                confounder.len(),
                out,
                room,
            )
        })
    }

    fn unseal(&mut self, frame: &[u8]) -> Result<Vec<u8>, Error> {
        let handle = &mut self.handle;
        // SAFETY: as above.
        filled(frame.len(), |out, room| unsafe {
            sys::mk_sasl_unseal(handle, frame.as_ptr(), frame.len(), out, room)
        })
    }
}

impl Drop for End {
    fn drop(&mut self) {
        // SAFETY: the handle is ours.
        unsafe { sys::mk_sasl_free(&mut self.handle) }
    }
}

/// The server's end of a session: it offers layers, accepts the client's answer, and then makes and reads frames.
///
/// ```
/// use menolavuri::{Acceptor, Error, Layer, SaslServer};
/// use std::time::Duration;
///
/// /// Admits a client by its first token. `ask` sends a token to the client and returns its reply.
/// fn log_in(
///     acceptor: &Acceptor,
///     token: &[u8],
///     ask: impl Fn(&[u8]) -> Vec<u8>,
/// ) -> Result<SaslServer, Error> {
///     let session = acceptor.accept(token)?;
///     if !session.answer().is_empty() {
///         ask(session.answer()); // the client replies with no bytes
///     }
///     let mut server = SaslServer::new(session, Layer::Integrity | Layer::Confidentiality, 65536)?;
///     let answer = ask(&server.offer()?);
///     let user = server.accept(&answer)?;
///     // Decide for whom the client may act: here for nobody but itself.
///     if user.is_empty() || Some(user.as_str()) == server.session().client() {
///         return Ok(server);
///     }
///     Err(Error::Argument)
/// }
///
/// let acceptor = Acceptor::new("pop/server.example.com", &[7; 32], Duration::from_secs(300))?;
/// let error = log_in(&acceptor, b"no token", |_| Vec::new()).err().unwrap();
/// assert_eq!(error.cause(), Some(menolavuri::Cause::Shape));
/// # Ok::<(), Error>(())
/// ```
///
/// Each step is made once, in this order: another is refused as [`LayerRefusal::State`](crate::LayerRefusal::State). After
/// [`Error::Memory`] the same step can be repeated.
#[derive(Debug)]
pub struct SaslServer(End);

impl SaslServer {
    /// Makes an end that offers these layers, and receives messages of at most `most` bytes: under 2^24, and 0 if [`Layer::None`] alone is
    /// offered. Otherwise it is refused as [`LayerRefusal::Layers`](crate::LayerRefusal::Layers), and the session is freed.
    pub fn new(
        session: Session,
        layers: impl Into<Layers>,
        most: u32,
    ) -> Result<SaslServer, Error> {
        let mut end = End::new(session);
        // SAFETY: the session's handle is ours, and the end's is empty.
        done(unsafe {
            sys::mk_sasl_new_server(
                &mut end.session.handle,
                &mut end.handle,
                layers.into().0,
                most,
            )
        })?;
        Ok(SaslServer(end))
    }

    /// Returns the session, for the name of the client. Its messages now belong to this end.
    pub fn session(&self) -> &Session {
        &self.0.session
    }

    /// Returns the offer, a token for the client.
    pub fn offer(&mut self) -> Result<Vec<u8>, Error> {
        let handle = &mut self.0.handle;
        // SAFETY: the handle is ours, and the pointer and the length are those of one vector.
        filled(32, |out, room| unsafe {
            sys::mk_sasl_offer(handle, out, room)
        })
    }

    /// Accepts the client's answer, and returns the user that it asks to act for: no text for the client itself. **Decide by the client's
    /// name if it may.** Refused as [`LayerRefusal::Layer`](crate::LayerRefusal::Layer) if the answer chooses none of the layers, and as
    /// [`LayerRefusal::Offer`](crate::LayerRefusal::Offer) if it is malformed; the client may then send another.
    pub fn accept(&mut self, token: &[u8]) -> Result<String, Error> {
        let handle = &mut self.0.handle;
        // SAFETY: as above, and each pointer and length are those of one slice or vector.
        let user = filled(token.len(), |out, room| unsafe {
            sys::mk_sasl_accept(handle, token.as_ptr(), token.len(), out, room)
        })?;
        String::from_utf8(user).map_err(|_| Error::NotUtf8)
    }

    /// Returns the layer that the client chose.
    pub fn layer(&mut self) -> Result<Layer, Error> {
        self.0.layer()
    }

    /// Makes a frame of data for the client. Refused as [`LayerRefusal::TooLarge`](crate::LayerRefusal::TooLarge) if it is longer than
    /// the client receives: cut the data.
    pub fn seal(&mut self, data: &[u8]) -> Result<Vec<u8>, Error> {
        self.0.seal(data)
    }

    /// Returns the data of one whole frame of the client: four bytes of length, the highest first, and a message of that length. Refuse a
    /// length past `most` before you take memory for it.
    pub fn unseal(&mut self, frame: &[u8]) -> Result<Vec<u8>, Error> {
        self.0.unseal(frame)
    }
}

/// The client's end of a session: it answers the server's offer, and then makes and reads frames.
///
/// ```
/// use menolavuri::{Error, Layer, SaslClient, Session};
///
/// /// Agrees on a layer with a service that was reached. `ask` sends a token to the service and returns its reply.
/// fn log_in(session: Session, ask: impl Fn(&[u8]) -> Vec<u8>) -> Result<SaslClient, Error> {
///     let offer = ask(session.answer()); // no bytes, if the service has shown who it is
///     let mut client = SaslClient::new(session, Layer::Confidentiality, 65536, "")?;
///     ask(&client.answer(&offer)?);
///     Ok(client)
/// }
/// ```
#[derive(Debug)]
pub struct SaslClient(End);

impl SaslClient {
    /// Makes an end that asks for this layer, receives messages of at most `most` bytes, under 2^24, and 0 for [`Layer::None`], and asks to
    /// act for this user: no text to act for itself. Another size is refused as
    /// [`LayerRefusal::Layers`](crate::LayerRefusal::Layers), and the session is freed.
    pub fn new(session: Session, layer: Layer, most: u32, user: &str) -> Result<SaslClient, Error> {
        let mut end = End::new(session);
        // SAFETY: the session's handle is ours, the end's is empty, and the pointer and the length are those of one slice.
        done(unsafe {
            sys::mk_sasl_new_client(
                &mut end.session.handle,
                &mut end.handle,
                layer as u32,
                most,
                user.as_ptr(),
                user.len(),
            )
        })?;
        Ok(SaslClient(end))
    }

    /// Returns the session, for the name of the service. Its messages now belong to this end.
    pub fn session(&self) -> &Session {
        &self.0.session
    }

    /// Returns the answer to the server's offer, a token for the server. An offer without the layer that was asked for is refused as
    /// [`LayerRefusal::Layer`](crate::LayerRefusal::Layer), and a malformed one as [`LayerRefusal::Offer`](crate::LayerRefusal::Offer).
    pub fn answer(&mut self, offer: &[u8]) -> Result<Vec<u8>, Error> {
        let handle = &mut self.0.handle;
        // SAFETY: the handle is ours, and each pointer and length are those of one slice or vector.
        filled(64, |out, room| unsafe {
            sys::mk_sasl_answer(handle, offer.as_ptr(), offer.len(), out, room)
        })
    }

    /// Returns the layer that both ends agreed on.
    pub fn layer(&mut self) -> Result<Layer, Error> {
        self.0.layer()
    }

    /// Makes a frame of data for the server. Refused as [`LayerRefusal::TooLarge`](crate::LayerRefusal::TooLarge) if it is longer than
    /// the server receives: cut the data.
    pub fn seal(&mut self, data: &[u8]) -> Result<Vec<u8>, Error> {
        self.0.seal(data)
    }

    /// Returns the data of one whole frame of the server: four bytes of length, the highest first, and a message of that length. Refuse a
    /// length past `most` before you take memory for it.
    pub fn unseal(&mut self, frame: &[u8]) -> Result<Vec<u8>, Error> {
        self.0.unseal(frame)
    }
}
