//! A Kerberos acceptor, an [`Initiator`], their messages, and the security layers of SASL GSSAPI, over a static library that is proved.
//!
//! ```
//! use menolavuri::{Acceptor, Error};
//! use std::time::Duration;
//!
//! /// Admits a client by its first token, and replies to its request.
//! fn serve(acceptor: &Acceptor, token: &[u8], request: &[u8]) -> Result<Vec<u8>, Error> {
//!     let mut session = acceptor.accept(token)?;
//!     // Send session.answer() to the client, unless it is empty.
//!     let message = session.unwrap(request)?;
//!     println!("{} asks {:?}", session.client().unwrap_or_default(), message.text); // alice@EXAMPLE.COM
//!     session.wrap(b"it is late")
//! }
//!
//! let key = [7; 32]; // of a keytab
//! let acceptor = Acceptor::new("host/server.example.com", &key, Duration::from_secs(300))?;
//! let error = serve(&acceptor, b"no token", b"").unwrap_err();
//! assert_eq!(error.cause(), Some(menolavuri::Cause::Shape));
//! println!("{error}"); // refused: InvalidToken Shape: and what to do
//! # Ok::<(), Error>(())
//! ```
//!
//! # What is proved, and what is not
//!
//! The library's code is proved before it is compiled: `crates/krb_c` states the contract of each call. This crate is a thin layer that is
//! not proved: it passes slices as a pointer and a length to the calls that `menolavuri-sys` declares, keeps each handle from two threads at
//! once, and asks the system for the time and for random bytes. An [`Acceptor`] is [`Send`] and [`Sync`], by a lock; a [`Keyring`], a [`Session`], an
//! [`Initiator`], a [`SaslServer`] and a [`SaslClient`] are [`Send`], which is proved of their handles, and not [`Sync`].

#![warn(missing_docs, missing_debug_implementations)]

mod acceptor;
mod bytes;
pub mod carrier;
mod causes;
mod error;
mod initiator;
mod judged;
mod keyring;
mod options;
mod sasl;
mod session;
mod store;
mod words;

pub use acceptor::Acceptor;
pub use causes::{Cause, Kind};
pub use error::{Error, LayerRefusal, Refusal};
pub use initiator::{CacheTicket, Initiator, Next, Step};
pub use judged::Judged;
pub use keyring::Keyring;
pub use options::{Flags, GssFlags, Rules};
pub use sasl::{Layer, Layers, SaslClient, SaslServer};
pub use session::{Authorization, Opened, Session};
pub use store::Told;

use bytes::{filled, microseconds, moment_of, named, random};
use menolavuri_sys as sys;

/// Returns the version of the library.
pub fn version() -> String {
    // SAFETY: the pointer and the length are those of one vector.
    named(|out, room| unsafe { sys::mk_version(out, room) }).unwrap_or_default()
}
