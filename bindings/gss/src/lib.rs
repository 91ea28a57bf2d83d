//! An interposer for the mechglue of MIT krb5 (`libgssapi_krb5.so.2`): the proved acceptor of Menolavuri admits the clients of servers
//! that call GSS-API (RFC 2744). Nothing is compiled anew: a line of the mechglue's configuration loads this library.
//!
//! ```text
//! menolavuri  1.3.6.1.4.1.32473.4120.1  /usr/local/lib/x86_64-linux-gnu/libmenolavuri_gss.so  <interposer>
//! ```
//!
//! An acceptor's context is the library's, and so is an initiator's if the settings say so and the library can begin it. Names, and all
//! other contexts, are those of MIT's mechanism: the mechglue is called in turn, with an OID that it makes of this interposer's and of
//! Kerberos'. docs/GSSAPI.md has what is proved, and what is thin.
//!
//! # Pointers
//! Each exported call is called by the mechglue alone. Its pointers are null or those that RFC 2744 has for the call, a handle is one that
//! a call of this library made, and no two calls write to one place at once. Every unsafe block here relies on that.

#![allow(clippy::missing_safety_doc, clippy::too_many_arguments)]

mod abi;
mod accept;
mod begin;
mod behind;
mod buffers;
mod cache;
pub mod config;
mod contexts;
pub mod counters;
mod credentials;
mod decide;
mod delegated;
mod guard;
mod held;
mod initiate;
pub mod journal;
mod kdcs;
mod keys;
mod keytab;
mod krb5;
pub mod loaded;
mod locked;
mod mechs;
mod messages;
mod names;
mod oids;
pub mod status;
pub mod store;
mod target;
