//! Measures admissions and messages by this library, over its safe crate, and by the GSS-API library of MIT krb5, over the same
//! tokens in one process. The client is MIT's, with the tickets of its credential cache; the realm is that of `KRB5_CONFIG`.
//! `tests/live/measure` makes one:
//!
//!     measure host/server.example.com@EXAMPLE.COM KEYTAB COUNT
//!
//! `COUNT` is how many admissions a round has. Each figure is the best of three rounds. With the further word `admissions` no messages
//! are measured.

mod admissions;
mod messages;
mod mit;
mod threads;
mod timing;

use menolavuri::Acceptor;
use mit::{Credential, Name, Octets};
use std::{env, fs, num::NonZeroUsize, time::Duration};
use timing::Outcome;

/// The service that clients reach, and its keys.
struct Service {
    name: Name,
    realm: String,
    keytab: Vec<u8>,
}

impl Service {
    /// A service by its name with its realm, and the keytab file with its keys.
    fn new(name: &str, keytab: &str) -> Outcome<Service> {
        let (_, realm) = name
            .split_once('@')
            .ok_or("the service's name has no realm")?;
        Ok(Service {
            name: Name::new(name)?,
            realm: realm.to_owned(),
            keytab: fs::read(keytab)?,
        })
    }

    /// An acceptor of this library, with an empty replay book.
    fn acceptor(&self) -> Outcome<Acceptor> {
        let skew = Duration::from_secs(300);
        Ok(Acceptor::with_keytab(&self.keytab, &self.realm, skew)?)
    }

    /// MIT's credential of the service, from the keytab of `KRB5_KTNAME`.
    fn credential(&self) -> Outcome<Credential> {
        Ok(Credential::acquire(&self.name)?)
    }

    /// Tokens of this many clients.
    fn tokens(&self, flags: u32, count: usize) -> Outcome<Vec<Octets>> {
        let clients = (0..count).map(|_| Ok(mit::begin(&self.name, flags)?.1));
        clients.collect()
    }
}

fn main() -> Outcome<()> {
    let words: Vec<String> = env::args().skip(1).collect();
    let [name, keytab, count, rest @ ..] = words.as_slice() else {
        return Err("usage: measure SERVICE@REALM KEYTAB COUNT [admissions]".into());
    };
    let service = Service::new(name, keytab)?;
    let count = count.parse::<NonZeroUsize>()?.get();
    admissions::measure(&service, count)?;
    threads::measure(&service, count)?;
    if rest == ["admissions"] {
        return Ok(());
    }
    messages::measure(&service)
}
