//! As `gss_server`, for a service of several machines, or of several processes on one. They share a Redis, which remembers who was
//! admitted, and so a token that one of them admitted is refused by the others:
//!
//!     redis-server --save ''
//!     cargo run --offline --example shared_server 127.0.0.1:4444 host/server.example.com /etc/krb5.keytab 300 127.0.0.1:6379
//!     cargo run --offline --example shared_server 127.0.0.1:4445 host/server.example.com /etc/krb5.keytab 300 127.0.0.1:6379
//!
//! The keytab and 300 are those of `gss_server`. It does not wait after a start: the store knows whom an earlier process admitted. Where the
//! store does not answer, nobody is admitted. The clocks of all these machines have to agree within the skew.

#[path = "parts/connections.rs"]
mod connections;
#[path = "parts/frames.rs"]
mod frames;
#[path = "parts/keys.rs"]
mod keys;
#[path = "parts/keytab.rs"]
mod keytab;
#[path = "parts/peer.rs"]
mod peer;
#[path = "parts/places.rs"]
mod places;
#[path = "parts/redis.rs"]
mod redis;
#[path = "parts/samples.rs"]
mod samples;
#[path = "parts/service.rs"]
mod service;
#[path = "parts/telling.rs"]
mod telling;

use menolavuri::{Acceptor, Session, Told};
use redis::Store;
use std::process::ExitCode;
use std::sync::{Mutex, PoisonError};
use std::time::{Duration, Instant};
use std::{env, error::Error, io};

type Answer<T> = Result<T, Box<dyn Error + Send + Sync>>;

/// A store, and its connection while that is good.
struct Shared {
    address: String,
    skew: Duration,
    connection: Mutex<Option<Store>>,
}

impl Shared {
    /// The store's time, and whether a record was there before. A connection that fails is made anew for the next record.
    fn ask(&self, record: &[u8], keep: Duration) -> io::Result<Told> {
        let mut connection = self
            .connection
            .lock()
            .unwrap_or_else(PoisonError::into_inner);
        let mut store = match connection.take() {
            Some(store) => store,
            None => Store::connect(&self.address, self.skew)?,
        };
        let now = store.now()?;
        let seen = store.was_there(record, keep)?;
        *connection = Some(store);
        Ok(Told { now, seen })
    }

    fn admit(&self, acceptor: &Acceptor, token: &[u8]) -> Answer<Session> {
        let judged = acceptor.judge(token)?;
        acceptor.admit_by_store(judged, |record, keep| {
            let refused =
                |error| format!("nobody is admitted: {error} (the store at {})", self.address);
            Ok(self.ask(record, keep).map_err(refused)?)
        })
    }
}

fn run(arguments: &[String]) -> Answer<()> {
    let [address, service, keys, skew, store] = arguments else {
        return Err("usage: shared_server ADDRESS SERVICE KEYTAB SKEW STORE".into());
    };
    let skew = service::seconds("skew", skew)?;
    let acceptor = service::acceptor(service, keys, skew)?;
    let shared = Shared {
        address: store.clone(),
        skew,
        connection: Mutex::new(None),
    };
    let listener = connections::listen(address)?;
    connections::serve_all(&listener, Instant::now(), |peer| {
        samples::serve(peer, |token| shared.admit(&acceptor, token))
    });
    Ok(())
}

fn main() -> ExitCode {
    let arguments: Vec<String> = env::args().skip(1).collect();
    telling::end(run(&arguments))
}
