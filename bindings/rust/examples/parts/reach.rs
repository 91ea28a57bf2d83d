//! The way to a server.

use crate::Answer;
use crate::peer::{Limits, Peer};
use std::net::{TcpStream, ToSocketAddrs};
use std::time::Duration;

/// For how long a server is waited for.
const TO_CONNECT: Duration = Duration::from_secs(10);
const LIMITS: Limits = Limits {
    log_in: Duration::from_secs(30),
    silence: Duration::from_secs(10),
};

/// A connection to the first of a server's addresses that takes one.
pub fn reach(server: &str) -> Answer<Peer> {
    let addresses = server.to_socket_addrs().map_err(|error| {
        format!("{server} is no host with a port, as server.example.com:4444: {error}")
    })?;
    let mut failed = format!("{server} has no address");
    for address in addresses {
        match TcpStream::connect_timeout(&address, TO_CONNECT) {
            Ok(stream) => return Ok(Peer::new(stream, LIMITS)),
            Err(error) => failed = format!("no server is reached at {address}: {error}"),
        }
    }
    Err(failed.into())
}
