//! A thread for each connection, up to a limit.

use crate::Answer;
use crate::peer::{Limits, Peer};
use crate::places::{Place, Places};
use crate::telling::log;
use std::net::{SocketAddr, TcpListener, TcpStream};
use std::thread::{self, Builder};
use std::time::{Duration, Instant};

/// How many clients are served at a time, each by a thread of its own, and how many of them from one address. The next one is refused:
/// its connection is closed at once, and it may come again.
const MOST: usize = 256;
const MOST_OF_ONE: usize = 64;
/// For how long a client is waited for.
const LIMITS: Limits = Limits {
    log_in: Duration::from_secs(30),
    silence: Duration::from_secs(60),
};

/// The socket of a server at this address.
pub fn listen(address: &str) -> Answer<TcpListener> {
    let listener = TcpListener::bind(address).map_err(|error| {
        format!("nothing listens at {address}, which is to be an address of this machine and a free port: {error}")
    })?;
    log(&format!("listening at {}", listener.local_addr()?));
    Ok(listener)
}

/// Serves each connection that comes in from this moment on, for ever. Why one ends early is for the log: the client sees that it ends.
pub fn serve_all(
    listener: &TcpListener,
    opens: Instant,
    serve: impl Fn(Peer) -> Answer<()> + Sync,
) {
    serve_within(
        &Places::new(MOST, MOST_OF_ONE),
        LIMITS,
        listener,
        opens,
        &serve,
    );
}

fn serve_within(
    places: &Places,
    limits: Limits,
    listener: &TcpListener,
    opens: Instant,
    serve: &(impl Fn(Peer) -> Answer<()> + Sync),
) {
    thread::scope(|threads| {
        loop {
            let (stream, address) = accept(listener);
            let place = match place(places, opens, address) {
                Ok(place) => place,
                Err(why) => {
                    log(&format!("{address}: not admitted: {why}"));
                    continue;
                }
            };
            let started = Builder::new().spawn_scoped(threads, move || {
                let _place = place;
                if let Err(error) = serve(Peer::new(stream, limits)) {
                    log(&format!("{address}: {error}"));
                }
            });
            // Its connection is closed, and its place given back.
            if let Err(error) = started {
                log(&format!("{address}: no thread is started for it: {error}"));
            }
        }
    })
}

/// The next connection. A client that is gone again, or a process without another descriptor, ends nobody else's.
fn accept(listener: &TcpListener) -> (TcpStream, SocketAddr) {
    loop {
        match listener.accept() {
            Ok(accepted) => return accepted,
            Err(error) => log(&format!("no connection is taken: {error}")),
        }
        thread::sleep(Duration::from_millis(100));
    }
}

/// A place for a client, or why there is none.
fn place(places: &Places, opens: Instant, address: SocketAddr) -> Result<Place<'_>, String> {
    match Instant::now() < opens {
        true => Err("the wait is not over".to_owned()),
        false => places.take(address.ip()),
    }
}

#[cfg(test)]
mod tests {
    use super::*;
    use std::io::{Read, Write};

    /// A server that sends back what comes, to two clients at a time.
    fn echo(opens: Instant) -> SocketAddr {
        let listener = TcpListener::bind("127.0.0.1:0").unwrap();
        let address = listener.local_addr().unwrap();
        let limits = Limits {
            log_in: Duration::from_secs(9),
            silence: Duration::from_secs(1),
        };
        let serve = |mut peer: Peer| -> Answer<()> {
            let mut octet = [0];
            loop {
                peer.read_exact(&mut octet)?;
                assert_ne!(octet, *b"!", "a thread ends so");
                peer.write_all(&octet)?;
            }
        };
        thread::spawn(move || serve_within(&Places::new(2, 2), limits, &listener, opens, &serve));
        address
    }

    /// Whether a new client is answered, which then stays.
    fn comes(server: SocketAddr) -> Option<TcpStream> {
        let mut client = TcpStream::connect(server).unwrap();
        client
            .set_read_timeout(Some(Duration::from_secs(5)))
            .unwrap();
        client.write_all(b"a").ok()?;
        client.read_exact(&mut [0]).ok()?;
        Some(client)
    }

    /// Whether a new client is answered within some seconds.
    fn comes_soon(server: SocketAddr) -> bool {
        (0..100).any(|_| {
            thread::sleep(Duration::from_millis(50));
            comes(server).is_some()
        })
    }

    #[test]
    fn the_third_client_is_refused_and_may_come_again() {
        let server = echo(Instant::now());
        let (first, second) = (comes(server), comes(server));
        assert!(first.is_some() && second.is_some());
        assert!(comes(server).is_none());
        drop(first);
        assert!(comes_soon(server));
    }

    #[test]
    fn a_silent_client_is_dropped() {
        let server = echo(Instant::now());
        let mut clients = [comes(server).unwrap(), comes(server).unwrap()];
        for client in &mut clients {
            assert_eq!(client.read(&mut [0]).unwrap(), 0);
        }
        assert!(comes_soon(server));
    }

    #[test]
    fn a_thread_that_panics_gives_its_place_back() {
        let server = echo(Instant::now());
        for _ in 0..4 {
            let mut client = TcpStream::connect(server).unwrap();
            let _ = client.write_all(b"!");
            let _ = client.read(&mut [0]);
        }
        assert!(comes_soon(server));
    }

    #[test]
    fn nobody_is_let_in_during_the_wait() {
        let server = echo(Instant::now() + Duration::from_secs(1));
        assert!(comes(server).is_none());
        assert!(comes_soon(server));
    }
}
