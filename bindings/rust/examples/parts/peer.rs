//! The other end of a connection, with time limits on all that it sends and takes.

use std::io::{self, Error, ErrorKind, Read, Write};
use std::net::TcpStream;
use std::time::{Duration, Instant, SystemTime};

/// For how long the other end is waited for.
#[derive(Clone, Copy)]
pub struct Limits {
    /// The longest time for a log-in as a whole.
    pub log_in: Duration,
    /// The longest time for one read or one write.
    pub silence: Duration,
}

/// The other end. Until `end_log_in` is called, there is one time limit for all that it sends and takes.
pub struct Peer {
    stream: TcpStream,
    limits: Limits,
    end: Option<Instant>,
    is_in: bool,
}

impl Peer {
    pub fn new(stream: TcpStream, limits: Limits) -> Peer {
        let end = Some(Instant::now() + limits.log_in);
        Peer {
            stream,
            limits,
            end,
            is_in: false,
        }
    }

    /// Ends the time limit of the log-in. From now on each silence is limited, and the connection lives as long as the client's ticket
    /// where that is known.
    pub fn end_log_in(&mut self, ticket_ends: Option<SystemTime>) {
        self.is_in = true;
        self.end = ticket_ends.and_then(|ends| {
            let left = ends.duration_since(SystemTime::now()).unwrap_or_default();
            Instant::now().checked_add(left)
        });
    }

    /// How long the next read or write may take.
    fn left(&self) -> io::Result<Duration> {
        let Some(end) = self.end else {
            return Ok(self.limits.silence);
        };
        let left = end.saturating_duration_since(Instant::now());
        match left.is_zero() {
            true => Err(self.over()),
            false => Ok(left.min(self.limits.silence)),
        }
    }

    /// That the time for the whole is over.
    fn over(&self) -> Error {
        let words = match self.is_in {
            true => "the client's ticket has ended".to_owned(),
            false => format!("no log-in within {:?}", self.limits.log_in),
        };
        Error::new(ErrorKind::TimedOut, words)
    }

    /// A failure in words, where it is that a read or a write took all the time that was left.
    fn told(&self, error: Error, left: Duration, silence: &str) -> Error {
        match error.kind() {
            ErrorKind::WouldBlock | ErrorKind::TimedOut if left < self.limits.silence => {
                self.over()
            }
            ErrorKind::WouldBlock | ErrorKind::TimedOut => {
                let words = format!("the other end {silence} for {left:?}");
                Error::new(ErrorKind::TimedOut, words)
            }
            _ => error,
        }
    }
}

impl Read for Peer {
    fn read(&mut self, into: &mut [u8]) -> io::Result<usize> {
        let left = self.left()?;
        self.stream.set_read_timeout(Some(left))?;
        let count = self.stream.read(into);
        count.map_err(|error| self.told(error, left, "sent nothing"))
    }
}

impl Write for Peer {
    fn write(&mut self, octets: &[u8]) -> io::Result<usize> {
        let left = self.left()?;
        self.stream.set_write_timeout(Some(left))?;
        let count = self.stream.write(octets);
        count.map_err(|error| self.told(error, left, "took nothing"))
    }

    fn flush(&mut self) -> io::Result<()> {
        self.stream.flush()
    }
}

#[cfg(test)]
mod tests {
    use super::*;
    use std::net::TcpListener;

    /// A connection to nobody who says or takes anything, and its other end.
    fn silent(log_in: u64, silence: u64) -> (Peer, TcpStream) {
        let listener = TcpListener::bind("127.0.0.1:0").unwrap();
        let other = TcpStream::connect(listener.local_addr().unwrap()).unwrap();
        let limits = Limits {
            log_in: Duration::from_millis(log_in),
            silence: Duration::from_millis(silence),
        };
        (Peer::new(listener.accept().unwrap().0, limits), other)
    }

    fn read(peer: &mut Peer) -> String {
        peer.read(&mut [0; 9]).unwrap_err().to_string()
    }

    #[test]
    fn silence_is_limited() {
        let (mut peer, _other) = silent(9000, 20);
        assert_eq!(read(&mut peer), "the other end sent nothing for 20ms");
        peer.end_log_in(None);
        assert_eq!(read(&mut peer), "the other end sent nothing for 20ms");
    }

    #[test]
    fn a_log_in_is_limited_as_a_whole() {
        let (mut peer, mut other) = silent(500, 400);
        let mut count = 0;
        let error = loop {
            std::thread::sleep(Duration::from_millis(20));
            other.write_all(b"a").unwrap();
            match peer.read(&mut [0; 9]) {
                Ok(_) => count += 1,
                Err(error) => break error.to_string(),
            }
        };
        assert!(count > 0);
        assert_eq!(error, "no log-in within 500ms");
    }

    #[test]
    fn who_takes_nothing_is_not_waited_for() {
        let (mut peer, _other) = silent(9000, 20);
        let error = peer.write_all(&vec![0; 1 << 26]).unwrap_err();
        assert_eq!(error.to_string(), "the other end took nothing for 20ms");
    }

    #[test]
    fn a_connection_ends_with_its_ticket() {
        let (mut peer, mut other) = silent(9000, 9000);
        other.write_all(b"a").unwrap();
        peer.end_log_in(Some(SystemTime::now() + Duration::from_millis(500)));
        assert_eq!(peer.read(&mut [0; 9]).unwrap(), 1);
        assert_eq!(read(&mut peer), "the client's ticket has ended");
    }
}
