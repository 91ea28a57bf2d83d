//! A connection of lines, in the clear or in the frames of a security layer of SASL.

use crate::Answer;
use crate::base64;
use crate::peer::Peer;
use menolavuri::{Error, LayerRefusal, SaslClient, SaslServer};
use std::io::{self, BufRead, BufReader, ErrorKind, Read, Write};
use std::time::SystemTime;

/// The longest line that is read, and the longest message of a layer.
const LONGEST_LINE: usize = 100_000;
pub const LONGEST_MESSAGE: u32 = 65_536;

/// The end of a connection that ends too soon.
const GONE: &str = "the other end is gone without taking leave";

/// A failure in words, where it is that the connection ends too soon.
fn told(error: io::Error) -> io::Error {
    match error.kind() {
        ErrorKind::UnexpectedEof => io::Error::new(ErrorKind::UnexpectedEof, GONE),
        _ => error,
    }
}

/// An end of a layer.
pub trait End {
    fn seal(&mut self, data: &[u8]) -> Result<Vec<u8>, Error>;
    fn unseal(&mut self, frame: &[u8]) -> Result<Vec<u8>, Error>;
}

impl End for SaslServer {
    fn seal(&mut self, data: &[u8]) -> Result<Vec<u8>, Error> {
        SaslServer::seal(self, data)
    }

    fn unseal(&mut self, frame: &[u8]) -> Result<Vec<u8>, Error> {
        SaslServer::unseal(self, frame)
    }
}

impl End for SaslClient {
    fn seal(&mut self, data: &[u8]) -> Result<Vec<u8>, Error> {
        SaslClient::seal(self, data)
    }

    fn unseal(&mut self, frame: &[u8]) -> Result<Vec<u8>, Error> {
        SaslClient::unseal(self, frame)
    }
}

/// Data in a frame, or in several where the peer does not receive so long a message.
fn sealed(end: &mut impl End, data: &[u8]) -> Result<Vec<u8>, Error> {
    match end.seal(data) {
        Err(Error::Layer(LayerRefusal::TooLarge)) if data.len() > 1 => {
            let (one, other) = data.split_at(data.len() / 2);
            Ok([sealed(end, one)?, sealed(end, other)?].concat())
        }
        answer => answer,
    }
}

/// A connection, and its layer where one is agreed.
pub struct Connection<E> {
    from: BufReader<Peer>,
    /// The text that was decrypted and not read yet.
    opened: Vec<u8>,
    layer: Option<E>,
}

impl<E: End> Connection<E> {
    pub fn new(peer: Peer) -> Self {
        Connection {
            from: BufReader::new(peer),
            opened: Vec::new(),
            layer: None,
        }
    }

    /// Ends the time limit of the log-in, as [`Peer::end_log_in`] does.
    pub fn end_log_in(&mut self, ticket_ends: Option<SystemTime>) {
        self.from.get_mut().end_log_in(ticket_ends);
    }

    /// From now on all goes through a layer.
    pub fn begin(&mut self, layer: E) {
        self.layer = Some(layer);
    }

    /// Refuses a peer that has said more than the lines that were read: a layer does not begin in what was said before it.
    pub fn check_read(&self) -> Answer<()> {
        match self.opened.is_empty() {
            true => Ok(()),
            false => Err("the other end speaks before its layer begins".into()),
        }
    }

    /// The next data of the peer, out of a frame or unchanged.
    fn receive(&mut self) -> Answer<Vec<u8>> {
        let Some(layer) = &mut self.layer else {
            let octets = self.from.fill_buf()?.to_vec();
            self.from.consume(octets.len());
            return if octets.is_empty() {
                Err(GONE.into())
            } else {
                Ok(octets)
            };
        };
        let mut length = [0; 4];
        self.from.read_exact(&mut length).map_err(told)?;
        let length = u32::from_be_bytes(length);
        if length > LONGEST_MESSAGE {
            let words = format!(
                "a frame says that it has {length} octets, and here it may have {LONGEST_MESSAGE}"
            );
            return Err(words.into());
        }
        let mut frame = vec![0; 4 + length as usize];
        frame[..4].copy_from_slice(&length.to_be_bytes());
        self.from.read_exact(&mut frame[4..]).map_err(told)?;
        Ok(layer.unseal(&frame)?)
    }

    /// The next line, without its end.
    pub fn line(&mut self) -> Answer<String> {
        loop {
            if let Some(end) = self.opened.iter().position(|octet| *octet == b'\n') {
                let line: Vec<u8> = self.opened.drain(..=end).collect();
                let line = String::from_utf8(line).map_err(|_| "a line is not in UTF-8")?;
                return Ok(line.trim_end().to_owned());
            }
            if self.opened.len() > LONGEST_LINE {
                return Err(format!("a line has more than {LONGEST_LINE} octets").into());
            }
            let octets = self.receive()?;
            self.opened.extend(octets);
        }
    }

    pub fn say(&mut self, line: &str) -> Answer<()> {
        let text = format!("{line}\r\n");
        let octets = match &mut self.layer {
            Some(layer) => sealed(layer, text.as_bytes())?,
            None => text.into_bytes(),
        };
        Ok(self.from.get_mut().write_all(&octets)?)
    }

    /// The token in a line, after this word.
    pub fn token(&mut self, word: &str) -> Answer<Vec<u8>> {
        let line = self.line()?;
        let token = line.strip_prefix(word).map(str::trim_start);
        let token = token.and_then(base64::decode);
        token.ok_or_else(|| {
            let start: String = line.chars().take(60).collect();
            format!("a token in Base64 is to come, and this came: {start:?}").into()
        })
    }
}

#[cfg(test)]
mod tests {
    use super::*;
    use crate::peer::Limits;
    use std::net::{TcpListener, TcpStream};
    use std::time::Duration;

    /// A layer whose frames are their data after a length.
    struct Bare;

    impl End for Bare {
        fn seal(&mut self, data: &[u8]) -> Result<Vec<u8>, Error> {
            Ok([&(data.len() as u32).to_be_bytes(), data].concat())
        }

        fn unseal(&mut self, frame: &[u8]) -> Result<Vec<u8>, Error> {
            Ok(frame[4..].to_vec())
        }
    }

    /// A connection to which these octets are sent.
    fn sent(octets: &[u8]) -> Connection<Bare> {
        let listener = TcpListener::bind("127.0.0.1:0").unwrap();
        let mut other = TcpStream::connect(listener.local_addr().unwrap()).unwrap();
        other.write_all(octets).unwrap();
        let wait = Duration::from_secs(9);
        let limits = Limits {
            log_in: wait,
            silence: wait,
        };
        Connection::new(Peer::new(listener.accept().unwrap().0, limits))
    }

    fn failure<T>(answer: Answer<T>) -> String {
        answer.err().unwrap().to_string()
    }

    #[test]
    fn a_frame_that_is_too_long_is_refused_by_its_length() {
        for length in [1 << 31, u32::MAX, LONGEST_MESSAGE + 1] {
            let mut connection = sent(&length.to_be_bytes());
            connection.begin(Bare);
            let words = format!(
                "a frame says that it has {length} octets, and here it may have {LONGEST_MESSAGE}"
            );
            assert_eq!(failure(connection.line()), words);
        }
    }

    #[test]
    fn lines_come_in_frames_and_in_the_clear() {
        let mut connection = sent(b"+ Zg==\r\n");
        assert_eq!(connection.token("+").unwrap(), b"f");
        let mut connection = sent(b"\0\0\0\x02+O\0\0\0\x03K\r\n");
        connection.begin(Bare);
        assert_eq!(connection.line().unwrap(), "+OK");
    }

    #[test]
    fn what_is_no_line_is_refused() {
        assert_eq!(failure(sent(b"abc").line()), GONE);
        let mut cut = sent(b"\0\0\0\x02+");
        cut.begin(Bare);
        assert_eq!(failure(cut.line()), GONE);
        let words = failure(sent(b"\xff\r\n").line());
        assert_eq!(words, "a line is not in UTF-8");
        let words = failure(sent(&vec![b'a'; LONGEST_LINE + 9000]).line());
        assert_eq!(words, format!("a line has more than {LONGEST_LINE} octets"));
    }
}
