//! A Redis that acceptors share: it knows which records were there before (package redis-server). Its settings have to keep every key
//! until its time (`maxmemory-policy noeviction`, the default), and one server has to answer alone: a copy that takes over may lack
//! the last keys.

use std::io::{self, BufRead, BufReader, Error, ErrorKind, Read, Write};
use std::net::{TcpStream, ToSocketAddrs};
use std::time::{Duration, SystemTime, UNIX_EPOCH};

/// For how long the store is waited for, and the longest line and text that it may answer.
const PATIENCE: Duration = Duration::from_secs(2);
const LONGEST: u64 = 1 << 16;

/// A connection to the store.
pub struct Store {
    stream: BufReader<TcpStream>,
}

/// An answer of the store (RESP, version 2).
#[derive(Debug, PartialEq)]
enum Reply {
    Word(String),
    Text(Vec<u8>),
    Nothing,
    Several(Vec<Reply>),
}

fn invalid(words: impl Into<String>) -> Error {
    Error::new(ErrorKind::InvalidData, words.into())
}

/// A command, as its parts with their lengths.
fn command(parts: &[&[u8]]) -> Vec<u8> {
    let mut octets = format!("*{}\r\n", parts.len()).into_bytes();
    for part in parts {
        octets.extend(format!("${}\r\n", part.len()).bytes());
        octets.extend(*part);
        octets.extend(b"\r\n");
    }
    octets
}

fn line(from: &mut impl BufRead) -> io::Result<String> {
    let mut line = String::new();
    from.take(LONGEST).read_line(&mut line)?;
    let line = line
        .strip_suffix("\r\n")
        .ok_or_else(|| invalid("the store stops within a line"))?;
    Ok(line.to_owned())
}

fn text(from: &mut impl BufRead, length: u64) -> io::Result<Reply> {
    let mut text = vec![0; length.min(LONGEST) as usize];
    from.read_exact(&mut text)?;
    match line(from)?.as_str() {
        "" => Ok(Reply::Text(text)),
        _ => Err(invalid("the store answers too much")),
    }
}

fn reply(from: &mut impl BufRead, depth: u32) -> io::Result<Reply> {
    let line = line(from)?;
    let number = || {
        line[1..]
            .parse::<u64>()
            .map_err(|_| invalid("the store gives no number"))
    };
    match line.as_bytes().first() {
        Some(b'+') => Ok(Reply::Word(line[1..].to_owned())),
        Some(b'-') => Err(invalid(format!("the store refuses: {}", &line[1..]))),
        Some(b'$') if line == "$-1" => Ok(Reply::Nothing),
        Some(b'$') => text(from, number()?),
        Some(b'*') if depth == 0 && number()? <= 16 => (0..number()?)
            .map(|_| reply(from, 1))
            .collect::<io::Result<_>>()
            .map(Reply::Several),
        _ => Err(invalid("the store answers something else")),
    }
}

impl Store {
    /// The store at this address. One that was started less than twice `skew` ago may lack records of before, and
    /// is refused.
    pub fn connect(address: &str, skew: Duration) -> io::Result<Store> {
        let mut failed = invalid("the store has no address");
        for address in address.to_socket_addrs()? {
            match TcpStream::connect_timeout(&address, PATIENCE) {
                Ok(stream) => return Store::over(stream, skew),
                Err(error) => failed = error,
            }
        }
        Err(failed)
    }

    fn over(stream: TcpStream, skew: Duration) -> io::Result<Store> {
        stream.set_read_timeout(Some(PATIENCE))?;
        stream.set_write_timeout(Some(PATIENCE))?;
        stream.set_nodelay(true)?;
        let mut store = Store {
            stream: BufReader::new(stream),
        };
        match store.age()? {
            age if age > 2 * skew => Ok(store),
            _ => Err(invalid(format!(
                "the store was started anew, and is taken {} seconds after its start: it may have forgotten what it was told",
                (2 * skew).as_secs()
            ))),
        }
    }

    fn ask(&mut self, parts: &[&[u8]]) -> io::Result<Reply> {
        self.stream.get_mut().write_all(&command(parts))?;
        reply(&mut self.stream, 0).map_err(|error| match error.kind() {
            ErrorKind::WouldBlock | ErrorKind::TimedOut => {
                Error::new(ErrorKind::TimedOut, "the store does not answer")
            }
            ErrorKind::UnexpectedEof => invalid("the store stops within an answer"),
            _ => error,
        })
    }

    /// For how long the store has been there.
    fn age(&mut self) -> io::Result<Duration> {
        let Reply::Text(info) = self.ask(&[b"INFO", b"server"])? else {
            return Err(invalid("the store does not tell its age"));
        };
        let info = String::from_utf8_lossy(&info).into_owned();
        let age = info
            .lines()
            .find_map(|line| line.strip_prefix("uptime_in_seconds:")?.trim().parse().ok());
        age.map(Duration::from_secs)
            .ok_or_else(|| invalid("the store does not tell its age"))
    }

    /// The store's own time, which is compared with the clients' times for all its acceptors.
    pub fn now(&mut self) -> io::Result<SystemTime> {
        let Reply::Several(parts) = self.ask(&[b"TIME"])? else {
            return Err(invalid("the store does not tell its time"));
        };
        let numbers = parts.iter().map(|part| match part {
            Reply::Text(text) => std::str::from_utf8(text).ok()?.parse::<u64>().ok(),
            _ => None,
        });
        match numbers.collect::<Option<Vec<_>>>().as_deref() {
            Some([seconds, micros]) => UNIX_EPOCH
                .checked_add(Duration::from_secs(*seconds))
                .and_then(|time| time.checked_add(Duration::from_micros(*micros)))
                .ok_or_else(|| invalid("the store's time is past the end of time")),
            _ => Err(invalid("the store does not tell its time")),
        }
    }

    /// Puts a record in for so long where it is not there, in one step, and answers whether it was there.
    pub fn was_there(&mut self, record: &[u8], keep: Duration) -> io::Result<bool> {
        let keep = keep.as_millis().to_string();
        match self.ask(&[b"SET", record, b"1", b"NX", b"PX", keep.as_bytes()])? {
            Reply::Word(word) if word == "OK" => Ok(false),
            Reply::Nothing => Ok(true),
            _ => Err(invalid("the store answers something else")),
        }
    }
}

#[cfg(test)]
mod tests {
    use super::*;

    fn read(mut octets: &[u8]) -> Option<Reply> {
        let answer = reply(&mut octets, 0).ok()?;
        octets.is_empty().then_some(answer)
    }

    #[test]
    fn commands_have_their_lengths() {
        let octets = command(&[b"SET", b"a\r\nb", b""]);
        assert_eq!(octets, b"*3\r\n$3\r\nSET\r\n$4\r\na\r\nb\r\n$0\r\n\r\n");
    }

    #[test]
    fn replies_are_read() {
        assert_eq!(read(b"+OK\r\n"), Some(Reply::Word("OK".to_owned())));
        assert_eq!(read(b"$-1\r\n"), Some(Reply::Nothing));
        assert_eq!(
            read(b"$4\r\na\r\nb\r\n"),
            Some(Reply::Text(b"a\r\nb".to_vec()))
        );
        let two = vec![Reply::Text(b"1".to_vec()), Reply::Text(b"2".to_vec())];
        assert_eq!(
            read(b"*2\r\n$1\r\n1\r\n$1\r\n2\r\n"),
            Some(Reply::Several(two))
        );
    }

    #[test]
    fn what_is_no_answer_is_refused() {
        for octets in [
            "",
            "+OK",
            "+OK\n",
            "-ERR no\r\n",
            ":1\r\n",
            "$4\r\nab\r\n",
            "$1\r\nab\r\n",
            "$x\r\n",
            "*1\r\n*1\r\n+a\r\n",
            "\r\n",
            "*99\r\n",
        ] {
            assert_eq!(read(octets.as_bytes()), None, "{octets}");
        }
        let refused = reply(&mut &b"-OOM no room\r\n"[..], 0).unwrap_err();
        assert_eq!(refused.to_string(), "the store refuses: OOM no room");
    }
}
