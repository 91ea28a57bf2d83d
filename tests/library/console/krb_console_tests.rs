//! Streams that wait, and what is said of how a run ended.

use krb_console::{PatientSink, PatientSource, cause_of, report};
use krb_text::{Failed, Sink, Source, Status};
use std::cell::Cell;
use std::io::{self, ErrorKind, Read, Write};
use std::test::Fail;
use std::time::{Clock, Duration};

/// A clock that counts the sleeps.
#[derive(Drop)]
struct Sleeps {
    count: Cell<u64>,
}

impl Clock for Sleeps {
    fn monotonic(&self) -> io::Result<Duration> {
        Ok(Duration::from_secs(0))
    }

    fn since_1970(&self) -> io::Result<Duration> {
        Ok(Duration::from_secs(0))
    }

    fn sleep(&self, _: Duration) {
        self.count.set(self.count.get().saturating_add(1));
    }
}

/// A stream whose calls meet these errors in turn, and then go through.
#[derive(Drop)]
struct Halting {
    errors: &'static [ErrorKind],
    done: usize,
}

impl Halting {
    fn next_error(&mut self) -> Option<ErrorKind> {
        let error = self.errors.get(self.done)?;
        self.done = self.done.saturating_add(1);
        Some(*error)
    }
}

impl Read for Halting {
    fn read(&mut self, into: &mut [u8]) -> io::Result<usize> {
        match self.next_error() {
            Some(kind) => Err(io::Error::from(kind)),
            None => b"a\nb\nc".as_slice().read(into),
        }
    }
}

impl Write for Halting {
    fn write(&mut self, piece: &[u8]) -> io::Result<usize> {
        match self.next_error() {
            Some(ErrorKind::WriteZero) => Ok(0),
            Some(kind) => Err(io::Error::from(kind)),
            None => Ok(piece.len()),
        }
    }

    fn flush(&mut self) -> io::Result<()> {
        Ok(())
    }
}

/// Errors, how often the clock is asked to sleep, and whether the call goes through.
static WAITS: [(&[ErrorKind], u64, bool); 5] = [
    (&[], 0, true),
    (&[ErrorKind::Interrupted], 1, true),
    (
        &[
            ErrorKind::WouldBlock,
            ErrorKind::Interrupted,
            ErrorKind::WouldBlock,
        ],
        3,
        true,
    ),
    (&[ErrorKind::WouldBlock, ErrorKind::BrokenPipe], 1, false),
    (&[ErrorKind::WriteZero], 0, false),
];

#[test]
fn a_read_or_write_that_would_block_or_was_interrupted_is_waited_for(rt: HostRuntime) {
    for (errors, sleeps, through) in &WAITS {
        let clock = Sleeps {
            count: Cell::new(0),
        };
        let mut source = PatientSource::new(
            Halting {
                errors: *errors,
                done: 0,
            },
            &clock,
        );
        let read = source.read(&mut [0; 5]);
        assert_eq!(rt; read, if *through { Ok(5) } else { Err(Failed) });
        assert_eq!(rt; source.lines(), if *through { 2 } else { 0 });
        assert_eq!(rt; source.error().is_none(), *through);
        assert_eq!(rt; clock.count.get(), *sleeps);
        let mut sink = PatientSink::new(
            Halting {
                errors: *errors,
                done: 0,
            },
            &clock,
        );
        let written = sink.write(b"a\nb\n");
        assert_eq!(rt; written, if *through { Ok(4) } else { Err(Failed) });
        assert_eq!(rt; sink.lines(), if *through { 2 } else { 0 });
        assert_eq!(rt; sink.error().is_none(), *through);
        assert_eq!(rt; clock.count.get(), *sleeps * 2);
    }
}

/// How a run ended, after 5 lines that were read and 3 that were written, and what is said of it.
static REPORTS: [(Status, &str); 7] = [
    (Status::Done, ""),
    (
        Status::BadWords,
        "krb_run: these words are not a command: the commands are serve, threads, demo <n>, --help and --version\n",
    ),
    (
        Status::BadLine,
        "krb_run: a bad line: it is not in the table of lines that --help prints, or not where it may be\n",
    ),
    (
        Status::ReadFault,
        "krb_run: a read of standard input failed after 5 whole lines: unexpected end of file\n",
    ),
    (
        Status::WriteFault,
        "krb_run: a write to standard output failed after 3 whole lines: unexpected end of file\n",
    ),
    (Status::OutOfMemory, "krb_run: memory ran out\n"),
    (
        Status::TooLong,
        "krb_run: a long line: a line may have 1048576 octets, and an input 1073741824\n",
    ),
];

#[test]
fn each_end_but_the_whole_input_has_one_line(rt: HostRuntime) -> Result<(), Fail> {
    let cause = cause_of(rt.alloc(), Some(io::Error::from(ErrorKind::UnexpectedEof)))?;
    for (status, text) in &REPORTS {
        assert_eq!(rt; report(rt.alloc(), *status, 5, 3, &cause)?.as_str(), *text);
    }
    Ok(())
}
