//! `serve` over an admission and a replay whose reads and writes fail in turn, that a reply is written before the next read, and
//! long lines. The answers to whole inputs are in tests/cases.

ghost use Rattle.std.specs.Prelude.{None};

use super::TOKEN;
use krb_machine::{Calls, Failed, MemSink, MemSource, Sink, Source, Status, Words, serve};
use std::alloc::{AllocError, Global};
use std::cell::Cell;
use std::process::Abort;
use std::test::Fail;

/// An acceptor, an event that no acceptor awaits, and an event past the last moment.
static TWO_EVENTS: &str = "skew 300\nacceptor 1 100 host HTTP/host\n\
event 1 0 00112233445566778899aabbccddeeff00112233445566778899aabbccddeeff\
00112233445566778899aabbccddeeff00112233445566778899aabbccddeeff - start\n\
event 1 253402041600000000 00112233445566778899aabbccddeeff00112233445566778899aabbccddeeff\
00112233445566778899aabbccddeeff00112233445566778899aabbccddeeff - start\n";

/// The output for the two events.
static WHOLE_TEXT: &str =
    "refused OutOfSequence Sequence\nrefused InvalidParameter Moment\nend 0 0\n";

fn two_events() -> &'static [u8] {
    TWO_EVENTS.as_bytes()
}

fn whole_text() -> &'static [u8] {
    WHOLE_TEXT.as_bytes()
}

fn word(alloc: Global, word: &str) -> Result<Words, AllocError> {
    let mut words = Vec::new(alloc);
    words.push(String::from_str(alloc, word)?)?;
    Ok(Words::new(words))
}

/// The call with this number fails, and each moves this many octets at most.
fn failing_call(alloc: Global, number: u64, most: usize) -> Result<Calls, AllocError> {
    let mut numbers = Vec::new(alloc);
    numbers.push(number)?;
    Ok(Calls::new(numbers, Some(most)))
}

/// Serves this input, which is read and answered by such calls, and compares the status and the text.
fn check(
    rt: &(impl AllocGlobal + Abort),
    words: &Words,
    (input, reads): (&[u8], Calls),
    writes: Calls,
    (status, text): (u8, &[u8]),
) {
    let mut source = MemSource::new(input, reads);
    let mut sink = MemSink::new(rt.alloc(), writes);
    let answer = serve(rt.alloc(), words, &mut source, &mut sink);
    assert_eq!(rt; answer.number(), status);
    assert_eq!(rt; sink.bytes(), text);
}

/// The output if no call fails.
fn check_sound(
    rt: &(impl AllocGlobal + Abort),
    input: &[u8],
    wanted: (u8, &[u8]),
) -> Result<(), AllocError> {
    let alloc = rt.alloc();
    let words = word(alloc, "serve")?;
    check(
        rt,
        &words,
        (input, Calls::sound(alloc)),
        Calls::sound(alloc),
        wanted,
    );
    Ok(())
}

/// A line 2 of this many octets after the skew.
fn check_line_of(
    rt: &(impl AllocGlobal + Abort),
    length: usize,
    wanted: (u8, &[u8]),
) -> Result<(), Fail> {
    let mut input = Vec::from_slice(rt.alloc(), b"skew 300\n")?;
    input.resize(input.len().saturating_add(length), b'#')?;
    check_sound(rt, &input, wanted)?;
    Ok(())
}

#[test]
fn a_long_line_is_named(rt: HostRuntime) -> Result<(), Fail> {
    // A comment of 1,048,576 octets is no long line, one octet more is.
    check_line_of(&rt, 1_048_576, (0, b"end 0 0\n"))?;
    check_line_of(&rt, 1_048_577, (7, b"long line 2\n"))
}

/// No words but `serve` are served: nothing is written.
fn check_refused(rt: &(impl AllocGlobal + Abort), words: &Words) {
    let input = (b"skew 300".as_slice(), Calls::sound(rt.alloc()));
    check(rt, words, input, Calls::sound(rt.alloc()), (2, b""));
}

#[test]
fn other_words_are_refused(rt: HostRuntime) -> Result<(), Fail> {
    check_refused(&rt, &Words::new(Vec::new(rt.alloc())));
    let other = word(rt.alloc(), "serves")?;
    check_refused(&rt, &other);
    Ok(())
}

/// Each read and each write moves this many octets at most.
fn check_pieces(rt: &(impl AllocGlobal + Abort), words: &Words, most: usize) {
    let alloc = rt.alloc();
    let input = (two_events(), Calls::new(Vec::new(alloc), Some(most)));
    let writes = Calls::new(Vec::new(alloc), Some(most));
    check(rt, words, input, writes, (0, whole_text()));
}

#[test]
fn pieces_of_any_length_give_one_answer(rt: HostRuntime) -> Result<(), Fail> {
    let words = word(rt.alloc(), "serve")?;
    for most in [1, 7, 64, 100_000] {
        check_pieces(&rt, &words, most);
    }
    Ok(())
}

/// Three acceptors of one service and key, and the beginning of an event at the first.
static TO_THE_FIRST: &str = "skew 300
acceptor 1 100 server host/server.example.com
acceptor 2 100 server host/server.example.com
acceptor 3 100 server host/server.example.com
key 1 host/server.example.com 000102030405060708090a0b0c0d0e0f101112131415161718191a1b1c1d1e1f
key 2 host/server.example.com 000102030405060708090a0b0c0d0e0f101112131415161718191a1b1c1d1e1f
key 3 host/server.example.com 000102030405060708090a0b0c0d0e0f101112131415161718191a1b1c1d1e1f
event 1 1700000000000000 000102030405060708090a0b0c0d0e0f101112131415161718191a1b1c1d1e1f\
202122232425262728292a2b2c2d2e2f303132333435363738393a3b3c3d3e3f - token ";

/// The beginning of an event at the second.
static TO_THE_SECOND: &str = "
event 2 1700000000000000 000102030405060708090a0b0c0d0e0f101112131415161718191a1b1c1d1e1f\
202122232425262728292a2b2c2d2e2f303132333435363738393a3b3c3d3e3f - token ";

/// The output for a token that comes at one acceptor, and again at another.
static ADMITTED_AND_REPLAYED: &str = "ok -\nrefused InvalidToken Replayed\nend 1 1\n";

/// That input: 2538 octets, of which 1485 are there with the first event.
fn admission_and_replay(alloc: Global) -> Result<String, AllocError> {
    let mut input = String::from_str(alloc, TO_THE_FIRST)?;
    input.push_str(TOKEN)?;
    input.push_str(TO_THE_SECOND)?;
    input.push_str(TOKEN)?;
    input.push_str("\n")?;
    Ok(input)
}

/// So many octets of what is written for it.
fn written_front(count: usize) -> &'static [u8] {
    match ADMITTED_AND_REPLAYED.as_bytes().get(..count) {
        Some(front) => front,
        None => &[],
    }
}

/// Which calls fail, each in a run of its own.
#[derive(Clone, Copy)]
enum Failing {
    Reads,
    Writes,
}

/// The calls that fail, at most how many octets each moves, the first and the last of them by number, the status, and how many
/// octets were written before: the replies to the events whose lines had come, or a front of the text.
type FailedCalls = (Failing, usize, u64, u64, u8, usize);

static FAILED_CALLS: [FailedCalls; 21] = [
    (Failing::Reads, 64, 1, 24, 4, 0),
    (Failing::Reads, 64, 25, 40, 4, 5),
    (Failing::Reads, 64, 41, 41, 4, 35),
    (Failing::Reads, 64, 42, 42, 0, 43),
    (Failing::Writes, 16, 1, 1, 5, 0),
    (Failing::Writes, 16, 2, 2, 5, 5),
    (Failing::Writes, 16, 3, 3, 5, 21),
    (Failing::Writes, 16, 4, 4, 5, 35),
    (Failing::Writes, 16, 5, 5, 0, 43),
    // Octet by octet, about the ends of lines, and reads that end with the line.
    (Failing::Reads, 1, 1485, 1485, 4, 0),
    (Failing::Reads, 1, 1486, 1486, 4, 5),
    (Failing::Reads, 1, 2538, 2538, 4, 5),
    (Failing::Reads, 1, 2539, 2539, 4, 35),
    (Failing::Reads, 1485, 2, 2, 4, 5),
    (Failing::Writes, 1, 5, 5, 5, 4),
    (Failing::Writes, 1, 6, 6, 5, 5),
    (Failing::Writes, 1, 35, 35, 5, 34),
    (Failing::Writes, 1, 36, 36, 5, 35),
    (Failing::Writes, 1, 43, 43, 5, 42),
    (Failing::Writes, 64, 2, 2, 5, 5),
    (Failing::Writes, 64, 3, 3, 5, 35),
];

fn failed_calls() -> &'static [FailedCalls] {
    &FAILED_CALLS
}

/// Lets the call with this number fail. The others move this many octets at most, and where the writes fail the reads 64, where the
/// reads fail the writes 16.
fn check_failed_call(
    rt: &(impl AllocGlobal + Abort),
    words: &Words,
    input: &str,
    number: u64,
    &(failing, most, _, _, status, written): &FailedCalls,
) -> Result<(), AllocError> {
    let alloc = rt.alloc();
    let failed = failing_call(alloc, number, most)?;
    let (reads, writes) = match failing {
        Failing::Reads => (failed, Calls::new(Vec::new(alloc), Some(16))),
        Failing::Writes => (Calls::new(Vec::new(alloc), Some(64)), failed),
    };
    let wanted = (status, written_front(written));
    check(rt, words, (input.as_bytes(), reads), writes, wanted);
    Ok(())
}

/// Lets each of these calls fail, in a run of its own.
fn check_failed_calls(
    rt: &(impl AllocGlobal + Abort),
    words: &Words,
    input: &str,
    row: &FailedCalls,
) -> Result<(), AllocError> {
    for number in row.2..=row.3 {
        check_failed_call(rt, words, input, number, row)?;
    }
    Ok(())
}

/// Lets each call of the table fail.
fn check_all_failed_calls(
    rt: &(impl AllocGlobal + Abort),
    words: &Words,
    input: &str,
) -> Result<(), AllocError> {
    for row in failed_calls() {
        check_failed_calls(rt, words, input, row)?;
    }
    Ok(())
}

#[test]
fn replies_before_each_failed_call_stand(rt: HostRuntime) -> Result<(), Fail> {
    let input = admission_and_replay(rt.alloc())?;
    let words = word(rt.alloc(), "serve")?;
    check_all_failed_calls(&rt, &words, input.as_str())?;
    Ok(())
}

/// Gives 186 octets a call, and notes at its second how much the sink had taken.
#[derive(Drop)]
struct NotingSource<'a> {
    rest: &'a [u8],
    reads: u64,
    taken: &'a Cell<usize>,
    noted: usize,
}

impl Source for NotingSource<'_> {
    ghost left = { λ _. None };

    ghost faults = { λ _. 0 };

    fn read(&mut self, into: &mut [u8]) -> Result<usize, Failed> {
        self.reads = self.reads.saturating_add(1);
        if self.reads == 2 {
            self.noted = self.taken.get();
        }
        let count = self.rest.len().min(into.len()).min(186);
        let (front, rest) = self.rest.split_at(count);
        into[..count].copy_from_slice(front);
        self.rest = rest;
        Ok(count)
    }
}

/// Counts what it takes.
#[derive(Drop)]
struct CountingSink<'a> {
    taken: &'a Cell<usize>,
}

impl Sink for CountingSink<'_> {
    ghost taken = { λ _. None };

    ghost faults = { λ _. 0 };

    fn write(&mut self, piece: &[u8]) -> Result<usize, Failed> {
        self.taken.set(self.taken.get().saturating_add(piece.len()));
        Ok(piece.len())
    }
}

#[test]
fn a_reply_is_written_before_the_next_read(rt: HostRuntime) -> Result<(), Fail> {
    let taken = Cell::new(0);
    let words = word(rt.alloc(), "serve")?;
    let mut source = NotingSource {
        rest: two_events(),
        reads: 0,
        taken: &taken,
        noted: 0,
    };
    let mut sink = CountingSink { taken: &taken };
    let status = serve(rt.alloc(), &words, &mut source, &mut sink);
    assert_eq!(rt; status, Status::Done);
    assert_eq!(rt; source.noted, 31);
    Ok(())
}
