//! `threads` over inputs in memory: which worker answers what, that both run at once, and faults of the input and the output.

ghost use Rattle.std.specs.Prelude.{None};

use krb_machine::{Calls, MemSink, MemSource, Words};
use krb_threads::{NoPause, Pause, threads};
use std::alloc::{AllocError, Global};
use std::process::Abort;
use std::sync::Wait;
use std::sync::atomic::{AtomicBool, Ordering};
use std::test::Fail;
use std::thread::Threads;

/// An AP-REQ for host/server.example.com whose authenticator has the number 42, at 1700000000 s.
static TOKEN: &str =
    "608201b906092a864886f71201020201006e8201a8308201a4a003020105a10302010ea20703050000000000a3820115618201113082010da003020105a10d1b0b4558414d504c452e434f4da2253023a003020102a11c301a1b04686f73741b127365727665722e6578616d706c652e636f6da381cf3081cca003020112a281c40481c15c112a47a169c3267a9ff3afbdc5f126179eb939d1669b6d4c3033c2154b15e507170affa88bdd8b06aa49b779a104602531976088d214bc08a463fab523069fb7c94ea703b6e00281e48ed27136bca13d61c864e575f489e30a33c70c11b7bd9ba6027437381531a755ffae453277ca7a5eaaf8984e949155f774b66049188699095c77f195e32b49f019b3598f6601434cb5fe852befebef4ca476341c6b34d6fa7ce2fa1e5fa3a7da091cc1ea32013bca694ae5498b2645c1e94afb3888eed5a4763074a003020112a26d046b1ff72444274c816836e6309012203556e5cff8258d53b31409abe24459c6bc95ed5f7617f8309492bbb2cd02ed22dac4d510c48803e5bd9319679929712b670874c86bb9117ffa2395eecfb38cc5922055cd42465c5be3debf481fd0ed7a975cc255fcb4c013872857dca8";

/// The key of that service: the octets 0 to 31.
static KEY: &str = "000102030405060708090a0b0c0d0e0f101112131415161718191a1b1c1d1e1f";

/// The draw of each event: the octets 0 to 63.
static RANDOM: &str = "000102030405060708090a0b0c0d0e0f101112131415161718191a1b1c1d1e1f\
202122232425262728292a2b2c2d2e2f303132333435363738393a3b3c3d3e3f";

fn words(alloc: Global) -> Result<Words, AllocError> {
    let mut words = Vec::new(alloc);
    words.push(String::from_str(alloc, "threads")?)?;
    Ok(Words::new(words))
}

/// Acceptors with the numbers 1 to 4, and then the token at each of these connections.
fn tokens_at(alloc: Global, connections: &[u32]) -> Result<String, AllocError> {
    let mut input = String::from_str(alloc, "skew 300\n")?;
    for id in [1, 2, 3, 4] {
        let acceptor = format!(in alloc; "acceptor {id} 100 server host/server.example.com\n")?;
        input.push_str(&acceptor)?;
        let key = format!(in alloc; "key {id} host/server.example.com {KEY}\n")?;
        input.push_str(&key)?;
    }
    for id in connections {
        let event = format!(in alloc; "event {id} 1700000000000000 {RANDOM} - token {TOKEN}\n")?;
        input.push_str(&event)?;
    }
    Ok(input)
}

/// The call with this number fails.
fn failing(alloc: Global, number: u64) -> Result<Calls, AllocError> {
    let mut numbers = Vec::new(alloc);
    numbers.push(number)?;
    Ok(Calls::new(numbers, Some(64)))
}

/// Answers this input, which is read and answered by such calls, and compares the status and the text.
fn check<R: AllocGlobal + Abort + Threads + Wait + Sync>(
    rt: &R,
    words: &Words,
    (input, reads): (&[u8], Calls),
    writes: Calls,
    (status, text): (u8, &[u8]),
) {
    let mut source = MemSource::new(input, reads);
    let mut sink = MemSink::new(rt.alloc(), writes);
    let answer = threads(
        rt,
        rt.alloc(),
        words,
        &mut source,
        &mut sink,
        &mut NoPause,
        &mut NoPause,
    );
    assert_eq!(rt; answer.number(), status);
    assert_eq!(rt; sink.bytes(), text);
}

/// The output if no call fails.
fn check_sound<R: AllocGlobal + Abort + Threads + Wait + Sync>(
    rt: &R,
    input: &[u8],
    wanted: (u8, &[u8]),
) -> Result<(), AllocError> {
    let alloc = rt.alloc();
    let words = words(alloc)?;
    check(
        rt,
        &words,
        (input, Calls::sound(alloc)),
        Calls::sound(alloc),
        wanted,
    );
    Ok(())
}

/// Inputs without events that are run, each with its status and its text.
static SHORT_INPUTS: [(&str, u8, &str); 6] = [
    ("skew 300\n", 0, "end 0 0\n"),
    ("skew 300", 0, "end 0 0\n"),
    ("", 3, "bad line 1\n"),
    ("# nothing\n\n", 3, "bad line 3\n"),
    ("skew 300\nabc\n", 3, "bad line 2\n"),
    ("skew 300\nskew 300", 3, "bad line 2\n"),
];

#[test]
fn inputs_without_events_are_answered(rt: HostRuntime) -> Result<(), Fail> {
    for (input, status, text) in &SHORT_INPUTS {
        check_sound(&rt, input.as_bytes(), (*status, text.as_bytes()))?;
    }
    Ok(())
}

/// The output if one worker has all connections.
static ONE_WORKER: &str = "w 1 1 ok -\nw 1 2 refused InvalidToken Replayed\n\
j 1 1 1 Admitted\nj 2 1 2 Replayed\nend 1 1\n";

/// The output if no line declares the connections 8 and 9.
static UNDECLARED: &str = "w 0 1 refused InvalidHandle Connection\nw 0 3 ok -\n\
w 1 2 refused InvalidHandle Connection\nj 1 0 1 Admitted\nend 1 1\n";

#[test]
fn a_worker_has_the_connections_of_its_parity(rt: HostRuntime) -> Result<(), Fail> {
    let input = tokens_at(rt.alloc(), &[1, 3])?;
    check_sound(&rt, input.as_str().as_bytes(), (0, ONE_WORKER.as_bytes()))?;
    let input = tokens_at(rt.alloc(), &[8, 9, 2])?;
    check_sound(&rt, input.as_str().as_bytes(), (0, UNDECLARED.as_bytes()))?;
    Ok(())
}

/// A start at each of this many connections, none of which a line declares, and what the two workers answer.
fn starts(alloc: Global, count: u32) -> Result<(String, String), AllocError> {
    let mut input = String::from_str(alloc, "skew 300\n")?;
    let mut low = String::new(alloc);
    let mut high = String::new(alloc);
    for id in 0..count {
        let event = format!(in alloc; "event {id} 1700000000000000 {RANDOM} - start\n")?;
        input.push_str(&event)?;
        let worker = id % 2;
        let number = u64::from(id) + 1;
        let line = format!(in alloc; "w {worker} {number} refused InvalidHandle Connection\n")?;
        if worker == 0 {
            low.push_str(&line)?;
        } else {
            high.push_str(&line)?;
        }
    }
    low.push_str(&high)?;
    low.push_str("end 0 0\n")?;
    Ok((input, low))
}

/// The input is so long that two threads read its lines: each takes those of one worker, and all are answered in their order.
#[test]
fn a_long_input_is_read_in_order(rt: HostRuntime) -> Result<(), Fail> {
    let (mut input, text) = starts(rt.alloc(), 2_000)?;
    check_sound(
        &rt,
        input.as_str().as_bytes(),
        (0, text.as_str().as_bytes()),
    )?;
    input.push_str("event 7 x\nabc\n")?;
    check_sound(&rt, input.as_str().as_bytes(), (3, b"bad line 2002\n"))?;
    Ok(())
}

/// A line 2 of this many octets after the skew.
fn check_line_of<R: AllocGlobal + Abort + Threads + Wait + Sync>(
    rt: &R,
    length: usize,
    wanted: (u8, &[u8]),
) -> Result<(), Fail> {
    let mut input = Vec::from_slice(rt.alloc(), b"skew 300\n")?;
    input.resize(input.len().saturating_add(length), b'#')?;
    check_sound(rt, &input, wanted)?;
    Ok(())
}

#[test]
fn a_long_line_is_named(rt: HostRuntime) -> Result<(), Fail> {
    // A comment of 1,048,576 octets is no long line, one octet more is.
    check_line_of(&rt, 1_048_576, (0, b"end 0 0\n"))?;
    check_line_of(&rt, 1_048_577, (7, b"long line 2\n"))
}

#[test]
fn other_words_are_refused(rt: HostRuntime) -> Result<(), Fail> {
    let alloc = rt.alloc();
    let none = Words::new(Vec::new(alloc));
    let input = (b"skew 300".as_slice(), Calls::sound(alloc));
    check(&rt, &none, input, Calls::sound(alloc), (2, b""));
    Ok(())
}

#[test]
fn a_failed_read_writes_nothing(rt: HostRuntime) -> Result<(), Fail> {
    let alloc = rt.alloc();
    let words = words(alloc)?;
    let input = tokens_at(alloc, &[2, 1])?;
    for number in [1, 2, 30] {
        let reads = failing(alloc, number)?;
        let bytes = input.as_str().as_bytes();
        check(&rt, &words, (bytes, reads), Calls::sound(alloc), (4, b""));
    }
    Ok(())
}

#[test]
fn a_failed_write_leaves_a_front(rt: HostRuntime) -> Result<(), Fail> {
    let alloc = rt.alloc();
    let words = words(alloc)?;
    let input = tokens_at(alloc, &[1, 3])?;
    let front = ONE_WORKER.as_bytes().get(..64).unwrap_or(&[]);
    for (number, written) in [(1, b"".as_slice()), (2, front)] {
        let reads = (input.as_str().as_bytes(), Calls::sound(alloc));
        check(&rt, &words, reads, failing(alloc, number)?, (5, written));
    }
    Ok(())
}

/// The two texts that are allowed where two workers bring one token at the same time.
static FIRST_WINS: &str = "w 0 2 ok -\nw 1 1 refused InvalidToken Replayed\n\
j 1 0 1 Admitted\nj 2 1 1 Replayed\nend 1 1\n";

static SECOND_WINS: &str = "w 0 2 refused InvalidToken Replayed\nw 1 1 ok -\n\
j 1 1 1 Admitted\nj 2 0 1 Replayed\nend 1 1\n";

/// The three that are allowed where worker 0 brings it twice, and worker 1 once.
static BEFORE_BOTH: &str = "w 0 1 refused InvalidToken Replayed\n\
w 0 2 refused InvalidToken Replayed\nw 1 3 ok -\n\
j 1 1 1 Admitted\nj 2 0 1 Replayed\nj 3 0 2 Replayed\nend 1 1\n";

static BETWEEN_BOTH: &str = "w 0 1 ok -\nw 0 2 refused InvalidToken Replayed\n\
w 1 3 refused InvalidToken Replayed\n\
j 1 0 1 Admitted\nj 2 1 1 Replayed\nj 3 0 2 Replayed\nend 1 1\n";

static BEHIND_BOTH: &str = "w 0 1 ok -\nw 0 2 refused InvalidToken Replayed\n\
w 1 3 refused InvalidToken Replayed\n\
j 1 0 1 Admitted\nj 2 0 2 Replayed\nj 3 1 1 Replayed\nend 1 1\n";

/// Answers the token at these connections, after these pauses, and compares the text with those that are allowed.
fn check_among<R: AllocGlobal + Abort + Threads + Wait + Sync, P: Pause + Send, Q: Pause + Send>(
    rt: &R,
    connections: &[u32],
    allowed: &[&str],
    first: &mut P,
    second: &mut Q,
) -> Result<(), Fail> {
    let alloc = rt.alloc();
    let input = tokens_at(alloc, connections)?;
    let mut source = MemSource::new(input.as_str().as_bytes(), Calls::sound(alloc));
    let mut sink = MemSink::new(alloc, Calls::sound(alloc));
    let words = words(alloc)?;
    let status = threads(rt, alloc, &words, &mut source, &mut sink, first, second);
    assert_eq!(rt; status.number(), 0);
    let written = sink.bytes();
    assert!(rt; allowed.iter().any(|text| written == text.as_bytes()));
    Ok(())
}

/// The token at connections 1 and 2.
fn check_both<R: AllocGlobal + Abort + Threads + Wait + Sync, P: Pause + Send, Q: Pause + Send>(
    rt: &R,
    first: &mut P,
    second: &mut Q,
) -> Result<(), Fail> {
    check_among(rt, &[1, 2], &[FIRST_WINS, SECOND_WINS], first, second)
}

#[test]
fn one_of_two_workers_admits_a_token(rt: HostRuntime) -> Result<(), Fail> {
    check_both(&rt, &mut NoPause, &mut NoPause)
}

/// How often a pause looks for the other's flag.
const TURNS: u32 = 100_000_000;

/// A pause that sets its flag at its first call, and then looks for the other's.
#[derive(Drop)]
pub(crate) struct Held<'a> {
    own: &'a AtomicBool,
    other: &'a AtomicBool,
    pub(crate) calls: u64,
    pub(crate) saw: bool,
}

impl<'a> Held<'a> {
    pub(crate) fn new(own: &'a AtomicBool, other: &'a AtomicBool) -> Held<'a> {
        Held {
            own,
            other,
            calls: 0,
            saw: false,
        }
    }
}

impl<'a> Pause for Held<'a> {
    fn before(&mut self) {
        self.calls = self.calls.saturating_add(1);
        if self.calls > 1 {
            return;
        }
        self.own.store(true, Ordering::SeqCst);
        for _ in 0..TURNS {
            if self.other.load(Ordering::SeqCst) {
                self.saw = true;
                return;
            }
        }
    }
}

/// Each worker is held before its first call until the other has come so far, and each calls once.
#[test]
fn held_call(rt: HostRuntime) -> Result<(), Fail> {
    let low = AtomicBool::new(false);
    let high = AtomicBool::new(false);
    let mut first = Held::new(&low, &high);
    let mut second = Held::new(&high, &low);
    check_both(&rt, &mut first, &mut second)?;
    assert!(rt; first.saw && second.saw);
    assert_eq!(rt; (first.calls, second.calls), (1, 1));
    Ok(())
}

/// Each worker asks its own pause: worker 0 calls twice, and worker 1 once.
#[test]
fn each_worker_asks_its_own_pause(rt: HostRuntime) -> Result<(), Fail> {
    let low = AtomicBool::new(false);
    let high = AtomicBool::new(false);
    let mut first = Held::new(&low, &high);
    let mut second = Held::new(&high, &low);
    let allowed = [BEFORE_BOTH, BETWEEN_BOTH, BEHIND_BOTH];
    check_among(&rt, &[2, 4, 1], &allowed, &mut first, &mut second)?;
    assert!(rt; first.saw && second.saw);
    assert_eq!(rt; (first.calls, second.calls), (2, 1));
    Ok(())
}
