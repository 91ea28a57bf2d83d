//! An initiator of a user that has tickets, by a credential cache that MIT's kinit and kvno wrote.

use menolavuri::{CacheTicket, Cause, Error, Flags, Initiator, Next, Step};
use std::time::{Duration, SystemTime, UNIX_EPOCH};

/// The tickets of alice for krbtgt/EXAMPLE.COM, host/server.example.com and imap/server.example.com. Where their parts are, a second
/// reader of the format found.
const FILE: &str = include_str!("../../c/ccache.hex");
const VALID_FROM: u64 = 1_796_096_853;
const VALID_TO: u64 = 1_796_183_253;
/// The host ticket's key and the ticket, and the ticket-granting ticket.
const KEY: std::ops::Range<usize> = 1048..1080;
const HOST: std::ops::Range<usize> = 1113..1564;
const TGT: std::ops::Range<usize> = 544..953;

fn file() -> Vec<u8> {
    octets(FILE.trim_end())
}

fn second(seconds: u64) -> SystemTime {
    UNIX_EPOCH + Duration::from_secs(seconds)
}

fn initiator(target: &str) -> Initiator {
    Initiator::with_number(target, "desk", Flags::USUAL, [7; 4]).unwrap()
}

fn start(initiator: &mut Initiator) -> Result<Next, Error> {
    initiator.step_at(Step::Start, second(VALID_FROM), [7; 64])
}

fn contains(octets: &[u8], part: &[u8]) -> bool {
    octets.windows(part.len()).any(|it| it == part)
}

#[test]
fn the_services_ticket_is_shown_at_once() {
    let file = file();
    let mut by_file = initiator("host/server.example.com");
    let which = by_file.set_ccache(&file, second(VALID_FROM)).unwrap();
    assert_eq!(which, CacheTicket::Service);
    assert_eq!(start(&mut by_file).unwrap(), Next::SendToken);
    let token = by_file.token().unwrap();
    assert!(contains(&token, &file[HOST]));
    let mut alone = initiator("host/server.example.com");
    let (key, ticket) = (&file[KEY], &file[HOST]);
    alone
        .set_ticket("EXAMPLE.COM", "alice", 18, key, ticket)
        .unwrap();
    assert_eq!(start(&mut alone).unwrap(), Next::SendToken);
    assert_eq!(alone.token().unwrap(), token);
}

#[test]
fn the_granting_ticket_is_shown_to_the_kdc() {
    let file = file();
    let mut initiator = initiator("ldap/server.example.com");
    let which = initiator.set_ccache(&file, second(VALID_FROM)).unwrap();
    assert_eq!(which, CacheTicket::Granting);
    initiator.kdc("tcp://kdc.example.com:88").unwrap();
    assert_eq!(start(&mut initiator).unwrap(), Next::AskKdc);
    assert!(contains(&initiator.request().unwrap(), &file[TGT]));
}

#[test]
fn a_ticket_that_is_not_valid_is_not_found() {
    let file = file();
    let mut it = initiator("host/server.example.com");
    for seconds in [VALID_FROM - 1, VALID_TO, 1 << 33] {
        let error = it.set_ccache(&file, second(seconds)).unwrap_err();
        assert_eq!(error.cause(), Some(Cause::NoIdentity));
    }
    assert!(it.set_ccache(&file, second(VALID_TO - 1)).is_ok());
}

#[test]
fn other_octets_are_refused() {
    let file = file();
    let mut it = initiator("host/server.example.com");
    let now = second(VALID_FROM);
    for octets in [&file[..0], &file[..600], &file[1..]] {
        let error = it.set_ccache(octets, now).unwrap_err();
        assert_eq!(error.cause(), Some(Cause::Shape));
    }
    let (key, ticket) = (&file[KEY], &file[TGT]);
    let error = it.set_ticket("EXAMPLE.COM", "alice", 18, key, &ticket[1..]);
    assert_eq!(error.unwrap_err().cause(), Some(Cause::Shape));
    assert_eq!(start(&mut it).unwrap_err().cause(), Some(Cause::NoIdentity));
    let error = initiator("alice").set_ccache(&file, now).unwrap_err();
    assert_eq!(error.cause(), Some(Cause::Target));
}

/// The input of the log-in that was recorded, and its last request and its token.
const TOLD: &str = include_str!("../../../crates/example_initiator/stdin");
const ANSWERED: &str = include_str!("../../../crates/example_initiator/stdout");

fn octets(hex: &str) -> Vec<u8> {
    (0..hex.len() / 2)
        .map(|i| u8::from_str_radix(&hex[2 * i..2 * i + 2], 16).unwrap())
        .collect()
}

/// The words of the line of this number that begins with a word.
fn words(text: &'static str, word: &str, number: usize) -> Vec<&'static str> {
    text.lines()
        .map(|line| line.split(' ').collect())
        .filter(|words: &Vec<&str>| words[0] == word)
        .nth(number)
        .unwrap()
}

/// The moment and the random bytes of a recorded step.
fn drawn(number: usize) -> (SystemTime, [u8; 64]) {
    let step = words(TOLD, "step", number);
    let moment = UNIX_EPOCH + Duration::from_micros(step[1].parse().unwrap());
    (moment, octets(step[2]).try_into().unwrap())
}

fn recorded() -> Initiator {
    let user = words(TOLD, "user", 0);
    let number = octets(user[6]).try_into().unwrap();
    let mut initiator =
        Initiator::with_number("host/server.example.com", user[3], Flags::USUAL, number).unwrap();
    initiator.kdc(user[4]).unwrap();
    initiator
}

#[test]
fn the_tickets_of_a_log_in_are_kept() {
    let user = words(TOLD, "user", 0);
    let mut it = recorded();
    it.password(user[1], user[2], user[5]).unwrap();
    let (moment, random) = drawn(0);
    it.step_at(Step::Start, moment, random).unwrap();
    let mut kept = file()[..48].to_vec(); // alice's, without an entry
    for i in 0..3 {
        let reply = octets(words(TOLD, "reply", i)[1]);
        let (moment, random) = drawn(i + 1);
        let with_ticket = it.get_ccache(&kept, &reply, moment).unwrap();
        assert_eq!(with_ticket.is_empty(), i == 0);
        if i > 0 {
            assert!(with_ticket.starts_with(&kept));
            kept = with_ticket;
        }
        it.step_at(Step::Answer(&reply), moment, random).unwrap();
    }
    let (moment, random) = drawn(3);
    let mut again = recorded();
    let which = again.set_ccache(&kept, moment).unwrap();
    assert_eq!(which, CacheTicket::Service);
    let next = again.step_at(Step::Start, moment, random).unwrap();
    assert_eq!(next, Next::SendToken);
    assert_eq!(
        again.token().unwrap(),
        octets(words(ANSWERED, "token", 0)[1])
    );
}
