//! Both ends of a session, over the replies of a KDC that were recorded.

use menolavuri::{Acceptor, Flags, Initiator, Next, Session, Step};
use std::time::{Duration, SystemTime, UNIX_EPOCH};

const EXCHANGE: &str = include_str!("../../../../examples/both-ends");

fn octets(hex: &str) -> Vec<u8> {
    (0..hex.len() / 2)
        .map(|i| u8::from_str_radix(&hex[2 * i..2 * i + 2], 16).unwrap())
        .collect()
}

/// The lines of the exchange that begin with a word, in words.
fn lines(word: &str) -> Vec<Vec<&'static str>> {
    EXCHANGE
        .lines()
        .map(|line| line.split(' ').collect())
        .filter(|words: &Vec<&str>| words[0] == word)
        .collect()
}

/// The time of the exchange, and what was drawn.
fn draw() -> (SystemTime, [u8; 64]) {
    let event = &lines("event")[0];
    let now = UNIX_EPOCH + Duration::from_micros(event[2].parse().unwrap());
    (now, octets(event[3]).try_into().unwrap())
}

fn step(initiator: &mut Initiator, step: Step) -> Next {
    let (now, random) = draw();
    initiator.step_at(step, now, random).unwrap()
}

/// An initiator that the KDC's replies have brought to its token.
fn asked() -> Initiator {
    let password = &lines("password")[0];
    let secret = String::from_utf8(octets(password[4])).unwrap();
    let target = "host/server.example.com";
    let mut initiator =
        Initiator::with_number(target, "hostname", Flags::USUAL, [1, 2, 3, 4]).unwrap();
    initiator.kdc(lines("kdc")[0][2]).unwrap();
    initiator
        .password(password[2], password[3], &secret)
        .unwrap();
    let mut next = step(&mut initiator, Step::Start);
    for event in lines("event") {
        if event[1] == "10" && event[5] == "reply" {
            assert_eq!(next, Next::AskKdc);
            next = step(&mut initiator, Step::Answer(&octets(event[6])));
        }
    }
    assert_eq!(next, Next::SendToken);
    initiator
}

/// Both ends of a session: the initiator's and the acceptor's.
pub fn meet() -> (Session, Session) {
    let key = &lines("key")[0];
    let acceptor = Acceptor::new(key[2], &octets(key[3]), Duration::from_secs(300)).unwrap();
    let mut initiator = asked();
    let (now, random) = draw();
    let token = initiator.token().unwrap();
    let session = acceptor.accept_at(&token, now, random).unwrap();
    let next = step(&mut initiator, Step::Hear(session.answer()));
    assert_eq!(next, Next::Established);
    (initiator.into_session().unwrap(), session)
}
