//! Dialogues, and their input line by line.

use crate::octets::{are_octets, octets};
use krb_der::OutOfMemory;
use krb_dialogue::{ClientRequestFlags, Dialogue, Draw, Error, Flags, Next};
use std::alloc::{AllocError, Global};
use std::test::Fail;

/// The moment of each step, 1700000000 s.
const MOMENT: u64 = 1_700_000_000_000_000;

/// Room for all that is written.
const ROOM: usize = 1024;

/// The draw of each step, in hex: the octets 0 to 63.
const RANDOM: &str = "\
     000102030405060708090a0b0c0d0e0f101112131415161718191a1b1c1d1e1f202122232425262728292a2b2c2d2e2f303132333435363738393a3b3\
     c3d3e3f";

/// The draw of a step at this moment.
pub fn draw_at(moment: u64) -> Draw {
    let mut random = [0; 64];
    let _is_read = hex::decode_to_slice(RANDOM, &mut random).is_ok();
    Draw { moment, random }
}

/// The draw of a start: the octets 0 to 63, or, with the word `other`, from 64 on.
fn draw_at_start(word: &str) -> Draw {
    let mut draw = draw_at(MOMENT);
    if word == "other" {
        for octet in draw.random.iter_mut() {
            *octet ^= 0x40;
        }
    }
    draw
}

/// An initiator's dialogue with the host's own service, mutual and sealed, with nobody who asks yet.
pub fn with_host(alloc: Global) -> Result<Box<Dialogue>, Error> {
    let flags = ClientRequestFlags::MUTUAL_AUTH
        .union(ClientRequestFlags::REPLAY_DETECT)
        .union(ClientRequestFlags::SEQUENCE_DETECT)
        .union(ClientRequestFlags::CONFIDENTIALITY)
        .union(ClientRequestFlags::INTEGRITY);
    Dialogue::new(
        alloc,
        "host/server.example.com",
        "hostname",
        flags,
        [0, 0, 4, 0xd2],
    )
}

/// Tells that alice asks, with her password.
pub fn tell_alice(alloc: Global, dialogue: &mut Dialogue) -> Result<(), OutOfMemory> {
    dialogue.set_password(alloc, "alice", "EXAMPLE.COM", "secret")
}

fn tell_alice_and_kdc(alloc: Global, dialogue: &mut Dialogue) -> Result<(), OutOfMemory> {
    tell_alice(alloc, dialogue)?;
    dialogue.set_kdc(alloc, "tcp://kdc.example:88")
}

/// A dialogue of alice with her password, at her KDC.
pub fn of_alice(alloc: Global) -> Result<Box<Dialogue>, Error> {
    let mut dialogue = with_host(alloc)?;
    tell_alice_and_kdc(alloc, &mut dialogue)?;
    Ok(dialogue)
}

fn word_of(next: Next) -> &'static str {
    match next {
        Next::AskKdc => "ask",
        Next::SendToken => "send",
        Next::Established => "established",
    }
}

/// The next step, or the refusal as it is printed.
fn printed(alloc: Global, next: Result<Next, Error>) -> Result<String, AllocError> {
    match next {
        Ok(next) => String::from_str(alloc, word_of(next)),
        Err(error) => format!(in alloc; "{error}"),
    }
}

/// A step: `start`, or `answer`, `hear` or `fault` with what it brings.
fn step(
    alloc: Global,
    dialogue: &mut Dialogue,
    word: &'static str,
    says: &'static str,
) -> Result<Result<Next, Error>, Fail> {
    let draw = draw_at(MOMENT);
    match word {
        "start" => Ok(dialogue.start(alloc, &draw_at_start(says))),
        "answer" => Ok(dialogue.answer(alloc, &octets(alloc, says)?, &draw)),
        "hear" => Ok(dialogue.hear(alloc, &octets(alloc, says)?, &draw)),
        "fault" => Ok(dialogue.fault(says.parse()?, &draw)),
        _ => Err(Fail::from("no step")),
    }
}

/// Whether the step is answered so.
fn steps_so(
    alloc: Global,
    dialogue: &mut Dialogue,
    word: &'static str,
    says: &'static str,
) -> Result<bool, Fail> {
    let (brings, wanted) = says.split_once(' ').unwrap_or((says, ""));
    let next = step(alloc, dialogue, word, brings)?;
    Ok(printed(alloc, next)?.as_str() == wanted)
}

/// Whether these octets are to be sent to the KDC at this URL.
fn asks_so(alloc: Global, dialogue: &Dialogue, says: &'static str) -> bool {
    let (wanted, octets) = says.split_once(' ').unwrap_or((says, ""));
    let mut url = [0; ROOM];
    let mut request = [0; ROOM];
    match (dialogue.url(&mut url), dialogue.request(&mut request)) {
        (Ok(url_length), Ok(length)) => {
            url.get(..url_length) == Some(wanted.as_bytes())
                && are_octets(alloc, request.get(..length).unwrap_or(&[]), octets)
        }
        _ => false,
    }
}

/// Whether this token is to be sent to the service.
fn shows_so(alloc: Global, dialogue: &Dialogue, says: &'static str) -> bool {
    let mut token = [0; ROOM];
    match dialogue.token(&mut token) {
        Ok(length) => are_octets(alloc, token.get(..length).unwrap_or(&[]), says),
        Err(_) => false,
    }
}

fn line_holds(alloc: Global, dialogue: &mut Dialogue, line: &'static str) -> Result<bool, Fail> {
    let (word, says) = line.split_once(' ').unwrap_or((line, ""));
    match word {
        "asks" => Ok(asks_so(alloc, dialogue, says)),
        "shows" => Ok(shows_so(alloc, dialogue, says)),
        _ => steps_so(alloc, dialogue, word, says),
    }
}

/// The first line that does not hold, if there is one.
pub fn first_wrong(
    alloc: Global,
    dialogue: &mut Dialogue,
    text: &'static str,
) -> Result<&'static str, Fail> {
    for line in text.lines() {
        if !line_holds(alloc, dialogue, line)? {
            return Ok(line);
        }
    }
    Ok("")
}
