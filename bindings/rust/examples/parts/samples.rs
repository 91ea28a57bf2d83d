//! The protocol of MIT's sample programs `gss-client` and `gss-server`, from the server's end.

use crate::Answer;
use crate::frames::*;
use crate::peer::Peer;
use crate::telling::log;
use menolavuri::Session;
use std::io::{BufReader, Read};

/// The client's first token, after its greeting.
fn first_token(from: &mut impl Read) -> Answer<Vec<u8>> {
    match read_frame(from, LONGEST_TOKEN)?.says {
        says if says == NO_OPERATION | CONTEXT_NEXT => Ok(read_frame(from, LONGEST_TOKEN)?.octets),
        _ => Err("the client does not log in".into()),
    }
}

/// The text of a message, and in words how it came.
fn open(session: &mut Session, message: Frame) -> Answer<(Vec<u8>, &'static str)> {
    if message.says & WRAPPED == 0 {
        return Ok((message.octets, "in the clear"));
    }
    let opened = session.unwrap(&message.octets)?;
    match (message.says & SEALED != 0, opened.sealed) {
        (true, false) => Err("the client says that a message is sealed, and it is not".into()),
        (_, true) => Ok((opened.text, "sealed")),
        (_, false) => Ok((opened.text, "with a checksum")),
    }
}

/// Lets a client in by its first token, as `admit` does, and answers each of its messages until it takes leave.
pub fn serve(peer: Peer, admit: impl FnOnce(&[u8]) -> Answer<Session>) -> Answer<()> {
    let mut from = BufReader::new(peer);
    let mut session = admit(&first_token(&mut from)?)?;
    from.get_mut().end_log_in(session.ends());
    log(&format!("admitted: {}", session.peer()));
    if !session.answer().is_empty() {
        write_frame(from.get_mut(), CONTEXT, session.answer())?;
    }
    loop {
        let message = read_frame(&mut from, LONGEST)?;
        let says = message.says;
        match says & (NO_OPERATION | DATA) {
            DATA => (),
            0 => return Err("a frame that is no message".into()),
            _ => return Ok(()),
        }
        let (text, way) = open(&mut session, message)?;
        let start: String = String::from_utf8_lossy(&text).chars().take(60).collect();
        log(&format!("{} octets, {way}: {start:?}", text.len()));
        match says & WANTS_MIC {
            0 => write_frame(from.get_mut(), NO_OPERATION, b"")?,
            _ => write_frame(from.get_mut(), MIC, &session.mic(&text)?)?,
        }
    }
}
