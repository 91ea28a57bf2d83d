//! The protocol of MIT's sample programs `gss-client` and `gss-server`, from the client's end.

use crate::Answer;
use crate::frames::*;
use crate::kdcs::ask;
use crate::peer::Peer;
use crate::reach::reach;
use menolavuri::{Initiator, Next, Session};

/// Shows a token to the server, and takes its answer.
fn show(initiator: &mut Initiator, server: &mut Peer) -> Answer<Next> {
    write_frame(server, CONTEXT, &initiator.token()?)?;
    let answer = read_frame(server, LONGEST)?;
    Ok(initiator.hear(&answer.octets)?)
}

/// Logs in at the server at this address.
pub fn log_in(mut initiator: Initiator, others: &[&str], address: &str) -> Answer<(Session, Peer)> {
    let mut server = reach(address)?;
    write_frame(&mut server, NO_OPERATION | CONTEXT_NEXT, b"")?;
    let mut next = initiator.start()?;
    while next != Next::Established {
        next = match next {
            Next::AskKdc => ask(&mut initiator, others)?,
            _ => show(&mut initiator, &mut server)?,
        };
    }
    let session = initiator.into_session()?;
    if !session.answer().is_empty() {
        write_frame(&mut server, CONTEXT, session.answer())?;
    }
    server.end_log_in(None);
    Ok((session, server))
}

/// Sends a text, sealed. The answer is a MIC over it, or the text itself, wrapped.
pub fn say(session: &mut Session, text: &[u8], server: &mut Peer) -> Answer<()> {
    let message = session.wrap(text)?;
    write_frame(server, DATA | WRAPPED | SEALED | WANTS_MIC, &message)?;
    let answer = read_frame(server, LONGEST)?;
    match answer.says {
        MIC => Ok(session.verify(&answer.octets, text)?),
        says if says & WRAPPED != 0 && session.unwrap(&answer.octets)?.text == text => Ok(()),
        _ => Err("the answer is not to this text".into()),
    }
}

/// Tells the server that nothing else comes.
pub fn take_leave(server: &mut Peer) -> Answer<()> {
    write_frame(server, NO_OPERATION, b"")
}
