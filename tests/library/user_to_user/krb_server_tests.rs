//! Answers of the whole acceptor to tokens that come one after another.

mod further_names;
mod last_words;
mod tgt_reqs;
mod user_to_user;

use crate::rows::is_hex;
use crate::services::{Service, acceptor_of, draw, flags_of};
use krb_conf::Env;
use krb_context::Kerberos;
use krb_der::boxed;
use krb_replay::ReplayBook;
use krb_server::{Accepted, accept_security_context};
use sspi_core::{Cause, Error, SecurityStatus};
use std::alloc::Global;
use std::test::Fail;

/// The answer to a token.
enum Answer {
    /// The status, the token that goes back in hex, and whether a client is admitted.
    Done(SecurityStatus, &'static str, bool),
    /// A run that fetches the service's ticket.
    Run,
    Refused(Cause),
}

/// A token in hex, whether the caller asks for DCE style, and the answer.
struct Step {
    token: &'static str,
    dce: bool,
    answer: Answer,
}

/// A service, and the tokens that come to its acceptor one after another.
struct Session {
    service: Service,
    steps: &'static [Step],
}

fn is_done(alloc: Global, accepted: &Accepted, wanted: &Answer) -> bool {
    match (accepted, wanted) {
        (
            Accepted::Done {
                status,
                token,
                admits,
            },
            Answer::Done(wanted_status, wanted_token, wanted_admits),
        ) => {
            *status == *wanted_status
                && is_hex(alloc, token.as_slice(), wanted_token)
                && *admits == *wanted_admits
        }
        (Accepted::Run(_), Answer::Run) => true,
        _ => false,
    }
}

fn is_refused(error: &Error, wanted: &Answer) -> bool {
    match wanted {
        Answer::Refused(cause) => error.cause == *cause,
        Answer::Done(_, _, _) | Answer::Run => false,
    }
}

fn is_answer(alloc: Global, answer: &Result<Accepted, Error>, wanted: &Answer) -> bool {
    match answer {
        Ok(accepted) => is_done(alloc, accepted, wanted),
        Err(error) => is_refused(error, wanted),
    }
}

/// Whether the token is answered so.
fn is_answered_so(
    alloc: Global,
    server: &mut Kerberos,
    book: &mut ReplayBook,
    step: &Step,
) -> Result<bool, Fail> {
    let token = hex::decode(alloc, step.token)?;
    let flags = flags_of(step.dce);
    let env = Env::new(alloc);
    let answer = accept_security_context(alloc, server, book, &token, flags, &env, &draw());
    let answer = boxed(alloc, answer)?;
    Ok(is_answer(alloc, &answer, &step.answer))
}

/// The first token that is not answered so, if any.
fn first_other(
    alloc: Global,
    server: &mut Kerberos,
    book: &mut ReplayBook,
    steps: &[Step],
) -> Result<Option<usize>, Fail> {
    for (place, step) in steps.iter().enumerate() {
        if !is_answered_so(alloc, server, book, step)? {
            return Ok(Some(place));
        }
    }
    Ok(None)
}

/// Answers at a new book.
fn first_other_at(
    alloc: Global,
    server: &mut Kerberos,
    steps: &[Step],
) -> Result<Option<usize>, Fail> {
    let mut book = boxed(alloc, ReplayBook::new(alloc, 300)?)?;
    first_other(alloc, server, &mut book, steps)
}

/// The answer at a new acceptor of the row's service.
fn first_other_of(alloc: Global, session: &Session) -> Result<Option<usize>, Fail> {
    let mut server = acceptor_of(alloc, &session.service)?;
    first_other_at(alloc, &mut server, session.steps)
}
