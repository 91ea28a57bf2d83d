//! Messages of another maker and of a second implementation, and each call once.

mod across;
mod calls;
mod ends;
mod mics;
mod queries;
mod rows;
mod services;
mod unwraps;
mod whole;
mod windows;
mod wraps;

use ends::{End, context_of};
use krb_context::Kerberos;
use rows::{holds, message_of};
use sspi_core::{Cause, Error, Message};
use std::alloc::Global;
use std::test::Fail;
use unwraps::unwraps;
use wraps::wraps;

const CONFOUNDER: [u8; 16] = [0, 1, 2, 3, 4, 5, 6, 7, 8, 9, 10, 11, 12, 13, 14, 15];

fn cause_of<T: Drop>(answer: Result<T, Error>) -> Option<Cause> {
    match answer {
        Ok(_) => None,
        Err(error) => Some(error.cause),
    }
}

/// A call of an end with a message.
#[derive(Clone, Copy)]
enum Call {
    Open,
    Seal,
}

fn answer(
    alloc: Global,
    context: &mut Kerberos,
    call: Call,
    message: &mut Message,
) -> Option<Cause> {
    match call {
        Call::Open => cause_of(context.decrypt_message(alloc, message)),
        Call::Seal => cause_of(context.encrypt_message(alloc, message, CONFOUNDER)),
    }
}

/// Whether an end answers so, and the message is so afterwards.
fn answers(
    alloc: Global,
    context: &mut Kerberos,
    call: Call,
    before: &str,
    after: &str,
    refusal: Option<Cause>,
) -> Result<bool, Fail> {
    let mut message = message_of(alloc, before)?;
    let answer = answer(alloc, context, call, &mut message);
    Ok(answer == refusal && holds(alloc, &message, after)?)
}

/// Whether an end answers so, and refuses the same message when it comes again.
fn opens_once(
    alloc: Global,
    context: &mut Kerberos,
    before: &str,
    after: &str,
    refusal: Option<Cause>,
) -> Result<bool, Fail> {
    let first = answers(alloc, context, Call::Open, before, after, refusal)?;
    let again = refusal.or(Some(Cause::Repeated));
    Ok(first && answers(alloc, context, Call::Open, before, before, again)?)
}

/// Whether a new end does.
fn new_end_opens_once(
    alloc: Global,
    end: &End,
    before: &str,
    after: &str,
    refusal: Option<Cause>,
) -> Result<bool, Fail> {
    let mut context = context_of(alloc, end)?;
    opens_once(alloc, &mut context, before, after, refusal)
}

#[test]
fn messages_of_others_are_opened_once_or_refused(rt: HostRuntime) -> Result<(), Fail> {
    for row in unwraps() {
        assert!(rt;
            new_end_opens_once(rt.alloc(), &row.end, row.before, row.after, row.refusal)?,
            "{}",
            row.before
        );
    }
    Ok(())
}

/// Whether an end seals so, and counts a message only where it seals it.
fn seals_and_counts(
    alloc: Global,
    context: &mut Kerberos,
    before: &str,
    after: &str,
    refusal: Option<Cause>,
) -> Result<bool, Fail> {
    let number = context.seq_number.wrapping_add(refusal.is_none() as u32);
    let sealed = answers(alloc, context, Call::Seal, before, after, refusal)?;
    Ok(sealed && context.seq_number == number)
}

/// Whether a new end does.
fn new_end_seals_and_counts(
    alloc: Global,
    end: &End,
    before: &str,
    after: &str,
    refusal: Option<Cause>,
) -> Result<bool, Fail> {
    let mut context = context_of(alloc, end)?;
    seals_and_counts(alloc, &mut context, before, after, refusal)
}

#[test]
fn messages_are_sealed_as_by_a_second_implementation(rt: HostRuntime) -> Result<(), Fail> {
    for row in wraps() {
        assert!(rt;
            new_end_seals_and_counts(rt.alloc(), &row.end, row.before, row.after, row.refusal)?,
            "{}",
            row.before
        );
    }
    Ok(())
}
