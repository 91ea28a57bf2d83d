//! The tokens of a session, from one end to the other.

ghost use Rattle.std.specs.Prelude.{◌≡◌, IfOk};
ghost use Rattle.krb_initiator.specs.InitRuns.{IsNew, turns_left};

use super::Session;
use super::network::Network;
use super::parties::{draws, octets, options_with, server_flags, service_draw};
use krb_as::InitDone;
use krb_conf::Env;
use krb_context::Kerberos;
use krb_initiator::{GeneratorInitSecurityContext, InitOptions, initialize_security_context};
use krb_replay::ReplayBook;
use krb_server::{Accepted, accept_security_context};
use sspi_core::{ClientRequestFlags, Error, SecurityStatus, ServerRequestFlags};
use sspi_generator::{Generator, NetworkClient};
use std::alloc::Global;
use std::test::Fail;

/// The input of an end, and its answer: tokens in hex.
#[derive(Clone, Copy)]
pub struct Step {
    /// Nothing where an initiator begins.
    token: &'static str,
    /// The replies of KDCs to it.
    replies: &'static [&'static str],
    status: SecurityStatus,
    answer: &'static str,
    /// The request of the acceptor's caller.
    flags: ServerRequestFlags,
}

/// An initiator begins, and makes its offer.
pub fn offer(session: &Session) -> Step {
    Step {
        token: "",
        replies: session.replies,
        status: SecurityStatus::ContinueNeeded,
        answer: session.offer,
        flags: server_flags(session.dce),
    }
}

/// The acceptor answers it.
pub fn answer(session: &Session) -> Step {
    Step {
        token: session.offer,
        replies: &[],
        status: if session.dce {
            SecurityStatus::ContinueNeeded
        } else {
            SecurityStatus::Ok
        },
        answer: session.answer,
        flags: server_flags(session.dce),
    }
}

/// The initiator takes the answer, and has the third leg in DCE style.
pub fn last_word(session: &Session) -> Step {
    Step {
        token: session.answer,
        replies: &[],
        status: SecurityStatus::Ok,
        answer: session.last,
        flags: server_flags(session.dce),
    }
}

/// The acceptor takes it.
pub fn end(session: &Session) -> Step {
    Step {
        token: session.last,
        replies: &[],
        status: SecurityStatus::Ok,
        answer: "",
        flags: server_flags(session.dce),
    }
}

/// Whether the octets are those.
pub fn is_hex(alloc: Global, octets: &[u8], digits: &str) -> bool {
    match hex::decode(alloc, digits) {
        Ok(wanted) => octets == wanted.as_slice(),
        Err(_) => false,
    }
}

/// The run of an initiator.
fn run_of(
    alloc: Global,
    initiator: &Kerberos,
    options: InitOptions,
) -> Result<Box<GeneratorInitSecurityContext>, Error>
    ensures new { IfOk result (λ run. IsNew run.value) }
    ensures turns { IfOk result (λ run. turns_left run.value.phase ≡ 12) }
{
    match initialize_security_context(alloc, initiator, options) {
        Ok(run) => Ok(Box::new(alloc, Generator::new(run))?),
        Err(error) => Err(error),
    }
}

/// The end of a run over a network.
fn end_of(
    run: Box<GeneratorInitSecurityContext>,
    network: &mut dyn NetworkClient,
) -> Result<InitDone, Error>
    requires new { IsNew run.value }
    requires turns { turns_left run.value.phase ≡ 12 }
{
    let mut run = run;
    run.resolve_with_client(network, &draws())
}

/// The end of an initiator that is called with these options.
fn end_over(
    alloc: Global,
    initiator: &Kerberos,
    options: InitOptions,
    network: &mut dyn NetworkClient,
) -> Result<InitDone, Error> {
    match run_of(alloc, initiator, options) {
        Ok(run) => end_of(run, network),
        Err(error) => Err(error),
    }
}

/// The end with the token of a step.
fn done_of(
    alloc: Global,
    initiator: &Kerberos,
    session: &Session,
    step: &Step,
    network: &mut Network,
) -> Result<InitDone, Fail> {
    let options = options_with(alloc, session, step.token)?;
    Ok(end_over(alloc, initiator, options, network)?)
}

fn is_done_so(alloc: Global, done: &InitDone, step: &Step) -> bool {
    done.status == step.status && is_hex(alloc, done.token.as_slice(), step.answer)
}

/// Whether an initiator ends so where it is called with the token of a step. It stays as it was.
pub fn ends_so(
    alloc: Global,
    initiator: &Kerberos,
    session: &Session,
    step: &Step,
) -> Result<bool, Fail> {
    let mut network = Network::new(alloc, step.replies);
    match done_of(alloc, initiator, session, step, &mut network) {
        Ok(done) => Ok(network.is_over() && is_done_so(alloc, &done, step)),
        Err(fail) => Err(fail),
    }
}

/// Its end is put into it.
fn settles(alloc: Global, initiator: &mut Kerberos, done: InitDone, step: &Step) -> bool {
    let is_same = is_done_so(alloc, &done, step);
    initiator.settle(done.change);
    is_same
}

/// The end of that run is put into the initiator.
pub fn goes_on_so(
    alloc: Global,
    initiator: &mut Kerberos,
    session: &Session,
    step: &Step,
) -> Result<bool, Fail> {
    let mut network = Network::new(alloc, step.replies);
    match done_of(alloc, initiator, session, step, &mut network) {
        Ok(done) => Ok(settles(alloc, initiator, done, step) && network.is_over()),
        Err(fail) => Err(fail),
    }
}

fn is_accepted_so(alloc: Global, accepted: &Accepted, step: &Step, is_admitted: bool) -> bool {
    match accepted {
        Accepted::Done {
            status,
            token,
            admits,
        } => {
            *status == step.status
                && *admits == is_admitted
                && is_hex(alloc, token.as_slice(), step.answer)
        }
        Accepted::Run(_) => false,
    }
}

fn is_answer(
    alloc: Global,
    answer: Result<Accepted, Error>,
    step: &Step,
    is_admitted: bool,
) -> bool {
    match answer {
        Ok(accepted) => is_accepted_so(alloc, &accepted, step, is_admitted),
        Err(_) => false,
    }
}

/// Whether an acceptor answers a token so, and admits a client or not.
fn is_token_answered_so(
    alloc: Global,
    acceptor: &mut Kerberos,
    book: &mut ReplayBook,
    step: &Step,
    token: &[u8],
    is_admitted: bool,
) -> bool {
    let (flags, env) = (step.flags, Env::new(alloc));
    let answer = accept_security_context(
        alloc,
        acceptor,
        book,
        token,
        flags,
        &env,
        &service_draw(),
    );
    is_answer(alloc, answer, step, is_admitted)
}

/// The end with the token of a step.
pub fn is_answered_so(
    alloc: Global,
    acceptor: &mut Kerberos,
    book: &mut ReplayBook,
    step: &Step,
    is_admitted: bool,
) -> Result<bool, Fail> {
    let token = octets(alloc, step.token)?;
    Ok(is_token_answered_so(alloc, acceptor, book, step, token.as_slice(), is_admitted))
}

/// Whether the tokens go from one end to the other as the session has them.
pub fn establishes(
    alloc: Global,
    session: &Session,
    initiator: &mut Kerberos,
    acceptor: &mut Kerberos,
    book: &mut ReplayBook,
) -> Result<bool, Fail> {
    let offers = goes_on_so(alloc, initiator, session, &offer(session))?;
    let answers = is_answered_so(alloc, acceptor, book, &answer(session), true)?;
    let takes = goes_on_so(alloc, initiator, session, &last_word(session))?;
    let ends = !session.dce || is_answered_so(alloc, acceptor, book, &end(session), false)?;
    Ok(offers && answers && takes && ends)
}

/// The end of an initiator that asks for no answer.
fn unanswered(
    alloc: Global,
    initiator: &Kerberos,
    session: &Session,
    network: &mut Network,
) -> Result<InitDone, Fail> {
    let mut options = options_with(alloc, session, "")?;
    options.flags = ClientRequestFlags::SEQUENCE_DETECT;
    Ok(end_over(alloc, initiator, options, network)?)
}

/// Whether an acceptor admits a client by this token and answers nothing.
fn is_admitted_silently(
    alloc: Global,
    acceptor: &mut Kerberos,
    book: &mut ReplayBook,
    token: &[u8],
) -> bool {
    let step = Step {
        token: "",
        replies: &[],
        status: SecurityStatus::Ok,
        answer: "",
        flags: server_flags(false),
    };
    is_token_answered_so(alloc, acceptor, book, &step, token, true)
}

/// Whether both ends are established by the one token of an initiator that asks for no answer.
pub fn establishes_one_way(
    alloc: Global,
    session: &Session,
    initiator: &mut Kerberos,
    acceptor: &mut Kerberos,
    book: &mut ReplayBook,
) -> Result<bool, Fail> {
    let mut network = Network::new(alloc, session.replies);
    match unanswered(alloc, initiator, session, &mut network) {
        Ok(done) => {
            let is_over = done.status == SecurityStatus::Ok;
            let token = done.token.as_slice();
            let is_admitted = is_admitted_silently(alloc, acceptor, book, token);
            initiator.settle(done.change);
            Ok(is_over && is_admitted)
        }
        Err(fail) => Err(fail),
    }
}
