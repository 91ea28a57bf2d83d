//! Tokens, answers and states of an initiator, call by call.

ghost use Rattle.std.specs.Prelude.{◌≡◌, IfOk};
ghost use Rattle.sspi_generator.specs.Draws.{IsInRange, AreInRange};
ghost use Rattle.krb_initiator.specs.InitRuns.{IsNew, turns_left};

mod ap_reps;
mod as_replies;
mod beginnings;
mod by_rules;
mod established;
mod fresh;
mod protocols;
mod recorded;
mod referrals;
mod tgs_replies;
mod user_to_user;
mod wrong_replies;

use crate::clients::Initiator;
use crate::kdc::Kdc;
use crate::octets::{are_octets, octets};
use crate::script::Script;
use bitflags::Flags;
use krb_conf::Env;
use krb_context::{Kerberos, Rules};
use krb_der::{Octets, boxed};
use krb_initiator::{GeneratorInitSecurityContext, InitOptions, initialize_security_context};
use sspi_core::{Cause, ClientRequestFlags, Draw, Error, MAX_MOMENT, SecurityStatus};
use sspi_generator::{Generator, MemClient, NetFault, NetworkClient};
use std::alloc::{AllocError, Global};
use std::collections::VecDeque;
use std::process::Abort;
use std::test::Fail;

/// The input of a step without a line of its script: 1700000000 s, and the octets 0 to 63.
const CHANCE: &str = "1700000000000000 \
     000102030405060708090a0b0c0d0e0f101112131415161718191a1b1c1d1e1f202122232425262728292a2b2c2d2e2f303132333435363738393a3b3\
     c3d3e3f";

/// The input of a step: a moment, and random octets.
fn draw_of(chance: &str) -> Draw
    ensures { IsInRange result }
{
    let mut random = [0; 64];
    let (moment, digits) = chance.split_once(' ').unwrap_or(("", ""));
    let _is_read = hex::decode_to_slice(digits, &mut random).is_ok();
    let moment: u64 = moment.parse().unwrap_or(0);
    Draw {
        moment: moment.min(MAX_MOMENT),
        random,
    }
}

/// The value of a line `chance`.
fn next_draw(script: &mut Script) -> Draw
    ensures { IsInRange result }
{
    draw_of(script.take("chance").unwrap_or(CHANCE))
}

/// The inputs of the steps of a call: only the first four have lines of their own.
fn draws_of(script: &mut Script) -> [Draw; 13]
    ensures { AreInRange result }
{
    let first = next_draw(script);
    let second = next_draw(script);
    let third = next_draw(script);
    let fourth = next_draw(script);
    let next = draw_of(CHANCE);
    [
        first, second, third, fourth, next, next, next, next, next, next, next, next, next,
    ]
}

/// The flag of a letter, as `krb_run` reads it.
fn flag_of(letter: char) -> ClientRequestFlags {
    match letter {
        'C' => ClientRequestFlags::CONFIDENTIALITY,
        'D' => ClientRequestFlags::DELEGATE,
        'E' => ClientRequestFlags::USE_DCE_STYLE,
        'I' => ClientRequestFlags::INTEGRITY,
        'K' => ClientRequestFlags::USE_SESSION_KEY,
        'M' => ClientRequestFlags::MUTUAL_AUTH,
        'N' => ClientRequestFlags::NO_INTEGRITY,
        'R' => ClientRequestFlags::REPLAY_DETECT,
        'S' => ClientRequestFlags::SEQUENCE_DETECT,
        _ => ClientRequestFlags::empty(),
    }
}

fn flags_of(letters: &str) -> ClientRequestFlags {
    let mut all = ClientRequestFlags::empty();
    for letter in letters.chars() {
        all = all.union(flag_of(letter));
    }
    all
}

/// The request of a caller with these flags alone.
fn options_with(alloc: Global, flags: ClientRequestFlags) -> InitOptions {
    InitOptions {
        flags,
        target: None,
        token: Octets::new(Vec::new(alloc)),
        credentials: None,
        channel_bindings: None,
        env: Env::new(alloc),
    }
}

/// The initiator's own options, and the token of the service.
fn fill(
    alloc: Global,
    options: &mut InitOptions,
    initiator: &Initiator,
    token: &'static str,
) -> Result<(), Fail> {
    options.target = initiator.target(alloc)?;
    options.token = octets(alloc, token)?;
    options.credentials = initiator.credentials(alloc)?;
    options.env = initiator.env(alloc)?;
    Ok(())
}

/// The request of its caller: a line `call` has the flags, and the token of the service.
fn options_of(
    alloc: Global,
    initiator: &Initiator,
    call: &'static str,
) -> Result<Box<InitOptions>, Fail> {
    let (flags, token) = call.split_once(' ').unwrap_or((call, "-"));
    let mut options = boxed(alloc, options_with(alloc, flags_of(flags)))?;
    fill(alloc, &mut options, initiator, token)?;
    Ok(options)
}

/// The run of a call.
fn run_of(
    alloc: Global,
    client: &Kerberos,
    options: Box<InitOptions>,
) -> Result<Box<GeneratorInitSecurityContext>, Error>
    ensures new { IfOk result (λ run. IsNew run.value) }
    ensures turns { IfOk result (λ run. turns_left run.value.phase ≡ 12) }
{
    match initialize_security_context(alloc, client, Box::into_inner(options)) {
        Ok(run) => Ok(boxed(alloc, Generator::new(run))?),
        Err(error) => Err(error),
    }
}

/// The end of a run over a network, by which the initiator is settled: the status and the token.
fn end_over(
    run: Box<GeneratorInitSecurityContext>,
    client: &mut Kerberos,
    network: &mut dyn NetworkClient,
    draws: &[Draw; 13],
) -> Result<(SecurityStatus, Octets), Error>
    requires new { IsNew run.value }
    requires turns { turns_left run.value.phase ≡ 12 }
    requires moments { AreInRange draws.now }
{
    let mut run = run;
    match run.resolve_with_client(network, draws) {
        Ok(done) => {
            client.settle(done.change);
            Ok((done.status, done.token))
        }
        Err(error) => Err(error),
    }
}

/// The end of a call over a network.
fn end_of(
    alloc: Global,
    client: &mut Kerberos,
    options: Box<InitOptions>,
    network: &mut dyn NetworkClient,
    draws: &[Draw; 13],
) -> Result<(SecurityStatus, Octets), Error>
    requires { AreInRange draws.now }
{
    match run_of(alloc, client, options) {
        Ok(run) => end_over(run, client, network, draws),
        Err(error) => Err(error),
    }
}

fn has_key(alloc: Global, client: &Kerberos, word: &'static str) -> bool {
    match client.encryption_params.key() {
        Some(key) => are_octets(alloc, key.as_slice(), word),
        None => word == "-",
    }
}

/// The state of a context, its number, its realm, whether its service uses a session key, and how many octets of filler its sealed
/// messages have.
fn printed(alloc: Global, client: &Kerberos) -> Result<String, AllocError> {
    let realm = match &client.realm {
        Some(realm) => realm.as_str(),
        None => "-",
    };
    let peer = if client.krb5_user_to_user {
        "user-to-user"
    } else {
        "-"
    };
    let filler = client.encryption_params.ec;
    format!(in alloc;
        "{:?} {} {realm} {peer} {filler}",
        client.state, client.seq_number
    )
}

/// The value of a line with this word; by the rules of the RFCs that of the next line, if it has the other word.
fn line_by(client: &Kerberos, script: &mut Script, word: &str, word_by_rfc: &str) -> &'static str {
    let line = script.take(word).unwrap_or("");
    match script.take(word_by_rfc) {
        Some(by_rfc) if client.rules == Rules::rfc() => by_rfc,
        _ => line,
    }
}

/// Whether the context is as the lines `context` and `key` say. The key is the subkey where there is one, else the session key.
fn is_as(alloc: Global, client: &Kerberos, script: &mut Script) -> bool {
    let context = line_by(client, script, "context", "rfc-context");
    let key = line_by(client, script, "key", "rfc-key");
    match printed(alloc, client) {
        Ok(text) => text.as_str() == context && has_key(alloc, client, key),
        Err(_) => false,
    }
}

/// True if that is returned, a line `ok` or `continue` with the token, and the context is so now.
fn settles_so(
    alloc: Global,
    client: &Kerberos,
    (status, token): &(SecurityStatus, Octets),
    script: &mut Script,
) -> bool {
    let word = match status {
        SecurityStatus::Ok => "ok",
        SecurityStatus::ContinueNeeded => "continue",
    };
    let wanted = script.take(word).unwrap_or("");
    let is_token = !wanted.is_empty() && are_octets(alloc, token.as_slice(), wanted);
    is_token && is_as(alloc, client, script)
}

/// Whether a line `refused` prints the refusal.
pub fn is_refused(alloc: Global, error: &Error, script: &mut Script) -> bool {
    let wanted = script.take("refused").unwrap_or("");
    match format!(in alloc; "{error}") {
        Ok(text) => text.as_str() == wanted,
        Err(_) => false,
    }
}

fn ends_so(
    alloc: Global,
    client: &Kerberos,
    end: &Result<(SecurityStatus, Octets), Error>,
    script: &mut Script,
) -> bool {
    match end {
        Ok(done) => settles_so(alloc, client, done, script),
        Err(error) => is_refused(alloc, error, script),
    }
}

/// Whether a call with these options asks for what the script says, and ends so.
fn goes_with(
    alloc: Global,
    client: &mut Kerberos,
    options: Box<InitOptions>,
    draws: &[Draw; 13],
    script: &mut Script,
) -> bool
    requires { AreInRange draws.now }
{
    let mut kdc = Kdc::new(alloc, *script);
    let end = end_of(alloc, client, options, &mut kdc, draws);
    *script = kdc.script();
    ends_so(alloc, client, &end, script) && kdc.is_asked_so()
}

/// Whether the next call does.
fn goes_so(
    alloc: Global,
    client: &mut Kerberos,
    initiator: &Initiator,
    script: &mut Script,
) -> Result<bool, Fail> {
    let _note = script.take("note");
    let call = script.take("call").unwrap_or("");
    let draws = draws_of(script);
    let options = options_of(alloc, initiator, call)?;
    Ok(goes_with(alloc, client, options, &draws, script))
}

/// The rest of the script if a call goes otherwise: nothing if all go so.
fn left_of(
    alloc: Global,
    client: &mut Kerberos,
    initiator: &Initiator,
    script: &mut Script,
) -> Result<&'static str, Fail> {
    for _ in 0..script.rest().len() {
        let rest = script.rest();
        if rest.is_empty() || !goes_so(alloc, client, initiator, script)? {
            return Ok(rest);
        }
    }
    Ok("")
}

fn left_at(
    alloc: Global,
    initiator: &Initiator,
    script: &mut Script,
) -> Result<&'static str, Fail> {
    let mut client = initiator.client(alloc)?;
    left_of(alloc, &mut client, initiator, script)
}

/// The rest of a text that begins with its initiator.
fn left(alloc: Global, text: &'static str) -> Result<&'static str, Fail> {
    let mut script = Script::new(text);
    let initiator = Initiator::next(&mut script);
    left_at(alloc, &initiator, &mut script)
}

/// The rest if the initiator has the rules of the RFCs.
fn left_by_rfc(alloc: Global, text: &'static str) -> Result<&'static str, Fail> {
    let mut script = Script::new(text);
    let initiator = Initiator {
        rules: Rules::rfc(),
        ..Initiator::next(&mut script)
    };
    left_at(alloc, &initiator, &mut script)
}

fn assert_all(rt: &(impl Abort + AllocGlobal), sessions: &[&'static str]) -> Result<(), Fail> {
    for session in sessions {
        assert_eq!(rt; left(rt.alloc(), session)?, "");
    }
    Ok(())
}

fn assert_all_by_rfc(
    rt: &(impl Abort + AllocGlobal),
    sessions: &[&'static str],
) -> Result<(), Fail> {
    for session in sessions {
        assert_eq!(rt; left_by_rfc(rt.alloc(), session)?, "");
    }
    Ok(())
}

#[test]
fn an_initiator_gets_a_ticket_and_is_established(rt: HostRuntime) -> Result<(), Fail> {
    assert_all(&rt, &established::SESSIONS)
}

#[test]
fn kdcs_of_others_are_understood(rt: HostRuntime) -> Result<(), Fail> {
    assert_all(&rt, &recorded::SESSIONS)
}

#[test]
fn what_the_rules_take_is_taken(rt: HostRuntime) -> Result<(), Fail> {
    assert_all(&rt, &by_rules::SESSIONS)
}

/// Each reply repeats what its request asked, and each AP-REP the time of its authenticator.
#[test]
fn log_ins_go_as_they_were_recorded_by_the_rules_of_the_rfcs(rt: HostRuntime) -> Result<(), Fail> {
    assert_all_by_rfc(&rt, &recorded::HONEST)?;
    assert_all_by_rfc(&rt, &by_rules::SESSIONS)
}

#[test]
fn an_initiator_is_established_by_the_rules_of_the_rfcs(rt: HostRuntime) -> Result<(), Fail> {
    assert_all_by_rfc(&rt, &established::HONEST)?;
    assert_all_by_rfc(&rt, &user_to_user::HONEST)
}

#[test]
fn a_referral_is_followed_nine_times(rt: HostRuntime) -> Result<(), Fail> {
    assert_all(&rt, &referrals::SESSIONS)
}

#[test]
fn what_cannot_be_asked_for_is_refused(rt: HostRuntime) -> Result<(), Fail> {
    assert_all(&rt, &beginnings::SESSIONS)
}

#[test]
fn a_request_goes_over_the_protocol_of_its_url(rt: HostRuntime) -> Result<(), Fail> {
    assert_all(&rt, &protocols::SESSIONS)
}

#[test]
fn a_reply_of_an_authentication_service_is_taken_or_refused(rt: HostRuntime) -> Result<(), Fail> {
    assert_all(&rt, &as_replies::SESSIONS)
}

#[test]
fn a_reply_of_a_ticket_granting_service_is_taken_or_refused(rt: HostRuntime) -> Result<(), Fail> {
    assert_all(&rt, &tgs_replies::SESSIONS)
}

#[test]
fn what_was_not_asked_for_is_refused(rt: HostRuntime) -> Result<(), Fail> {
    assert_all(&rt, &wrong_replies::SESSIONS)
}

#[test]
fn an_answer_is_taken_or_refused(rt: HostRuntime) -> Result<(), Fail> {
    assert_all(&rt, &ap_reps::SESSIONS)
}

#[test]
fn an_initiator_shows_the_ticket_of_the_service(rt: HostRuntime) -> Result<(), Fail> {
    assert_all(&rt, &user_to_user::SESSIONS)
}

/// A beginning of alice, who has a key.
const ALICE: &str = "\
     initiator 7 pc host/server.example.com\n\
     kdc tcp://kdc.example:88\n\
     keytab EXAMPLE.COM\\alice 18 72e14c8e96dfba330802c689e06448591bc19da4f18500d9d63671d6ce24d52d";

fn alice() -> Initiator {
    Initiator::next(&mut Script::new(ALICE))
}

/// Whether a run that sends nothing ends as Suspended.
fn is_suspended_run(run: Box<GeneratorInitSecurityContext>) -> bool
    requires { IsNew run.value }
{
    let mut run = run;
    match run.resolve_to_result(&draw_of(CHANCE)) {
        Ok(_) => false,
        Err(error) => error == Error::from(Cause::Suspended),
    }
}

fn is_suspended_with(alloc: Global, client: &Kerberos, options: Box<InitOptions>) -> bool {
    match run_of(alloc, client, options) {
        Ok(run) => is_suspended_run(run),
        Err(_) => false,
    }
}

/// Whether a call of which nothing is sent ends as Suspended.
fn is_suspended(alloc: Global) -> Result<bool, Fail> {
    let client = alice().client(alloc)?;
    let options = options_of(alloc, &alice(), "M -")?;
    Ok(is_suspended_with(alloc, &client, options))
}

#[test]
fn an_initialization_sends_nothing_itself(rt: HostRuntime) -> Result<(), Fail> {
    assert!(rt; is_suspended(rt.alloc())?);
    Ok(())
}

fn fails_with(
    alloc: Global,
    client: &mut Kerberos,
    options: Box<InitOptions>,
    network: &mut MemClient,
) -> bool {
    let draws = draws_of(&mut Script::new(""));
    match end_of(alloc, client, options, network, &draws) {
        Ok(_) => false,
        Err(error) => error == Error::from(Cause::Network(5)),
    }
}

fn fails_over(alloc: Global, network: &mut MemClient) -> Result<bool, Fail> {
    let mut client = alice().client(alloc)?;
    let options = options_of(alloc, &alice(), "M -")?;
    Ok(fails_with(alloc, &mut client, options, network))
}

/// Whether a call over a network that fails with the code 5 ends with it.
fn fails_at_once(alloc: Global) -> Result<bool, Fail> {
    let mut answers = VecDeque::new(alloc);
    answers.push_back(Err(NetFault::Failed(5)))?;
    fails_over(alloc, &mut MemClient::new(answers))
}

#[test]
fn a_failure_of_the_network_is_told(rt: HostRuntime) -> Result<(), Fail> {
    assert!(rt; fails_at_once(rt.alloc())?);
    Ok(())
}
