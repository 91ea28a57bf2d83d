//! AS exchanges over recorded replies, from a client's credentials to the session key of its ticket.

mod early;
mod exchanges;
mod others;
mod proxies;
mod refusals;
mod suites;

ghost use Rattle.std.specs.Prelude.{◌≡◌, ◌<◌, ◌≤◌, ◌^◌, IfOk, length};
ghost use Rattle.sspi_core.specs.Moments.{last_moment};
ghost use Rattle.sspi_generator.specs.Draws.{IsInRange, AreInRange};
ghost use Rattle.krb_exchange.specs.Layouts.{kdc_req_body_layout};
ghost use Rattle.krb_requests.specs.Pieces.{Fits};
ghost use Rattle.krb_as.specs.AsExchanges.{IsNew, turns_left};
ghost use Rattle.krb_as.specs.Clients.{IsShort};

use crate::rows::{is_row, octets};
use exchanges::{ALICE, ALICE_IN_A_KEYTAB, FIRST, SECOND};
use krb_as::{
    AsDone, AsExchange, Asker, Client, FirstService, client_of, first_body, reply_key, short_name,
};
use krb_conf::{Env, KerberosConfig};
use krb_context::{Kerberos, Rules};
use krb_crypto::CipherSuite;
use krb_der::{Octets, OutOfMemory, Text, TryCopy, boxed};
use krb_exchange::KdcReqBody;
use krb_replies::ReplyKey;
use krb_requests::name_of;
use proxies::{PROXIED, PROXIED_FIRST, PROXIED_SECOND};
use sspi_core::{
    AuthIdentityBuffers, Cause, ClientRequestFlags, CredentialsBuffers, Draw, Error,
    KeytabIdentity, Secret, Username,
};
use sspi_generator::{Generator, MemClient, NetFault, NetworkClient, NetworkRequest};
use std::alloc::Global;
use std::collections::VecDeque;
use std::test::Fail;

/// The keys and names of a client.
#[derive(Clone, Copy)]
pub enum Has {
    /// A user, a domain and a password.
    Password(&'static str, &'static str, &'static str),
    /// A principal, a key in hex and its encryption type.
    Key(&'static str, &'static str, u8),
}

/// A client, its machine and the URL of its KDC.
#[derive(Clone, Copy)]
pub struct Who {
    pub has: Has,
    pub host: &'static str,
    pub url: &'static str,
}

/// The replies of the network.
#[derive(Clone, Copy)]
pub enum Reply {
    /// These octets in hex.
    Octets(&'static str),
    /// A message in hex, with its length before it.
    Message(&'static str),
    Fault(u32),
}

/// The input of a step, its request in hex, and the answer.
#[derive(Clone, Copy)]
pub struct Turn {
    pub seconds: u32,
    pub microseconds: u32,
    /// 64 random octets.
    pub random: &'static str,
    pub request: &'static str,
    pub reply: Reply,
}

/// An exchange, and the session key of the ticket, in hex.
#[derive(Clone, Copy)]
pub struct Exchange {
    pub who: Who,
    pub turns: &'static [Turn],
    pub end: &'static str,
}

fn kerberos(alloc: Global, who: &Who) -> Result<Box<Kerberos>, OutOfMemory> {
    let name = Text::from_str(alloc, who.host)?;
    let config = KerberosConfig::new(alloc, who.url, name)?;
    boxed(
        alloc,
        Kerberos::new_client_from_config(config, [0, 0, 0, 7]),
    )
}

fn with_password(
    alloc: Global,
    user: &str,
    domain: &str,
    password: &str,
) -> Result<CredentialsBuffers, Cause> {
    Ok(CredentialsBuffers::AuthIdentity(AuthIdentityBuffers {
        user: Text::from_str(alloc, user)?,
        domain: Text::from_str(alloc, domain)?,
        password: Secret::new(Text::from_str(alloc, password)?),
    }))
}

/// A user of a keytab for AES, under such a key.
fn with_key(
    alloc: Global,
    principal: &str,
    key: &str,
    is_of_16_octets: bool,
) -> Result<CredentialsBuffers, Cause> {
    let key = row_of(alloc, key)?;
    match Username::parse(alloc, principal) {
        Ok(principal) => Ok(CredentialsBuffers::Keytab(KeytabIdentity {
            principal,
            key: Secret::new(key),
            key_enctype: if is_of_16_octets { 17 } else { 18 },
        })),
        Err(_) => Err(Cause::NoIdentity),
    }
}

fn credentials(alloc: Global, has: &Has) -> Result<CredentialsBuffers, Cause> {
    match has {
        Has::Password(user, domain, password) => with_password(alloc, user, domain, password),
        Has::Key(principal, key, etype) => with_key(alloc, principal, key, *etype == 17),
    }
}

fn row_of(alloc: Global, digits: &str) -> Result<Octets, OutOfMemory> {
    match octets(digits) {
        Ok(row) => Octets::from_slice(alloc, row.as_slice()),
        Err(_) => Err(OutOfMemory),
    }
}

/// A message with its length before it (RFC 4120, section 7.2.2).
fn message_of(alloc: Global, digits: &str) -> Result<Octets, OutOfMemory> {
    let Ok(row) = octets(digits) else {
        return Err(OutOfMemory);
    };
    let message = row.as_slice();
    let mut framed = Vec::from_slice(alloc, &(message.len() as u32).to_be_bytes())?;
    framed.extend_from_slice(message)?;
    Ok(Octets::new(framed))
}

fn brought(alloc: Global, reply: Reply) -> Result<Octets, NetFault> {
    let octets = match reply {
        Reply::Fault(code) => return Err(NetFault::Failed(code)),
        Reply::Octets(digits) => row_of(alloc, digits),
        Reply::Message(digits) => message_of(alloc, digits),
    };
    match octets {
        Ok(octets) => Ok(octets),
        Err(OutOfMemory) => Err(NetFault::OutOfMemory),
    }
}

/// A network that brings what was recorded. It counts a fault at each call.
#[derive(Drop)]
struct Recorded<'a> {
    alloc: Global,
    url: &'a str,
    turns: &'a [Turn],
    /// Whether it was asked for what was asked for then.
    is_same: bool,
    faults: u64,
}

/// Whether a request goes there in these octets.
fn is_request(request: &NetworkRequest, url: &str, digits: &str) -> bool {
    request.url.as_str() == url && is_row(request.payload.as_slice(), digits)
}

impl NetworkClient for Recorded<'_> {
    ghost faults = { λ network. network.faults };

    ghost sends = { λ old request answer new. Unit {0} };

    fn send(&mut self, request: &NetworkRequest) -> Result<Octets, NetFault> {
        self.faults = self.faults.saturating_add(1);
        let [turn, rest @ ..] = self.turns else {
            return Err(NetFault::Failed(0));
        };
        self.turns = rest;
        self.is_same = self.is_same && is_request(request, self.url, turn.request);
        brought(self.alloc, turn.reply)
    }
}

/// This many microseconds after that second.
fn moment(seconds: u32, microseconds: u32) -> u64
    ensures { result ≤ last_moment }
{
    u64::from(seconds) * 1_000_000 + u64::from(microseconds)
}

/// The input of a step.
fn draw(turn: &Turn) -> Draw
    ensures { IsInRange result }
{
    let mut random = [0; 64];
    let _is_read = hex::decode_to_slice(turn.random, &mut random).is_ok();
    Draw {
        moment: moment(turn.seconds, turn.microseconds),
        random,
    }
}

/// The inputs of the steps of an exchange. If one was ended, the last one is there again.
fn draws(turns: &[Turn]) -> [Draw; 3]
    ensures { AreInRange result }
{
    match turns {
        [first, second, ..] => [draw(first), draw(second), draw(second)],
        [first] => [draw(first), draw(first), draw(first)],
        [] => [draw(&FIRST), draw(&FIRST), draw(&FIRST)],
    }
}

fn client(alloc: Global, who: &Who, credentials: &CredentialsBuffers) -> Result<Client, Cause>
    ensures { IfOk result (λ client. IsShort client) }
{
    let host = Text::from_str(alloc, who.host)?;
    client_of(alloc, credentials, &host, &Env::new(alloc))
}

fn body(alloc: Global, client: &Client, draw: &Draw) -> Result<KdcReqBody, OutOfMemory>
    requires short { IsShort client.now }
    requires moment { IsInRange draw.now }
    ensures { IfOk result (λ body. Fits kdc_req_body_layout (2 ^ 28) body) }
{
    first_body(
        alloc,
        client,
        FirstService::TicketGranting,
        ClientRequestFlags::MUTUAL_AUTH,
        draw,
    )
}

/// An exchange of a client for a ticket-granting ticket of its realm.
fn exchange_of(
    alloc: Global,
    kerberos: &Kerberos,
    credentials: &CredentialsBuffers,
    client: &Client,
    draw: &Draw,
) -> Result<AsExchange, Cause>
    requires short { IsShort client.now }
    requires moment { IsInRange draw.now }
    ensures new { IfOk result (λ exchange. IsNew exchange) }
    ensures turns { IfOk result (λ exchange. turns_left exchange.phase < 3) }
{
    let realm = short_name(alloc, &client.realm)?;
    let body = boxed(alloc, body(alloc, client, draw)?)?;
    let credentials = credentials.copy(alloc)?;
    let body = Box::into_inner(body);
    Ok(AsExchange::new(alloc, kerberos, body, credentials, realm, Env::new(alloc))?)
}

fn exchange_at(
    alloc: Global,
    kerberos: &Kerberos,
    who: &Who,
    draw: &Draw,
) -> Result<AsExchange, Cause>
    requires { IsInRange draw.now }
    ensures new { IfOk result (λ exchange. IsNew exchange) }
    ensures turns { IfOk result (λ exchange. turns_left exchange.phase < 3) }
{
    let credentials = boxed(alloc, credentials(alloc, &who.has)?)?;
    let client = client(alloc, who, &credentials)?;
    exchange_of(alloc, kerberos, &credentials, &client, draw)
}

fn new_exchange(alloc: Global, who: &Who, draw: &Draw) -> Result<AsExchange, Cause>
    requires { IsInRange draw.now }
    ensures new { IfOk result (λ exchange. IsNew exchange) }
    ensures turns { IfOk result (λ exchange. turns_left exchange.phase < 3) }
{
    let kerberos = kerberos(alloc, who)?;
    exchange_at(alloc, &kerberos, who, draw)
}

/// Runs an exchange over a network.
fn run(
    alloc: Global,
    exchange: AsExchange,
    network: &mut dyn NetworkClient,
    draws: &[Draw],
) -> Result<Box<AsDone>, Error>
    requires new { IsNew exchange }
    requires turns { turns_left exchange.phase < length draws.now }
    requires moments { AreInRange draws.now }
{
    let mut run = boxed(alloc, Generator::new(exchange))?;
    let done = run.resolve_with_client(network, draws)?;
    Ok(boxed(alloc, done)?)
}

/// A client that asks no KDC any more.
fn asker(alloc: Global, who: &Who) -> Result<Asker, Cause> {
    let realm = name_of(alloc, "EXAMPLE.COM")?;
    let credentials = credentials(alloc, &who.has)?;
    Ok(Asker {
        kdc_url: None,
        env: Env::new(alloc),
        realm,
        suite: CipherSuite::Aes256CtsHmacSha196,
        credentials,
        rules: Rules::none(),
    })
}

/// The key that an AS-REP brings to a client.
fn key_in(alloc: Global, who: &Who, done: &AsDone) -> Result<ReplyKey, Cause> {
    let asker = asker(alloc, who)?;
    reply_key(alloc, &asker, &done.salt, &done.as_rep)
}

/// The end of an exchange over a network.
fn end_over(
    alloc: Global,
    who: &Who,
    turns: &[Turn],
    network: &mut dyn NetworkClient,
) -> Result<ReplyKey, Cause> {
    let draws = draws(turns);
    let exchange = new_exchange(alloc, who, &draws[0])?;
    match run(alloc, exchange, network, &draws) {
        Ok(done) => key_in(alloc, who, &done),
        Err(error) => Err(error.cause),
    }
}

fn is_end(found: &Result<ReplyKey, Cause>, end: &Result<&str, Cause>) -> bool {
    match (found, end) {
        (Ok(key), Ok(digits)) => is_row(key.key.as_ref().as_slice(), digits),
        (Err(cause), Err(wanted)) => cause == wanted,
        _ => false,
    }
}

/// Whether an exchange asks for all of this, and ends so.
fn ends(alloc: Global, who: &Who, turns: &[Turn], end: Result<&str, Cause>) -> bool {
    let mut network = Recorded {
        alloc,
        url: who.url,
        turns,
        is_same: true,
        faults: 0,
    };
    let found = end_over(alloc, who, turns, &mut network);
    network.is_same && network.turns.is_empty() && is_end(&found, &end)
}

/// Whether an exchange asks for all that was asked for then, and brings its key.
fn brings_key(alloc: Global, exchange: &Exchange) -> bool {
    ends(alloc, &exchange.who, exchange.turns, Ok(exchange.end))
}

#[test]
fn exchanges_bring_keys(rt: HostRuntime) {
    let alloc = rt.alloc();
    assert!(rt; brings_key(alloc, &exchanges::alices()));
    assert!(rt; brings_key(alloc, &exchanges::no_salt()));
    assert!(rt; brings_key(alloc, &exchanges::peppered()));
    assert!(rt; brings_key(alloc, &exchanges::told_pepper()));
    assert!(rt; brings_key(alloc, &exchanges::told_etype_17()));
    assert!(rt; brings_key(alloc, &exchanges::of_a_keytab()));
    assert!(rt; brings_key(alloc, &exchanges::through_a_proxy()));
}

#[test]
fn exchanges_with_other_kdcs_bring_keys(rt: HostRuntime) {
    let alloc = rt.alloc();
    assert!(rt; brings_key(alloc, &others::of_mit()));
    assert!(rt; brings_key(alloc, &others::of_mit_with_a_keytab()));
    assert!(rt; brings_key(alloc, &others::of_heimdal()));
    assert!(rt; brings_key(alloc, &others::of_heimdal_through_a_proxy()));
    assert!(rt; brings_key(alloc, &others::of_heimdal_by_another_name()));
}

#[test]
fn who_cannot_be_named_or_sent_to_asks_nothing(rt: HostRuntime) {
    for (who, cause) in &refusals::BEGINNINGS {
        assert!(rt; ends(rt.alloc(), who, &[], Err(*cause)), "{cause:?}");
    }
}

#[test]
fn first_replies_end_exchanges(rt: HostRuntime) {
    for (reply, cause) in &refusals::FIRST_REPLIES {
        let turns = [Turn {
            reply: *reply,
            ..FIRST
        }];
        assert!(rt; ends(rt.alloc(), &ALICE, &turns, Err(*cause)), "{cause:?}");
    }
}

#[test]
fn replies_of_a_proxy_end_exchanges(rt: HostRuntime) {
    for (reply, cause) in &proxies::REPLIES {
        let first = Turn {
            reply: *reply,
            ..PROXIED_FIRST
        };
        assert!(rt;
            ends(rt.alloc(), &PROXIED, &[first], Err(*cause)),
            "{cause:?}"
        );
        let second = Turn {
            reply: *reply,
            ..PROXIED_SECOND
        };
        let turns = [PROXIED_FIRST, second];
        assert!(rt;
            ends(rt.alloc(), &PROXIED, &turns, Err(*cause)),
            "{cause:?}"
        );
    }
}

#[test]
fn second_replies_end_exchanges(rt: HostRuntime) {
    for (reply, cause) in &refusals::SECOND_REPLIES {
        let turns = [
            FIRST,
            Turn {
                reply: *reply,
                ..SECOND
            },
        ];
        assert!(rt;
            ends(rt.alloc(), &ALICE_IN_A_KEYTAB, &turns, Err(*cause)),
            "{cause:?}"
        );
    }
}

#[test]
fn keys_of_another_length_are_refused(rt: HostRuntime) {
    let who = Who {
        has: Has::Key("EXAMPLE.COM\\alice", "000102030405060708090a0b0c0d0e0f", 18),
        ..ALICE
    };
    assert!(rt; ends(rt.alloc(), &who, &[FIRST], Err(Cause::KeyLength)));
    let Exchange { who, turns, .. } = &refusals::OF_ANOTHER_SUITE;
    assert!(rt; ends(rt.alloc(), who, turns, Err(Cause::KeyLength)));
}

/// The refusal of an exchange of which nothing is sent.
fn refusal_unsent(alloc: Global) -> Result<AsDone, Error> {
    let draw = draw(&FIRST);
    let exchange = new_exchange(alloc, &ALICE, &draw)?;
    let mut run = boxed(alloc, Generator::new(exchange))?;
    run.resolve_to_result(&draw)
}

fn is_refused<T: Drop>(answer: Result<T, Error>, cause: Cause) -> bool {
    match answer {
        Ok(_) => false,
        Err(error) => error == Error::from(cause),
    }
}

#[test]
fn an_exchange_sends_nothing_itself(rt: HostRuntime) {
    assert!(rt; is_refused(refusal_unsent(rt.alloc()), Cause::Suspended));
}

/// The end of an exchange over a client that fails at once.
fn end_of_failed(alloc: Global, client: &mut MemClient) -> Result<Box<AsDone>, Error> {
    let draws = draws(&[FIRST]);
    let exchange = new_exchange(alloc, &ALICE, &draws[0])?;
    run(alloc, exchange, client, &draws)
}

#[test]
fn a_failure_of_the_network_is_told(rt: HostRuntime) -> Result<(), Fail> {
    let mut answers = VecDeque::new(rt.alloc());
    answers.push_back(Err(NetFault::Failed(5)))?;
    let mut client = MemClient::new(answers);
    assert!(rt; is_refused(end_of_failed(rt.alloc(), &mut client), Cause::Network(5)));
    assert_eq!(rt; client.faults(), 1);
    Ok(())
}
