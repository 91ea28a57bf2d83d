//! AS exchanges: from alice's credentials to the session key of her ticket for the ticket-granting service.

ghost use Rattle.std.specs.Prelude.{◌≡◌, ◌≤◌, ◌^◌, IfOk, length};
ghost use Rattle.krb_exchange.specs.Layouts.{kdc_req_body_layout};
ghost use Rattle.krb_requests.specs.Pieces.{Fits};
ghost use Rattle.krb_as.specs.AsPhases.{IsAwaiting, turns_left};
ghost use Rattle.krb_as.specs.Clients.{IsShort};
ghost use Rattle.krb_as.specs.Turns.{GoesDown};

use crate::alice::{config, context, draw, network, with_key, with_password};
use crate::replies::{AS_REP, KRB_ERROR};
use crate::report::{report, sum};
use anyhow::Result;
use krb_as::{
    AsPhase, Asker, Client, FirstService, Grant, Turn, asker_of, begin_exchange, client_of,
    first_body, take_reply,
};
use krb_conf::Env;
use krb_context::Kerberos;
use krb_der::{OutOfMemory, boxed};
use krb_exchange::KdcReqBody;
use sspi_core::{Cause, ClientRequestFlags, CredentialsBuffers, Error};
use sspi_generator::{MemClient, NetworkClient, NetworkRequest};
use std::alloc::Global;
use std::rt::Clock;
use std::time::Instant;

/// The user, and the place of the KDC.
#[derive(Clone, Copy)]
struct Setting<'a> {
    context: &'a Kerberos,
    credentials: &'a CredentialsBuffers,
    env: &'a Env,
}

/// The replies of a KDC to one exchange.
const REPLIES: [&str; 2] = [KRB_ERROR, AS_REP];

/// The request of alice.
fn body(alloc: Global, client: &Client) -> Result<KdcReqBody, OutOfMemory>
    requires { IsShort client.now }
    ensures { IfOk result (λ body. Fits kdc_req_body_layout (2 ^ 28) body) }
{
    let service = FirstService::TicketGranting;
    let flags = ClientRequestFlags::MUTUAL_AUTH;
    first_body(alloc, client, service, flags, &draw())
}

/// The sum of the octets of the key of a ticket that was granted.
fn granted_sum(turn: &Turn<AsPhase, Grant>) -> Result<u64, Cause> {
    match turn {
        Turn::Ends(grant) => Ok(sum(grant.key.as_ref().as_slice())),
        Turn::Asks(_, _) => Err(Cause::Suspended),
    }
}

/// Goes on after the first reply: returns the sum of the octets of the key that the second one brings.
fn end_of(
    alloc: Global,
    asker: &Asker,
    turn: &Turn<AsPhase, Grant>,
    network: &mut MemClient,
) -> Result<u64, Cause>
    requires { GoesDown (IsAwaiting asker.now) turns_left 1 turn.now }
{
    match turn {
        Turn::Ends(_) => Err(Cause::Suspended),
        Turn::Asks(request, phase) => {
            let reply = network.send(request);
            let turn = boxed(alloc, take_reply(alloc, asker, phase, reply, &draw())?)?;
            granted_sum(&turn)
        }
    }
}

/// Goes on after the first request.
fn end_behind(
    alloc: Global,
    asker: &Asker,
    request: &NetworkRequest,
    phase: &AsPhase,
    network: &mut MemClient,
) -> Result<u64, Cause>
    requires awaiting { IsAwaiting asker.now phase.now }
    requires turns { turns_left phase.now ≡ 1 }
{
    let reply = network.send(request);
    let turn = boxed(alloc, take_reply(alloc, asker, phase, reply, &draw())?)?;
    end_of(alloc, asker, &turn, network)
}

/// The end of an exchange for this body.
fn exchange(
    alloc: Global,
    asker: &Asker,
    body: KdcReqBody,
    network: &mut MemClient,
) -> Result<u64, Cause>
    requires body { Fits kdc_req_body_layout (2 ^ 28) body }
    requires realm { length asker.now.realm ≤ 2 ^ 24 }
{
    let sent = boxed(alloc, begin_exchange(alloc, asker, body)?)?;
    end_behind(alloc, asker, &sent.0, &sent.1, network)
}

fn key_of_client(
    alloc: Global,
    setting: &Setting,
    client: &Client,
    network: &mut MemClient,
) -> Result<u64, Cause>
    requires { IsShort client.now }
{
    let Setting {
        context,
        credentials,
        env,
    } = *setting;
    let asker = boxed(alloc, asker_of(alloc, context, credentials, env, client)?)?;
    exchange(alloc, &asker, body(alloc, client)?, network)
}

/// One exchange: the sum of the octets of the key that it brings.
fn key_of_one(alloc: Global, setting: &Setting, network: &mut MemClient) -> Result<u64, Cause> {
    let machine = &setting.context.config.client_computer_name;
    let client = client_of(alloc, setting.credentials, machine, setting.env)?;
    key_of_client(alloc, setting, &client, network)
}

/// So many exchanges: the sum of the octets of their keys.
fn keys_of(
    alloc: Global,
    setting: &Setting,
    network: &mut MemClient,
    count: u32,
) -> Result<u64, Cause> {
    let mut sum: u64 = 0;
    for _ in 0..count {
        sum = sum.wrapping_add(key_of_one(alloc, setting, network)?);
    }
    Ok(sum)
}

fn measure_over(
    rt: &(impl Print + Eprint + Clock + AllocGlobal),
    name: &str,
    setting: &Setting,
    network: &mut MemClient,
    count: u32,
) -> Result<()> {
    let start = Instant::now(rt)?;
    match keys_of(rt.alloc(), setting, network, count) {
        Ok(sum) => report(rt, name, count, sum, start.elapsed(rt)?),
        Err(cause) => Err(Error::from(cause))?,
    }
}

fn measure(
    rt: &(impl Print + Eprint + Clock + AllocGlobal),
    name: &str,
    setting: &Setting,
    count: u32,
) -> Result<()> {
    let mut network = network(rt.alloc(), &REPLIES, count)?;
    measure_over(rt, name, setting, &mut network, count)
}

fn measure_keytab(
    rt: &(impl Print + Eprint + Clock + AllocGlobal),
    context: &Kerberos,
    env: &Env,
    count: u32,
) -> Result<()> {
    let credentials = with_key(rt.alloc())?;
    let setting = Setting {
        context,
        credentials: &credentials,
        env,
    };
    measure(rt, "as exchange: keytab", &setting, count)
}

fn measure_password(
    rt: &(impl Print + Eprint + Clock + AllocGlobal),
    context: &Kerberos,
    env: &Env,
    count: u32,
) -> Result<()> {
    let credentials = with_password(rt.alloc())?;
    let setting = Setting {
        context,
        credentials: &credentials,
        env,
    };
    measure(rt, "as exchange: password", &setting, count)
}

fn measure_both(
    rt: &(impl Print + Eprint + Clock + AllocGlobal),
    context: &Kerberos,
    full: bool,
) -> Result<()> {
    let (many, few) = if full { (20_000, 500) } else { (3, 3) };
    let env = boxed(rt.alloc(), Env::new(rt.alloc()))?;
    measure_keytab(rt, context, &env, many)?;
    measure_password(rt, context, &env, few)
}

fn new_context(alloc: Global) -> Result<Box<Kerberos>, OutOfMemory> {
    let config = boxed(alloc, config(alloc)?)?;
    context(alloc, &config)
}

/// Measures exchanges with the key of a keytab, and with a password.
pub fn run(rt: &(impl Print + Eprint + Clock + AllocGlobal), full: bool) -> Result<()> {
    let context = new_context(rt.alloc())?;
    measure_both(rt, &context, full)
}
