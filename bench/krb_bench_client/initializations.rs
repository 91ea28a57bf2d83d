//! Initializations: from alice's keytab over three replies of a KDC to her AP-REQ, and then over the AP-REP of the service to the
//! key that both agreed on.

ghost use Rattle.std.specs.Prelude.{◌≡◌, IfOk};
ghost use Rattle.krb_initiator.specs.InitRuns.{IsNew, turns_left};

use crate::alice::{config, context, draws, network, octets, with_key};
use crate::replies::{AP_REP, AS_REP, KRB_ERROR, TGS_REP};
use crate::report::{report, sum};
use anyhow::Result;
use bitflags::Flags;
use krb_as::InitDone;
use krb_conf::{Env, KerberosConfig};
use krb_context::Kerberos;
use krb_der::{Octets, TryCopy, boxed};
use krb_initiator::{GeneratorInitSecurityContext, InitOptions, initialize_security_context};
use krb_requests::name_of;
use sspi_core::{ClientRequestFlags, CredentialsBuffers, Error};
use sspi_generator::{Generator, MemClient};
use std::alloc::Global;
use std::rt::Clock;
use std::time::Instant;

/// The replies of a KDC to one initialization.
const REPLIES: [&str; 3] = [KRB_ERROR, AS_REP, TGS_REP];

/// The user, and the answer of the service.
#[derive(Drop)]
struct Setting {
    config: Box<KerberosConfig>,
    credentials: Box<CredentialsBuffers>,
    ap_rep: Octets,
}

fn new_setting(alloc: Global) -> Result<Setting> {
    let config = boxed(alloc, config(alloc)?)?;
    let ap_rep = octets(alloc, AP_REP)?;
    let credentials = with_key(alloc)?;
    Ok(Setting {
        config,
        credentials,
        ap_rep,
    })
}

/// The request of alice after this token of the service.
fn options(
    alloc: Global,
    credentials: &CredentialsBuffers,
    token: &Octets,
) -> Result<InitOptions, Error> {
    let credentials = boxed(alloc, credentials.copy(alloc)?)?;
    let target = name_of(alloc, "host/server.example.com")?;
    let token = token.copy(alloc)?;
    Ok(InitOptions {
        flags: ClientRequestFlags::MUTUAL_AUTH.union(ClientRequestFlags::CONFIDENTIALITY),
        target: Some(target),
        token,
        credentials: Some(Box::into_inner(credentials)),
        channel_bindings: None,
        env: Env::new(alloc),
    })
}

/// The run of her context, on the heap.
fn run_of(
    alloc: Global,
    context: &Kerberos,
    options: InitOptions,
) -> Result<Box<GeneratorInitSecurityContext>, Error>
    ensures new { IfOk result (λ run. IsNew run.value) }
    ensures turns { IfOk result (λ run. turns_left run.value.phase ≡ 12) }
{
    match initialize_security_context(alloc, context, options) {
        Ok(run) => Ok(Box::new(alloc, Generator::new(run))?),
        Err(error) => Err(error),
    }
}

/// The end of the run over the replies.
fn end_of(
    run: Box<GeneratorInitSecurityContext>,
    network: &mut MemClient,
) -> Result<InitDone, Error>
    requires new { IsNew run.value }
    requires turns { turns_left run.value.phase ≡ 12 }
{
    let mut run = run;
    run.resolve_with_client(network, &draws())
}

fn done_of(
    alloc: Global,
    context: &Kerberos,
    credentials: &CredentialsBuffers,
    token: &Octets,
    network: &mut MemClient,
) -> Result<InitDone, Error> {
    let options = options(alloc, credentials, token)?;
    let run = run_of(alloc, context, options)?;
    end_of(run, network)
}

/// Her context takes this token.
fn take(
    alloc: Global,
    context: &mut Kerberos,
    credentials: &CredentialsBuffers,
    token: &Octets,
    network: &mut MemClient,
) -> Result<(), Error> {
    let done = done_of(alloc, context, credentials, token, network)?;
    context.settle(done.change);
    Ok(())
}

/// The sum of the octets of the context's key.
fn key_sum(context: &Kerberos) -> u64 {
    match context.encryption_params.key() {
        Some(key) => sum(key.as_slice()),
        None => 0,
    }
}

/// The service is shown a ticket, and answers: the sum of the octets of the key that is agreed on.
fn key_in(
    alloc: Global,
    setting: &Setting,
    context: &mut Kerberos,
    network: &mut MemClient,
) -> Result<u64, Error> {
    let nothing = Octets::new(Vec::new(alloc));
    take(alloc, context, &setting.credentials, &nothing, network)?;
    take(
        alloc,
        context,
        &setting.credentials,
        &setting.ap_rep,
        network,
    )?;
    Ok(key_sum(context))
}

/// One initialization.
fn key_of_one(alloc: Global, setting: &Setting, network: &mut MemClient) -> Result<u64, Error> {
    let mut context = context(alloc, &setting.config)?;
    key_in(alloc, setting, &mut context, network)
}

/// So many initializations: the sum of the octets of their keys.
fn keys_of(
    alloc: Global,
    setting: &Setting,
    network: &mut MemClient,
    count: u32,
) -> Result<u64, Error> {
    let mut sum: u64 = 0;
    for _ in 0..count {
        sum = sum.wrapping_add(key_of_one(alloc, setting, network)?);
    }
    Ok(sum)
}

fn measure_over(
    rt: &(impl Print + Eprint + Clock + AllocGlobal),
    setting: &Setting,
    network: &mut MemClient,
    count: u32,
) -> Result<()> {
    let start = Instant::now(rt)?;
    let sum = keys_of(rt.alloc(), setting, network, count)?;
    report(rt, "initialization: keytab", count, sum, start.elapsed(rt)?)
}

fn measure(
    rt: &(impl Print + Eprint + Clock + AllocGlobal),
    setting: &Setting,
    count: u32,
) -> Result<()> {
    let mut network = network(rt.alloc(), &REPLIES, count)?;
    measure_over(rt, setting, &mut network, count)
}

/// Measures initializations with the key of a keytab.
pub fn run(rt: &(impl Print + Eprint + Clock + AllocGlobal), full: bool) -> Result<()> {
    let count = if full { 20_000 } else { 3 };
    let setting = new_setting(rt.alloc())?;
    measure(rt, &setting, count)
}
