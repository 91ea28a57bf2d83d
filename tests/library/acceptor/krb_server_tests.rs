//! Answers and changes of the acceptor that the inputs of tests/cases cannot show: messages after an admission, another
//! gate, each state, names of clients, the longest token, and an AP-REP alone.

mod ap_rep;
mod by_value;
mod clients;
mod established;
mod gates;
mod halves;
mod long;
mod recorded;
mod records;
mod rules;
mod states;
mod third_leg;
mod told;

use bitflags::Flags;
use krb_conf::{Env, KerberosConfig};
use krb_context::{Kerberos, ServerProperties};
use krb_der::{Octets, Text, boxed};
use krb_replay::{ReplayBook, ReplayGate};
use krb_server::{Accepted, accept_security_context};
use sspi_core::{Cause, Draw, Secret, ServerRequestFlags};
use std::alloc::Global;
use std::test::Fail;

/// An AP-REQ for host/server.example.com that asks for no answer.
const ONE_WAY: &str =
    "608201b906092a864886f71201020201006e8201a8308201a4a003020105a10302010ea20703050000000000a3820115618201113082010da003020105a10d1b0b4558414d504c452e434f4da2253023a003020102a11c301a1b04686f73741b127365727665722e6578616d706c652e636f6da381cf3081cca003020112a281c40481c15c112a47a169c3267a9ff3afbdc5f126179eb939d1669b6d4c3033c2154b15e507170affa88bdd8b06aa49b779a104602531976088d214bc08a463fab523069fb7c94ea703b6e00281e48ed27136bca13d61c864e575f489e30a33c70c11b7bd9ba6027437381531a755ffae453277ca7a5eaaf8984e949155f774b66049188699095c77f195e32b49f019b3598f6601434cb5fe852befebef4ca476341c6b34d6fa7ce2fa1e5fa3a7da091cc1ea32013bca694ae5498b2645c1e94afb3888eed5a4763074a003020112a26d046b1ff72444274c816836e6309012203556e5cff8258d53b31409abe24459c6bc95ed5f7617f8309492bbb2cd02ed22dac4d510c48803e5bd9319679929712b670874c86bb9117ffa2395eecfb38cc5922055cd42465c5be3debf481fd0ed7a975cc255fcb4c013872857dca8";

/// So many octets, each by one more than the one before.
fn octets(alloc: Global, first: u8, count: u8) -> Result<Octets, Fail> {
    let mut octets = Vec::new(alloc);
    for place in 0..count {
        octets.push(first.wrapping_add(place))?;
    }
    Ok(Octets::new(octets))
}

fn config(alloc: Global) -> Result<KerberosConfig, Fail> {
    let name = Text::new(String::from_str(alloc, "server")?);
    Ok(KerberosConfig::new(alloc, "", name)?)
}

fn properties(alloc: Global) -> Result<Box<ServerProperties>, Fail> {
    let key = Secret::new(octets(alloc, 0, 32)?);
    let service = ["host", "server.example.com"];
    let server = ServerProperties::new(alloc, &service, None, 300, Some(key))?;
    Ok(boxed(alloc, server)?)
}

/// An acceptor of this service with this number.
fn context_with(
    alloc: Global,
    server: Box<ServerProperties>,
    number: u32,
) -> Result<Box<Kerberos>, Fail> {
    let config = config(alloc)?;
    let server = Box::into_inner(server);
    let context = Kerberos::new_server_from_config(config, server, number.to_be_bytes())?;
    Ok(boxed(alloc, context)?)
}

/// An acceptor of host/server.example.com with this number.
fn context_of(alloc: Global, number: u32) -> Result<Box<Kerberos>, Fail> {
    context_with(alloc, properties(alloc)?, number)
}

/// The octets 0 to 63, at 1700000000 s.
fn draw() -> Draw {
    let mut random = [0; 64];
    let mut octet = 0u8;
    for place in random.iter_mut() {
        *place = octet;
        octet = octet.wrapping_add(1);
    }
    Draw {
        moment: 1_700_000_000_000_000,
        random,
    }
}

/// The answer to the token at this acceptor and gate: the token that goes back, or the cause of the refusal.
fn answer_at<G: ReplayGate>(
    alloc: Global,
    server: &mut Kerberos,
    gate: &mut G,
    token: &[u8],
    flags: ServerRequestFlags,
) -> Result<Octets, Cause> {
    match accept_security_context(alloc, server, gate, token, flags, &Env::new(alloc), &draw()) {
        Ok(Accepted::Done { token, .. }) => Ok(token),
        // The service is no user, so no token begins an exchange.
        Ok(Accepted::Run(_)) => Err(Cause::Credentials),
        Err(error) => Err(error.cause),
    }
}

/// Answers at a new book.
fn answer(
    alloc: Global,
    server: &mut Kerberos,
    token: &[u8],
    flags: ServerRequestFlags,
) -> Result<Result<Octets, Cause>, Fail> {
    let mut book = ReplayBook::new(alloc, 300)?;
    Ok(answer_at(alloc, server, &mut book, token, flags))
}
