//! A service over events that the test passes.

mod added;
mod serve;
mod stopped;

use bitflags::Flags;
use krb_conf::{Env, KerberosConfig};
use krb_context::{Kerberos, ServerProperties};
use krb_der::{Items, Octets, Text, boxed};
use krb_machine::{Event, Input, Reply, Service};
use krb_replay::{ReplayBook, ReplayGate};
use sspi_core::{ClientRequestFlags, Secret};
use std::alloc::Global;
use std::test::Fail;

/// An AP-REQ for host/server.example.com whose authenticator has the number 42, at 1700000000 s.
static TOKEN: &str =
    "608201b906092a864886f71201020201006e8201a8308201a4a003020105a10302010ea20703050000000000a3820115618201113082010da003020105a10d1b0b4558414d504c452e434f4da2253023a003020102a11c301a1b04686f73741b127365727665722e6578616d706c652e636f6da381cf3081cca003020112a281c40481c15c112a47a169c3267a9ff3afbdc5f126179eb939d1669b6d4c3033c2154b15e507170affa88bdd8b06aa49b779a104602531976088d214bc08a463fab523069fb7c94ea703b6e00281e48ed27136bca13d61c864e575f489e30a33c70c11b7bd9ba6027437381531a755ffae453277ca7a5eaaf8984e949155f774b66049188699095c77f195e32b49f019b3598f6601434cb5fe852befebef4ca476341c6b34d6fa7ce2fa1e5fa3a7da091cc1ea32013bca694ae5498b2645c1e94afb3888eed5a4763074a003020112a26d046b1ff72444274c816836e6309012203556e5cff8258d53b31409abe24459c6bc95ed5f7617f8309492bbb2cd02ed22dac4d510c48803e5bd9319679929712b670874c86bb9117ffa2395eecfb38cc5922055cd42465c5be3debf481fd0ed7a975cc255fcb4c013872857dca8";

/// The key of that service: the octets 0 to 31.
fn key(alloc: Global) -> Result<Secret<Octets>, Fail> {
    let mut octets = Vec::new(alloc);
    for octet in 0..32 {
        octets.push(octet)?;
    }
    Ok(Secret::new(Octets::new(octets)))
}

fn config(alloc: Global) -> Result<KerberosConfig, Fail> {
    let host = Text::new(String::from_str(alloc, "server")?);
    Ok(KerberosConfig::new(alloc, "", host)?)
}

fn properties(alloc: Global) -> Result<Box<ServerProperties>, Fail> {
    let name = ["host", "server.example.com"];
    let key = key(alloc)?;
    let properties = ServerProperties::new(alloc, &name, None, 300, Some(key))?;
    Ok(boxed(alloc, properties)?)
}

fn acceptor(alloc: Global) -> Result<Box<Kerberos>, Fail> {
    let server = properties(alloc)?;
    let config = config(alloc)?;
    let acceptor = Kerberos::new_server_from_config(
        config,
        Box::into_inner(server),
        [0, 0, 0, 100],
    )?;
    Ok(boxed(alloc, acceptor)?)
}

/// The token comes at a connection.
fn event(alloc: Global, connection: u32) -> Result<Event, Fail> {
    Ok(Event {
        connection,
        moment: 1_700_000_000_000_000,
        random: [0; 64],
        flags: ClientRequestFlags::from_bits_retain(0),
        input: Input::Token(Octets::new(hex::decode(alloc, TOKEN)?)),
    })
}

/// Adds two acceptors to a service.
fn add_acceptors<G: ReplayGate>(alloc: Global, service: &mut Service<G>) -> Result<(), Fail> {
    for number in 1..=2 {
        service.add_acceptor(number, Box::into_inner(acceptor(alloc)?))?;
    }
    Ok(())
}

/// The token comes at these connections, one after the other.
fn add_events(alloc: Global, events: &mut Vec<Event>, connections: &[u32]) -> Result<(), Fail> {
    for connection in connections {
        events.push(event(alloc, *connection)?)?;
    }
    Ok(())
}

/// Whether the replies to these events are an admission and a refusal, and one record is kept.
fn admits_one(
    alloc: Global,
    service: &mut Service<ReplayBook>,
    events: &[Event],
    replies: &mut Vec<Reply>,
) -> bool {
    let ran = service.run(alloc, events, replies);
    let done = match replies.as_slice() {
        [first, second] => first.admits_peer() && !second.admits_peer(),
        _ => false,
    };
    ran.is_ok() && done && service.gate().kept() == 1
}

/// Whether the token is admitted at connection 2, and then not at connection 1, and what number connection 2 has then.
fn number_behind(
    alloc: Global,
    service: &mut Service<ReplayBook>,
    events: &mut Vec<Event>,
    replies: &mut Vec<Reply>,
) -> Result<Option<u32>, Fail> {
    add_acceptors(alloc, service)?;
    add_events(alloc, events, &[2, 1])?;
    if admits_one(alloc, service, events.as_slice(), replies) {
        Ok(service.connection(2).map(|context| context.seq_number))
    } else {
        Ok(None)
    }
}

fn number_of_admitted(
    alloc: Global,
    service: &mut Service<ReplayBook>,
) -> Result<Option<u32>, Fail> {
    let mut events = Vec::new(alloc);
    let mut replies = Vec::new(alloc);
    number_behind(alloc, service, &mut events, &mut replies)
}

/// Connections over one replay book.
fn service(alloc: Global) -> Result<Box<Service<ReplayBook>>, Fail> {
    let book = ReplayBook::new(alloc, 300)?;
    Ok(boxed(alloc, Service::new(alloc, book))?)
}

/// The environment of a service.
fn no_env(alloc: Global) -> Env {
    Env {
        vars: Items::new(Vec::new(alloc)),
        files: Items::new(Vec::new(alloc)),
    }
}

#[test]
fn a_token_is_admitted_at_one_connection_alone(rt: HostRuntime) -> Result<(), Fail> {
    let alloc = rt.alloc();
    let mut service = service(alloc)?;
    service.set_env(no_env(alloc));
    assert_eq!(rt; number_of_admitted(alloc, &mut service)?, Some(41));
    Ok(())
}
