//! The client alice and the service host/server.example.com of EXAMPLE.COM.

ghost use Rattle.sspi_generator.specs.Draws.{IsInRange, AreInRange};

use super::{Has, Session};
use bitflags::Flags;
use krb_conf::{Env, KerberosConfig};
use krb_context::{Kerberos, Rules, ServerProperties};
use krb_der::{Items, Octets, OutOfMemory, Text};
use krb_initiator::InitOptions;
use krb_machine::Service;
use krb_replay::ReplayBook;
use krb_requests::name_of;
use sspi_core::{
    AuthIdentityBuffers, ClientRequestFlags, CredentialsBuffers, Draw, Error, KeytabIdentity,
    Secret, ServerRequestFlags, Username,
};
use std::alloc::Global;
use std::test::Fail;

/// The request of an initiator's caller.
pub fn client_flags(all: bool, dce: bool) -> ClientRequestFlags {
    let mut flags = ClientRequestFlags::MUTUAL_AUTH;
    if all {
        flags.insert(ClientRequestFlags::REPLAY_DETECT);
        flags.insert(ClientRequestFlags::SEQUENCE_DETECT);
        flags.insert(ClientRequestFlags::CONFIDENTIALITY);
        flags.insert(ClientRequestFlags::INTEGRITY);
    }
    if dce {
        flags.insert(ClientRequestFlags::USE_DCE_STYLE);
    }
    flags
}

/// The request of an acceptor's caller.
pub fn server_flags(dce: bool) -> ServerRequestFlags {
    if dce {
        ServerRequestFlags::USE_DCE_STYLE
    } else {
        ServerRequestFlags::empty()
    }
}

/// The 64 octets from that one on, at 1700000000 s.
fn draw_from(first: u8) -> Draw
    ensures { IsInRange result }
{
    let mut random = [0; 64];
    let mut octet = first;
    for place in random.iter_mut() {
        *place = octet;
        octet = octet.wrapping_add(1);
    }
    Draw {
        moment: 1_700_000_000_000_000,
        random,
    }
}

/// The draw of a client: the octets 0 to 63.
pub fn client_draw() -> Draw
    ensures { IsInRange result }
{
    draw_from(0)
}

/// The draws of a client at the steps that a run may take.
pub fn draws() -> [Draw; 13]
    ensures { AreInRange result }
{
    let draw = client_draw();
    [
        draw, draw, draw, draw, draw, draw, draw, draw, draw, draw, draw, draw, draw,
    ]
}

/// The draw of a service: the octets 64 to 127.
pub fn service_draw() -> Draw
    ensures { IsInRange result }
{
    draw_from(64)
}

/// Octets in hex.
pub fn octets(alloc: Global, digits: &str) -> Result<Octets, Fail> {
    Ok(Octets::new(hex::decode(alloc, digits)?))
}

fn with_password(alloc: Global, password: &str) -> Result<CredentialsBuffers, OutOfMemory> {
    Ok(CredentialsBuffers::AuthIdentity(AuthIdentityBuffers {
        user: Text::from_str(alloc, "alice")?,
        domain: Text::from_str(alloc, "EXAMPLE.COM")?,
        password: Secret::new(Text::from_str(alloc, password)?),
    }))
}

fn with_key(alloc: Global, digits: &str, is_of_aes128: bool) -> Result<CredentialsBuffers, Fail> {
    let key = octets(alloc, digits)?;
    let principal = Username::parse(alloc, "EXAMPLE.COM\\alice")?;
    Ok(CredentialsBuffers::Keytab(KeytabIdentity {
        principal,
        key: Secret::new(key),
        key_enctype: if is_of_aes128 { 17 } else { 18 },
    }))
}

pub fn credentials(alloc: Global, has: &Has) -> Result<CredentialsBuffers, Fail> {
    match has {
        Has::Password(password) => Ok(with_password(alloc, password)?),
        Has::Key(digits, etype) => with_key(alloc, digits, *etype == 17),
    }
}

/// A variable tells where the KDCs of further realms are.
fn variable(alloc: Global) -> Result<(Text, Text), OutOfMemory> {
    let name = Text::from_str(alloc, "SSPI_KDC_URL")?;
    let value = Text::from_str(alloc, "tcp://any.example:88")?;
    Ok((name, value))
}

pub fn env(alloc: Global) -> Result<Env, Fail> {
    let variable = variable(alloc)?;
    Ok(Env {
        vars: Items::new(vec![in alloc; variable]?),
        files: Items::new(Vec::new(alloc)),
    })
}

/// The options of a session's client, besides a token in hex.
pub fn options_with(alloc: Global, session: &Session, token: &str) -> Result<InitOptions, Fail> {
    let target = name_of(alloc, "host/server.example.com")?;
    let token = octets(alloc, token)?;
    let env = env(alloc)?;
    let credentials = credentials(alloc, &session.has)?;
    Ok(InitOptions {
        flags: client_flags(session.all, session.dce),
        target: Some(target),
        token,
        credentials: Some(credentials),
        channel_bindings: None,
        env,
    })
}

fn config(alloc: Global, machine: &str) -> Result<KerberosConfig, OutOfMemory> {
    let name = Text::from_str(alloc, machine)?;
    KerberosConfig::new(alloc, "tcp://kdc.example:88", name)
}

/// The rules by which both ends go: none, and those of the RFCs.
pub fn both_rules() -> [Rules; 2] {
    [Rules::none(), Rules::rfc()]
}

/// A session's client before its exchange, with these rules.
pub fn initiator_of(
    alloc: Global,
    session: &Session,
    rules: Rules,
) -> Result<Box<Kerberos>, OutOfMemory> {
    let config = config(alloc, session.machine)?;
    let mut initiator = Kerberos::new_client_from_config(config, session.number);
    initiator.rules = rules;
    Ok(Box::new(alloc, initiator)?)
}

fn properties(alloc: Global, key: Octets) -> Result<ServerProperties, Error> {
    let parts = ["host", "server.example.com"];
    ServerProperties::new(alloc, &parts, None, 300, Some(Secret::new(key)))
}

fn acceptor_with(
    alloc: Global,
    config: KerberosConfig,
    properties: ServerProperties,
) -> Result<Box<Kerberos>, OutOfMemory> {
    match Kerberos::new_server_from_config(config, properties, [0, 0, 0, 100]) {
        Ok(acceptor) => Ok(Box::new(alloc, acceptor)?),
        Err(OutOfMemory) => Err(OutOfMemory),
    }
}

/// The service that a session's client asks for, with these rules.
pub fn acceptor_of(alloc: Global, session: &Session, rules: Rules) -> Result<Box<Kerberos>, Fail> {
    let key = octets(alloc, session.key)?;
    let config = config(alloc, "server")?;
    let properties = properties(alloc, key)?;
    let mut acceptor = acceptor_with(alloc, config, properties)?;
    acceptor.rules = rules;
    Ok(acceptor)
}

/// A session's client at a connection of a service, as an initiator.
pub fn add_initiator(
    alloc: Global,
    service: &mut Service<ReplayBook>,
    session: &Session,
    rules: Rules,
    connection: u32,
) -> Result<(), Fail> {
    let target = name_of(alloc, "host/server.example.com")?;
    let mut initiator = initiator_of(alloc, session, rules)?;
    initiator.auth_identity = Some(credentials(alloc, &session.has)?);
    Ok(service.add_initiator(connection, Box::into_inner(initiator), Some(target))?)
}
