//! Ends of established connections, and how they refuse.

use krb_conf::KerberosConfig;
use krb_context::{Kerberos, KerberosState, ServerProperties};
use krb_crypto::CipherSuite;
use krb_der::{Octets, Text};
use krb_sasl::{Layer, SaslClient, SaslError, SaslServer};
use sspi_core::{Cause, Secret};
use std::alloc::Global;
use std::test::Fail;

/// One end of a connection: its side, how far it is, its key in hex if it has one, and the number before that of its next
/// message.
#[derive(Clone, Copy)]
pub struct End {
    pub acceptor: bool,
    pub state: KerberosState,
    pub key: Option<&'static str>,
    pub number: u32,
}

pub const INITIATOR: End = End {
    acceptor: false,
    state: KerberosState::Final,
    key: Some("202122232425262728292a2b2c2d2e2f303132333435363738393a3b3c3d3e3f"),
    number: 1234,
};

/// Its acceptor.
pub const ACCEPTOR: End = End {
    acceptor: true,
    number: 0,
    ..INITIATOR
};

/// How an end refuses.
#[derive(Clone, Copy)]
pub enum Wanted {
    Layers,
    State,
    Offer,
    Layer,
    TooLarge,
    Frame,
    Context(Cause),
}

/// True if a call was refused so, or was not refused if none is expected.
pub fn is_refused(refusal: &Option<SaslError>, wanted: Option<Wanted>) -> bool {
    match (refusal, wanted) {
        (None, None) => true,
        (Some(refusal), Some(wanted)) => is(*refusal, wanted),
        _ => false,
    }
}

fn is(refusal: SaslError, wanted: Wanted) -> bool {
    match wanted {
        Wanted::Layers => refusal == SaslError::Layers,
        Wanted::State => refusal == SaslError::State,
        Wanted::Offer => refusal == SaslError::Offer,
        Wanted::Layer => refusal == SaslError::Layer,
        Wanted::TooLarge => refusal == SaslError::TooLarge,
        Wanted::Frame => refusal == SaslError::Frame,
        Wanted::Context(cause) => refusal == SaslError::Context(cause.into()),
    }
}

pub fn fail(_refusal: SaslError) -> Fail {
    Fail::from("refused")
}

pub fn octets(alloc: Global, text: &str) -> Result<Octets, Fail> {
    Ok(Octets::new(hex::decode(alloc, text)?))
}

/// Data of this many octets: `abc` alone, or any.
pub fn plain(alloc: Global, len: usize) -> Result<Octets, Fail> {
    if len == 3 {
        Ok(Octets::from_slice(alloc, "abc".as_bytes())?)
    } else {
        Ok(Octets::new(vec![in alloc; 0x61; len]?))
    }
}

fn config(alloc: Global) -> Result<KerberosConfig, Fail> {
    Ok(KerberosConfig {
        kdc_url: None,
        client_computer_name: Text::new(String::from_str(alloc, "hostname")?),
    })
}

fn key_of(alloc: Global, key: Option<&str>) -> Result<Option<Secret<Octets>>, Fail> {
    match key {
        Some(key) => Ok(Some(Secret::new(octets(alloc, key)?))),
        None => Ok(None),
    }
}

/// A value in a box: whoever owns it owns one value in the place of each of its parts, which costs a check far less.
fn boxed<T: Drop>(alloc: Global, value: T) -> Result<Box<T>, Fail> {
    Ok(Box::new(alloc, value)?)
}

fn new_acceptor(alloc: Global, random: [u8; 4]) -> Result<Box<Kerberos>, Fail> {
    let names = ["host", "server.example.com"];
    let properties = ServerProperties::new(alloc, &names, None, 300, None)?;
    let context = Kerberos::new_server_from_config(config(alloc)?, properties, random)?;
    boxed(alloc, context)
}

/// A new context of a side.
fn new_context(alloc: Global, end: &End) -> Result<Box<Kerberos>, Fail> {
    let random = end.number.to_be_bytes();
    if end.acceptor {
        new_acceptor(alloc, random)
    } else {
        boxed(
            alloc,
            Kerberos::new_client_from_config(config(alloc)?, random),
        )
    }
}

/// The context of an end.
pub fn context_of(alloc: Global, end: &End) -> Result<Box<Kerberos>, Fail> {
    let key = key_of(alloc, end.key)?;
    let mut held = new_context(alloc, end)?;
    let context: &mut Kerberos = &mut held;
    context.state = end.state;
    context.encryption_params.encryption_type = Some(CipherSuite::Aes256CtsHmacSha196);
    context.encryption_params.sub_session_key = key;
    Ok(held)
}

/// A server that offers these layers, and receives messages of `size` octets at most.
pub fn new_server(
    alloc: Global,
    end: &End,
    layers: u8,
    size: u32,
) -> Result<Box<SaslServer>, Fail> {
    let context = Box::into_inner(context_of(alloc, end)?);
    boxed(alloc, SaslServer::new(context, layers, size).map_err(fail)?)
}

/// A client that asks for this layer, and receives messages of `size` octets at most.
pub fn new_client(
    alloc: Global,
    wanted: Layer,
    size: u32,
    name: &str,
) -> Result<Box<SaslClient>, Fail> {
    let context = Box::into_inner(context_of(alloc, &INITIATOR)?);
    boxed(
        alloc,
        SaslClient::new(alloc, context, wanted, size, name).map_err(fail)?,
    )
}
