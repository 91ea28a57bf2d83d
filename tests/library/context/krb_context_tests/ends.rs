//! Ends of established connections.

use krb_conf::KerberosConfig;
use krb_context::{Kerberos, KerberosState, Rules, ServerProperties};
use krb_crypto::CipherSuite;
use krb_der::{Octets, Text, boxed};
use sspi_core::Secret;
use std::alloc::Global;
use std::test::Fail;

/// One end: its side, its suite and its key in hex, its filler, the number before that of its next message, whether its key came in an
/// AP-REP, and the rules that it goes by, if any.
#[derive(Clone, Copy)]
pub struct End {
    pub acceptor: bool,
    pub suite: CipherSuite,
    pub key: &'static str,
    pub ec: u16,
    pub number: u32,
    pub acceptor_subkey: bool,
    pub rules: Option<Rules>,
}

/// An initiator with a key of 32 octets.
pub const INITIATOR: End = End {
    acceptor: false,
    suite: CipherSuite::Aes256CtsHmacSha196,
    key: "202122232425262728292a2b2c2d2e2f303132333435363738393a3b3c3d3e3f",
    ec: 0,
    number: 1234,
    acceptor_subkey: false,
    rules: None,
};

/// Its acceptor.
pub const ACCEPTOR: End = End {
    acceptor: true,
    number: 0,
    ..INITIATOR
};

/// An acceptor with a key of 16 octets and a filler.
pub const SHORT_ACCEPTOR: End = End {
    acceptor: true,
    suite: CipherSuite::Aes128CtsHmacSha196,
    key: "101112131415161718191a1b1c1d1e1f",
    ec: 16,
    number: 0,
    acceptor_subkey: false,
    rules: None,
};

pub fn octets(alloc: Global, text: &str) -> Result<Octets, Fail> {
    Ok(Octets::new(hex::decode(alloc, text)?))
}

pub fn config(alloc: Global) -> Result<KerberosConfig, Fail> {
    Ok(KerberosConfig {
        kdc_url: None,
        client_computer_name: Text::from_str(alloc, "hostname")?,
    })
}

pub fn properties(alloc: Global) -> Result<Box<ServerProperties>, Fail> {
    let name = ["host", "server.example.com"];
    let properties = ServerProperties::new(alloc, &name, None, 300, None)?;
    Ok(boxed(alloc, properties)?)
}

fn new_acceptor(alloc: Global, random: [u8; 4]) -> Result<Box<Kerberos>, Fail> {
    let properties = properties(alloc)?;
    let config = config(alloc)?;
    let acceptor = Kerberos::new_server_from_config(config, Box::into_inner(properties), random)?;
    Ok(boxed(alloc, acceptor)?)
}

fn new_initiator(alloc: Global, random: [u8; 4]) -> Result<Box<Kerberos>, Fail> {
    let config = config(alloc)?;
    Ok(boxed(alloc, Kerberos::new_client_from_config(config, random))?)
}

/// The context once the exchange is over.
fn establish(context: &mut Kerberos, end: &End, key: Octets) {
    context.state = KerberosState::Final;
    context.encryption_params.encryption_type = Some(end.suite);
    context.encryption_params.sub_session_key = Some(Secret::new(key));
    context.encryption_params.ec = end.ec;
    context.encryption_params.acceptor_subkey = end.acceptor_subkey;
    if let Some(rules) = end.rules {
        context.rules = rules;
    }
}

pub fn context_of(alloc: Global, end: &End) -> Result<Box<Kerberos>, Fail> {
    let random = end.number.to_be_bytes();
    let mut context = if end.acceptor {
        new_acceptor(alloc, random)?
    } else {
        new_initiator(alloc, random)?
    };
    establish(&mut context, end, octets(alloc, end.key)?);
    Ok(context)
}
