//! Queries of contexts.

use super::ends::{INITIATOR, SHORT_ACCEPTOR, config, context_of, octets, properties};
use krb_context::{Kerberos, KerberosServerConfig, ProtocolConfig};
use krb_crypto::{AesSize, CipherSuite};
use krb_der::{Text, TryCopy, boxed};
use sspi_core::{AuthIdentity, Cause, Credentials, Secret, Username};
use std::alloc::Global;
use std::test::Fail;

/// A context that is asked.
#[derive(Clone, Copy)]
enum Asked {
    NewClient,
    NewServer,
    /// A client that speaks for user@example.com.
    Speaking,
    Initiator,
    /// An acceptor with a key of 16 octets and a filler.
    Acceptor,
    /// That context after it has admitted alice@example.com.
    Admitting,
}

/// A context and what it tells: whether it is an initiator, whether its exchange awaits an AP-REQ and whether it is over, its
/// suite and the size of its keys, its four sizes in the order in which they are declared, its key in hex, and its user.
struct Told {
    asked: Asked,
    is_client: bool,
    is_waiting: bool,
    is_final: bool,
    suite: CipherSuite,
    size: Option<AesSize>,
    sizes: Result<[u32; 4], Cause>,
    key: Result<&'static str, Cause>,
    name: Result<&'static str, Cause>,
}

/// Before its exchange.
const NEW: Told = Told {
    asked: Asked::NewClient,
    is_client: true,
    is_waiting: true,
    is_final: false,
    suite: CipherSuite::Aes256CtsHmacSha196,
    size: None,
    sizes: Err(Cause::Sequence),
    key: Err(Cause::Sequence),
    name: Err(Cause::NoIdentity),
};

/// Behind it.
const OVER: Told = Told {
    asked: Asked::Acceptor,
    is_client: false,
    is_waiting: false,
    is_final: true,
    suite: CipherSuite::Aes128CtsHmacSha196,
    size: Some(AesSize::Aes128),
    sizes: Ok([48000, 16, 0, 76]),
    key: Ok("101112131415161718191a1b1c1d1e1f"),
    name: Err(Cause::NoIdentity),
};

static TOLD: [Told; 6] = [
    NEW,
    Told {
        asked: Asked::NewServer,
        is_client: false,
        ..NEW
    },
    Told {
        asked: Asked::Speaking,
        name: Ok("user@example.com"),
        ..NEW
    },
    Told {
        asked: Asked::Initiator,
        is_client: true,
        suite: CipherSuite::Aes256CtsHmacSha196,
        size: Some(AesSize::Aes256),
        sizes: Ok([48000, 16, 0, 60]),
        key: Ok("202122232425262728292a2b2c2d2e2f303132333435363738393a3b3c3d3e3f"),
        ..OVER
    },
    OVER,
    Told {
        asked: Asked::Admitting,
        name: Ok("alice@example.com"),
        ..OVER
    },
];

fn contexts() -> &'static [Told] {
    &TOLD
}

fn instance(
    alloc: Global,
    config: &ProtocolConfig,
    random: [u8; 4],
) -> Result<Box<Kerberos>, Fail> {
    Ok(boxed(alloc, config.new_instance(alloc, random)?)?)
}

pub fn new_client(alloc: Global) -> Result<Box<Kerberos>, Fail> {
    let config = config(alloc)?;
    let config = boxed(alloc, ProtocolConfig::Client(config))?;
    instance(alloc, &config, [0, 0, 0, 1])
}

fn server_config(alloc: Global) -> Result<Box<KerberosServerConfig>, Fail> {
    let server_properties = properties(alloc)?;
    let config = KerberosServerConfig {
        kerberos_config: config(alloc)?,
        server_properties: Box::into_inner(server_properties),
    };
    Ok(boxed(alloc, config)?)
}

fn copied_config(alloc: Global) -> Result<Box<ProtocolConfig>, Fail> {
    let config = server_config(alloc)?;
    let copied = config.copy(alloc)?;
    Ok(boxed(alloc, ProtocolConfig::Server(copied))?)
}

/// The acceptor that a copy of its configuration makes.
fn new_server(alloc: Global) -> Result<Box<Kerberos>, Fail> {
    let config = copied_config(alloc)?;
    instance(alloc, &config, [0; 4])
}

/// user@example.com and its password.
pub fn password_identity(alloc: Global) -> Result<Box<Credentials>, Fail> {
    let password = Text::from_str(alloc, "secret")?;
    let identity = AuthIdentity {
        username: Username::parse(alloc, "user@example.com")?,
        password: Secret::new(password),
    };
    Ok(boxed(alloc, Credentials::AuthIdentity(identity))?)
}

fn speak(alloc: Global, client: &mut Kerberos) -> Result<(), Fail> {
    let identity = password_identity(alloc)?;
    client.custom_set_auth_identity(alloc, &identity)?;
    Ok(())
}

fn admit(alloc: Global, acceptor: &mut Kerberos) -> Result<(), Fail> {
    let client = Username::parse(alloc, "alice@example.com")?;
    if let Some(server) = &mut acceptor.server {
        server.client = Some(client);
    }
    Ok(())
}

fn context(alloc: Global, which: Asked) -> Result<Box<Kerberos>, Fail> {
    match which {
        Asked::NewClient | Asked::Speaking => new_client(alloc),
        Asked::NewServer => new_server(alloc),
        Asked::Initiator => context_of(alloc, &INITIATOR),
        Asked::Acceptor | Asked::Admitting => context_of(alloc, &SHORT_ACCEPTOR),
    }
}

/// Lets a client speak, or an acceptor admit.
fn begin(alloc: Global, context: &mut Kerberos, which: Asked) -> Result<(), Fail> {
    match which {
        Asked::Speaking => speak(alloc, context),
        Asked::Admitting => admit(alloc, context),
        _ => Ok(()),
    }
}

fn sizes(context: &Kerberos) -> Result<[u32; 4], Cause> {
    match context.query_context_sizes() {
        Ok(sizes) => Ok([
            sizes.max_token,
            sizes.max_signature,
            sizes.block,
            sizes.security_trailer,
        ]),
        Err(error) => Err(error.cause),
    }
}

fn tells_state(context: &Kerberos, row: &Told) -> bool {
    context.is_client() == row.is_client
        && context.state.is_waiting() == row.is_waiting
        && context.state.is_final() == row.is_final
        && context.config().client_computer_name.as_str() == "hostname"
        && context.encryption_params.suite() == row.suite
        && context.encryption_params.aes_size() == row.size
        && sizes(context) == row.sizes
}

fn tells_key(alloc: Global, context: &Kerberos, wanted: Result<&str, Cause>) -> Result<bool, Fail> {
    match (context.query_context_session_key(alloc), wanted) {
        (Ok(keys), Ok(wanted)) => Ok(*keys.session_key.as_ref() == octets(alloc, wanted)?),
        (Err(error), Err(cause)) => Ok(error.cause == cause),
        _ => Ok(false),
    }
}

fn tells_name(
    alloc: Global,
    context: &Kerberos,
    wanted: Result<&str, Cause>,
) -> Result<bool, Fail> {
    match (context.query_context_names(alloc), wanted) {
        (Ok(names), Ok(wanted)) => Ok(names.username == Username::parse(alloc, wanted)?),
        (Err(error), Err(cause)) => Ok(error.cause == cause),
        _ => Ok(false),
    }
}

fn tells(alloc: Global, context: &Kerberos, row: &Told) -> Result<bool, Fail> {
    Ok(
        tells_state(context, row)
            && tells_key(alloc, context, row.key)?
            && tells_name(alloc, context, row.name)?,
    )
}

fn copy_tells(alloc: Global, context: &Kerberos, row: &Told) -> Result<bool, Fail> {
    let copied = boxed(alloc, context.copy(alloc)?)?;
    tells(alloc, &copied, row)
}

/// Whether a context tells what the row says, and a copy of it does.
fn both_tell(alloc: Global, context: &mut Kerberos, row: &Told) -> Result<bool, Fail> {
    begin(alloc, context, row.asked)?;
    Ok(tells(alloc, context, row)? && copy_tells(alloc, context, row)?)
}

/// Whether the row's context does.
fn is_told(alloc: Global, row: &Told) -> Result<bool, Fail> {
    let mut context = context(alloc, row.asked)?;
    both_tell(alloc, &mut context, row)
}

#[test]
fn contexts_tell_of_themselves(rt: HostRuntime) -> Result<(), Fail> {
    for row in contexts() {
        assert!(rt; is_told(rt.alloc(), row)?);
    }
    Ok(())
}
