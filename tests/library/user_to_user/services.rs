//! The service host/server.example.com, as the rows of the tests have it.

ghost use Rattle.sspi_generator.specs.Draws.{IsInRange};

use bitflags::Flags;
use krb_conf::KerberosConfig;
use krb_context::{Kerberos, ServerProperties};
use krb_der::{Octets, OutOfMemory, Text, boxed};
use sspi_core::{
    AuthIdentityBuffers, CredentialsBuffers, Draw, Error, KeytabIdentity, Secret,
    ServerRequestFlags, Username,
};
use std::alloc::Global;
use std::test::Fail;

/// The user that a service is.
pub enum User {
    Nobody,
    /// `service`, in this realm, with this password.
    WithPassword(&'static str, &'static str),
    /// `service`, with this key in hex.
    WithKey(&'static str),
}

/// The service: its user, the URL of its KDC and its own key in hex, no text where there is none.
pub struct Service {
    pub user: User,
    pub kdc: &'static str,
    pub key: &'static str,
}

/// A key, in hex.
pub fn key_of(alloc: Global, digits: &str) -> Result<Secret<Octets>, Fail> {
    let key = hex::decode(alloc, digits)?;
    Ok(Secret::new(Octets::new(key)))
}

/// A user of a realm with a password.
pub fn user_with_password(
    alloc: Global,
    user: &str,
    realm: &str,
    password: &str,
) -> Result<Box<CredentialsBuffers>, Fail> {
    let identity = AuthIdentityBuffers {
        user: Text::from_str(alloc, user)?,
        domain: Text::from_str(alloc, realm)?,
        password: Secret::new(Text::from_str(alloc, password)?),
    };
    Ok(boxed(alloc, CredentialsBuffers::AuthIdentity(identity))?)
}

/// The user `service` with a key of AES-256, in hex.
pub fn user_with_key(alloc: Global, digits: &str) -> Result<Box<CredentialsBuffers>, Fail> {
    let key = key_of(alloc, digits)?;
    let identity = KeytabIdentity {
        principal: Username::parse(alloc, "service@EXAMPLE.COM")?,
        key,
        key_enctype: 18,
    };
    Ok(boxed(alloc, CredentialsBuffers::Keytab(identity))?)
}

fn user_of(alloc: Global, user: &User) -> Result<Option<Box<CredentialsBuffers>>, Fail> {
    match user {
        User::Nobody => Ok(None),
        User::WithPassword(realm, password) => {
            Ok(Some(user_with_password(alloc, "service", realm, password)?))
        }
        User::WithKey(key) => Ok(Some(user_with_key(alloc, key)?)),
    }
}

fn key_if_any(alloc: Global, digits: &str) -> Result<Option<Secret<Octets>>, Fail> {
    if digits.is_empty() {
        return Ok(None);
    }
    Ok(Some(key_of(alloc, digits)?))
}

fn named(
    alloc: Global,
    user: Option<Box<CredentialsBuffers>>,
    key: Option<Secret<Octets>>,
) -> Result<Box<ServerProperties>, Error> {
    let name = ["host", "server.example.com"];
    let user = match user {
        Some(user) => Some(Box::into_inner(user)),
        None => None,
    };
    Ok(boxed(alloc, ServerProperties::new(alloc, &name, user, 300, key)?)?)
}

fn properties(alloc: Global, service: &Service) -> Result<Box<ServerProperties>, Fail> {
    let key = key_if_any(alloc, service.key)?;
    let user = user_of(alloc, &service.user)?;
    Ok(named(alloc, user, key)?)
}

/// Of the KDC at this URL; there is none where the text is empty.
fn config(alloc: Global, kdc: &str) -> Result<KerberosConfig, OutOfMemory> {
    let client_computer_name = Text::from_str(alloc, "server")?;
    if kdc.is_empty() {
        return Ok(KerberosConfig {
            kdc_url: None,
            client_computer_name,
        });
    }
    KerberosConfig::new(alloc, kdc, client_computer_name)
}

/// An acceptor with these properties on the machine `server`, with the number 100.
pub fn acceptor_with(
    alloc: Global,
    kdc: &str,
    properties: Box<ServerProperties>,
) -> Result<Box<Kerberos>, Fail> {
    let config = config(alloc, kdc)?;
    let acceptor = Kerberos::new_server_from_config(
        config,
        Box::into_inner(properties),
        [0, 0, 0, 100],
    )?;
    Ok(boxed(alloc, acceptor)?)
}

/// The acceptor of the service with this user and without a key, with this KDC.
pub fn acceptor_for(
    alloc: Global,
    kdc: &str,
    user: Option<Box<CredentialsBuffers>>,
) -> Result<Box<Kerberos>, Fail> {
    let properties = named(alloc, user, None)?;
    acceptor_with(alloc, kdc, properties)
}

/// The service's acceptor.
pub fn acceptor_of(alloc: Global, service: &Service) -> Result<Box<Kerberos>, Fail> {
    let properties = properties(alloc, service)?;
    acceptor_with(alloc, service.kdc, properties)
}

/// The request of a caller, in DCE style or not.
pub fn flags_of(dce: bool) -> ServerRequestFlags {
    if dce {
        ServerRequestFlags::USE_DCE_STYLE
    } else {
        ServerRequestFlags::empty()
    }
}

/// The octets 0 to 63, at 1700000000 s.
pub fn draw() -> Draw
    ensures { IsInRange result }
{
    let mut random = [0; 64];
    let mut octet = 0u8;
    for place in random.iter_mut() {
        *place = octet;
        octet = octet.wrapping_add(1);
    }
    Draw {
        moment: 1_700_000_000_000_000,
        random,
    }
}
