//! Alice of EXAMPLE.COM: her credentials, her machine, and a KDC in memory.

ghost use Rattle.sspi_generator.specs.Draws.{IsInRange, AreInRange};

use anyhow::Result;
use krb_conf::KerberosConfig;
use krb_context::Kerberos;
use krb_der::{Octets, OutOfMemory, Text, TryCopy, boxed};
use sspi_core::{AuthIdentityBuffers, CredentialsBuffers, Draw, KeytabIdentity, Secret, Username};
use sspi_generator::{MemClient, NetFault};
use std::alloc::Global;
use std::collections::VecDeque;

/// The key that her password gives with the salt `EXAMPLE.COMalice`.
const KEY: &str = "72e14c8e96dfba330802c689e06448591bc19da4f18500d9d63671d6ce24d52d";

/// When all happens, in microseconds from the beginning of 1970.
const MOMENT: u64 = 1_700_000_000_000_000;

/// Her draw at each step.
pub fn draw() -> Draw
    ensures { IsInRange result }
{
    Draw {
        moment: MOMENT,
        random: [7; 64],
    }
}

/// Her draws at the steps that an exchange may take.
pub fn draws() -> [Draw; 13]
    ensures { AreInRange result }
{
    let draw = draw();
    [
        draw, draw, draw, draw, draw, draw, draw, draw, draw, draw, draw, draw, draw,
    ]
}

/// The octets that are written in hex.
pub fn octets(alloc: Global, digits: &str) -> Result<Octets> {
    Ok(Octets::new(hex::decode(alloc, digits)?))
}

pub fn with_password(alloc: Global) -> Result<Box<CredentialsBuffers>, OutOfMemory> {
    let user = Text::from_str(alloc, "alice")?;
    let domain = Text::from_str(alloc, "EXAMPLE.COM")?;
    let password = Secret::new(Text::from_str(alloc, "secret")?);
    boxed(
        alloc,
        CredentialsBuffers::AuthIdentity(AuthIdentityBuffers {
            user,
            domain,
            password,
        }),
    )
}

/// With the key of a keytab.
pub fn with_key(alloc: Global) -> Result<Box<CredentialsBuffers>> {
    let key = octets(alloc, KEY)?;
    let principal = Username::parse(alloc, "EXAMPLE.COM\\alice")?;
    let credentials = CredentialsBuffers::Keytab(KeytabIdentity {
        principal,
        key: Secret::new(key),
        key_enctype: 18,
    });
    Ok(boxed(alloc, credentials)?)
}

/// Her machine, which knows where the KDC is.
pub fn config(alloc: Global) -> Result<KerberosConfig, OutOfMemory> {
    let name = Text::from_str(alloc, "pc")?;
    KerberosConfig::new(alloc, "tcp://kdc.example:88", name)
}

/// Her context before its exchange.
pub fn context(alloc: Global, config: &KerberosConfig) -> Result<Box<Kerberos>, OutOfMemory> {
    let config = config.copy(alloc)?;
    boxed(
        alloc,
        Kerberos::new_client_from_config(config, [0, 0, 0, 7]),
    )
}

/// One more client is answered by these replies.
fn add_answers(
    alloc: Global,
    answers: &mut VecDeque<Result<Octets, NetFault>>,
    replies: &[&str],
) -> Result<()> {
    for reply in replies {
        answers.push_back(Ok(octets(alloc, reply)?))?;
    }
    Ok(())
}

/// A KDC that answers this many clients, each by these replies.
pub fn network(alloc: Global, replies: &[&str], count: u32) -> Result<Box<MemClient>> {
    let mut answers = VecDeque::new(alloc);
    for _ in 0..count {
        add_answers(alloc, &mut answers, replies)?;
    }
    Ok(boxed(alloc, MemClient::new(answers))?)
}
