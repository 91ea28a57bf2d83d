//! Names, keys and draws, and KDCs of them.

ghost use Rattle.std.specs.Prelude.{◌≤◌, ◌^◌, length, IfOk};
ghost use Rattle.sspi_generator.specs.Draws.{IsInRange};

use krb_crypto::{CipherSuite, generate_key_from_password};
use krb_der::{Items, Name, Octets, boxed};
use krb_kdc::Kdc;
use sspi_core::{Draw, MAX_MOMENT, Secret};
use std::alloc::Global;
use std::test::Fail;

/// A name of at most a hundred octets.
pub fn name(alloc: Global, text: &str) -> Result<Name, Fail>
    ensures { IfOk result (λ name. length name ≤ 2 ^ 24) }
{
    let octets = text.as_bytes();
    if 100 < octets.len() {
        return Err("a name has at most a hundred octets".into());
    }
    match Name::new(Vec::from_slice(alloc, octets)?) {
        Some(name) => Ok(name),
        None => Err("a name has ASCII octets".into()),
    }
}

/// The components of a name, cut at each slash.
pub fn components(alloc: Global, text: &str) -> Result<Items<Name>, Fail> {
    let mut names = Vec::new(alloc);
    for part in text.split('/') {
        names.push(name(alloc, part)?)?;
    }
    Ok(Items::new(names))
}

/// A key of these octets.
pub fn key_of(alloc: Global, octets: &[u8]) -> Result<Secret<Octets>, Fail> {
    Ok(Secret::new(Octets::from_slice(alloc, octets)?))
}

/// Adds a principal with this key and no salt.
pub fn add_principal(alloc: Global, kdc: &mut Kdc, text: &str, key: &[u8]) -> Result<(), Fail> {
    let key = key_of(alloc, key)?;
    let components = components(alloc, text)?;
    Ok(kdc.add_principal(components, key, None)?)
}

/// Adds `alice`, whose password is `secret`, with her salt.
pub fn add_alice(alloc: Global, kdc: &mut Kdc) -> Result<(), Fail> {
    let salt = "EXAMPLE.COMalice";
    let suite = CipherSuite::Aes256CtsHmacSha196;
    let derived = generate_key_from_password(suite, b"secret", salt.as_bytes());
    let key = key_of(alloc, derived.as_slice())?;
    let salt = name(alloc, salt)?;
    let components = components(alloc, "alice")?;
    Ok(kdc.add_principal(components, key, Some(salt))?)
}

/// Adds a trust in a realm, with this key.
pub fn add_trust(alloc: Global, kdc: &mut Kdc, realm: &str, key: &[u8]) -> Result<(), Fail> {
    let key = key_of(alloc, key)?;
    let realm = name(alloc, realm)?;
    Ok(kdc.add_trust(realm, key)?)
}

/// Adds a route to a service.
pub fn add_route(alloc: Global, kdc: &mut Kdc, text: &str, realm: &str) -> Result<(), Fail> {
    let realm = name(alloc, realm)?;
    let components = components(alloc, text)?;
    Ok(kdc.add_route(components, realm)?)
}

/// A KDC of this realm, which has a skew of 300 seconds.
pub fn new_kdc(
    alloc: Global,
    realm: &str,
    suite: CipherSuite,
    key: &[u8],
) -> Result<Box<Kdc>, Fail> {
    let key = key_of(alloc, key)?;
    let realm = name(alloc, realm)?;
    let kdc = Kdc::new(alloc, realm, suite, key, 300)?;
    Ok(boxed(alloc, kdc)?)
}

/// The octets from that one on, at a moment in microseconds.
pub fn draw_at(moment: u64, first: u8) -> Draw
    ensures { IsInRange result }
{
    let mut random = [0; 64];
    let mut octet = first;
    for place in random.iter_mut() {
        *place = octet;
        octet = octet.wrapping_add(1);
    }
    Draw {
        moment: moment.min(MAX_MOMENT),
        random,
    }
}
