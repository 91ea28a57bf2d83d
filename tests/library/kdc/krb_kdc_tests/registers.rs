//! Entries that a KDC accepts, in the order of its refusals.

use super::parties::{components, name};
use krb_crypto::CipherSuite;
use krb_der::{Octets, boxed};
use krb_kdc::{Kdc, KdcError};
use sspi_core::Secret;
use std::alloc::Global;
use std::test::Fail;

/// An entry: names with slashes between components, realms, and the length of a key in octets.
#[derive(Clone, Copy)]
pub enum Addition {
    Principal(&'static str, usize),
    Trust(&'static str, usize),
    Route(&'static str, &'static str),
}

/// An entry, and why it is refused, if it is.
pub type Register = (Addition, Option<KdcError>);

/// One after the other, with one KDC of AES-256.
pub static REGISTERS: [Register; 20] = [
    (Addition::Principal("alice", 32), None),
    (Addition::Principal("alice", 16), Some(KdcError::Taken)),
    (Addition::Principal("bob", 16), Some(KdcError::KeyLength)),
    (Addition::Principal("bob", 33), Some(KdcError::KeyLength)),
    (Addition::Principal("bob", 32), None),
    (Addition::Principal("alice/admin", 32), None),
    (Addition::Route("host/b", "B.COM"), Some(KdcError::NoTrust)),
    (Addition::Route("alice", "B.COM"), Some(KdcError::Taken)),
    (Addition::Trust("B.COM", 16), Some(KdcError::KeyLength)),
    (Addition::Trust("B.COM", 32), None),
    (Addition::Trust("B.COM", 16), Some(KdcError::Taken)),
    (Addition::Trust("b.com", 32), None),
    (Addition::Route("host/b", "B.COM"), None),
    (Addition::Route("host/b", "C.COM"), Some(KdcError::Taken)),
    (Addition::Principal("host/b", 16), Some(KdcError::Taken)),
    // a trust, a route and a realm of the same name are no principals of it
    (Addition::Route("B.COM", "B.COM"), None),
    (Addition::Principal("B.COM", 32), Some(KdcError::Taken)),
    (Addition::Principal("EXAMPLE.COM", 32), None),
    (Addition::Trust("EXAMPLE.COM", 32), None),
    (Addition::Trust("alice", 32), None),
];

fn key(alloc: Global, count: usize) -> Result<Secret<Octets>, Fail> {
    Ok(Secret::new(Octets::new(vec![in alloc; 1; count]?)))
}

fn add_principal(
    alloc: Global,
    kdc: &mut Kdc,
    text: &str,
    count: usize,
) -> Result<Result<(), KdcError>, Fail> {
    let key = key(alloc, count)?;
    let components = components(alloc, text)?;
    Ok(kdc.add_principal(components, key, None))
}

fn add_trust(
    alloc: Global,
    kdc: &mut Kdc,
    realm: &str,
    count: usize,
) -> Result<Result<(), KdcError>, Fail> {
    let key = key(alloc, count)?;
    let realm = name(alloc, realm)?;
    Ok(kdc.add_trust(realm, key))
}

fn add_route(
    alloc: Global,
    kdc: &mut Kdc,
    text: &str,
    realm: &str,
) -> Result<Result<(), KdcError>, Fail> {
    let components = components(alloc, text)?;
    let realm = name(alloc, realm)?;
    Ok(kdc.add_route(components, realm))
}

fn add(alloc: Global, kdc: &mut Kdc, addition: Addition) -> Result<Result<(), KdcError>, Fail> {
    match addition {
        Addition::Principal(text, count) => add_principal(alloc, kdc, text, count),
        Addition::Trust(realm, count) => add_trust(alloc, kdc, realm, count),
        Addition::Route(text, realm) => add_route(alloc, kdc, text, realm),
    }
}

fn is_taken_so(alloc: Global, kdc: &mut Kdc, register: &Register) -> Result<bool, Fail> {
    let (addition, refusal) = register;
    let answer = add(alloc, kdc, *addition)?;
    Ok(match *refusal {
        None => answer.is_ok(),
        Some(refusal) => answer == Err(refusal),
    })
}

fn count_of_taken(alloc: Global, kdc: &mut Kdc, registers: &[Register]) -> Result<usize, Fail> {
    let mut count = 0usize;
    for register in registers {
        if !is_taken_so(alloc, kdc, register)? {
            return Ok(count);
        }
        count = count.saturating_add(1);
    }
    Ok(count)
}

/// A KDC whose key has this many octets.
fn kdc_with(
    alloc: Global,
    suite: CipherSuite,
    count: usize,
) -> Result<Result<Box<Kdc>, KdcError>, Fail> {
    let key = key(alloc, count)?;
    let realm = name(alloc, "EXAMPLE.COM")?;
    match Kdc::new(alloc, realm, suite, key, 300) {
        Ok(kdc) => Ok(Ok(boxed(alloc, kdc)?)),
        Err(error) => Ok(Err(error)),
    }
}

/// How many of them, from the first on, are taken or refused so.
pub fn are_taken(alloc: Global, registers: &[Register]) -> Result<usize, Fail> {
    match kdc_with(alloc, CipherSuite::Aes256CtsHmacSha196, 32)? {
        Ok(mut kdc) => count_of_taken(alloc, &mut kdc, registers),
        Err(_) => Ok(0),
    }
}

fn is_new(alloc: Global, suite: CipherSuite, count: usize) -> Result<bool, Fail> {
    match kdc_with(alloc, suite, count)? {
        Ok(_) => Ok(true),
        Err(error) => Ok(error != KdcError::KeyLength),
    }
}

/// Whether the key of a new KDC's ticket-granting service has to have the length of the suite's keys.
pub fn sizes_are_told(alloc: Global) -> Result<bool, Fail> {
    let (small, large) = (
        CipherSuite::Aes128CtsHmacSha196,
        CipherSuite::Aes256CtsHmacSha196,
    );
    Ok(
        is_new(alloc, small, 16)?
            && !is_new(alloc, small, 32)?
            && is_new(alloc, large, 32)?
            && !is_new(alloc, large, 16)?,
    )
}
