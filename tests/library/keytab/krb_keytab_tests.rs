//! Keytab files of two other implementations, and some by hand.

mod acceptor;
mod files;
mod finding;
mod reading;
mod writing;

use krb_der::{Items, Name};
use krb_keytab::{Keytab, KeytabEntry};
use std::alloc::Global;
use std::test::Fail;

fn name(alloc: Global, text: &str) -> Result<Name, Fail> {
    let octets = Vec::from_slice(alloc, text.as_bytes())?;
    Ok(Name::new(octets).ok_or("a name is of ASCII octets")?)
}

/// A name of two components.
fn pair(alloc: Global, first: &str, second: &str) -> Result<Items<Name>, Fail> {
    let mut names = Vec::new(alloc);
    names.push(name(alloc, first)?)?;
    names.push(name(alloc, second)?)?;
    Ok(Items::new(names))
}

fn read(alloc: Global, file: &str) -> Result<Keytab, Fail> {
    let octets = hex::decode(alloc, file)?;
    Ok(Keytab::read(alloc, &octets)?)
}

/// The version, the type, the first octet of the key and the length of the key.
fn numbers_of(entry: &KeytabEntry) -> (u32, u16, u8, usize) {
    let key = entry.key.as_ref().as_slice();
    let first = match key {
        [] => 0,
        [first, ..] => *first,
    };
    (entry.version, entry.key_type, first, key.len())
}
