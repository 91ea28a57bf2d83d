//! Tokens that are judged by all keys of a keytab.

mod choosing;
mod recorded;
mod ring;

use krb_der::{Items, Name, Octets, boxed};
use krb_entrance::{Candidate, Cause, Draw, Error, admit};
use krb_keyring::Keyring;
use krb_keytab::{Keytab, KeytabEntry};
use krb_replay::ReplayBook;
use sspi_core::Secret;
use std::alloc::Global;
use std::test::Fail;

/// An entry: the realm, two components, the type, the version, and the key in hex.
type Entry<'a> = (&'a str, [&'a str; 2], u16, u32, &'a str);

fn name(alloc: Global, text: &str) -> Result<Name, Fail> {
    let octets = Vec::from_slice(alloc, text.as_bytes())?;
    Ok(Name::new(octets).ok_or("a name is of ASCII octets")?)
}

fn entry(alloc: Global, entry: &Entry<'_>) -> Result<KeytabEntry, Fail> {
    let (realm, [first, second], key_type, version, key) = *entry;
    let mut components = Vec::new(alloc);
    components.push(name(alloc, first)?)?;
    components.push(name(alloc, second)?)?;
    Ok(KeytabEntry {
        realm: name(alloc, realm)?,
        components: Items::new(components),
        name_type: 3,
        time: 0,
        version,
        key_type,
        key: Secret::new(Octets::new(hex::decode(alloc, key)?)),
    })
}

fn keytab(alloc: Global, rows: &[Entry<'_>]) -> Result<Keytab, Fail> {
    let mut entries = Vec::new(alloc);
    for row in rows {
        entries.push(entry(alloc, row)?)?;
    }
    Ok(keytab_of(entries))
}

fn keytab_of(entries: Vec<KeytabEntry>) -> Keytab {
    Keytab {
        entries: Items::new(entries),
    }
}

fn ring_of(alloc: Global, rows: &[Entry<'_>]) -> Result<Box<Keyring>, Fail> {
    let mut ring = Keyring::new(alloc);
    ring.add_keytab(alloc, &keytab(alloc, rows)?)?;
    Ok(boxed(alloc, ring)?)
}

/// The octets 0 to 63.
fn draw(moment: u64) -> Draw {
    let mut random = [0; 64];
    let mut octet = 0u8;
    for place in random.iter_mut() {
        *place = octet;
        octet = octet.wrapping_add(1);
    }
    Draw { moment, random }
}

fn refused_by(
    alloc: Global,
    book: &mut ReplayBook,
    judged: Result<Candidate, Error>,
) -> Option<Cause> {
    let candidate = match judged {
        Ok(candidate) => candidate,
        Err(error) => return Some(error.cause),
    };
    match admit(alloc, candidate, book) {
        Ok(session) => {
            drop(session);
            None
        }
        Err(error) => Some(error.cause),
    }
}

/// Why the token is refused by the ring at a book, if it is.
fn refusal_at(
    alloc: Global,
    ring: &Keyring,
    book: &mut ReplayBook,
    token: &str,
    moment: u64,
) -> Result<Option<Cause>, Fail> {
    let token = hex::decode(alloc, token)?;
    let judged = ring.judge(alloc, None, &token, &draw(moment));
    Ok(refused_by(alloc, book, judged))
}

/// The answer at a new book.
fn refusal(alloc: Global, ring: &Keyring, token: &str, moment: u64) -> Result<Option<Cause>, Fail> {
    let mut book = boxed(alloc, ReplayBook::new(alloc, 300)?)?;
    refusal_at(alloc, ring, &mut book, token, moment)
}
