//! A ring of many keys, a change of keys, and tokens that are none.

use super::recorded::{FRONT, FRONT_WITH_VERSION, MIT, NEW_KEY, OLD_KEY, REST};
use super::{Entry, draw, keytab, refusal_at, ring_of};
use krb_der::boxed;
use krb_entrance::Cause;
use krb_keyring::Keyring;
use krb_replay::ReplayBook;
use std::alloc::Global;
use std::test::Fail;

const HOST: [&str; 2] = ["host", "server.example.com"];

const OLD: Entry<'static> = ("EXAMPLE.COM", HOST, 18, 1, OLD_KEY);

const NEW: Entry<'static> = ("EXAMPLE.COM", HOST, 18, 2, NEW_KEY);

const MOMENT: u64 = 1_700_000_000_000_000;

/// A ticket under the old key, and one under the new one, at one ring and one book; and both again.
fn both(alloc: Global, ring: &Keyring) -> Result<[Option<Cause>; 4], Fail> {
    let mut old = String::from_str(alloc, FRONT_WITH_VERSION)?;
    old.push_str("01")?;
    old.push_str(REST)?;
    let mut book = boxed(alloc, ReplayBook::new(alloc, 300)?)?;
    let first = refusal_at(alloc, ring, &mut book, &old, MOMENT)?;
    let again = refusal_at(alloc, ring, &mut book, &old, MOMENT)?;
    let second = refusal_at(alloc, ring, &mut book, MIT.token, MIT.moment)?;
    let twice = refusal_at(alloc, ring, &mut book, MIT.token, MIT.moment)?;
    Ok([first, again, second, twice])
}

const BOTH: [Option<Cause>; 4] = [None, Some(Cause::Replayed), None, Some(Cause::Replayed)];

#[test]
fn both_keys_are_taken_after_a_change(rt: HostRuntime) -> Result<(), Fail> {
    let ring = ring_of(rt.alloc(), &[OLD, NEW])?;
    assert_eq!(rt; ring.len(), 2);
    assert_eq!(rt; both(rt.alloc(), &ring)?, BOTH);
    Ok(())
}

/// The new key comes in a keytab of its own.
#[test]
fn a_further_keytab_is_added(rt: HostRuntime) -> Result<(), Fail> {
    let mut ring = ring_of(rt.alloc(), &[OLD])?;
    assert_eq!(rt; both(rt.alloc(), &ring)?[2], Some(Cause::Altered));
    ring.add_keytab(rt.alloc(), &keytab(rt.alloc(), &[NEW])?)?;
    assert_eq!(rt; ring.len(), 2);
    assert_eq!(rt; both(rt.alloc(), &ring)?, BOTH);
    Ok(())
}

fn cause(alloc: Global, ring: &Keyring, token: &[u8]) -> Option<Cause> {
    match ring.judge(alloc, None, token, &draw(MOMENT)) {
        Ok(candidate) => {
            drop(candidate);
            None
        }
        Err(error) => Some(error.cause),
    }
}

/// No octet, one, and a token with one octet more.
#[test]
fn tokens_that_are_none(rt: HostRuntime) -> Result<(), Fail> {
    let mut token = hex::decode(rt.alloc(), FRONT)?;
    token.extend_from_slice(&hex::decode(rt.alloc(), REST)?)?;
    let full = ring_of(rt.alloc(), &[OLD, NEW])?;
    let empty = ring_of(rt.alloc(), &[])?;
    assert_eq!(rt; empty.len(), 0);
    assert_eq!(rt; cause(rt.alloc(), &full, &token), None);
    assert_eq!(rt;
        cause(rt.alloc(), &empty, &token),
        Some(Cause::NoServiceKey)
    );
    token.push(0)?;
    for ring in [full, empty] {
        assert_eq!(rt; cause(rt.alloc(), &ring, &[]), Some(Cause::Shape));
        assert_eq!(rt; cause(rt.alloc(), &ring, &[0x60]), Some(Cause::Shape));
        assert_eq!(rt; cause(rt.alloc(), &ring, &token), Some(Cause::Shape));
    }
    Ok(())
}

/// The token has 445 octets.
#[test]
fn a_longer_token_is_not_looked_at(rt: HostRuntime) -> Result<(), Fail> {
    let mut token = hex::decode(rt.alloc(), FRONT)?;
    token.extend_from_slice(&hex::decode(rt.alloc(), REST)?)?;
    let mut ring = ring_of(rt.alloc(), &[OLD])?;
    assert_eq!(rt; ring.token_limit, 65_536);
    ring.token_limit = 444;
    assert_eq!(rt; cause(rt.alloc(), &ring, &token), Some(Cause::Shape));
    ring.token_limit = 445;
    assert_eq!(rt; cause(rt.alloc(), &ring, &token), None);
    Ok(())
}

/// As many services as there are numbers below this.
const SERVICES: u32 = 10_000;

fn many(alloc: Global) -> Result<Box<Keyring>, Fail> {
    let mut entries = Vec::new(alloc);
    for number in 0..SERVICES {
        let host = format!(in alloc; "server{number}.example.com")?;
        let row = ("EXAMPLE.COM", ["host", host.as_str()], 18, 1, NEW_KEY);
        entries.push(super::entry(alloc, &row)?)?;
    }
    let mut ring = ring_of(alloc, &[OLD, NEW])?;
    ring.add_keytab(alloc, &super::keytab_of(entries))?;
    Ok(ring)
}

#[test]
fn one_service_among_many(rt: HostRuntime) -> Result<(), Fail> {
    let ring = many(rt.alloc())?;
    assert_eq!(rt; ring.len(), 10_002);
    assert_eq!(rt; both(rt.alloc(), &ring)?, BOTH);
    assert_eq!(rt; cause(rt.alloc(), &ring, &[0x60]), Some(Cause::Shape));
    Ok(())
}
