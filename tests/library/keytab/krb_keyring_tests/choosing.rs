//! Which keys a ticket is opened with.

use super::recorded::{FRONT, FRONT_WITH_VERSION, JAVA, MIT, NEW_KEY, OLD_KEY, REST};
use super::{Entry, refusal, ring_of};
use krb_entrance::Cause;
use std::alloc::Global;
use std::test::Fail;

const MOMENT: u64 = 1_700_000_000_000_000;

const HOST: [&str; 2] = ["host", "server.example.com"];

const OLD: Entry<'static> = ("EXAMPLE.COM", HOST, 18, 1, OLD_KEY);

const NEW: Entry<'static> = ("EXAMPLE.COM", HOST, 18, 2, NEW_KEY);

/// A newer key, which has not the length of its type.
const SHORT: Entry<'static> = ("EXAMPLE.COM", HOST, 18, 3, "00");

/// A key of version 2.
const SHORT_TWO: Entry<'static> = ("EXAMPLE.COM", HOST, 18, 2, "00");

/// The key of version 1 under version 0.
const OLDEST: Entry<'static> = ("EXAMPLE.COM", HOST, 18, 0, OLD_KEY);

/// The key of version 1 at another realm.
const ELSEWHERE: Entry<'static> = ("OTHER.COM", HOST, 18, 1, OLD_KEY);

/// The wrong key at another realm, of a newer version.
const WRONG_ELSEWHERE: Entry<'static> = ("OTHER.COM", HOST, 18, 9, NEW_KEY);

const OTHER_SERVICE: Entry<'static> = (
    "EXAMPLE.COM",
    ["imap", "server.example.com"],
    18,
    1,
    OLD_KEY,
);

/// Of AES-128 and of RC4.
const AES128: Entry<'static> = (
    "EXAMPLE.COM",
    HOST,
    17,
    1,
    "000102030405060708090a0b0c0d0e0f",
);

const RC4: Entry<'static> = (
    "EXAMPLE.COM",
    HOST,
    23,
    9,
    "000102030405060708090a0b0c0d0e0f",
);

/// The entries of a ring, and why it refuses a token.
type Row = (&'static [Entry<'static>], Option<Cause>);

/// A ticket under the old key that names version 1.
static OF_VERSION_1: [Row; 13] = [
    (&[OLD], None),
    (&[OLD, NEW], None),
    (&[NEW, OLD], None),
    (&[NEW, OLD, SHORT, RC4, WRONG_ELSEWHERE], None),
    (&[NEW], Some(Cause::Altered)),
    (&[NEW, SHORT], Some(Cause::KeyLength)),
    (&[NEW, OLDEST], None),
    (&[], Some(Cause::NoServiceKey)),
    (&[ELSEWHERE], Some(Cause::NoServiceKey)),
    (&[ELSEWHERE, NEW], Some(Cause::Altered)),
    (&[OTHER_SERVICE], Some(Cause::NoServiceKey)),
    (&[AES128], Some(Cause::NoServiceKey)),
    (&[AES128, RC4, OLD], None),
];

/// A ticket that names version 2, of which there is another key.
static OF_VERSION_2: [Row; 5] = [
    (&[OLD, NEW], Some(Cause::Altered)),
    (&[OLD, SHORT_TWO], Some(Cause::KeyLength)),
    (&[NEW, SHORT_TWO, OLD], Some(Cause::Altered)),
    (&[SHORT_TWO, NEW, OLD], Some(Cause::KeyLength)),
    (&[OLD, SHORT], None),
];

/// A ticket that names none.
static OF_NO_VERSION: [Row; 9] = [
    (&[OLD, NEW], None),
    (&[NEW, OLD], None),
    (&[SHORT, NEW], Some(Cause::KeyLength)),
    (&[NEW, SHORT], Some(Cause::KeyLength)),
    (&[SHORT, OLD, NEW, OLDEST], None),
    (&[NEW, SHORT_TWO], Some(Cause::Altered)),
    (&[SHORT_TWO, NEW], Some(Cause::KeyLength)),
    (
        &[ELSEWHERE, OTHER_SERVICE, AES128, RC4],
        Some(Cause::NoServiceKey),
    ),
    (&[], Some(Cause::NoServiceKey)),
];

/// Tickets of MIT's KDC, which name version 2.
static OF_MIT: [Row; 5] = [
    (&[OLD, NEW], None),
    (&[SHORT, OLD, NEW], None),
    (&[OLD], Some(Cause::Altered)),
    (
        &[ELSEWHERE, OTHER_SERVICE, AES128],
        Some(Cause::NoServiceKey),
    ),
    (&[], Some(Cause::NoServiceKey)),
];

fn rows_of_version_1() -> &'static [Row] {
    &OF_VERSION_1
}

fn rows_of_version_2() -> &'static [Row] {
    &OF_VERSION_2
}

fn rows_of_no_version() -> &'static [Row] {
    &OF_NO_VERSION
}

fn rows_of_mit() -> &'static [Row] {
    &OF_MIT
}

fn joined(alloc: Global, parts: &[&str]) -> Result<String, Fail> {
    let mut text = String::new(alloc);
    for part in parts {
        text.push_str(part)?;
    }
    Ok(text)
}

fn refusal_of(
    alloc: Global,
    entries: &[Entry<'_>],
    parts: &[&str],
    moment: u64,
) -> Result<Option<Cause>, Fail> {
    let ring = ring_of(alloc, entries)?;
    let token = joined(alloc, parts)?;
    refusal(alloc, &ring, &token, moment)
}

#[test]
fn the_version_of_the_ticket_picks_the_key(rt: HostRuntime) -> Result<(), Fail> {
    for (entries, expected) in rows_of_version_1() {
        let refusal = refusal_of(
            rt.alloc(),
            entries,
            &[FRONT_WITH_VERSION, "01", REST],
            MOMENT,
        )?;
        assert_eq!(rt; refusal, *expected);
    }
    Ok(())
}

#[test]
fn another_key_of_its_version_is_not_passed_over(rt: HostRuntime) -> Result<(), Fail> {
    for (entries, expected) in rows_of_version_2() {
        let refusal = refusal_of(
            rt.alloc(),
            entries,
            &[FRONT_WITH_VERSION, "02", REST],
            MOMENT,
        )?;
        assert_eq!(rt; refusal, *expected);
    }
    Ok(())
}

#[test]
fn without_a_version_the_newest_is_first(rt: HostRuntime) -> Result<(), Fail> {
    for (entries, expected) in rows_of_no_version() {
        let refusal = refusal_of(rt.alloc(), entries, &[FRONT, REST], MOMENT)?;
        assert_eq!(rt; refusal, *expected);
    }
    Ok(())
}

#[test]
fn tickets_of_another_kdc_pick_their_key(rt: HostRuntime) -> Result<(), Fail> {
    for (entries, expected) in rows_of_mit() {
        let refusal = refusal_of(rt.alloc(), entries, &[MIT.token], MIT.moment)?;
        assert_eq!(rt; refusal, *expected);
    }
    Ok(())
}

/// The service's name has type 0 in one, and type 3 in the keytab.
#[test]
fn the_type_of_a_name_is_not_compared(rt: HostRuntime) -> Result<(), Fail> {
    let refusal = refusal_of(rt.alloc(), &[OLD, NEW], &[JAVA.token], JAVA.moment)?;
    assert_eq!(rt; refusal, None);
    Ok(())
}
