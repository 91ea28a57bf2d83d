//! The encrypted facts of a reply besides the key: whose number it is, and when its ticket is valid.

use crate::rows::octets;
use krb_der::{Asn1, IntegerAsn1, Time, boxed};
use krb_exchange::EncTgsRepPart;
use krb_replies::ReplyFacts;
use std::alloc::Global;
use std::test::Fail;

/// The sealed part of a TGS-REP of the KDC of Heimdal 7.8, as another implementation of RFC 3962 opens it.
const PART: &str =
    "7a81e13081dea02b3029a003020112a122042027210cd67741d6dc49190917a05a0c0855be4e09e07de528376edf921d150102a11c301a3018a00302\
     0100a111180f31393730303130313030303030305aa2060204bb05559da40703050000a80000a511180f32303236313132373136353233365aa61118\
     0f32303236313132373136353233365aa711180f32303236313132383136353233365aa811180f32303236313133303136353233365aa90d1b0b4558\
     414d504c452e434f4daa253023a003020103a11c301a1b04686f73741b127365727665722e6578616d706c652e636f6d";

/// The facts of that part.
fn facts(alloc: Global) -> Result<Box<ReplyFacts>, Fail> {
    let row = octets(PART)?;
    let part = EncTgsRepPart::read(alloc, row.as_slice())?;
    let EncTgsRepPart(part) = part;
    let facts = ReplyFacts {
        nonce: part.nonce,
        flags: part.flags,
        authtime: part.authtime,
        starttime: part.starttime,
        endtime: part.endtime,
        renew_till: part.renew_till,
        srealm: part.srealm,
        sname: part.sname,
    };
    Ok(boxed(alloc, facts)?)
}

/// An INTEGER, of its contents in hex.
fn integer(alloc: Global, digits: &str) -> Result<IntegerAsn1, Fail> {
    Ok(IntegerAsn1::from_bytes_be(hex::decode(alloc, digits)?))
}

/// The four octets of a request's number, what is sealed, and whether that is the number: as it is, and less 2^32, as which four octets
/// are read where their first bit is set.
static NONCES: [(&str, &str, bool); 32] = [
    ("bb05559d", "bb05559d", true),
    ("bb05559d", "00bb05559d", true),
    ("bb05559d", "0000000000bb05559d", true),
    ("bb05559d", "ffbb05559d", true),
    ("bb05559d", "ffffffffffbb05559d", true),
    ("bb05559d", "01bb05559d", false),
    ("bb05559d", "febb05559d", false),
    ("bb05559d", "bb05559c", false),
    ("bb05559d", "9d5505bb", false),
    ("bb05559d", "bb0555", false),
    ("bb05559d", "bb05559d00", false),
    ("bb05559d", "7fffffffffffffff", false),
    ("bb05559d", "7fffffffffffffffff", false),
    ("4f81299c", "4f81299c", true),
    ("4f81299c", "004f81299c", true),
    ("4f81299c", "ff4f81299c", true),
    ("4f81299c", "014f81299c", false),
    ("4f81299c", "cf81299c", false),
    ("00000001", "01", true),
    ("00000001", "00000001", true),
    ("00000001", "ff00000001", true),
    ("00000001", "00", false),
    ("00000001", "ff", false),
    ("00000000", "00", true),
    ("00000000", "0100000000", false),
    ("ffffffff", "ff", true),
    ("ffffffff", "00ffffffff", true),
    ("ffffffff", "01", false),
    // Requests have four octets, so what has others is none of them.
    ("01", "01", false),
    ("0000000001", "01", false),
    ("00bb05559d", "00bb05559d", false),
    ("", "00", false),
];

fn nonces() -> &'static [(&'static str, &'static str, bool)] {
    &NONCES
}

/// Whether facts with this number repeat that one.
fn repeats(alloc: Global, asked: &str, sealed: &str) -> Result<bool, Fail> {
    let mut facts = facts(alloc)?;
    facts.nonce = integer(alloc, sealed)?;
    let asked = integer(alloc, asked)?;
    Ok(facts.repeats_nonce(&asked))
}

#[test]
fn a_nonce_is_compared_by_its_value(rt: HostRuntime) -> Result<(), Fail> {
    for (asked, sealed, wanted) in nonces() {
        assert_eq!(rt;
            repeats(rt.alloc(), asked, sealed)?,
            *wanted,
            "{asked} {sealed}"
        );
    }
    Ok(())
}

/// A start, where there is one, a moment in microseconds, and whether a ticket from 2026-11-27, 16:52:36, on to the day after is valid then.
static MOMENTS: [(Option<&str>, u64, bool); 13] = [
    (None, 1_795_798_356_000_000, true),
    (None, 1_795_798_056_000_000, true),
    (None, 1_795_798_055_999_999, false),
    (None, 1_795_885_056_000_000, true),
    (None, 1_795_885_056_000_001, false),
    (None, 0, false),
    (None, u64::MAX, false),
    // From an hour later on.
    (Some("20261127175236Z"), 1_795_801_656_000_000, true),
    (Some("20261127175236Z"), 1_795_801_655_999_999, false),
    (Some("20261127175236Z"), 1_795_885_056_000_000, true),
    (Some("20261127175236Z"), 1_795_885_056_000_001, false),
    // From an hour before.
    (Some("20261127155236Z"), 1_795_794_456_000_000, true),
    (Some("20261127155236Z"), 1_795_794_455_999_999, false),
];

fn moments() -> &'static [(Option<&'static str>, u64, bool)] {
    &MOMENTS
}

/// Whether facts with this start are valid at that moment.
fn is_valid(alloc: Global, start: Option<&str>, moment: u64) -> Result<bool, Fail> {
    let mut facts = facts(alloc)?;
    facts.starttime = match start {
        Some(text) => Some(Time::from_octets(text.as_bytes())?),
        None => None,
    };
    Ok(facts.is_valid_at(moment))
}

#[test]
fn a_ticket_is_valid_give_or_take_300_seconds(rt: HostRuntime) -> Result<(), Fail> {
    for (start, moment, wanted) in moments() {
        assert_eq!(rt; is_valid(rt.alloc(), *start, *moment)?, *wanted, "{moment}");
    }
    Ok(())
}
