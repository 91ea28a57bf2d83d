//! The octets that a keytab is written as.

use super::files::{
    HEIMDAL, HEIMDAL_AGAIN, KAFKA, KAFKA_BEHIND_A_HOLE, KAFKA_LONG_ZERO, KAFKA_RC4,
    KAFKA_THREE_BEHIND, MIT, MIT_AGAIN, MIT_WITHOUT_HOLE,
};
use super::{numbers_of, read};
use krb_der::Octets;
use krb_keytab::Keytab;
use std::alloc::Global;
use std::test::Fail;

/// The octets of the keytab.
fn written(alloc: Global, keytab: &Keytab) -> Result<Octets, Fail> {
    if !keytab.is_writable() {
        return Err("the keytab cannot be written".into());
    }
    Ok(keytab.write(alloc)?)
}

/// A file, and what it is written as.
static WRITTEN: [(&str, &str); 5] = [
    (MIT, MIT_WITHOUT_HOLE),
    (KAFKA, KAFKA),
    (KAFKA_BEHIND_A_HOLE, KAFKA),
    (KAFKA_THREE_BEHIND, KAFKA),
    (KAFKA_LONG_ZERO, KAFKA),
];

fn rows() -> &'static [(&'static str, &'static str)] {
    &WRITTEN
}

fn is_written_so(alloc: Global, file: &str, wanted: &str) -> Result<bool, Fail> {
    let keytab = read(alloc, file)?;
    let octets = written(alloc, &keytab)?;
    let wanted = hex::decode(alloc, wanted)?;
    Ok(octets.as_slice() == wanted.as_slice())
}

#[test]
fn keytabs_are_written(rt: HostRuntime) -> Result<(), Fail> {
    for (file, wanted) in rows() {
        assert!(rt; is_written_so(rt.alloc(), file, wanted)?, "{file}");
    }
    Ok(())
}

fn are_alike(one: &Keytab, other: &Keytab) -> bool {
    let ones = one.entries.as_slice();
    let others = other.entries.as_slice();
    ones.len() == others.len()
        && ones.iter().zip(others).all(|(a, b)| {
            a.realm == b.realm
                && a.components == b.components
                && a.name_type == b.name_type
                && a.time == b.time
                && numbers_of(a) == numbers_of(b)
        })
}

static FILES: [&str; 5] = [MIT, HEIMDAL, MIT_AGAIN, HEIMDAL_AGAIN, KAFKA_RC4];

fn files() -> &'static [&'static str] {
    &FILES
}

fn is_read_again(alloc: Global, file: &str) -> Result<bool, Fail> {
    let keytab = read(alloc, file)?;
    let octets = written(alloc, &keytab)?;
    let again = Keytab::read(alloc, octets.as_slice())?;
    Ok(are_alike(&keytab, &again))
}

#[test]
fn what_is_written_is_read_again(rt: HostRuntime) -> Result<(), Fail> {
    for file in files() {
        assert!(rt; is_read_again(rt.alloc(), file)?, "{file}");
    }
    Ok(())
}
