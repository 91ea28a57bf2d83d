//! Which entry is found.

use super::files::{HEIMDAL_AGAIN, MIT_AGAIN};
use super::{name, numbers_of, pair, read};
use krb_keytab::Keytab;
use std::alloc::Global;
use std::test::Fail;

/// A search, and the version and the first octet of the key that it finds.
struct Asked {
    realm: &'static str,
    first: &'static str,
    second: &'static str,
    key_type: u16,
    version: Option<u32>,
    found: Option<(u32, u8)>,
}

static ASKED: [Asked; 7] = [
    Asked {
        realm: "EXAMPLE.COM",
        first: "host",
        second: "server.example.com",
        key_type: 18,
        version: None,
        found: Some((300, 0x20)),
    },
    Asked {
        realm: "EXAMPLE.COM",
        first: "host",
        second: "server.example.com",
        key_type: 18,
        version: Some(2),
        found: Some((2, 0x00)),
    },
    Asked {
        realm: "EXAMPLE.COM",
        first: "host",
        second: "server.example.com",
        key_type: 17,
        version: None,
        found: Some((2, 0x40)),
    },
    Asked {
        realm: "EXAMPLE.COM",
        first: "host",
        second: "server.example.com",
        key_type: 18,
        version: Some(44),
        found: None,
    },
    Asked {
        realm: "B.COM",
        first: "imap",
        second: "mail",
        key_type: 17,
        version: None,
        found: Some((1, 0x60)),
    },
    Asked {
        realm: "EXAMPLE.COM",
        first: "imap",
        second: "mail",
        key_type: 17,
        version: None,
        found: None,
    },
    Asked {
        realm: "B.COM",
        first: "imap",
        second: "mail",
        key_type: 18,
        version: None,
        found: None,
    },
];

fn questions() -> &'static [Asked] {
    &ASKED
}

fn finds(alloc: Global, keytab: &Keytab, row: &Asked) -> Result<bool, Fail> {
    let realm = name(alloc, row.realm)?;
    let components = pair(alloc, row.first, row.second)?;
    let found = keytab
        .find(&realm, &components, row.key_type, row.version)
        .map(|entry| (entry.version, numbers_of(entry).2));
    Ok(found == row.found)
}

static FILES: [&str; 2] = [MIT_AGAIN, HEIMDAL_AGAIN];

fn files() -> &'static [&'static str] {
    &FILES
}

/// Whether the file has what is asked for.
fn finds_in(alloc: Global, file: &str, row: &Asked) -> Result<bool, Fail> {
    let keytab = read(alloc, file)?;
    finds(alloc, &keytab, row)
}

#[test]
fn the_greatest_version_is_found(rt: HostRuntime) -> Result<(), Fail> {
    for file in files() {
        for row in questions() {
            assert!(rt;
                finds_in(rt.alloc(), file, row)?,
                "{} {}",
                row.realm,
                row.first
            );
        }
    }
    Ok(())
}
