//! Files that are read, and octets that are none.

use super::files::{
    HEIMDAL, HEIMDAL_AGAIN, KAFKA, KAFKA_BEHIND_A_HOLE, KAFKA_LONG_ZERO, KAFKA_PAST_ASCII,
    KAFKA_RC4, KAFKA_THREE_BEHIND, MIT, MIT_AGAIN,
};
use super::{numbers_of, read};
use krb_keytab::{Keytab, KeytabError};
use std::alloc::Global;
use std::test::Fail;

/// A file, and its entries: the version, the type, the first octet of the key and the length of the key.
struct Listed {
    file: &'static str,
    entries: &'static [(u32, u16, u8, usize)],
}

static LISTED: [Listed; 9] = [
    Listed {
        file: MIT,
        entries: &[(2, 18, 0x00, 32), (2, 17, 0x40, 16), (300, 18, 0x20, 32)],
    },
    Listed {
        file: HEIMDAL,
        entries: &[(2, 18, 0x00, 32), (2, 17, 0x40, 16), (300, 18, 0x20, 32)],
    },
    Listed {
        file: MIT_AGAIN,
        entries: &[
            (2, 18, 0x00, 32),
            (2, 17, 0x40, 16),
            (1, 17, 0x60, 16),
            (300, 18, 0x20, 32),
        ],
    },
    Listed {
        file: HEIMDAL_AGAIN,
        entries: &[
            (2, 18, 0x00, 32),
            (2, 17, 0x40, 16),
            (1, 17, 0x60, 16),
            (300, 18, 0x20, 32),
        ],
    },
    Listed {
        file: KAFKA,
        entries: &[(3, 18, 0x00, 32)],
    },
    Listed {
        file: KAFKA_BEHIND_A_HOLE,
        entries: &[(3, 18, 0x00, 32)],
    },
    Listed {
        file: KAFKA_THREE_BEHIND,
        entries: &[(3, 18, 0x00, 32)],
    },
    Listed {
        file: KAFKA_LONG_ZERO,
        entries: &[(3, 18, 0x00, 32)],
    },
    // A type that is not known here is kept.
    Listed {
        file: KAFKA_RC4,
        entries: &[(3, 23, 0x00, 16)],
    },
];

fn files() -> &'static [Listed] {
    &LISTED
}

fn has_entries(keytab: &Keytab, entries: &[(u32, u16, u8, usize)]) -> bool {
    let found = keytab.entries.as_slice();
    found.len() == entries.len()
        && found
            .iter()
            .zip(entries)
            .all(|(entry, wanted)| numbers_of(entry) == *wanted)
}

fn is_listed(alloc: Global, row: &Listed) -> Result<bool, Fail> {
    let keytab = read(alloc, row.file)?;
    Ok(has_entries(&keytab, row.entries))
}

#[test]
fn files_are_read(rt: HostRuntime) -> Result<(), Fail> {
    for row in files() {
        assert!(rt; is_listed(rt.alloc(), row)?, "{}", row.file);
    }
    Ok(())
}

/// How many entries the octets have, or why they are none.
fn count(alloc: Global, octets: &[u8]) -> Result<usize, KeytabError> {
    let keytab = Keytab::read(alloc, octets)?;
    Ok(keytab.entries.as_slice().len())
}

/// Octets by hand, and what they are read as.
static FRONTS: [(&str, Result<usize, KeytabError>); 17] = [
    ("", Err(KeytabError::Version)),
    ("05", Err(KeytabError::Version)),
    ("0501", Err(KeytabError::Version)),
    ("0602", Err(KeytabError::Version)),
    ("0502", Ok(0)),
    // A size of 0 ends the file, whatever follows.
    ("050200000000", Ok(0)),
    ("050200000000ffff", Ok(0)),
    ("0502000000", Err(KeytabError::Entry { place: 2 })),
    // Holes.
    ("0502ffffffff00", Ok(0)),
    ("0502ffffffff00fffffffe0000", Ok(0)),
    ("0502ffffffff0000000000", Ok(0)),
    ("0502fffffffe00", Err(KeytabError::Entry { place: 2 })),
    ("050280000000", Err(KeytabError::Entry { place: 2 })),
    ("050280000001", Err(KeytabError::Entry { place: 2 })),
    // Entries whose size or whose fields run past the end.
    ("05027fffffff", Err(KeytabError::Entry { place: 2 })),
    ("05020000000100", Err(KeytabError::Entry { place: 2 })),
    (
        "0502ffffffff000000000100",
        Err(KeytabError::Entry { place: 7 }),
    ),
];

fn fronts() -> &'static [(&'static str, Result<usize, KeytabError>)] {
    &FRONTS
}

fn count_in(alloc: Global, file: &str) -> Result<Result<usize, KeytabError>, Fail> {
    let octets = hex::decode(alloc, file)?;
    Ok(count(alloc, &octets))
}

#[test]
fn what_is_no_item_is_told_with_its_place(rt: HostRuntime) -> Result<(), Fail> {
    for (file, answer) in fronts() {
        assert!(rt; count_in(rt.alloc(), file)? == *answer, "{file}");
    }
    assert!(rt; count_in(rt.alloc(), KAFKA_PAST_ASCII)? == Err(KeytabError::Entry { place: 2 }));
    Ok(())
}

/// The places where the items of MIT's file begin, and where it ends, each with the number of entries before it.
static BOUNDS: [(usize, usize); 5] = [(2, 0), (96, 1), (174, 2), (249, 2), (343, 3)];

fn bounds() -> &'static [(usize, usize)] {
    &BOUNDS
}

/// The items of MIT's file, cut there: the item in which the cut falls is none.
fn cut_answer(end: usize) -> Result<usize, KeytabError> {
    let mut answer = Err(KeytabError::Version);
    for (place, entries) in bounds() {
        if *place == end {
            answer = Ok(*entries);
        } else if *place < end {
            answer = Err(KeytabError::Entry { place: *place });
        }
    }
    answer
}

#[test]
fn a_file_that_is_cut_is_none_from_the_item_on(rt: HostRuntime) -> Result<(), Fail> {
    let octets = hex::decode(rt.alloc(), MIT)?;
    for end in 0..octets.len() {
        assert!(rt;
            count(rt.alloc(), &octets[..end]) == cut_answer(end),
            "{end}"
        );
    }
    Ok(())
}
