//! Facts of a client's checksum and of its cipher, as a second implementation decrypted the tokens.

use super::recorded::{
    ADMIN, BOUND, DELEGATED, HEIMDAL_BOUND, JAVA_BOUND, NO_GSS_CHECKSUM, Recorded,
};
use super::rules::{acceptor, draw_at};
use bitflags::Flags;
use krb_context::{Kerberos, Rules};
use krb_server::{Judged, judge};
use sspi_core::ServerRequestFlags;
use std::alloc::Global;
use std::test::Fail;

/// The flags that the client asked for, the hash of its bindings and the tag of its cipher, both in hex.
struct Told {
    token: Recorded,
    flags: Option<u32>,
    hash: &'static str,
    tag: &'static str,
}

static TOLD: [Told; 6] = [
    Told {
        token: ADMIN,
        flags: Some(0x13a),
        hash: "00000000000000000000000000000000",
        tag: "75dba06ba98626277c998f39",
    },
    Told {
        token: BOUND,
        flags: Some(0x13a),
        hash: "486b55aed1ff643575fac89b1e017092",
        tag: "5e03a9fbe4f6b6eae2f4b932",
    },
    Told {
        token: DELEGATED,
        flags: Some(0x133),
        hash: "486b55aed1ff643575fac89b1e017092",
        tag: "4418089250e0fe272748d4f6",
    },
    Told {
        token: NO_GSS_CHECKSUM,
        flags: None,
        hash: "",
        tag: "7b911345c271561e1a65a06d",
    },
    Told {
        token: HEIMDAL_BOUND,
        flags: Some(0x132),
        hash: "486b55aed1ff643575fac89b1e017092",
        tag: "25b9a248c1e462b53eb642b1",
    },
    Told {
        token: JAVA_BOUND,
        flags: Some(0x3e),
        hash: "7ccc71085e696e3943070c8b39d54009",
        tag: "8bf0f4f4a531994435cf63aa",
    },
];

fn told() -> &'static [Told] {
    &TOLD
}

fn tells(alloc: Global, judged: &Judged, row: &Told) -> Result<bool, Fail> {
    let hash = hex::encode(alloc, judged.channel_hash())?;
    let tag = hex::encode(alloc, judged.tag())?;
    Ok(judged.gss_flags() == row.flags && hash.as_str() == row.hash && tag.as_str() == row.tag)
}

fn tells_at(alloc: Global, server: &mut Kerberos, row: &Told) -> Result<bool, Fail> {
    let token = hex::decode(alloc, row.token.token)?;
    let draw = draw_at(row.token.moment);
    match judge(alloc, server, &token, ServerRequestFlags::empty(), &draw) {
        Ok(judged) => tells(alloc, &judged, row),
        Err(_) => Err(Fail::from("refused")),
    }
}

#[test]
fn what_was_judged_tells_of_the_authenticator(rt: HostRuntime) -> Result<(), Fail> {
    for row in told() {
        let mut server = acceptor(rt.alloc(), Rules::none(), None)?;
        assert!(rt; tells_at(rt.alloc(), &mut server, row)?, "{}", row.tag);
    }
    Ok(())
}
