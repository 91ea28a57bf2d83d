//! Tokens and frames of both ends, octet by octet, as a second implementation spells them.

use super::ends::{ACCEPTOR, fail, octets};
use super::{CONFOUNDER, ClientCase, ServerCase, new_client_passes, new_server_passes};
use krb_der::Octets;
use krb_sasl::{Layer, SaslClient, SaslError, SaslServer};
use std::alloc::Global;
use std::test::Fail;

/// The offer of a server with all layers, which receives messages of 65535 octets at most: a token of 32 octets.
pub const OFFER: &str = "050405ff000c000000000000000000010700ffff90f6409b0f5d060e5d5b6f9c";

/// The layer that a client asks for, the name of its user, and then: its answer to that offer, the frame in which the server sends `abc`, and
/// the one in which the client sends it.
pub struct Row {
    pub layer: Layer,
    pub size: u32,
    pub name: &'static str,
    pub answer: &'static str,
    pub frame: &'static str,
    pub back: &'static str,
}

static ROWS: [Row; 5] = [
    Row {
        layer: Layer::Confidentiality,
        size: 65535,
        name: "alice",
        answer: "050404ff000c000000000000000004d30400ffff616c6963650ec7253ea1ce4b57d5ce3d3b",
        frame: "0000003f050407ff0000001c0000000000000002196f4cc273949cb44623441602b71a80dfbf48424d158c587014cb0c23bd1f2824d7dc953587493a6b0cedd5bb7932",
        back: "0000003f050406ff0000001c00000000000004d49f36c06ced8d23a1bf9bea52d71f69ebed34fd889ed834277f518a44f51e1a956250a70b8338d587b858435eab727c",
    },
    Row {
        layer: Layer::Integrity,
        size: 65535,
        name: "alice",
        answer: "050404ff000c000000000000000004d30200ffff616c6963658c5dc7f16f81b6e30abd2581",
        frame: "0000001f050405ff000c00000000000000000002616263e7c7e775f4e27c958959f9d3",
        back: "0000001f050404ff000c000000000000000004d461626331df40a9dd8f9662c5c8f1c0",
    },
    Row {
        layer: Layer::None,
        size: 0,
        name: "alice",
        answer: "050404ff000c000000000000000004d301000000616c6963655a152f6c306108a6f9f8ccbf",
        frame: "00000003616263",
        back: "00000003616263",
    },
    Row {
        layer: Layer::Confidentiality,
        size: 65535,
        name: "",
        answer: "050404ff000c000000000000000004d30400ffff9a90f7cddf26d8d67c064a29",
        frame: "0000003f050407ff0000001c0000000000000002196f4cc273949cb44623441602b71a80dfbf48424d158c587014cb0c23bd1f2824d7dc953587493a6b0cedd5bb7932",
        back: "0000003f050406ff0000001c00000000000004d49f36c06ced8d23a1bf9bea52d71f69ebed34fd889ed834277f518a44f51e1a956250a70b8338d587b858435eab727c",
    },
    Row {
        layer: Layer::Confidentiality,
        size: 65535,
        name: "Jörg",
        answer: "050404ff000c000000000000000004d30400ffff4ac3b6726749f5a0142298bf413e9a5932",
        frame: "0000003f050407ff0000001c0000000000000002196f4cc273949cb44623441602b71a80dfbf48424d158c587014cb0c23bd1f2824d7dc953587493a6b0cedd5bb7932",
        back: "0000003f050406ff0000001c00000000000004d49f36c06ced8d23a1bf9bea52d71f69ebed34fd889ed834277f518a44f51e1a956250a70b8338d587b858435eab727c",
    },
];

pub fn rows() -> &'static [Row] {
    &ROWS
}

/// Whether a call gave these octets.
fn gives(alloc: Global, answer: Result<Octets, SaslError>, wanted: &str) -> Result<bool, Fail> {
    let wanted = octets(alloc, wanted)?;
    match answer {
        Ok(octets) => Ok(octets == wanted),
        Err(_) => Ok(false),
    }
}

/// True if the server offers so, gets the user's name, sends `abc` so, and receives it.
pub fn server_speaks(alloc: Global, server: &mut SaslServer, row: &Row) -> Result<bool, Fail> {
    let offers = gives(alloc, server.offer(alloc), OFFER)?;
    let answer = octets(alloc, row.answer)?;
    let name = server.accept(alloc, answer.as_slice()).map_err(fail)?;
    let told = name.as_slice() == row.name.as_bytes();
    Ok(offers && told && server_sends(alloc, server, row)?)
}

fn server_sends(alloc: Global, server: &mut SaslServer, row: &Row) -> Result<bool, Fail> {
    let sends = gives(
        alloc,
        server.seal(alloc, "abc".as_bytes(), CONFOUNDER),
        row.frame,
    )?;
    let back = octets(alloc, row.back)?;
    Ok(sends && gives(alloc, server.unseal(alloc, back.as_slice()), "616263")?)
}

#[test]
fn a_server_speaks_as_a_second_implementation(rt: HostRuntime) -> Result<(), Fail> {
    for row in rows() {
        assert!(rt;
            new_server_passes(rt.alloc(), &ACCEPTOR, 7, 65535, ServerCase::Spelled(row))?,
            "{}",
            row.answer
        );
    }
    Ok(())
}

/// Whether the client answers so, receives `abc`, and sends it so.
pub fn client_speaks(alloc: Global, client: &mut SaslClient, row: &Row) -> Result<bool, Fail> {
    let offer = octets(alloc, OFFER)?;
    let answers = gives(alloc, client.answer(alloc, offer.as_slice()), row.answer)?;
    let frame = octets(alloc, row.frame)?;
    let receives = gives(alloc, client.unseal(alloc, frame.as_slice()), "616263")?;
    let sends = gives(
        alloc,
        client.seal(alloc, "abc".as_bytes(), CONFOUNDER),
        row.back,
    )?;
    Ok(answers && receives && sends)
}

#[test]
fn a_client_speaks_as_a_second_implementation(rt: HostRuntime) -> Result<(), Fail> {
    for row in rows() {
        assert!(rt;
            new_client_passes(
                rt.alloc(),
                row.layer,
                row.size,
                row.name,
                ClientCase::Spelled(row)
            )?,
            "{}",
            row.answer
        );
    }
    Ok(())
}
