//! Each refusal of a server. The tokens and the frames are those of a second implementation.

use super::ends::{ACCEPTOR, Wanted, is_refused, octets, plain};
use super::refusals::Call;
use super::{CONFOUNDER, ServerCase, new_server_passes};
use krb_sasl::{SaslError, SaslServer};
use sspi_core::Cause;
use std::alloc::Global;
use std::test::Fail;

/// An answer in Confidentiality, of a client that receives messages of 65535 octets at most.
const SEALED: &str = "050404ff000c000000000000000004d30400ffff616c6963650ec7253ea1ce4b57d5ce3d3b";

/// An answer of a client that receives 62 octets at most.
const SHORT: &str = "050404ff000c000000000000000004d30400003e616c696365068da9f790a115fa1495f385";

/// One that receives 63.
const ROOMY: &str = "050404ff000c000000000000000004d30400003f616c696365ad2fb7562205ccfcab836896";

/// An answer in Integrity.
const CHECKED: &str = "050404ff000c000000000000000004d30200ffff616c6963658c5dc7f16f81b6e30abd2581";

/// An answer without a layer.
const BARE: &str = "050404ff000c000000000000000004d301000000616c6963655a152f6c306108a6f9f8ccbf";

/// The steps of a server before: none, its offer, or all up to this answer.
#[derive(Clone, Copy)]
pub enum Stage {
    New,
    Offered,
    Agreed(&'static str),
}

/// A server that offers these layers and receives messages of this many octets, and how it refuses a call.
pub struct ServerRow {
    layers: u8,
    size: u32,
    stage: Stage,
    call: Call,
    wanted: Option<Wanted>,
}

static SERVER_ROWS: [ServerRow; 34] = [
    // Offered, accepted and used out of turn.
    ServerRow {
        layers: 7,
        size: 65535,
        stage: Stage::Offered,
        call: Call::Offer,
        wanted: Some(Wanted::State),
    },
    ServerRow {
        layers: 7,
        size: 65535,
        stage: Stage::New,
        call: Call::Take(
            "050404ff000c000000000000000004d30400ffff616c6963650ec7253ea1ce4b57d5ce3d3b",
        ),
        wanted: Some(Wanted::State),
    },
    ServerRow {
        layers: 7,
        size: 65535,
        stage: Stage::Agreed(SEALED),
        call: Call::Take(
            "050404ff000c000000000000000004d40400ffff616c696365799b9d6d227afdbc36c791ad",
        ),
        wanted: Some(Wanted::State),
    },
    ServerRow {
        layers: 7,
        size: 65535,
        stage: Stage::Offered,
        call: Call::Seal(3),
        wanted: Some(Wanted::State),
    },
    ServerRow {
        layers: 7,
        size: 65535,
        stage: Stage::Offered,
        call: Call::Unseal(
            "0000003f050406ff0000001c00000000000004d49f36c06ced8d23a1bf9bea52d71f69ebed34fd889ed834277f518a44f51e1a956250a70b8338d587b858435eab727c",
        ),
        wanted: Some(Wanted::State),
    },
    // Tokens that the context does not open: none, cut, flipped, its own, with one octet more.
    ServerRow {
        layers: 7,
        size: 65535,
        stage: Stage::Offered,
        call: Call::Take(""),
        wanted: Some(Wanted::Context(Cause::Header)),
    },
    ServerRow {
        layers: 7,
        size: 65535,
        stage: Stage::Offered,
        call: Call::Take(
            "050404ff000c000000000000000004d30400ffff616c6963650ec7253ea1ce4b57d5ce3d",
        ),
        wanted: Some(Wanted::Context(Cause::Altered)),
    },
    ServerRow {
        layers: 7,
        size: 65535,
        stage: Stage::Offered,
        call: Call::Take(
            "050404ff000c000000000000000004d30400ffff616c6963650ec7253ea1ce4b57d5ce3d3a",
        ),
        wanted: Some(Wanted::Context(Cause::Altered)),
    },
    ServerRow {
        layers: 7,
        size: 65535,
        stage: Stage::Offered,
        call: Call::Take("050405ff000c000000000000000000010700ffff90f6409b0f5d060e5d5b6f9c"),
        wanted: Some(Wanted::Context(Cause::Direction)),
    },
    ServerRow {
        layers: 7,
        size: 65535,
        stage: Stage::Offered,
        call: Call::Take(
            "050404ff000c000000000000000004d30400ffff616c6963650ec7253ea1ce4b57d5ce3d3b00",
        ),
        wanted: Some(Wanted::Context(Cause::Altered)),
    },
    // Texts of three octets, of none, and with a name that is not UTF-8.
    ServerRow {
        layers: 7,
        size: 65535,
        stage: Stage::Offered,
        call: Call::Take("050404ff000c000000000000000004d30400ff64e6dbcf561e033fdaa4d460"),
        wanted: Some(Wanted::Offer),
    },
    ServerRow {
        layers: 7,
        size: 65535,
        stage: Stage::Offered,
        call: Call::Take("050404ff000c000000000000000004d348867669432f304c3d687a74"),
        wanted: Some(Wanted::Offer),
    },
    ServerRow {
        layers: 7,
        size: 65535,
        stage: Stage::Offered,
        call: Call::Take(
            "050404ff000c000000000000000004d30400ffff616cff636548b7ea73d03d479e45177700",
        ),
        wanted: Some(Wanted::Offer),
    },
    ServerRow {
        layers: 7,
        size: 65535,
        stage: Stage::Offered,
        call: Call::Take("050404ff000c000000000000000004d30400ffff616cc3bf92b6a8312719b49300fa41"),
        wanted: Some(Wanted::Offer),
    },
    // Two layers, none, another bit, one that was not offered, and no layer with a size.
    ServerRow {
        layers: 7,
        size: 65535,
        stage: Stage::Offered,
        call: Call::Take(
            "050404ff000c000000000000000004d30600ffff616c6963655e2b65362ac5d4f86774efc7",
        ),
        wanted: Some(Wanted::Layer),
    },
    ServerRow {
        layers: 7,
        size: 65535,
        stage: Stage::Offered,
        call: Call::Take(
            "050404ff000c000000000000000004d30000ffff616c696365ba5e54d2f4f4f3a2dd1bd682",
        ),
        wanted: Some(Wanted::Layer),
    },
    ServerRow {
        layers: 7,
        size: 65535,
        stage: Stage::Offered,
        call: Call::Take(
            "050404ff000c000000000000000004d30800ffff616c696365b260fd95332fb5d543025409",
        ),
        wanted: Some(Wanted::Layer),
    },
    ServerRow {
        layers: 3,
        size: 65535,
        stage: Stage::Offered,
        call: Call::Take(
            "050404ff000c000000000000000004d30400ffff616c6963650ec7253ea1ce4b57d5ce3d3b",
        ),
        wanted: Some(Wanted::Layer),
    },
    ServerRow {
        layers: 7,
        size: 65535,
        stage: Stage::Offered,
        call: Call::Take(
            "050404ff000c000000000000000004d301000001616c6963651d341e813d1c81049ffd56fc",
        ),
        wanted: Some(Wanted::Layer),
    },
    // Messages longer than the client receives, and one that is as long.
    ServerRow {
        layers: 7,
        size: 65535,
        stage: Stage::Agreed(SHORT),
        call: Call::Seal(3),
        wanted: Some(Wanted::TooLarge),
    },
    ServerRow {
        layers: 7,
        size: 65535,
        stage: Stage::Agreed(ROOMY),
        call: Call::Seal(3),
        wanted: None,
    },
    // Frames without a length, cut, with one octet more, and longer than the server receives.
    ServerRow {
        layers: 7,
        size: 65535,
        stage: Stage::Agreed(SEALED),
        call: Call::Unseal(""),
        wanted: Some(Wanted::Frame),
    },
    ServerRow {
        layers: 7,
        size: 65535,
        stage: Stage::Agreed(SEALED),
        call: Call::Unseal("000000"),
        wanted: Some(Wanted::Frame),
    },
    ServerRow {
        layers: 7,
        size: 65535,
        stage: Stage::Agreed(SEALED),
        call: Call::Unseal(
            "0000003f050406ff0000001c00000000000004d49f36c06ced8d23a1bf9bea52d71f69ebed34fd889ed834277f518a44f51e1a956250a70b8338d587b858435eab72",
        ),
        wanted: Some(Wanted::Frame),
    },
    ServerRow {
        layers: 7,
        size: 65535,
        stage: Stage::Agreed(SEALED),
        call: Call::Unseal(
            "0000003f050406ff0000001c00000000000004d49f36c06ced8d23a1bf9bea52d71f69ebed34fd889ed834277f518a44f51e1a956250a70b8338d587b858435eab727c00",
        ),
        wanted: Some(Wanted::Frame),
    },
    ServerRow {
        layers: 7,
        size: 63,
        stage: Stage::Agreed(SEALED),
        call: Call::Unseal(
            "00000040050406ff0000001c00000000000004d42bd850248ecb97c65eb6df81ad09f117359d3da7d079985ce41753edf51e1a956250a70b8338d587b858435e7227edf3",
        ),
        wanted: Some(Wanted::TooLarge),
    },
    ServerRow {
        layers: 7,
        size: 63,
        stage: Stage::Agreed(SEALED),
        call: Call::Unseal(
            "0000003f050406ff0000001c00000000000004d49f36c06ced8d23a1bf9bea52d71f69ebed34fd889ed834277f518a44f51e1a956250a70b8338d587b858435eab727c",
        ),
        wanted: None,
    },
    // Messages of another layer.
    ServerRow {
        layers: 7,
        size: 65535,
        stage: Stage::Agreed(SEALED),
        call: Call::Unseal(
            "0000001f050404ff000c000000000000000004d461626331df40a9dd8f9662c5c8f1c0",
        ),
        wanted: Some(Wanted::Frame),
    },
    ServerRow {
        layers: 7,
        size: 65535,
        stage: Stage::Agreed(CHECKED),
        call: Call::Unseal(
            "0000003f050406ff0000001c00000000000004d49f36c06ced8d23a1bf9bea52d71f69ebed34fd889ed834277f518a44f51e1a956250a70b8338d587b858435eab727c",
        ),
        wanted: Some(Wanted::Frame),
    },
    ServerRow {
        layers: 7,
        size: 65535,
        stage: Stage::Agreed(CHECKED),
        call: Call::Unseal(
            "0000001f050404ff000c000000000000000004d461626331df40a9dd8f9662c5c8f1c0",
        ),
        wanted: None,
    },
    ServerRow {
        layers: 7,
        size: 65535,
        stage: Stage::Agreed(BARE),
        call: Call::Unseal("00000003616263"),
        wanted: None,
    },
    // Messages that the context does not open.
    ServerRow {
        layers: 7,
        size: 65535,
        stage: Stage::Agreed(SEALED),
        call: Call::Unseal("00000000"),
        wanted: Some(Wanted::Context(Cause::Header)),
    },
    ServerRow {
        layers: 7,
        size: 65535,
        stage: Stage::Agreed(SEALED),
        call: Call::Unseal(
            "0000003f050406ff0000001c00000000000004d49f36c06ced8d23a1bf9bea52d71f69ebed34fd889ed834277f518a44f51e1a956250a70b8338d587b858435eab727d",
        ),
        wanted: Some(Wanted::Context(Cause::Altered)),
    },
    ServerRow {
        layers: 7,
        size: 65535,
        stage: Stage::Agreed(CHECKED),
        call: Call::Unseal(
            "0000001f050404ff000c000000000000000004d461626331df40a9dd8f9662c5c8f1c1",
        ),
        wanted: Some(Wanted::Context(Cause::Altered)),
    },
];

fn server_rows() -> &'static [ServerRow] {
    &SERVER_ROWS
}

/// How a server refuses a call, None where it does not.
fn server_refusal(
    alloc: Global,
    server: &mut SaslServer,
    call: Call,
) -> Result<Option<SaslError>, Fail> {
    let answer = match call {
        Call::Offer => server.offer(alloc),
        Call::Take(token) => server.accept(alloc, octets(alloc, token)?.as_slice()),
        Call::Seal(len) => server.seal(alloc, plain(alloc, len)?.as_slice(), CONFOUNDER),
        Call::Unseal(frame) => server.unseal(alloc, octets(alloc, frame)?.as_slice()),
    };
    Ok(answer.err())
}

/// Brings a server to a stage; whether it came there.
fn bring(alloc: Global, server: &mut SaslServer, stage: Stage) -> Result<bool, Fail> {
    let (offers, answer) = match stage {
        Stage::New => (false, None),
        Stage::Offered => (true, None),
        Stage::Agreed(answer) => (true, Some(answer)),
    };
    let offered = !offers || server_refusal(alloc, server, Call::Offer)?.is_none();
    match answer {
        Some(answer) => {
            Ok(offered && server_refusal(alloc, server, Call::Take(answer))?.is_none())
        }
        None => Ok(offered),
    }
}

/// Whether the server comes to its stage, and answers as the row has it.
pub fn server_answers(
    alloc: Global,
    server: &mut SaslServer,
    row: &ServerRow,
) -> Result<bool, Fail> {
    let there = bring(alloc, server, row.stage)?;
    let refusal = server_refusal(alloc, server, row.call)?;
    Ok(there && is_refused(&refusal, row.wanted))
}

#[test]
fn a_server_refuses_what_fails_a_check(rt: HostRuntime) -> Result<(), Fail> {
    for (place, row) in server_rows().iter().enumerate() {
        assert!(rt;
            new_server_passes(
                rt.alloc(),
                &ACCEPTOR,
                row.layers,
                row.size,
                ServerCase::Call(row)
            )?,
            "row {}",
            place
        );
    }
    Ok(())
}
