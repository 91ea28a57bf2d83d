//! Each refusal of a client. The tokens and the frames are those of a second implementation.

use super::ends::{Wanted, is_refused, octets, plain};
use super::refusals::Call;
use super::{CONFOUNDER, ClientCase, new_client_passes};
use krb_sasl::{Layer, SaslClient, SaslError};
use sspi_core::Cause;
use std::alloc::Global;
use std::test::Fail;

/// An offer of all layers, of a server that receives messages of 65535 octets at most.
const OFFER: &str = "050405ff000c000000000000000000010700ffff90f6409b0f5d060e5d5b6f9c";

/// An offer of a server that receives 62 octets at most.
const SHORT_OFFER: &str = "050405ff000c000000000000000000010700003e06064c3d0ed01863a680e3e4";

/// One that receives 63.
const ROOMY_OFFER: &str = "050405ff000c000000000000000000010700003f115e476bf625f8f6509e10ad";

/// A client that asks for a layer and receives messages of this many octets, the offer that it answered before, and how it refuses
/// a call.
pub struct ClientRow {
    layer: Layer,
    size: u32,
    offer: Option<&'static str>,
    call: Call,
    wanted: Option<Wanted>,
}

static CLIENT_ROWS: [ClientRow; 22] = [
    // Out of turn.
    ClientRow {
        layer: Layer::Confidentiality,
        size: 65535,
        offer: Some(OFFER),
        call: Call::Take("050405ff000c000000000000000000020700ffff2f2570d91a22cf21a56d2c3f"),
        wanted: Some(Wanted::State),
    },
    ClientRow {
        layer: Layer::Confidentiality,
        size: 65535,
        offer: None,
        call: Call::Seal(3),
        wanted: Some(Wanted::State),
    },
    ClientRow {
        layer: Layer::Confidentiality,
        size: 65535,
        offer: None,
        call: Call::Unseal(
            "0000003f050407ff0000001c0000000000000002196f4cc273949cb44623441602b71a80dfbf48424d158c587014cb0c23bd1f2824d7dc953587493a6b0cedd5bb7932",
        ),
        wanted: Some(Wanted::State),
    },
    // Tokens that the context does not open.
    ClientRow {
        layer: Layer::Confidentiality,
        size: 65535,
        offer: None,
        call: Call::Take("050405ff000c00000000000000000001"),
        wanted: Some(Wanted::Context(Cause::Short)),
    },
    ClientRow {
        layer: Layer::Confidentiality,
        size: 65535,
        offer: None,
        call: Call::Take("050405ff000c000000000000000000010700ffff90f6409b0f5d060e5d5b6f9d"),
        wanted: Some(Wanted::Context(Cause::Altered)),
    },
    ClientRow {
        layer: Layer::Confidentiality,
        size: 65535,
        offer: None,
        call: Call::Take(
            "050404ff000c000000000000000004d30400ffff616c6963650ec7253ea1ce4b57d5ce3d3b",
        ),
        wanted: Some(Wanted::Context(Cause::Direction)),
    },
    // Texts of three octets and of five.
    ClientRow {
        layer: Layer::Confidentiality,
        size: 65535,
        offer: None,
        call: Call::Take("050405ff000c000000000000000000010700ffcf46a626250615306c50505f"),
        wanted: Some(Wanted::Offer),
    },
    ClientRow {
        layer: Layer::Confidentiality,
        size: 65535,
        offer: None,
        call: Call::Take("050405ff000c000000000000000000010700ffff0071b557bb3044f365eb7f5a22"),
        wanted: Some(Wanted::Offer),
    },
    // The layer is not offered, or no layer alone with a size.
    ClientRow {
        layer: Layer::Confidentiality,
        size: 65535,
        offer: None,
        call: Call::Take("050405ff000c000000000000000000010300fffff5ce7aa2e5c4fadc145b5d43"),
        wanted: Some(Wanted::Layer),
    },
    ClientRow {
        layer: Layer::Integrity,
        size: 65535,
        offer: None,
        call: Call::Take("050405ff000c000000000000000000010500ffffec5bdc344af60770c855469c"),
        wanted: Some(Wanted::Layer),
    },
    ClientRow {
        layer: Layer::None,
        size: 0,
        offer: None,
        call: Call::Take("050405ff000c000000000000000000010600ffffa149e27c759c5c890b6db36b"),
        wanted: Some(Wanted::Layer),
    },
    ClientRow {
        layer: Layer::None,
        size: 0,
        offer: None,
        call: Call::Take("050405ff000c000000000000000000010100000103261b237a461fa02630dfa9"),
        wanted: Some(Wanted::Layer),
    },
    ClientRow {
        layer: Layer::None,
        size: 0,
        offer: None,
        call: Call::Take("050405ff000c0000000000000000000101000000e566c98754c593e7256be94e"),
        wanted: None,
    },
    // Messages longer than the server receives, and one that is as long.
    ClientRow {
        layer: Layer::Confidentiality,
        size: 65535,
        offer: Some(SHORT_OFFER),
        call: Call::Seal(3),
        wanted: Some(Wanted::TooLarge),
    },
    ClientRow {
        layer: Layer::Confidentiality,
        size: 65535,
        offer: Some(ROOMY_OFFER),
        call: Call::Seal(3),
        wanted: None,
    },
    // Frames that are cut, or longer than the client receives.
    ClientRow {
        layer: Layer::Confidentiality,
        size: 65535,
        offer: Some(OFFER),
        call: Call::Unseal(
            "0000003f050407ff0000001c0000000000000002196f4cc273949cb44623441602b71a80dfbf48424d158c587014cb0c23bd1f2824d7dc953587493a6b0cedd5bb79",
        ),
        wanted: Some(Wanted::Frame),
    },
    ClientRow {
        layer: Layer::Confidentiality,
        size: 63,
        offer: Some(OFFER),
        call: Call::Unseal(
            "00000040050407ff0000001c000000000000000250be6a9ae24be6258de15587ed9b1c522260c4f18a07b4524e538a2c23bd1f2824d7dc953587493a6b0cedd533294fea",
        ),
        wanted: Some(Wanted::TooLarge),
    },
    ClientRow {
        layer: Layer::Confidentiality,
        size: 63,
        offer: Some(OFFER),
        call: Call::Unseal(
            "0000003f050407ff0000001c0000000000000002196f4cc273949cb44623441602b71a80dfbf48424d158c587014cb0c23bd1f2824d7dc953587493a6b0cedd5bb7932",
        ),
        wanted: None,
    },
    // Messages of another layer.
    ClientRow {
        layer: Layer::Confidentiality,
        size: 65535,
        offer: Some(OFFER),
        call: Call::Unseal(
            "0000001f050405ff000c00000000000000000002616263e7c7e775f4e27c958959f9d3",
        ),
        wanted: Some(Wanted::Frame),
    },
    ClientRow {
        layer: Layer::Integrity,
        size: 65535,
        offer: Some(OFFER),
        call: Call::Unseal(
            "0000003f050407ff0000001c0000000000000002196f4cc273949cb44623441602b71a80dfbf48424d158c587014cb0c23bd1f2824d7dc953587493a6b0cedd5bb7932",
        ),
        wanted: Some(Wanted::Frame),
    },
    // Messages that the context does not open.
    ClientRow {
        layer: Layer::Integrity,
        size: 65535,
        offer: Some(OFFER),
        call: Call::Unseal(
            "0000001f050405ff000c00000000000000000002616263e7c7e775f4e27c958959f9d2",
        ),
        wanted: Some(Wanted::Context(Cause::Altered)),
    },
    ClientRow {
        layer: Layer::Confidentiality,
        size: 65535,
        offer: Some(OFFER),
        call: Call::Unseal(
            "0000003f050407ff0000001c0000000000000002196f4cc273949cb44623441602b71a80dfbf48424d158c587014cb0c23bd1f2824d7dc953587493a6b0cedd5bb7933",
        ),
        wanted: Some(Wanted::Context(Cause::Altered)),
    },
];

fn client_rows() -> &'static [ClientRow] {
    &CLIENT_ROWS
}

/// How a client refuses a call, None where it does not. It has no offer to give.
fn client_refusal(
    alloc: Global,
    client: &mut SaslClient,
    call: Call,
) -> Result<Option<SaslError>, Fail> {
    let answer = match call {
        Call::Offer => return Ok(Some(SaslError::State)),
        Call::Take(token) => client.answer(alloc, octets(alloc, token)?.as_slice()),
        Call::Seal(len) => client.seal(alloc, plain(alloc, len)?.as_slice(), CONFOUNDER),
        Call::Unseal(frame) => client.unseal(alloc, octets(alloc, frame)?.as_slice()),
    };
    Ok(answer.err())
}

/// Whether the client answers the offer before, where there is one, and then as the row has it.
pub fn client_answers(
    alloc: Global,
    client: &mut SaslClient,
    row: &ClientRow,
) -> Result<bool, Fail> {
    let there = match row.offer {
        Some(offer) => client_refusal(alloc, client, Call::Take(offer))?.is_none(),
        None => true,
    };
    let refusal = client_refusal(alloc, client, row.call)?;
    Ok(there && is_refused(&refusal, row.wanted))
}

#[test]
fn a_client_refuses_what_fails_a_check(rt: HostRuntime) -> Result<(), Fail> {
    for (place, row) in client_rows().iter().enumerate() {
        assert!(rt;
            new_client_passes(
                rt.alloc(),
                row.layer,
                row.size,
                "alice",
                ClientCase::Call(row)
            )?,
            "row {}",
            place
        );
    }
    Ok(())
}
