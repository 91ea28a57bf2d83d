//! New ends, and contexts that have no key, or not yet.

use super::ends::{ACCEPTOR, End, INITIATOR, Wanted, context_of, is_refused, octets};
use super::{ServerCase, new_server_passes};
use krb_context::{Kerberos, KerberosState};
use krb_sasl::{Layer, SaslClient, SaslServer, wrap_plain};
use sspi_core::Cause;
use std::alloc::Global;
use std::test::Fail;

/// An acceptor before its exchange.
const WAITING: End = End {
    state: KerberosState::TgtExchange,
    ..ACCEPTOR
};

/// An acceptor without a key.
const KEYLESS: End = End {
    key: None,
    ..ACCEPTOR
};

/// An acceptor whose key is too short.
const SHORT_KEY: End = End {
    key: Some("202122232425262728292a2b2c2d2e2f"),
    ..ACCEPTOR
};

/// An initiator before its exchange.
const WAITING_INITIATOR: End = End {
    state: KerberosState::TgtExchange,
    ..INITIATOR
};

/// The layers and the size of a server, and how it is refused.
static SERVERS: [(End, u8, u32, Option<Wanted>); 9] = [
    (ACCEPTOR, 0, 65535, Some(Wanted::Layers)),
    (ACCEPTOR, 8, 65535, Some(Wanted::Layers)),
    (ACCEPTOR, 255, 65535, Some(Wanted::Layers)),
    (ACCEPTOR, 7, 16777216, Some(Wanted::Layers)),
    (ACCEPTOR, 1, 1, Some(Wanted::Layers)),
    (WAITING, 1, 1, Some(Wanted::Layers)),
    (WAITING, 7, 65535, Some(Wanted::State)),
    (ACCEPTOR, 1, 0, None),
    (ACCEPTOR, 7, 16777215, None),
];

fn servers() -> &'static [(End, u8, u32, Option<Wanted>)] {
    &SERVERS
}

fn server_is_made(
    alloc: Global,
    end: &End,
    layers: u8,
    size: u32,
    wanted: Option<Wanted>,
) -> Result<bool, Fail> {
    let context = context_of(alloc, end)?;
    Ok(is_refused(
        &SaslServer::new(Box::into_inner(context), layers, size).err(),
        wanted,
    ))
}

#[test]
fn a_server_has_layers_and_an_exchange_that_is_over(rt: HostRuntime) -> Result<(), Fail> {
    for &(end, layers, size, wanted) in servers() {
        assert!(rt;
            server_is_made(rt.alloc(), &end, layers, size, wanted)?,
            "{} {}",
            layers,
            size
        );
    }
    Ok(())
}

/// The layer that a client asks for and its size, and how it is refused.
static CLIENTS: [(End, Layer, u32, Option<Wanted>); 6] = [
    (INITIATOR, Layer::Integrity, 16777216, Some(Wanted::Layers)),
    (INITIATOR, Layer::None, 1, Some(Wanted::Layers)),
    (WAITING_INITIATOR, Layer::None, 1, Some(Wanted::Layers)),
    (WAITING_INITIATOR, Layer::None, 0, Some(Wanted::State)),
    (INITIATOR, Layer::None, 0, None),
    (INITIATOR, Layer::Confidentiality, 16777215, None),
];

fn clients() -> &'static [(End, Layer, u32, Option<Wanted>)] {
    &CLIENTS
}

fn client_is_made(
    alloc: Global,
    end: &End,
    layer: Layer,
    size: u32,
    wanted: Option<Wanted>,
) -> Result<bool, Fail> {
    let context = context_of(alloc, end)?;
    let client = SaslClient::new(alloc, Box::into_inner(context), layer, size, "alice");
    Ok(is_refused(&client.err(), wanted))
}

#[test]
fn a_client_has_a_layer_and_an_exchange_that_is_over(rt: HostRuntime) -> Result<(), Fail> {
    for &(end, layer, size, wanted) in clients() {
        assert!(rt;
            client_is_made(rt.alloc(), &end, layer, size, wanted)?,
            "{}",
            size
        );
    }
    Ok(())
}

/// An end, how it refuses to wrap the text of an offer, and the token that it makes where it does not.
static WRAPS: [(End, Option<Wanted>, &str); 4] = [
    (WAITING, Some(Wanted::Context(Cause::Sequence)), ""),
    (KEYLESS, Some(Wanted::Context(Cause::Sequence)), ""),
    (SHORT_KEY, Some(Wanted::Context(Cause::KeyLength)), ""),
    (
        ACCEPTOR,
        None,
        "050405ff000c000000000000000000010700ffff90f6409b0f5d060e5d5b6f9c",
    ),
];

fn wraps() -> &'static [(End, Option<Wanted>, &'static str)] {
    &WRAPS
}

/// Whether a context wraps so, and counts where it does.
fn wraps_so(
    alloc: Global,
    context: &mut Kerberos,
    wanted: Option<Wanted>,
    token: &str,
) -> Result<bool, Fail> {
    let token = octets(alloc, token)?;
    let number = context.seq_number;
    match wrap_plain(alloc, context, &[7, 0, 255, 255]) {
        Ok(made) => Ok(
            wanted.is_none() && made == token && context.seq_number == number.wrapping_add(1),
        ),
        Err(refusal) => Ok(is_refused(&Some(refusal), wanted) && context.seq_number == number),
    }
}

fn new_context_wraps_so(
    alloc: Global,
    end: &End,
    wanted: Option<Wanted>,
    token: &str,
) -> Result<bool, Fail> {
    let mut context = context_of(alloc, end)?;
    wraps_so(alloc, &mut context, wanted, token)
}

#[test]
fn a_context_wraps_in_the_clear_with_a_key_of_its_size(rt: HostRuntime) -> Result<(), Fail> {
    for &(end, wanted, token) in wraps() {
        assert!(rt;
            new_context_wraps_so(rt.alloc(), &end, wanted, token)?,
            "{}",
            token
        );
    }
    Ok(())
}

#[test]
fn a_server_offers_nothing_without_a_key(rt: HostRuntime) -> Result<(), Fail> {
    let sequence = ServerCase::Offer(Wanted::Context(Cause::Sequence));
    assert!(rt; new_server_passes(rt.alloc(), &KEYLESS, 7, 65535, sequence)?);
    let key_length = ServerCase::Offer(Wanted::Context(Cause::KeyLength));
    assert!(rt; new_server_passes(rt.alloc(), &SHORT_KEY, 7, 65535, key_length)?);
    Ok(())
}
