//! Conversations of a server and a client, in each layer.

use super::CONFOUNDER;
use super::ends::{ACCEPTOR, fail, new_client, new_server};
use krb_der::Octets;
use krb_sasl::{Layer, SaslClient, SaslError, SaslServer};
use std::alloc::Global;
use std::test::Fail;

/// A layer, how many octets of a message both ends receive at most, and how many octets of data go into the longest, None
/// where any may.
static LAYERS: [(Layer, u32, Option<usize>); 3] = [
    (Layer::None, 0, None),
    (Layer::Integrity, 1028, Some(1000)),
    (Layer::Confidentiality, 1060, Some(1000)),
];

fn layers() -> &'static [(Layer, u32, Option<usize>)] {
    &LAYERS
}

static LENGTHS: [usize; 5] = [0, 1, 999, 1000, 1001];

fn lengths() -> &'static [usize] {
    &LENGTHS
}

/// Both agree; the name that the server gets.
fn agree(
    alloc: Global,
    server: &mut SaslServer,
    client: &mut SaslClient,
) -> Result<Octets, SaslError> {
    let offer = server.offer(alloc)?;
    let answer = client.answer(alloc, offer.as_slice())?;
    server.accept(alloc, answer.as_slice())
}

/// Whether a server and a client agree.
fn have_agreed(
    alloc: Global,
    server: &mut SaslServer,
    client: &mut SaslClient,
) -> Result<bool, Fail> {
    let name = agree(alloc, server, client).map_err(fail)?;
    Ok(name.as_slice() == "alice".as_bytes())
}

/// Whether the octets come from the server to the client.
fn goes(
    alloc: Global,
    server: &mut SaslServer,
    client: &mut SaslClient,
    plain: &[u8],
) -> Result<bool, SaslError> {
    let frame = server.seal(alloc, plain, CONFOUNDER)?;
    let data = client.unseal(alloc, frame.as_slice())?;
    Ok(data.as_slice() == plain)
}

/// Whether they come back.
fn comes(
    alloc: Global,
    server: &mut SaslServer,
    client: &mut SaslClient,
    plain: &[u8],
) -> Result<bool, SaslError> {
    let frame = client.seal(alloc, plain, CONFOUNDER)?;
    let data = server.unseal(alloc, frame.as_slice())?;
    Ok(data.as_slice() == plain)
}

/// Whether an answer is that the octets came, or that they are too many.
fn is_so(answer: Result<bool, SaslError>, is_short: bool) -> bool {
    match answer {
        Ok(came) => came && is_short,
        Err(refusal) => refusal == SaslError::TooLarge && !is_short,
    }
}

/// Whether this many octets go there and back, or are refused where they are more than the longest.
fn crosses(
    alloc: Global,
    server: &mut SaslServer,
    client: &mut SaslClient,
    len: usize,
    longest: Option<usize>,
) -> Result<bool, Fail> {
    let plain = vec![in alloc; 0x61; len]?;
    let is_short = match longest {
        Some(longest) => len <= longest,
        None => true,
    };
    let there = is_so(goes(alloc, server, client, plain.as_slice()), is_short);
    let back = is_so(comes(alloc, server, client, plain.as_slice()), is_short);
    Ok(there && back)
}

/// Whether all of the lengths do.
fn all_cross(
    alloc: Global,
    server: &mut SaslServer,
    client: &mut SaslClient,
    longest: Option<usize>,
) -> Result<bool, Fail> {
    let mut so_far = have_agreed(alloc, server, client)?;
    for len in lengths() {
        so_far = crosses(alloc, server, client, *len, longest)? && so_far;
    }
    Ok(so_far)
}

fn converse(alloc: Global, layer: Layer, size: u32, longest: Option<usize>) -> Result<bool, Fail> {
    let server_size = if size == 0 { 65535 } else { size };
    let mut server = new_server(alloc, &ACCEPTOR, 7, server_size)?;
    converse_with(alloc, &mut server, layer, size, longest)
}

/// Whether a new client speaks with this server.
fn converse_with(
    alloc: Global,
    server: &mut SaslServer,
    layer: Layer,
    size: u32,
    longest: Option<usize>,
) -> Result<bool, Fail> {
    let mut client = new_client(alloc, layer, size, "alice")?;
    all_cross(alloc, server, &mut client, longest)
}

#[test]
fn data_go_there_and_back_in_each_layer(rt: HostRuntime) -> Result<(), Fail> {
    for &(layer, size, longest) in layers() {
        assert!(rt; converse(rt.alloc(), layer, size, longest)?, "{}", size);
    }
    Ok(())
}
