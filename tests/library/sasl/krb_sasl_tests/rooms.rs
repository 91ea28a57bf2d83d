//! Octets in a caller's room. Those that go into it are those of a second implementation.

use super::ends::{ACCEPTOR, Wanted, is_refused, octets};
use super::spelled::{OFFER, Row, rows};
use super::{CONFOUNDER, ClientCase, ServerCase, new_client_passes, new_server_passes};
use krb_der::Octets;
use krb_sasl::{Layer, SaslClient, SaslFault, SaslServer};
use sspi_core::Cause;
use std::alloc::Global;
use std::test::Fail;

/// A call of an end: a server for its offer, to accept a token, a client to answer one, both to seal octets, or to unseal
/// a frame.
#[derive(Clone, Copy)]
pub enum Ask {
    Offer,
    Take,
    Seal,
    Unseal,
}

fn ask_server(
    alloc: Global,
    server: &mut SaslServer,
    ask: Ask,
    octets: &[u8],
    out: &mut [u8],
) -> Result<usize, SaslFault> {
    match ask {
        Ask::Offer => server.offer_to(alloc, out),
        Ask::Take => server.accept_to(alloc, octets, out),
        Ask::Seal => server.seal_to(alloc, octets, CONFOUNDER, out),
        Ask::Unseal => server.unseal_to(alloc, octets, out),
    }
}

/// A client has no offer to give.
fn ask_client(
    alloc: Global,
    client: &mut SaslClient,
    ask: Ask,
    octets: &[u8],
    out: &mut [u8],
) -> Result<usize, SaslFault> {
    match ask {
        Ask::Offer => Ok(0),
        Ask::Take => client.answer_to(alloc, octets, out),
        Ask::Seal => client.seal_to(alloc, octets, CONFOUNDER, out),
        Ask::Unseal => client.unseal_to(alloc, octets, out),
    }
}

/// Longer than all that goes into a room here.
const ROOM: [u8; 128] = [0x5a; 128];

/// Whether a call says how many octets it has, and left the room as it was.
fn wants(answer: Result<usize, SaslFault>, room: &[u8; 128], len: usize) -> bool {
    answer == Err(SaslFault::Room(len)) && *room == ROOM
}

/// Whether a call put these octets at the front of the room, and left the rest as it was.
fn filled(answer: Result<usize, SaslFault>, room: &[u8; 128], given: &[u8]) -> bool {
    let mut whole = ROOM;
    if given.len() > 128 {
        return false;
    }
    whole[..given.len()].copy_from_slice(given);
    answer == Ok(given.len()) && *room == whole
}

/// Whether a server does not put these octets into a room that is one octet short, and then puts them into one that has one octet
/// more.
fn server_fills(
    alloc: Global,
    server: &mut SaslServer,
    ask: Ask,
    octets: &[u8],
    given: &[u8],
) -> bool {
    let len = given.len();
    let mut room = ROOM;
    if len > 127 {
        return false;
    }
    let is_short = len == 0
        || wants(
            ask_server(alloc, server, ask, octets, &mut room[..len - 1]),
            &room,
            len,
        );
    let answer = ask_server(alloc, server, ask, octets, &mut room[..len + 1]);
    is_short && filled(answer, &room, given)
}

/// Whether a client does so.
fn client_fills(
    alloc: Global,
    client: &mut SaslClient,
    ask: Ask,
    octets: &[u8],
    given: &[u8],
) -> bool {
    let len = given.len();
    let mut room = ROOM;
    if len > 127 {
        return false;
    }
    let is_short = len == 0
        || wants(
            ask_client(alloc, client, ask, octets, &mut room[..len - 1]),
            &room,
            len,
        );
    let answer = ask_client(alloc, client, ask, octets, &mut room[..len + 1]);
    is_short && filled(answer, &room, given)
}

/// The octets of a row: the offer, the answer to it, the frame of the server and the client's.
#[derive(Drop)]
struct Spelled {
    offer: Octets,
    answer: Octets,
    frame: Octets,
    back: Octets,
}

fn octets_of(alloc: Global, row: &Row) -> Result<Spelled, Fail> {
    Ok(Spelled {
        offer: octets(alloc, OFFER)?,
        answer: octets(alloc, row.answer)?,
        frame: octets(alloc, row.frame)?,
        back: octets(alloc, row.back)?,
    })
}

/// Whether a server fills rooms with its offer, the user's name, a frame and the data of one.
fn server_fills_all(alloc: Global, server: &mut SaslServer, name: &str, so: &Spelled) -> bool {
    server_fills(alloc, server, Ask::Offer, b"", so.offer.as_slice())
        && server_fills(
            alloc,
            server,
            Ask::Take,
            so.answer.as_slice(),
            name.as_bytes(),
        )
        && server_fills(alloc, server, Ask::Seal, b"abc", so.frame.as_slice())
        && server_fills(alloc, server, Ask::Unseal, so.back.as_slice(), b"abc")
}

pub fn server_fills_rooms(alloc: Global, server: &mut SaslServer, row: &Row) -> Result<bool, Fail> {
    let so = octets_of(alloc, row)?;
    Ok(server_fills_all(alloc, server, row.name, &so))
}

/// Whether a client fills rooms with its answer, the data of a frame and a frame.
fn client_fills_all(alloc: Global, client: &mut SaslClient, so: &Spelled) -> bool {
    client_fills(
        alloc,
        client,
        Ask::Take,
        so.offer.as_slice(),
        so.answer.as_slice(),
    ) && client_fills(alloc, client, Ask::Unseal, so.frame.as_slice(), b"abc")
        && client_fills(alloc, client, Ask::Seal, b"abc", so.back.as_slice())
}

pub fn client_fills_rooms(alloc: Global, client: &mut SaslClient, row: &Row) -> Result<bool, Fail> {
    let so = octets_of(alloc, row)?;
    Ok(client_fills_all(alloc, client, &so))
}

#[test]
fn a_server_fills_a_room_or_is_as_before(rt: HostRuntime) -> Result<(), Fail> {
    for row in rows() {
        assert!(rt;
            new_server_passes(rt.alloc(), &ACCEPTOR, 7, 65535, ServerCase::Rooms(row))?,
            "{}",
            row.answer
        );
    }
    Ok(())
}

#[test]
fn a_client_fills_a_room_or_is_as_before(rt: HostRuntime) -> Result<(), Fail> {
    for row in rows() {
        assert!(rt;
            new_client_passes(
                rt.alloc(),
                row.layer,
                row.size,
                row.name,
                ClientCase::Rooms(row)
            )?,
            "{}",
            row.answer
        );
    }
    Ok(())
}

/// An answer that chooses two layers, a frame of the client, an offer without Confidentiality, and a frame of the server.
const TWO_LAYERS: &str =
    "050404ff000c000000000000000004d30600ffff616c6963655e2b65362ac5d4f86774efc7";

const CLIENT_FRAME: &str = "0000001f050404ff000c000000000000000004d461626331df40a9dd8f9662c5c8f1c0";

const TOO_FEW: &str = "050405ff000c000000000000000000010300fffff5ce7aa2e5c4fadc145b5d43";

const SERVER_FRAME: &str = "0000001f050405ff000c00000000000000000002616263e7c7e775f4e27c958959f9d3";

/// A call, its octets, and its refusal.
type Refusal = (Ask, &'static str, Wanted);

/// The refusals of a server before its offer.
static BEFORE: [Refusal; 3] = [
    (Ask::Take, TWO_LAYERS, Wanted::State),
    (Ask::Seal, "616263", Wanted::State),
    (Ask::Unseal, CLIENT_FRAME, Wanted::State),
];

/// Its refusals then. The number of an answer with a wrong text is kept.
static BEHIND: [Refusal; 3] = [
    (Ask::Offer, "", Wanted::State),
    (Ask::Take, TWO_LAYERS, Wanted::Layer),
    (Ask::Take, TWO_LAYERS, Wanted::Context(Cause::Repeated)),
];

/// The refusals of a client that asks for Confidentiality.
static OF_CLIENT: [Refusal; 4] = [
    (Ask::Seal, "616263", Wanted::State),
    (Ask::Unseal, SERVER_FRAME, Wanted::State),
    (Ask::Take, TOO_FEW, Wanted::Layer),
    (Ask::Take, TOO_FEW, Wanted::Context(Cause::Repeated)),
];

fn before() -> &'static [Refusal] {
    &BEFORE
}

fn behind() -> &'static [Refusal] {
    &BEHIND
}

fn of_client() -> &'static [Refusal] {
    &OF_CLIENT
}

fn refuses(answer: Result<usize, SaslFault>, wanted: Wanted) -> bool {
    match answer {
        Err(SaslFault::Refused(refusal)) => is_refused(&Some(refusal), Some(wanted)),
        _ => false,
    }
}

fn server_refuses(
    alloc: Global,
    server: &mut SaslServer,
    refusals: &[Refusal],
) -> Result<bool, Fail> {
    let mut so_far = true;
    for &(ask, text, wanted) in refusals {
        let given = octets(alloc, text)?;
        let answer = ask_server(alloc, server, ask, given.as_slice(), &mut []);
        so_far = refuses(answer, wanted) && so_far;
    }
    Ok(so_far)
}

/// Whether a server refuses so with no room at all.
pub fn server_refuses_first(alloc: Global, server: &mut SaslServer) -> Result<bool, Fail> {
    let new = server_refuses(alloc, server, before())?;
    let offered = server.offer(alloc).is_ok();
    Ok(new && offered && server_refuses(alloc, server, behind())?)
}

/// Whether a client does.
pub fn client_refuses_first(alloc: Global, client: &mut SaslClient) -> Result<bool, Fail> {
    let mut so_far = true;
    for &(ask, text, wanted) in of_client() {
        let given = octets(alloc, text)?;
        let answer = ask_client(alloc, client, ask, given.as_slice(), &mut []);
        so_far = refuses(answer, wanted) && so_far;
    }
    Ok(so_far)
}

#[test]
fn a_server_refuses_before_it_wants_room(rt: HostRuntime) -> Result<(), Fail> {
    let refuses = new_server_passes(rt.alloc(), &ACCEPTOR, 7, 65535, ServerCase::Refuses)?;
    assert!(rt; refuses);
    Ok(())
}

#[test]
fn a_client_refuses_before_it_wants_room(rt: HostRuntime) -> Result<(), Fail> {
    let layer = Layer::Confidentiality;
    let refuses = new_client_passes(rt.alloc(), layer, 65535, "alice", ClientCase::Refuses)?;
    assert!(rt; refuses);
    Ok(())
}
