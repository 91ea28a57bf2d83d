//! Negotiations, frames and refusals of both ends, to octets of a second implementation and of another library.

mod client_refusals;
mod conversations;
mod ends;
mod new_ends;
mod others;
mod refusals;
mod rooms;
mod sequences;
mod server_refusals;
mod spelled;

use client_refusals::ClientRow;
use ends::{End, Wanted, is_refused, new_client, new_server};
use krb_sasl::{Layer, Order, SaslClient, SaslServer};
use server_refusals::ServerRow;
use spelled::Row;
use std::alloc::Global;
use std::test::Fail;

const CONFOUNDER: [u8; 16] = [0, 1, 2, 3, 4, 5, 6, 7, 8, 9, 10, 11, 12, 13, 14, 15];

/// A test of a server: that it refuses to offer, a call, what it sends, frames that are refused or have texts, rooms that
/// are too short and then long enough, and what it refuses with no room.
#[derive(Clone, Copy)]
enum ServerCase {
    Offer(Wanted),
    Call(&'static ServerRow),
    Spelled(&'static Row),
    Frames(Option<Order>, &'static str, &'static [(&'static str, Option<Wanted>)]),
    Texts(&'static str, &'static [(&'static str, &'static str)]),
    Rooms(&'static Row),
    Refuses,
}

fn server_passes(alloc: Global, server: &mut SaslServer, case: ServerCase) -> Result<bool, Fail> {
    match case {
        ServerCase::Offer(wanted) => Ok(is_refused(&server.offer(alloc).err(), Some(wanted))),
        ServerCase::Call(row) => server_refusals::server_answers(alloc, server, row),
        ServerCase::Spelled(row) => spelled::server_speaks(alloc, server, row),
        ServerCase::Frames(order, answer, frames) => {
            sequences::takes_all(alloc, server, order, answer, frames)
        }
        ServerCase::Texts(answer, frames) => others::takes_all(alloc, server, answer, frames),
        ServerCase::Rooms(row) => rooms::server_fills_rooms(alloc, server, row),
        ServerCase::Refuses => rooms::server_refuses_first(alloc, server),
    }
}

/// Whether a new server passes a case.
fn new_server_passes(
    alloc: Global,
    end: &End,
    layers: u8,
    size: u32,
    case: ServerCase,
) -> Result<bool, Fail> {
    let mut server = new_server(alloc, end, layers, size)?;
    server_passes(alloc, &mut server, case)
}

/// A test of a client: a call, its token, rooms, and its refusals with none.
#[derive(Clone, Copy)]
enum ClientCase {
    Call(&'static ClientRow),
    Spelled(&'static Row),
    Rooms(&'static Row),
    Refuses,
}

fn client_passes(alloc: Global, client: &mut SaslClient, case: ClientCase) -> Result<bool, Fail> {
    match case {
        ClientCase::Call(row) => client_refusals::client_answers(alloc, client, row),
        ClientCase::Spelled(row) => spelled::client_speaks(alloc, client, row),
        ClientCase::Rooms(row) => rooms::client_fills_rooms(alloc, client, row),
        ClientCase::Refuses => rooms::client_refuses_first(alloc, client),
    }
}

/// Whether a new client passes a case.
fn new_client_passes(
    alloc: Global,
    layer: Layer,
    size: u32,
    name: &str,
    case: ClientCase,
) -> Result<bool, Fail> {
    let mut client = new_client(alloc, layer, size, name)?;
    client_passes(alloc, &mut client, case)
}
