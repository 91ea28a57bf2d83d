//! Messages between a client and an acceptor whose exchange is over.

use super::{gave, octets};
use krb_conf::KerberosConfig;
use krb_context::{Kerberos, KerberosState, ServerProperties};
use krb_crypto::CipherSuite;
use krb_der::{Octets, Text, boxed};
use krb_entrance::{Fault, Order, Session};
use sspi_core::Secret;
use std::alloc::Global;
use std::test::Fail;

const TEXT: &[u8] = b"some plain message";

/// Ends the exchange of this connection with a key.
fn establish(alloc: Global, connection: &mut Kerberos) -> Result<(), Fail> {
    connection.encryption_params.sub_session_key = Some(Secret::new(octets(alloc, 32)?));
    connection.encryption_params.encryption_type = Some(CipherSuite::Aes256CtsHmacSha196);
    connection.state = KerberosState::Final;
    Ok(())
}

fn config(alloc: Global) -> Result<KerberosConfig, Fail> {
    let name = Text::new(String::from_str(alloc, "client")?);
    Ok(KerberosConfig::new(alloc, "", name)?)
}

/// A session of this connection, with a key.
fn established(alloc: Global, connection: Kerberos) -> Result<Box<Session>, Fail> {
    let session = Session {
        answer: Octets::new(Vec::new(alloc)),
        connection,
        client: None,
        order: Order::Any,
    };
    let mut session = boxed(alloc, session)?;
    establish(alloc, &mut session.connection)?;
    Ok(session)
}

/// The first number is 2^32 - 1.
fn acceptor(alloc: Global) -> Result<Box<Session>, Fail> {
    let properties = ServerProperties::new(alloc, &["host", "server"], None, 300, None)?;
    let connection = Kerberos::new_server_from_config(config(alloc)?, properties, [255; 4])?;
    established(alloc, connection)
}

fn initiator(alloc: Global) -> Result<Box<Session>, Fail> {
    let connection = Kerberos::new_client_from_config(config(alloc)?, [0; 4]);
    established(alloc, connection)
}

/// Whether the receiver opens this token to the text, and only once.
fn opens(alloc: Global, to: &mut Session, token: &[u8]) -> bool {
    let mut room = [0; 128];
    let count = to.unwrap(alloc, token, &mut room);
    gave(count, &room, TEXT) && to.unwrap(alloc, token, &mut room).is_err()
}

fn goes_sealed(alloc: Global, from: &mut Session, to: &mut Session) -> bool {
    let mut room = [0; 128];
    match from.wrap(alloc, TEXT, [0; 16], &mut room) {
        Ok(count) if count <= 128 => opens(alloc, to, &room[..count]),
        _ => false,
    }
}

fn goes_in_clear(alloc: Global, from: &mut Session, to: &mut Session) -> bool {
    let mut room = [0; 128];
    match from.wrap_in_clear(alloc, TEXT, &mut room) {
        Ok(count) if count <= 128 => opens(alloc, to, &room[..count]),
        _ => false,
    }
}

fn is_signed(alloc: Global, from: &mut Session, to: &mut Session) -> bool {
    let mut room = [0; 28];
    match from.mic(alloc, TEXT, &mut room) {
        Ok(28) => to.verify(&room, TEXT).is_ok() && to.verify(&room, b"another").is_err(),
        _ => false,
    }
}

/// Whether a room that is too short says how long the token is, and the number stays.
fn asks_for_room(alloc: Global, from: &mut Session) -> bool {
    let number = from.connection.seq_number;
    let mut room = [0; 77];
    from.wrap(alloc, TEXT, [0; 16], &mut room) == Err(Fault::Room(78))
        && from.connection.seq_number == number
}

fn goes(alloc: Global, from: &mut Session, to: &mut Session) -> [bool; 4] {
    [
        asks_for_room(alloc, from),
        goes_sealed(alloc, from, to),
        goes_in_clear(alloc, from, to),
        is_signed(alloc, from, to),
    ]
}

/// Ends that take messages in order, a first one of each kind lost.
fn goes_in_order(alloc: Global, from: &mut Session, to: &mut Session) -> [bool; 4] {
    to.set_in_order();
    let began = goes_sealed(alloc, from, to) && goes_in_clear(alloc, from, to);
    let mut lost = [0; 128];
    let is_lost = from.wrap(alloc, TEXT, [0; 16], &mut lost).is_ok();
    let mut mic = [0; 28];
    let is_made = from.mic(alloc, TEXT, &mut mic) == Ok(28);
    let order = to.order;
    let is_refused = to.verify(&mic, TEXT).is_err() && to.order == order;
    [
        began,
        is_lost && is_made,
        is_refused,
        opens(alloc, to, &lost[..78]) && to.verify(&mic, TEXT).is_ok(),
    ]
}

#[test]
fn messages_go_both_ways_in_order(rt: HostRuntime) -> Result<(), Fail> {
    let mut client = initiator(rt.alloc())?;
    let mut server = acceptor(rt.alloc())?;
    assert_eq!(rt;
        goes_in_order(rt.alloc(), &mut client, &mut server),
        [true; 4]
    );
    assert_eq!(rt;
        goes_in_order(rt.alloc(), &mut server, &mut client),
        [true; 4]
    );
    Ok(())
}

#[test]
fn messages_go_both_ways(rt: HostRuntime) -> Result<(), Fail> {
    let mut client = initiator(rt.alloc())?;
    let mut server = acceptor(rt.alloc())?;
    assert_eq!(rt; goes(rt.alloc(), &mut client, &mut server), [true; 4]);
    assert_eq!(rt; goes(rt.alloc(), &mut server, &mut client), [true; 4]);
    Ok(())
}
