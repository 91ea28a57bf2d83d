//! Messages of 1 KiB that the service seals and opens, at one connection and at many. A client is admitted at each first.

use crate::serving::{Load, ZEROS, admissions, measure};
use anyhow::{Context, Result};
use krb_conf::KerberosConfig;
use krb_context::{Kerberos, KerberosState};
use krb_crypto::CipherSuite;
use krb_der::{Items, Octets, Text, boxed};
use sspi_core::{Error, Message, Part, Secret, SecurityBufferRef};
use std::alloc::Global;
use std::rt::Clock;

/// The octets of a message.
const TEXT: [u8; 1024] = [7; 1024];

/// The key of the client's ticket: the octets 20 to 3f hex.
const SESSION_KEY: [u8; 32] = [
    0x20, 0x21, 0x22, 0x23, 0x24, 0x25, 0x26, 0x27, 0x28, 0x29, 0x2a, 0x2b, 0x2c, 0x2d, 0x2e, 0x2f,
    0x30, 0x31, 0x32, 0x33, 0x34, 0x35, 0x36, 0x37, 0x38, 0x39, 0x3a, 0x3b, 0x3c, 0x3d, 0x3e, 0x3f,
];

/// Room for an event with a message.
const OCTETS_AN_EVENT: usize = 2_560;

/// A message to seal: a token without octets, and the text.
fn plain_message(alloc: Global) -> Result<Message, Error> {
    let token = Octets::new(Vec::new(alloc));
    let text = Octets::from_slice(alloc, &TEXT)?;
    let mut buffers = Vec::new(alloc);
    buffers.push(SecurityBufferRef::token_buf(token, 60))?;
    buffers.push(SecurityBufferRef::data_buf(text, TEXT.len()))?;
    Message::new(Items::new(buffers))
}

/// The client is as once it is admitted, with the same key at each connection.
fn establish(alloc: Global, client: &mut Kerberos) -> Result<(), Error> {
    let key = Octets::from_slice(alloc, &SESSION_KEY)?;
    client.state = KerberosState::Final;
    client.encryption_params.encryption_type = Some(CipherSuite::Aes256CtsHmacSha196);
    client.encryption_params.session_key = Some(Secret::new(key));
    Ok(())
}

/// The client once it is admitted.
fn client(alloc: Global) -> Result<Box<Kerberos>, Error> {
    let name = Text::from_str(alloc, "bench")?;
    let config = KerberosConfig::new(alloc, "", name)?;
    let mut client = boxed(alloc, Kerberos::new_client_from_config(config, [0; 4]))?;
    establish(alloc, &mut client)?;
    Ok(client)
}

/// The next message of the client, sealed.
fn sealed_message(alloc: Global, client: &mut Kerberos) -> Result<Message, Error> {
    let mut message = plain_message(alloc)?;
    client.encrypt_message(alloc, &mut message, [0x5a; 16])?;
    Ok(message)
}

/// The octets of a part of a message, in hex.
fn digits(alloc: Global, message: &Message, part: Part) -> Option<String> {
    hex::encode(alloc, message.find(part)?.data()).ok()
}

/// An event with a message, at a connection.
fn event_line(alloc: Global, connection: u32, call: &str, message: &Message) -> Option<String> {
    let token = digits(alloc, message, Part::Token)?;
    let text = digits(alloc, message, Part::Plain)?;
    format!(in alloc;
        "event {connection} 1700000000000000 {ZEROS} - {call} T:{token}:60 D:{text}:1024\n"
    ).ok()
}

/// Puts an event with a message after an input.
fn put_event(
    alloc: Global,
    connection: u32,
    call: &str,
    message: &Message,
    input: &mut Vec<u8>,
) -> Option<()> {
    let line = event_line(alloc, connection, call, message)?;
    input.extend_from_slice(line.as_bytes()).ok()
}

/// An input of admissions, with room for this many messages after them.
fn admitted(alloc: Global, connections: u32, count: u32) -> Option<Vec<u8>> {
    let mut input = admissions(alloc, connections, false)?;
    let room = (count as usize).saturating_mul(OCTETS_AN_EVENT);
    input.reserve(room).ok()?;
    Some(input)
}

/// The connection of message number `k`, from 1 on.
fn connection_of(k: u32, connections: u32) -> u32 {
    k.checked_rem(connections).unwrap_or(0).saturating_add(1)
}

/// Puts a message after an input this many times, to be sealed, at the connections in turn.
fn put_wraps(
    alloc: Global,
    connections: u32,
    count: u32,
    message: &Message,
    input: &mut Vec<u8>,
) -> Option<()> {
    for k in 0..count {
        put_event(alloc, connection_of(k, connections), "wrap", message, input)?;
    }
    Some(())
}

/// So many messages to seal, at the connections in turn.
pub(crate) fn wraps(alloc: Global, connections: u32, count: u32) -> Option<Vec<u8>> {
    let mut input = admitted(alloc, connections, count)?;
    let message = plain_message(alloc).ok()?;
    put_wraps(alloc, connections, count, &message, &mut input)?;
    Some(input)
}

/// Puts the next message of the client after an input, sealed, to be opened at a connection.
fn put_unwrap(
    alloc: Global,
    connection: u32,
    client: &mut Kerberos,
    input: &mut Vec<u8>,
) -> Option<()> {
    let message = sealed_message(alloc, client).ok()?;
    put_event(alloc, connection, "unwrap", &message, input)
}

/// Puts this many there, at the connections in turn.
fn put_unwraps(
    alloc: Global,
    connections: u32,
    count: u32,
    client: &mut Kerberos,
    input: &mut Vec<u8>,
) -> Option<()> {
    for k in 0..count {
        put_unwrap(alloc, connection_of(k, connections), client, input)?;
    }
    Some(())
}

/// So many messages to open, at the connections in turn.
fn unwraps(alloc: Global, connections: u32, count: u32) -> Option<Vec<u8>> {
    let mut input = admitted(alloc, connections, count)?;
    let mut client = client(alloc).ok()?;
    put_unwraps(alloc, connections, count, &mut client, &mut input)?;
    Some(input)
}

/// Measures an input of messages.
fn measure_messages(
    rt: &(impl Print + Eprint + Clock + AllocGlobal),
    call: &str,
    connections: u32,
    events: u32,
    input: &[u8],
) -> Result<()> {
    let name = format!(in rt.alloc(); "{call} of 1 KiB, {connections} connections")?;
    let load = Load {
        name: name.as_str(),
        events,
        answer: "buffers",
        octets: (events as usize).saturating_mul(TEXT.len()),
        input,
    };
    measure(rt, &load)
}

/// Measures this many messages to open.
fn measure_unwraps(
    rt: &(impl Print + Eprint + Clock + AllocGlobal),
    connections: u32,
    events: u32,
) -> Result<()> {
    let input = unwraps(rt.alloc(), connections, events).context("out of memory")?;
    measure_messages(rt, "unwrap", connections, events, input.as_slice())
}

/// Measures this many messages to seal, and this many to open.
fn measure_both(
    rt: &(impl Print + Eprint + Clock + AllocGlobal),
    connections: u32,
    events: u32,
) -> Result<()> {
    let input = wraps(rt.alloc(), connections, events).context("out of memory")?;
    measure_messages(rt, "wrap", connections, events, input.as_slice())?;
    measure_unwraps(rt, connections, events)
}

/// Measures 1,000, 10,000 and 100,000 messages at one connection, and 100,000 at 1,000 connections.
pub fn run(rt: &(impl Print + Eprint + Clock + AllocGlobal), full: bool) -> Result<()> {
    if full {
        measure_both(rt, 1, 1_000)?;
        measure_both(rt, 1, 10_000)?;
        measure_both(rt, 1, 100_000)?;
        measure_both(rt, 1_000, 100_000)
    } else {
        measure_both(rt, 1, 10)?;
        measure_both(rt, 5, 10)
    }
}
