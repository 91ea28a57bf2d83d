//! Messages as they are written down.

use super::ends::{End, octets};
use krb_der::{Items, boxed};
use sspi_core::{Cause, Message, SecurityBufferFlags, SecurityBufferRef};
use std::alloc::Global;
use std::test::Fail;

/// A message that an end seals or opens, how it is after the call, and the cause of the refusal.
///
/// A message is its buffers, a space between two of them. A buffer is a letter, a colon and its octets in hex, and a colon
/// and its limit where it has room for more. The letter is T for a token, D for data, R for data that are covered and not
/// sealed, and S for a stream.
pub struct Row {
    pub end: End,
    pub before: &'static str,
    pub after: &'static str,
    pub refusal: Option<Cause>,
}

fn buffer_of(alloc: Global, text: &str) -> Result<SecurityBufferRef, Fail> {
    let mut parts = text.split(':');
    let letter = parts.next().unwrap_or("");
    let octets = octets(alloc, parts.next().unwrap_or(""))?;
    let room: usize = parts.next().unwrap_or("0").parse()?;
    let limit = room.max(octets.as_slice().len());
    match letter {
        "T" => Ok(SecurityBufferRef::token_buf(octets, limit)),
        "D" => Ok(SecurityBufferRef::data_buf(octets, limit)),
        "R" => Ok(SecurityBufferRef::data_buf(octets, limit).with_flags(
            SecurityBufferFlags::SECBUFFER_READONLY_WITH_CHECKSUM,
        )),
        "S" => Ok(SecurityBufferRef::stream_buf(octets, limit)),
        _ => Err(Fail::from("another letter")),
    }
}

pub fn message_of(alloc: Global, text: &str) -> Result<Box<Message>, Fail> {
    let mut buffers = Vec::new(alloc);
    for buffer in text.split(' ') {
        buffers.push(buffer_of(alloc, buffer)?)?;
    }
    Ok(boxed(alloc, Message::new(Items::new(buffers))?)?)
}

/// Whether the message's buffers hold what those of the text do.
pub fn holds(alloc: Global, message: &Message, text: &str) -> Result<bool, Fail> {
    let wanted = message_of(alloc, text)?;
    let same = wanted.buffers().len() == message.buffers().len();
    let mut pairs = message.buffers().iter().zip(wanted.buffers());
    Ok(same && pairs.all(|(buffer, wanted)| buffer.data() == wanted.data()))
}
