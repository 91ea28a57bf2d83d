//! Messages and their parts.

use bitflags::Flags;
use krb_der::{Items, Octets, boxed};
use sspi_core::{BufferType, Cause, Error, Message, Part, SecurityBufferFlags, SecurityBufferRef};
use std::alloc::Global;
use std::test::Fail;

/// The kind and the flags of a buffer.
type Form = (BufferType, u32);

const TOKEN: Form = (BufferType::Token, 0);

const STREAM: Form = (BufferType::Stream, 0);

const DATA: Form = (BufferType::Data, 0);

const COVERED: Form = (BufferType::Data, 0x10000000);

const ALONE: Form = (BufferType::Data, 0x80000000);

const BOTH: Form = (BufferType::Data, 0x90000000);

/// Buffers, and whether they are a message.
static ROWS: [(&[Form], bool); 7] = [
    (&[TOKEN, DATA, COVERED], true),
    (&[STREAM, DATA, TOKEN], true),
    (&[COVERED, COVERED, BOTH], true),
    (&[TOKEN, DATA, DATA], false),
    (&[TOKEN, DATA, TOKEN], false),
    (&[STREAM, STREAM, DATA], false),
    (&[TOKEN, DATA, ALONE], false),
];

fn rows() -> &'static [(&'static [Form], bool)] {
    &ROWS
}

/// An empty buffer with room for three octets.
fn buffer(alloc: Global, form: &Form) -> SecurityBufferRef {
    let octets = Octets::new(Vec::new(alloc));
    let buffer = match form.0 {
        BufferType::Token => SecurityBufferRef::token_buf(octets, 3),
        BufferType::Data => SecurityBufferRef::data_buf(octets, 3),
        BufferType::Stream => SecurityBufferRef::stream_buf(octets, 3),
    };
    buffer.with_flags(SecurityBufferFlags::from_bits_retain(form.1))
}

fn buffers(alloc: Global, forms: &[Form]) -> Result<Items<SecurityBufferRef>, Fail> {
    let mut buffers = Vec::new(alloc);
    for form in forms {
        buffers.push(buffer(alloc, form))?;
    }
    Ok(Items::new(buffers))
}

/// Whether the buffers are a message of three, and refused as `Buffers` where they are none.
fn is_message(alloc: Global, forms: &[Form]) -> Result<bool, Fail> {
    match Message::new(buffers(alloc, forms)?) {
        Ok(message) if message.buffers().len() == 3 => Ok(true),
        Err(error) if error == Error::from(Cause::Buffers) => Ok(false),
        _ => Err(Fail::from("another answer")),
    }
}

#[test]
fn a_message_has_each_part_once(rt: HostRuntime) -> Result<(), Fail> {
    for (forms, wanted) in rows() {
        assert_eq!(rt; is_message(rt.alloc(), forms)?, *wanted);
    }
    Ok(())
}

/// Whether the message has this part with these octets and this limit.
fn has(message: &Message, part: Part, octets: &[u8], limit: usize) -> bool {
    match message.find(part) {
        Some(buffer) => buffer.data() == octets && buffer.limit() == limit,
        None => false,
    }
}

/// Whether the part had room for the octets, which it then has.
fn put(message: &mut Message, part: Part, octets: Octets) -> bool {
    let room = match message.find(part) {
        Some(buffer) => buffer.limit(),
        None => return false,
    };
    if octets.as_slice().len() > room {
        return false;
    }
    message.write(part, octets);
    true
}

/// Writes a part as far as its room goes, and another past it.
fn write_parts(alloc: Global, message: &mut Message) -> Result<bool, Fail> {
    let short = Octets::from_slice(alloc, b"ab")?;
    let is_put = put(message, Part::Token, short);
    message.write_whole(Part::Stream, Octets::from_slice(alloc, b"abcd")?);
    Ok(is_put)
}

#[test]
fn a_part_is_found_and_written(rt: HostRuntime) -> Result<(), Fail> {
    let buffers = buffers(rt.alloc(), &[TOKEN, STREAM])?;
    let mut message = boxed(rt.alloc(), Message::new(buffers)?)?;
    assert!(rt; write_parts(rt.alloc(), &mut message)?);
    assert!(rt; has(&message, Part::Token, b"ab", 3));
    assert!(rt; has(&message, Part::Stream, b"abcd", 4));
    assert!(rt; message.find(Part::Plain).is_none());
    Ok(())
}
