//! A message of each end, wrapped, and opened by the other.

use krb_context::Kerberos;
use krb_der::{Items, Octets, boxed};
use sspi_core::{Message, Part, SecurityBufferRef};
use std::alloc::Global;
use std::test::Fail;

const TEXT: &[u8; 17] = b"no one but us two";

/// The text, with room for a token.
fn message(alloc: Global) -> Result<Box<Message>, Fail> {
    let text = Octets::from_slice(alloc, TEXT)?;
    let buffers = vec![in alloc;
        SecurityBufferRef::token_buf(Octets::new(Vec::new(alloc)), 76),
        SecurityBufferRef::data_buf(text, TEXT.len()),
    ]?;
    Ok(boxed(alloc, Message::new(Items::new(buffers))?)?)
}

fn is_text(message: &Message) -> bool {
    match message.find(Part::Plain) {
        Some(buffer) => buffer.data() == &TEXT[..],
        None => false,
    }
}

fn goes_through(
    alloc: Global,
    sender: &mut Kerberos,
    receiver: &mut Kerberos,
    message: &mut Message,
) -> bool {
    let is_wrapped = sender.encrypt_message(alloc, message, [7; 16]).is_ok();
    let is_sealed = !is_text(message);
    let is_opened = receiver.decrypt_message(alloc, message).is_ok();
    is_wrapped && is_sealed && is_opened && is_text(message)
}

fn tells(alloc: Global, sender: &mut Kerberos, receiver: &mut Kerberos) -> Result<bool, Fail> {
    let mut message = message(alloc)?;
    Ok(goes_through(alloc, sender, receiver, &mut message))
}

/// Whether each end opens what the other wraps.
pub fn understand(
    alloc: Global,
    initiator: &mut Kerberos,
    acceptor: &mut Kerberos,
) -> Result<bool, Fail> {
    let there = tells(alloc, initiator, acceptor)?;
    let back = tells(alloc, acceptor, initiator)?;
    Ok(there && back)
}
