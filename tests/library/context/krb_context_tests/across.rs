//! Messages from each side to the other.

use super::CONFOUNDER;
use super::ends::{ACCEPTOR, End, INITIATOR, SHORT_ACCEPTOR, context_of};
use krb_der::{Items, Octets, boxed};
use sspi_core::{Message, Part, SecurityBufferRef};
use std::alloc::Global;
use std::test::Fail;

/// A token without octets, and as many octets of text.
fn plain_message(alloc: Global, len: usize) -> Result<Box<Message>, Fail> {
    let text = Octets::new(vec![in alloc; 0x61; len]?);
    let limit = text.as_slice().len();
    let buffers = vec![in alloc;
        SecurityBufferRef::token_buf(Octets::new(Vec::new(alloc)), 76),
        SecurityBufferRef::data_buf(text, limit),
    ]?;
    Ok(boxed(alloc, Message::new(Items::new(buffers))?)?)
}

/// The octets of the message's part.
fn part(message: &Message, part: Part) -> &[u8] {
    match message.find(part) {
        Some(buffer) => buffer.data(),
        None => &[],
    }
}

fn is_sealed(message: &Message, ec: u16, len: usize) -> bool {
    part(message, Part::Plain).len() == len && part(message, Part::Token).len() == 60 + ec as usize
}

fn is_open(message: &Message, len: usize) -> bool {
    let text = part(message, Part::Plain);
    text.len() == len && text.iter().all(|octet| *octet == 0x61)
}

/// Whether a new end seals it.
fn seals(alloc: Global, end: &End, message: &mut Message) -> Result<bool, Fail> {
    let mut context = context_of(alloc, end)?;
    Ok(context.encrypt_message(alloc, message, CONFOUNDER).is_ok())
}

/// Whether a new end opens it.
fn opens(alloc: Global, end: &End, message: &mut Message) -> Result<bool, Fail> {
    let mut context = context_of(alloc, end)?;
    Ok(context.decrypt_message(alloc, message).is_ok())
}

/// Whether the text is as it was, and is not while it is sealed.
fn goes_across(alloc: Global, sender: &End, len: usize) -> Result<bool, Fail> {
    let receiver = End {
        acceptor: !sender.acceptor,
        ..*sender
    };
    let mut message = plain_message(alloc, len)?;
    let sealed = seals(alloc, sender, &mut message)? && is_sealed(&message, sender.ec, len);
    let opened = opens(alloc, &receiver, &mut message)? && is_open(&message, len);
    Ok(sealed && opened)
}

static LENGTHS: [usize; 6] = [0, 1, 15, 16, 17, 1000];

static SENDERS: [End; 4] = [
    INITIATOR,
    ACCEPTOR,
    End {
        acceptor: false,
        ..SHORT_ACCEPTOR
    },
    SHORT_ACCEPTOR,
];

fn lengths() -> &'static [usize] {
    &LENGTHS
}

fn senders() -> &'static [End] {
    &SENDERS
}

#[test]
fn what_one_side_seals_the_other_opens(rt: HostRuntime) -> Result<(), Fail> {
    for sender in senders() {
        for len in lengths() {
            assert!(rt; goes_across(rt.alloc(), sender, *len)?);
        }
    }
    Ok(())
}
