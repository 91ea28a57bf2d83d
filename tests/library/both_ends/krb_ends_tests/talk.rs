//! Messages of two ends, in any order.

use krb_context::Kerberos;
use krb_der::{Items, Octets};
use sspi_core::{Message, Part, SecurityBufferRef};
use std::alloc::Global;
use std::test::Fail;

/// An action of an end.
pub enum Turn {
    /// It wraps this many messages.
    InitiatorWraps(usize),
    AcceptorWraps(usize),
    /// It is handed the message that the other wrapped after this many others.
    InitiatorGets(usize),
    AcceptorGets(usize),
    /// It makes a MIC token, which takes a number, and the other verifies it.
    InitiatorSigns,
    AcceptorSigns,
}

/// The octet that the text of the message after this many others has everywhere.
fn octet_of(behind: usize) -> u8 {
    (behind % 256) as u8
}

/// The message after this many others, with room for a token.
fn message(alloc: Global, behind: usize) -> Result<Message, Fail> {
    let text = Octets::new(vec![in alloc; octet_of(behind); 17]?);
    let buffers = vec![in alloc;
        SecurityBufferRef::token_buf(Octets::new(Vec::new(alloc)), 76),
        SecurityBufferRef::data_buf(text, 17),
    ]?;
    Ok(Message::new(Items::new(buffers))?)
}

/// Whether it has its text in the clear.
fn is_text(message: &Message, behind: usize) -> bool {
    let text = [octet_of(behind); 17];
    match message.find(Part::Plain) {
        Some(buffer) => buffer.data() == &text[..],
        None => false,
    }
}

/// Whether an end wraps one more message.
fn wraps(alloc: Global, sender: &mut Kerberos, sent: &mut Vec<Message>) -> Result<bool, Fail> {
    let behind = sent.len();
    let mut message = message(alloc, behind)?;
    let is_wrapped = sender.encrypt_message(alloc, &mut message, [7; 16]).is_ok();
    let is_sealed = !is_text(&message, behind);
    sent.push(message)?;
    Ok(is_wrapped && is_sealed)
}

fn wraps_so_many(
    alloc: Global,
    sender: &mut Kerberos,
    sent: &mut Vec<Message>,
    count: usize,
) -> Result<bool, Fail> {
    for _message in 0..count {
        if !wraps(alloc, sender, sent)? {
            return Ok(false);
        }
    }
    Ok(true)
}

/// Whether an end opens the message to its text.
fn opens(alloc: Global, receiver: &mut Kerberos, sent: &mut Vec<Message>, behind: usize) -> bool {
    match sent.get_mut(behind) {
        Some(message) => {
            receiver.decrypt_message(alloc, message).is_ok() && is_text(message, behind)
        }
        None => false,
    }
}

/// Whether an end makes a MIC token that the other verifies.
fn signs(alloc: Global, sender: &mut Kerberos, receiver: &Kerberos) -> bool {
    match sender.generate_mic_token(alloc, b"text") {
        Ok(token) => receiver.verify_mic_token(token.as_slice(), b"text").is_ok(),
        Err(_) => false,
    }
}

/// Whether a turn goes well, after what each end has sent.
fn goes_well(
    alloc: Global,
    initiator: &mut Kerberos,
    acceptor: &mut Kerberos,
    there: &mut Vec<Message>,
    back: &mut Vec<Message>,
    turn: &Turn,
) -> Result<bool, Fail> {
    match turn {
        Turn::InitiatorWraps(count) => wraps_so_many(alloc, initiator, there, *count),
        Turn::AcceptorWraps(count) => wraps_so_many(alloc, acceptor, back, *count),
        Turn::InitiatorGets(behind) => Ok(opens(alloc, initiator, back, *behind)),
        Turn::AcceptorGets(behind) => Ok(opens(alloc, acceptor, there, *behind)),
        Turn::InitiatorSigns => Ok(signs(alloc, initiator, acceptor)),
        Turn::AcceptorSigns => Ok(signs(alloc, acceptor, initiator)),
    }
}

fn all_go_well(
    alloc: Global,
    initiator: &mut Kerberos,
    acceptor: &mut Kerberos,
    there: &mut Vec<Message>,
    back: &mut Vec<Message>,
    turns: &[Turn],
) -> Result<bool, Fail> {
    for turn in turns {
        if !goes_well(alloc, initiator, acceptor, there, back, turn)? {
            return Ok(false);
        }
    }
    Ok(true)
}

/// Whether two ends understand each other, turn by turn.
pub fn understand(
    alloc: Global,
    initiator: &mut Kerberos,
    acceptor: &mut Kerberos,
    turns: &[Turn],
) -> Result<bool, Fail> {
    let (mut there, mut back) = (Vec::new(alloc), Vec::new(alloc));
    all_go_well(alloc, initiator, acceptor, &mut there, &mut back, turns)
}

/// In the order of sending, one way and the other.
pub static IN_ORDER: [Turn; 7] = [
    Turn::InitiatorWraps(3),
    Turn::AcceptorGets(0),
    Turn::AcceptorGets(1),
    Turn::AcceptorGets(2),
    Turn::AcceptorWraps(2),
    Turn::InitiatorGets(0),
    Turn::InitiatorGets(1),
];

/// In another order: the furthest first, then one 63 before it, and some between.
pub static IN_ANOTHER_ORDER: [Turn; 9] = [
    Turn::InitiatorWraps(70),
    Turn::AcceptorGets(63),
    Turn::AcceptorGets(0),
    Turn::AcceptorGets(62),
    Turn::AcceptorGets(1),
    Turn::AcceptorGets(69),
    Turn::AcceptorGets(6),
    Turn::AcceptorWraps(2),
    Turn::InitiatorGets(1),
];

/// In the order of sending, where others are lost: more than a window at a time.
pub static WITH_LOSSES: [Turn; 7] = [
    Turn::InitiatorWraps(80),
    Turn::AcceptorGets(2),
    Turn::AcceptorGets(4),
    Turn::AcceptorGets(79),
    Turn::AcceptorWraps(9),
    Turn::InitiatorGets(3),
    Turn::InitiatorGets(8),
];

/// Both ways at once, with MIC tokens between, which take numbers too.
pub static IN_TURNS: [Turn; 16] = [
    Turn::InitiatorWraps(2),
    Turn::AcceptorWraps(1),
    Turn::InitiatorSigns,
    Turn::AcceptorGets(1),
    Turn::InitiatorWraps(1),
    Turn::AcceptorSigns,
    Turn::InitiatorGets(0),
    Turn::AcceptorWraps(2),
    Turn::AcceptorGets(0),
    Turn::InitiatorGets(2),
    Turn::AcceptorSigns,
    Turn::AcceptorGets(2),
    Turn::InitiatorGets(1),
    Turn::InitiatorSigns,
    Turn::AcceptorWraps(1),
    Turn::InitiatorGets(3),
];
