//! The calls of the tables of refusals.

/// A call of an end: a server for its offer, to accept a token, a client to answer one, both to seal octets, or to unseal
/// a frame.
#[derive(Clone, Copy)]
pub enum Call {
    Offer,
    Take(&'static str),
    Seal(usize),
    Unseal(&'static str),
}
