//! Rows of hex, and records that are spelled by them.

ghost use Rattle.std.specs.Prelude.{◌≡◌, ◌<◌, ◌+◌, ◌^◌, IfOk, length};
ghost use Rattle.krb_requests.specs.Pieces.{Fits};

use hex::FromHexError;
use krb_der::{Asn1, Octets, OutOfMemory};
use sspi_core::{Cause, Error};
use std::alloc::Global;

/// The octets of a row. They lie in place, so that a row owns nothing, and a zero octet lies after them.
#[derive(Clone, Copy)]
pub struct Row {
    octets: [u8; 1280],
    length: usize,
    ghost fits: { length < 1280 },
}

impl Row {
    pub fn as_slice(&self) -> &[u8]
        ensures { length result.now < 1280 }
    {
        &self.octets[..self.length]
    }
}

/// The octets that the digits are. A row that is too long has another length than it should.
pub fn octets(digits: &str) -> Result<Row, FromHexError> {
    let length = digits.len() / 2;
    if length >= 1280 {
        return Err(FromHexError::InvalidStringLength);
    }
    let mut octets = [0; 1280];
    hex::decode_to_slice(digits, &mut octets[..length])?;
    Ok(Row { octets, length })
}

/// Whether the octets are those of the digits.
pub fn is_row(found: &[u8], digits: &str) -> bool {
    match octets(digits) {
        Ok(row) => found == row.as_slice(),
        Err(_) => false,
    }
}

/// The octets of a row, on the heap.
pub fn owned(alloc: Global, digits: &str) -> Result<Octets, OutOfMemory> {
    match octets(digits) {
        Ok(row) => Octets::from_slice(alloc, row.as_slice()),
        Err(_) => Err(OutOfMemory),
    }
}

/// Whether a record is spelled by the digits.
fn is_spelled<T: Asn1>(alloc: Global, value: &T, digits: &str) -> bool
    requires { Fits T.layout (2 ^ 29) value.now }
{
    match value.write(alloc) {
        Ok(written) => is_row(written.as_slice(), digits),
        Err(_) => false,
    }
}

/// Whether an answer is the record that the digits spell, or the refusal.
pub fn ends<T: Asn1>(alloc: Global, answer: Result<T, Error>, end: &Result<&str, Cause>) -> bool
    requires { IfOk answer (λ value. Fits T.layout (2 ^ 29) value) }
{
    match (&answer, end) {
        (Ok(value), Ok(digits)) => is_spelled(alloc, value, digits),
        (Err(error), Err(cause)) => error.cause == *cause,
        _ => false,
    }
}
