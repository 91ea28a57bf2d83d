//! Rows of hex.

ghost use Rattle.std.specs.Prelude.{◌≡◌, ◌<◌, ◌+◌, length};

use hex::FromHexError;

/// The octets of a row. They lie in place, so that a row owns nothing, and a zero octet lies after them.
#[derive(Clone, Copy)]
pub struct Row {
    octets: [u8; 1280],
    length: usize,
    ghost fits: { length < 1280 },
}

impl Row {
    pub fn as_slice(&self) -> &[u8]
        ensures { length result.now < 1280 }
    {
        &self.octets[..self.length]
    }
}

/// The octets that the digits are. A row that is too long has another length than it should.
pub fn octets(digits: &str) -> Result<Row, FromHexError> {
    let length = digits.len() / 2;
    if length >= 1280 {
        return Err(FromHexError::InvalidStringLength);
    }
    let mut octets = [0; 1280];
    hex::decode_to_slice(digits, &mut octets[..length])?;
    Ok(Row { octets, length })
}

/// Whether the octets are those of the digits.
pub fn is_row(found: &[u8], digits: &str) -> bool {
    match octets(digits) {
        Ok(row) => found == row.as_slice(),
        Err(_) => false,
    }
}
