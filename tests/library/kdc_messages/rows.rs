//! Rows of hex.

ghost use Rattle.std.specs.Prelude.{◌≡◌, ◌<◌, ◌+◌, length};

use std::test::Fail;

/// The octets of a row. They lie in place, so that a row owns nothing, and a zero octet lies after them.
#[derive(Clone, Copy)]
pub struct Row {
    octets: [u8; 1280],
    length: usize,
    ghost fits: { length < 1280 },
}

impl Row {
    pub fn as_slice(&self) -> &[u8] {
        &self.octets[..self.length]
    }

    /// With a zero octet more.
    pub fn with_one_more(&self) -> &[u8] {
        &self.octets[..self.length + 1]
    }
}

/// The octets that the digits are.
pub fn octets(digits: &str) -> Result<Row, Fail> {
    let length = digits.len() / 2;
    if length >= 1280 {
        return Err(Fail::from("a row is too long"));
    }
    let mut octets = [0; 1280];
    hex::decode_to_slice(digits, &mut octets[..length])?;
    Ok(Row { octets, length })
}
