//! The frames of MIT's sample programs `gss-client` and `gss-server`: an octet that says what it is, four octets of length, and so
//! many octets.

use crate::Answer;
use std::io::{Read, Write};

/// The flags in the first octet of a frame.
pub const NO_OPERATION: u8 = 0x01;
pub const CONTEXT: u8 = 0x02;
pub const DATA: u8 = 0x04;
pub const MIC: u8 = 0x08;
pub const CONTEXT_NEXT: u8 = 0x10;
pub const WRAPPED: u8 = 0x20;
pub const SEALED: u8 = 0x40;
pub const WANTS_MIC: u8 = 0x80;

/// The longest frame that is read, in octets.
pub const LONGEST: u32 = 1 << 20;
/// The longest frame of a client that is not admitted yet. Windows makes no longer token.
#[allow(dead_code)] // a client admits nobody
pub const LONGEST_TOKEN: u32 = 1 << 16;

pub struct Frame {
    pub says: u8,
    pub octets: Vec<u8>,
}

/// The next frame. Its length is judged before any memory is taken for it.
pub fn read_frame(from: &mut impl Read, longest: u32) -> Answer<Frame> {
    let mut head = Vec::new();
    read(from, 5, &mut head)?;
    let length = head[1..]
        .iter()
        .fold(0, |n, octet| n << 8 | u32::from(*octet));
    if length > longest {
        let words =
            format!("a frame says that it has {length} octets, and here it may have {longest}");
        return Err(words.into());
    }
    let mut octets = Vec::new();
    read(from, length, &mut octets)?;
    Ok(Frame {
        says: head[0],
        octets,
    })
}

/// Reads n octets. Memory is taken as they come, and not as the length promises.
fn read(from: &mut impl Read, length: u32, into: &mut Vec<u8>) -> Answer<()> {
    match from.take(length.into()).read_to_end(into)? < length as usize {
        true => Err("the other end is gone before a whole frame came".into()),
        false => Ok(()),
    }
}

pub fn write_frame(to: &mut impl Write, says: u8, octets: &[u8]) -> Answer<()> {
    let mut frame = vec![says];
    frame.extend(u32::try_from(octets.len())?.to_be_bytes());
    frame.extend(octets);
    Ok(to.write_all(&frame)?)
}

#[cfg(test)]
mod tests {
    use super::*;

    /// A peer that sends its head, and of what follows nothing is asked.
    struct HeadAlone<'a>(&'a [u8]);

    impl Read for HeadAlone<'_> {
        fn read(&mut self, into: &mut [u8]) -> std::io::Result<usize> {
            assert!(!self.0.is_empty(), "more than the head is read");
            self.0.read(into)
        }
    }

    #[test]
    fn a_frame_that_is_too_long_is_refused_by_its_head() {
        for length in [1 << 31, u32::MAX, LONGEST + 1] {
            let head = [&[CONTEXT][..], &length.to_be_bytes()].concat();
            let refused = read_frame(&mut HeadAlone(&head), LONGEST).err().unwrap();
            let words =
                format!("a frame says that it has {length} octets, and here it may have {LONGEST}");
            assert_eq!(refused.to_string(), words);
        }
    }

    #[test]
    fn memory_is_taken_as_octets_come() {
        let mut octets = Vec::new();
        assert!(read(&mut &[7; 100][..], LONGEST, &mut octets).is_err());
        assert!(octets.capacity() < 1 << 12);
    }

    #[test]
    fn frames_are_read_as_they_are_written() {
        let mut written = Vec::new();
        write_frame(&mut written, DATA | MIC, b"hello").unwrap();
        let frame = read_frame(&mut &written[..], 5).unwrap();
        assert_eq!((frame.says, &frame.octets[..]), (DATA | MIC, &b"hello"[..]));
        assert!(read_frame(&mut &written[..9], 5).is_err());
        assert!(read_frame(&mut &written[..], 4).is_err());
    }
}
