//! Base64 (RFC 4648, section 4), which protocols of lines put tokens in.

const DIGITS: &[u8; 64] = b"ABCDEFGHIJKLMNOPQRSTUVWXYZabcdefghijklmnopqrstuvwxyz0123456789+/";

pub fn encode(octets: &[u8]) -> String {
    let mut text = String::new();
    for group in octets.chunks(3) {
        let octet = |at: usize| u32::from(*group.get(at).unwrap_or(&0));
        let bits = octet(0) << 16 | octet(1) << 8 | octet(2);
        for digit in 0..4 {
            let value = bits >> (18 - 6 * digit) & 63;
            text.push(if digit <= group.len() {
                DIGITS[value as usize] as char
            } else {
                '='
            });
        }
    }
    text
}

/// The octets of a text, or None where it is no Base64.
pub fn decode(text: &str) -> Option<Vec<u8>> {
    let padded = text.len() - text.trim_end_matches('=').len();
    if text.len() % 4 != 0 || padded > 2 {
        return None;
    }
    let (mut octets, mut bits, mut count) = (Vec::new(), 0u32, 0);
    for digit in text.bytes().take(text.len() - padded) {
        let value = DIGITS.iter().position(|known| *known == digit)?;
        bits = bits << 6 | value as u32;
        count += 6;
        if count >= 8 {
            count -= 8;
            octets.push((bits >> count) as u8);
        }
    }
    Some(octets)
}

#[test]
fn the_vectors_of_rfc_4648() {
    let vectors = [
        "", "Zg==", "Zm8=", "Zm9v", "Zm9vYg==", "Zm9vYmE=", "Zm9vYmFy",
    ];
    for (length, text) in vectors.into_iter().enumerate() {
        assert_eq!(encode(&b"foobar"[..length]), text);
        assert_eq!(decode(text).as_deref(), Some(&b"foobar"[..length]));
    }
    for text in ["Zg=", "Zg", "Z===", "Zm 8=", "=Zg="] {
        assert_eq!(decode(text), None);
    }
}
