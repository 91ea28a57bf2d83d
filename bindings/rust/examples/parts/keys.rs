//! The keys in a file: a keytab, or one key in hex, as `klist -k -K` prints it after 0x.

use crate::{Answer, keytab};
use std::fs;

/// A key after its encryption type (RFC 3962).
pub type Key = (u8, Vec<u8>);

/// The keys that a file has for this name, of which there is one at least, the newest of the strongest type last.
pub fn keys(file: &str, name: &str) -> Answer<Vec<Key>> {
    let octets =
        fs::read(file).map_err(|error| format!("the key file {file} is not read: {error}"))?;
    let keys = match octets.first() {
        Some(5) => keytab::keys(&octets, name).ok_or_else(|| {
            format!(
                "the keytab {file} is not of format 0502, or damaged; does klist -k {file} read it?"
            )
        })?,
        _ => vec![in_hex(file, &octets)?],
    };
    if keys.is_empty() {
        return Err(format!(
            "the keytab {file} has no key of AES for {name}; klist -k -e {file} shows what it has"
        )
        .into());
    }
    for (etype, key) in &keys {
        let length = if *etype == 18 { 32 } else { 16 };
        if key.len() != length {
            let words = format!(
                "the key of type {etype} for {name} in {file} has {} octets, and not {length}",
                key.len()
            );
            return Err(words.into());
        }
    }
    Ok(keys)
}

/// The one key, whose length tells its type.
fn in_hex(file: &str, octets: &[u8]) -> Answer<Key> {
    let pairs = octets.trim_ascii().chunks(2);
    let key: Option<Vec<u8>> = pairs
        .map(|pair| match std::str::from_utf8(pair) {
            Ok(pair) if pair.len() == 2 && !pair.starts_with('+') => {
                u8::from_str_radix(pair, 16).ok()
            }
            _ => None,
        })
        .collect();
    match key {
        Some(key) if key.len() == 32 => Ok((18, key)),
        Some(key) if key.len() == 16 => Ok((17, key)),
        _ => Err(format!(
            "{file} is no keytab, and no key of 32 or 64 hex digits, as klist -k -K prints it after 0x"
        )
        .into()),
    }
}

#[cfg(test)]
mod tests {
    use super::*;

    #[test]
    fn keys_in_hex_are_read() {
        let of = |text: &str| in_hex("key", text.as_bytes()).ok();
        assert_eq!(of(&"0f".repeat(16)), Some((17, vec![15; 16])));
        assert_eq!(
            of(&format!(" {}\n", "Fe".repeat(32))),
            Some((18, vec![254; 32]))
        );
        for text in [
            "",
            "0f",
            &"0f".repeat(17),
            &"0g".repeat(16),
            &"+f".repeat(16),
            &"0".repeat(31),
            &"é".repeat(16),
        ] {
            assert_eq!(of(text), None, "{text}");
        }
    }

    #[test]
    fn a_failure_names_the_file_and_what_to_do() {
        let words = keys("/nowhere/key", "host/server").unwrap_err().to_string();
        assert!(
            words.starts_with("the key file /nowhere/key is not read: "),
            "{words}"
        );
        let words = in_hex("/dev/null", b"").unwrap_err().to_string();
        assert!(words.starts_with("/dev/null is no keytab"), "{words}");
    }
}
