//! The keys in a keytab file (format 0502).

/// The octets that are still to be read.
struct Rest<'a>(&'a [u8]);

impl<'a> Rest<'a> {
    fn take(&mut self, count: usize) -> Option<&'a [u8]> {
        let (taken, rest) = self.0.split_at_checked(count)?;
        self.0 = rest;
        Some(taken)
    }

    /// A number of this many octets, the highest first.
    fn number(&mut self, count: usize) -> Option<u32> {
        let octets = self.take(count)?;
        Some(octets.iter().fold(0, |n, octet| n << 8 | u32::from(*octet)))
    }

    /// Octets after their length.
    fn counted(&mut self) -> Option<&'a [u8]> {
        let length = self.number(2)?;
        self.take(length as usize)
    }
}

struct Entry {
    name: Vec<u8>,
    realm: Vec<u8>,
    version: u32,
    etype: u32,
    key: Vec<u8>,
}

impl Entry {
    /// Whether this is its name, with its realm or without.
    fn is_of(&self, name: &[u8]) -> bool {
        name == self.name || name == [&self.name[..], b"@", &self.realm].concat()
    }
}

fn entry(octets: &[u8]) -> Option<Entry> {
    let mut rest = Rest(octets);
    let count = rest.number(2)?;
    let realm = rest.counted()?.to_vec();
    let parts: Option<Vec<&[u8]>> = (0..count).map(|_| rest.counted()).collect();
    let name = parts?.join(&b'/');
    rest.take(8)?; // the type of the name, and a time
    let short_version = rest.number(1)?;
    let etype = rest.number(2)?;
    let key = rest.counted()?.to_vec();
    let version = rest.number(4).filter(|version| *version != 0);
    Some(Entry {
        name,
        realm,
        version: version.unwrap_or(short_version),
        etype,
        key,
    })
}

/// The types and the keys of a user, as `alice@EXAMPLE.COM`, or of a service, as `host/server.example.com` with its realm or without: those
/// of type 17 and then those of type 18, each by their versions. There is no answer where the file is no such keytab.
pub fn keys(file: &[u8], name: &str) -> Option<Vec<(u8, Vec<u8>)>> {
    let mut rest = Rest(file);
    let mut entries = Vec::new();
    if rest.take(2)? != [5, 2] {
        return None;
    }
    while !rest.0.is_empty() {
        let size = rest.number(4)? as i32;
        let octets = rest.take(size.unsigned_abs() as usize)?;
        // A negative size is that of an entry that was taken out.
        if size > 0 {
            entries.push(entry(octets)?);
        }
    }
    entries.retain(|entry| entry.is_of(name.as_bytes()) && matches!(entry.etype, 17 | 18));
    entries.sort_by_key(|entry| (entry.etype, entry.version));
    let keys = entries.into_iter();
    Some(keys.map(|entry| (entry.etype as u8, entry.key)).collect())
}

#[cfg(test)]
mod tests {
    use super::*;

    /// An entry of alice/admin.
    fn written(version: u8, etype: u8, octet: u8) -> Vec<u8> {
        let head = b"\0\x02\0\x0bEXAMPLE.COM\0\x05alice\0\x05admin\0\0\0\x01\0\0\0\0";
        let entry = [&head[..], &[version, 0, etype, 0, 2, octet, octet]].concat();
        [&(entry.len() as u32).to_be_bytes()[..], &entry].concat()
    }

    #[test]
    fn the_newest_key_of_the_strongest_type_is_the_last() {
        let hole = [&(-3_i32).to_be_bytes()[..], &[0; 3]].concat();
        let entries = [
            written(1, 18, 1),
            written(3, 17, 2),
            hole,
            written(2, 18, 3),
            written(9, 23, 4),
        ];
        let file = [&[5, 2][..], &entries.concat()].concat();
        let all = [(17, vec![2, 2]), (18, vec![1, 1]), (18, vec![3, 3])];
        for name in ["alice/admin@EXAMPLE.COM", "alice/admin"] {
            assert_eq!(keys(&file, name).as_deref(), Some(&all[..]), "{name}");
        }
        for other in [
            "alice",
            "alice@EXAMPLE.COM",
            "alice/admin@EXAMPLE",
            "admin@",
        ] {
            assert_eq!(keys(&file, other), Some(Vec::new()), "{other}");
        }
        for length in 0..file.len() {
            let cut = keys(&file[..length], "alice/admin@EXAMPLE.COM");
            assert!(cut.is_none_or(|keys| keys.iter().all(|key| all.contains(key))));
        }
    }
}
