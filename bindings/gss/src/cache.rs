//! The credential cache from which an initiator starts: which file it is, what is in it, and what is added to it.

use crate::krb5::Krb5;
use crate::locked::{lock_to_read, lock_to_write};
use std::fs::File;
use std::io::{Read, Write};
use std::sync::atomic::{AtomicBool, Ordering};
use std::time::Duration;

/// Where a credential's tickets are.
#[derive(Clone, Debug, PartialEq)]
pub enum Source {
    /// The default cache.
    Default,
    /// The cache of this name, from a credential store.
    Cache(String),
    /// MIT's mechanism alone knows: a password, a delegated ticket, a client's keytab.
    Behind,
}

/// The longest cache that is read, in bytes.
const LONGEST: u64 = 16 << 20;
/// How often a lock is asked for, and the pause after each time.
const TRIES: usize = 50;
const PAUSE: Duration = Duration::from_millis(20);

/// True if the program gave a thread another default cache (gss_krb5_ccache_name), which is not known here.
static RENAMED: AtomicBool = AtomicBool::new(false);

/// Takes note that a program names its default cache anew.
pub fn rename() {
    RENAMED.store(true, Ordering::SeqCst);
}

/// The path of a cache that is a file.
fn path_of(name: &str) -> Option<&str> {
    let path = name.strip_prefix("FILE:").unwrap_or(name);
    path.starts_with('/').then_some(path)
}

/// The path of a credential's cache, or why there is none.
pub fn path(source: &Source, krb5: &Krb5) -> Result<String, String> {
    let name = match source {
        Source::Behind => return Err("the credential is in no cache".into()),
        Source::Default if RENAMED.load(Ordering::SeqCst) => {
            return Err("the program names its default cache by itself".into());
        }
        Source::Default => krb5.default_cache().ok_or("there is no default cache")?,
        Source::Cache(name) => name.clone(),
    };
    match path_of(&name) {
        Some(path) => Ok(path.to_owned()),
        None => Err(format!("the cache {name} is not a file")),
    }
}

fn told(path: &str) -> impl Fn(std::io::Error) -> String + '_ {
    move |error| format!("{path}: {error}")
}

/// Waits for a lock of a cache.
fn await_lock(file: &File, path: &str, lock: fn(&File) -> bool) -> Result<(), String> {
    for _ in 0..TRIES {
        if lock(file) {
            return Ok(());
        }
        std::thread::sleep(PAUSE);
    }
    Err(format!("{path} stays locked"))
}

/// All octets of a cache.
fn whole(file: &mut File, path: &str) -> Result<Vec<u8>, String> {
    let mut octets = Vec::new();
    let read = file.take(LONGEST + 1).read_to_end(&mut octets);
    if read.map_err(told(path))? as u64 > LONGEST {
        return Err(format!("{path} has more than {LONGEST} bytes"));
    }
    Ok(octets)
}

/// Reads a cache whole, under the lock that MIT krb5 takes to read it: whoever writes to it waits, or is waited for.
pub fn read(path: &str) -> Result<Vec<u8>, String> {
    let mut file = File::open(path).map_err(told(path))?;
    await_lock(&file, path, lock_to_read)?;
    whole(&mut file, path)
}

/// Adds entries to a cache, under the lock that MIT krb5 takes to write to it: `longer` gets the octets of the file, and returns them with
/// those of further entries. If these cannot be written whole the file is as before.
pub fn extend(
    path: &str,
    longer: impl FnOnce(&[u8]) -> Result<Vec<u8>, String>,
) -> Result<(), String> {
    let mut how = File::options();
    let mut file = how.read(true).append(true).open(path).map_err(told(path))?;
    await_lock(&file, path, lock_to_write)?;
    let octets = whole(&mut file, path)?;
    let all = longer(&octets)?;
    let further = all.strip_prefix(&octets[..]);
    let further = further.ok_or_else(|| format!("{path} would not be continued"))?;
    file.write_all(further).map_err(|error| {
        let _ = file.set_len(octets.len() as u64);
        told(path)(error)
    })
}

/// The octets that a file of a cache has next, after a number of four that says how many they are.
fn counted<'a>(rest: &mut &'a [u8]) -> Option<&'a [u8]> {
    let (head, tail) = rest.split_first_chunk::<4>()?;
    let count = usize::try_from(u32::from_be_bytes(*head)).ok()?;
    let (octets, tail) = tail.split_at_checked(count)?;
    *rest = tail;
    Some(octets)
}

/// A part of a name, as MIT krb5 shows it (krb5_unparse_name).
fn escaped(part: &[u8]) -> String {
    let mut shown = String::new();
    for it in String::from_utf8_lossy(part).chars() {
        match it {
            '/' | '@' | '\\' => shown.extend(['\\', it]),
            '\n' => shown.push_str("\\n"),
            '\t' => shown.push_str("\\t"),
            '\u{8}' => shown.push_str("\\b"),
            '\0' => shown.push_str("\\0"),
            it => shown.push(it),
        }
    }
    shown
}

/// The client of a cache, as MIT krb5 shows its name: none if the file is in neither of the formats 0503 and 0504.
pub fn client(file: &[u8]) -> Option<String> {
    let mut rest = match file {
        [5, 4, high, low, rest @ ..] => {
            let length = usize::from(u16::from_be_bytes([*high, *low]));
            rest.get(length..)?
        }
        [5, 3, rest @ ..] => rest,
        _ => return None,
    };
    let numbers = rest.split_at_checked(8)?;
    rest = numbers.1;
    let count = u32::from_be_bytes(numbers.0[4..].try_into().ok()?);
    let realm = escaped(counted(&mut rest)?);
    let mut names = Vec::new();
    for _ in 0..count {
        names.push(escaped(counted(&mut rest)?));
    }
    Some(format!("{}@{realm}", names.join("/")))
}

#[cfg(test)]
mod tests {
    use super::*;
    use crate::store::tests::room;

    #[test]
    fn a_cache_is_a_file() {
        assert_eq!(path_of("FILE:/tmp/krb5cc_0"), Some("/tmp/krb5cc_0"));
        assert_eq!(path_of("/tmp/krb5cc_0"), Some("/tmp/krb5cc_0"));
        for name in [
            "DIR:/tmp/x",
            "KEYRING:persistent:0",
            "MEMORY:x",
            "KCM:",
            "FILE:x",
            "x",
            "",
        ] {
            assert_eq!(path_of(name), None, "{name}");
        }
        let krb5 = Krb5::new().unwrap();
        let cache = Source::Cache("FILE:/a".into());
        assert_eq!(path(&cache, &krb5).unwrap(), "/a");
        assert!(path(&Source::Behind, &krb5).is_err());
        rename();
        assert!(path(&Source::Default, &krb5).is_err());
    }

    #[test]
    fn the_client_of_a_cache_is_named() {
        // (MIT krb5 1.20.1 wrote the fronts of the first two: the second with ccache_type = 3.)
        let head = b"\x05\x04\0\x0c\0\x01\0\x08\0\0\0\0\0\0\0\0\0\0\0\x01\0\0\0\x01";
        let name = b"\0\0\0\x0bEXAMPLE.COM\0\0\0\x05alice";
        let file = [&head[..], name, b"\0\0\0\x01"].concat();
        assert_eq!(client(&file).as_deref(), Some("alice@EXAMPLE.COM"));
        for length in 0..head.len() + name.len() {
            assert_eq!(client(&file[..length]), None, "{length}");
        }
        let head = b"\x05\x03\0\0\0\x01\0\0\0\x02";
        let file = [&head[..], name, b"\0\0\0\x05admin"].concat();
        assert_eq!(client(&file).as_deref(), Some("alice/admin@EXAMPLE.COM"));
        let file = [&head[..], b"\0\0\0\x01X\0\0\0\x03a/b\0\0\0\x03\n@\\"].concat();
        assert_eq!(client(&file).as_deref(), Some(r"a\/b/\n\@\\@X"));
        assert_eq!(client(b"\x05\x02\x01\0\0\0\x02\0\0\0"), None);
        assert_eq!(
            client(&[b"\x05\x03\0\0\0\x01\xff\xff\xff\xff", &name[..]].concat()),
            None
        );
    }

    #[test]
    fn a_cache_is_extended_under_its_lock() {
        let path = format!("{}/cache", room("extended"));
        assert!(extend(&path, |_| Ok(Vec::new())).is_err());
        std::fs::write(&path, b"one").unwrap();
        let further = |octets: &[u8]| Ok([octets, b"two"].concat());
        extend(&path, further).unwrap();
        assert_eq!(std::fs::read(&path).unwrap(), b"onetwo");
        assert!(extend(&path, |_| Ok(b"another".to_vec())).is_err());
        assert!(extend(&path, |_| Err("no".into())).is_err());
        assert_eq!(std::fs::read(&path).unwrap(), b"onetwo");
        let file = File::open(&path).unwrap();
        assert!(lock_to_read(&file) && lock_to_read(&File::open(&path).unwrap()));
        assert!(extend(&path, further).unwrap_err().contains("stays locked"));
        drop(file);
        extend(&path, |octets| {
            assert!(!lock_to_read(&File::open(&path).unwrap()));
            further(octets)
        })
        .unwrap();
        assert_eq!(std::fs::read(&path).unwrap(), b"onetwotwo");
    }

    #[test]
    fn a_cache_is_read_whole() {
        let path = format!("{}/cache", room("cache"));
        assert!(read(&path).is_err());
        std::fs::write(&path, b"\x05\x04abc").unwrap();
        assert_eq!(read(&path).unwrap(), b"\x05\x04abc");
        File::create(&path).unwrap().set_len(LONGEST + 1).unwrap();
        assert!(read(&path).unwrap_err().contains("more than"));
    }
}
