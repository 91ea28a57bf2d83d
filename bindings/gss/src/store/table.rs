//! The format of the file of records.
//!
//! It is a head and a row of hash tables, each twice as long as the one before, as in MIT krb5's replay cache (`rc_file2.c`). A record is
//! looked for in each table, at two places that its tag names there, until a place was never written: it would have been put there. It is
//! put into the first place that is free or old. So the file grows to what the busiest time needs, and no further.
//!
//! The tag is 128 bits of SipHash over the record, under keys that are drawn with the file. Two uses of one authenticator have one tag, so
//! none is missed; two records with one tag by chance are a refusal too many.
//!
//! The head has the newest time that the file was asked at. If the clock goes back by less than the skew the file's time does not change;
//! if it goes back further nobody is admitted, since records may be gone that would count again.

use crate::locked::{read_at, write_at};
use std::fs::File;
use std::hash::{BuildHasher, Hasher, RandomState};
use std::time::Duration;

const MAGIC: [u8; 16] = *b"menolavuri gss 1";
const HEAD: u64 = 64;
const ROW: u64 = 24;
const FIRST: u64 = 1024;
/// The file has 24 * 1024 * (2^16 - 1) octets at most, a little over 1.6 GB.
const TABLES: u32 = 16;
/// A file's time is written down once it went on by this many microseconds.
const STEP: u64 = 500_000;

type Tag = [u8; 16];

struct Head {
    keys: [u64; 2],
    /// In microseconds since 1970.
    newest: u64,
    /// In seconds: the greatest that the file was asked with.
    skew: u64,
}

fn word(octets: &[u8], at: usize) -> u64 {
    u64::from_be_bytes(std::array::from_fn(|it| octets[at + it]))
}

impl Head {
    /// Two keys that the system drew.
    fn new() -> Head {
        let random = RandomState::new();
        Head {
            keys: [random.hash_one(1), random.hash_one(2)],
            newest: 0,
            skew: 0,
        }
    }

    fn octets(&self) -> Vec<u8> {
        let words = [self.keys[0], self.keys[1], self.newest, self.skew, 0, 0];
        let words = words.iter().flat_map(|it| it.to_be_bytes());
        MAGIC.into_iter().chain(words).collect()
    }

    fn read(file: &File) -> Result<Head, String> {
        let mut octets = [0; HEAD as usize];
        match read_at(file, &mut octets, 0)? {
            0 => return Ok(Head::new()),
            64 if octets.starts_with(&MAGIC) => {}
            _ => return Err("the file has another format".into()),
        }
        Ok(Head {
            keys: [word(&octets, 16), word(&octets, 24)],
            newest: word(&octets, 32),
            skew: word(&octets, 40),
        })
    }
}

#[allow(deprecated)]
fn sip_hash(one: u64, other: u64, octets: &[u8]) -> u64 {
    let mut it = std::hash::SipHasher::new_with_keys(one, other);
    it.write(octets);
    it.finish()
}

fn tag_of(keys: [u64; 2], record: &[u8]) -> Tag {
    let half = |one: u64, other: u64| sip_hash(one, other, record).to_be_bytes();
    let (one, other) = (half(keys[0], !keys[1]), half(!keys[0], keys[1]));
    std::array::from_fn(|it| if it < 8 { one[it] } else { other[it - 8] })
}

/// The tag and the time of a place: no time if it was never written.
fn row_at(file: &File, at: u64) -> Result<(Tag, u64), String> {
    let mut octets = [0; ROW as usize];
    if read_at(file, &mut octets, at)? < octets.len() {
        return Ok(([0; 16], 0));
    }
    Ok((std::array::from_fn(|it| octets[it]), word(&octets, 16)))
}

/// The place for a record, or none if the record is there. Places of times before `old` can be taken.
fn place_for(file: &File, keys: [u64; 2], tag: &Tag, old: u64) -> Result<Option<u64>, String> {
    let mut free = None;
    let mut start = HEAD;
    for table in 0..TABLES {
        let count = FIRST << table;
        let index = sip_hash(keys[0] ^ u64::from(table), keys[1], tag) % count;
        let mut ends = false;
        for index in [index, (index + 1) % count] {
            let here = start + index * ROW;
            let (found, time) = row_at(file, here)?;
            if time != 0 && found == *tag {
                return Ok(None);
            }
            if (time == 0 || time < old) && free.is_none() {
                free = Some(here);
            }
            ends |= time == 0;
        }
        if ends {
            break;
        }
        start += count * ROW;
    }
    free.map(Some).ok_or_else(|| "the store is full".into())
}

/// The file's time from this clock on, in microseconds.
fn time_of(head: &Head, clock: Duration, skew: Duration) -> Result<u64, String> {
    let clock =
        u64::try_from(clock.as_micros()).map_err(|_| "the clock is past the end of time")?;
    let behind = Duration::from_micros(head.newest.saturating_sub(clock));
    if behind >= skew {
        return Err(format!(
            "the clock is {} seconds before the newest record",
            behind.as_secs()
        ));
    }
    Ok(clock.max(head.newest))
}

/// Puts a record in: the file's time, and whether it was there before. The file is locked.
pub fn ask(
    file: &File,
    record: &[u8],
    clock: Duration,
    skew: Duration,
) -> Result<(Duration, bool), String> {
    let mut head = Head::read(file)?;
    let now = time_of(&head, clock, skew)?;
    if now >= head.newest + STEP || skew.as_secs() > head.skew {
        head.newest = now;
        head.skew = head.skew.max(skew.as_secs());
        write_at(file, &head.octets(), 0)?;
    }
    let old = now.saturating_sub(2 * (head.skew + 1) * 1_000_000);
    let tag = tag_of(head.keys, record);
    let place = place_for(file, head.keys, &tag, old)?;
    if let Some(at) = place {
        let row: Vec<u8> = tag.into_iter().chain(now.to_be_bytes()).collect();
        write_at(file, &row, at)?;
    }
    Ok((Duration::from_micros(now), place.is_none()))
}

#[cfg(test)]
mod tests {
    use super::*;
    use crate::store::tests::room;

    const SKEW: Duration = Duration::from_secs(300);

    fn new_file(name: &str) -> File {
        let path = format!("{}/records", room(name));
        File::options()
            .read(true)
            .write(true)
            .create_new(true)
            .open(path)
            .unwrap()
    }

    fn at(seconds: u64) -> Duration {
        Duration::from_secs(1_700_000_000 + seconds)
    }

    fn seen(file: &File, record: &str, seconds: u64) -> bool {
        ask(file, record.as_bytes(), at(seconds), SKEW).unwrap().1
    }

    /// The vector of the paper on SipHash (J.-P. Aumasson, D. J. Bernstein), appendix A.
    #[test]
    fn the_hash_is_sip_hash() {
        let octets: Vec<u8> = (0..15).collect();
        let hash = sip_hash(0x0706_0504_0302_0100, 0x0f0e_0d0c_0b0a_0908, &octets);
        assert_eq!(hash, 0xa129_ca61_49be_45e5);
    }

    #[test]
    fn a_record_is_new_once_within_twice_the_skew() {
        let file = new_file("once");
        assert!(!seen(&file, "one", 0));
        assert!(seen(&file, "one", 0));
        assert!(!seen(&file, "other", 1));
        assert!(seen(&file, "one", 601));
        assert!(seen(&file, "other", 602));
    }

    #[test]
    fn many_records_are_found_again() {
        let file = new_file("many");
        for n in 0..20_000 {
            assert!(!seen(&file, &format!("record {n}"), n / 1000), "{n}");
        }
        for n in 0..20_000 {
            assert!(seen(&file, &format!("record {n}"), 30), "{n}");
        }
        assert!(file.metadata().unwrap().len() < HEAD + ROW * FIRST * 255);
    }

    #[test]
    fn old_places_are_taken_again() {
        let file = new_file("old");
        for round in 0..20 {
            for n in 0..500 {
                assert!(!seen(&file, &format!("record {n} {round}"), 700 * round));
            }
        }
        assert!(file.metadata().unwrap().len() <= HEAD + ROW * FIRST * 7);
    }

    #[test]
    fn a_clock_that_goes_back_admits_nothing_again() {
        let file = new_file("back");
        assert!(!seen(&file, "one", 1000));
        let (now, seen) = ask(&file, b"one", at(900), SKEW).unwrap();
        assert!(seen && now == at(1000));
        let error = ask(&file, b"one", at(600), SKEW).unwrap_err();
        assert_eq!(error, "the clock is 400 seconds before the newest record");
    }

    #[test]
    fn the_greatest_skew_counts() {
        let file = new_file("skew");
        assert!(!seen(&file, "one", 0));
        let short = Duration::from_secs(5);
        for n in 0..3000 {
            ask(&file, format!("{n}").as_bytes(), at(500), short).unwrap();
        }
        assert!(seen(&file, "one", 500));
    }

    #[test]
    fn a_cut_head_is_refused() {
        let file = new_file("cut");
        assert!(!seen(&file, "one", 0));
        for length in [1, 16, 63] {
            file.set_len(length).unwrap();
            assert!(ask(&file, b"one", at(0), SKEW).is_err());
        }
    }
}
