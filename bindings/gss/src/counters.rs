//! Counters of a user's services, in a file that a second process reads (`menolavuri-status`): who was admitted, refused by which check,
//! and how long that took. They are numbers of 64 bits in one page, which an admission reads and writes under a lock: some microseconds.

use crate::locked::{Shared, own_folder, read_at, write_at};
use crate::status::{self, OWN, OWN_COUNT};
use std::fs::File;
use std::time::Duration;

const MAGIC: u64 = 0x6d6b_6773_7300_0001;
const NAME: &str = "counters";
/// Causes of the library have numbers below this one.
const CAUSES: usize = 96;
/// A bucket for each doubling of microseconds; the last one has all longer ones.
pub const BUCKETS: usize = 24;

const ADMITTED: usize = 1;
const LATENCY: usize = 2;
const SLOWEST: usize = 3;
const FIRST_BUCKET: usize = 4;
const FIRST_CAUSE: usize = FIRST_BUCKET + BUCKETS;
const FIRST_OWN: usize = FIRST_CAUSE + CAUSES;
const COUNT: usize = FIRST_OWN + OWN_COUNT;

static FILE: Shared = Shared::new();

/// All counters.
pub struct Counters([u64; COUNT]);

impl Counters {
    pub const fn new() -> Counters {
        let mut all = [0; COUNT];
        all[0] = MAGIC;
        Counters(all)
    }

    fn of(octets: &[u8; COUNT * 8]) -> Option<Counters> {
        let at = |n: usize| u64::from_be_bytes(std::array::from_fn(|it| octets[8 * n + it]));
        let all: [u64; COUNT] = std::array::from_fn(at);
        match all[0] {
            MAGIC => Some(Counters(all)),
            _ => None,
        }
    }

    fn octets(&self) -> Vec<u8> {
        self.0.iter().flat_map(|it| it.to_be_bytes()).collect()
    }

    fn add(&mut self, at: usize, count: u64) {
        self.0[at] = self.0[at].saturating_add(count);
    }

    /// Counts a client: one that was refused by the cause of its minor status.
    pub fn count(&mut self, minor: Option<u32>, took: Duration) {
        match minor {
            None => self.add(ADMITTED, 1),
            Some(minor) => self.add(place_of(minor), 1),
        }
        let micros = u64::try_from(took.as_micros()).unwrap_or(u64::MAX);
        self.add(LATENCY, micros);
        self.0[SLOWEST] = self.0[SLOWEST].max(micros);
        self.add(FIRST_BUCKET + bucket_of(micros), 1);
    }

    pub fn admitted(&self) -> u64 {
        self.0[ADMITTED]
    }

    /// How many were refused, by their minor statuses.
    pub fn refused(&self) -> Vec<(u32, u64)> {
        let library = (0..CAUSES).map(|it| (it as u32, self.0[FIRST_CAUSE + it]));
        let own = (0..OWN_COUNT).map(|it| (OWN + it as u32, self.0[FIRST_OWN + it]));
        let all = library.chain(own).filter(|it| it.1 > 0);
        all.map(|it| (status::MINOR | it.0, it.1)).collect()
    }

    /// Microseconds of all admissions and refusals together, and of the slowest.
    pub fn latency(&self) -> (u64, u64) {
        (self.0[LATENCY], self.0[SLOWEST])
    }

    /// The number that took less than this many microseconds, and not less than half of them.
    pub fn buckets(&self) -> Vec<(u64, u64)> {
        let all = (0..BUCKETS).map(|it| (1 << it, self.0[FIRST_BUCKET + it]));
        all.filter(|it| it.1 > 0).collect()
    }
}

impl Default for Counters {
    fn default() -> Counters {
        Counters::new()
    }
}

fn bucket_of(micros: u64) -> usize {
    (u64::BITS - micros.leading_zeros()).min(BUCKETS as u32 - 1) as usize
}

/// Returns the index of a cause: the first of this interposer's own if the cause is not known.
fn place_of(minor: u32) -> usize {
    let number = (minor & 0xffff) as usize;
    match number.checked_sub(OWN as usize) {
        None if number < CAUSES => FIRST_CAUSE + number,
        Some(own) if own < OWN_COUNT => FIRST_OWN + own,
        _ => FIRST_OWN,
    }
}

/// The counters of a file; new ones where it is empty or of another format.
pub fn read(file: &File) -> Result<Counters, String> {
    let mut octets = [0; COUNT * 8];
    let length = read_at(file, &mut octets, 0)?;
    let whole = (length == octets.len())
        .then(|| Counters::of(&octets))
        .flatten();
    Ok(whole.unwrap_or_default())
}

/// Counts a client in this user's file. Where that fails nothing is counted: the decision is the same.
pub fn count(folder: &str, minor: Option<u32>, took: Duration) -> Result<(), String> {
    FILE.with(folder, NAME, |file| {
        let mut all = read(file)?;
        all.count(minor, took);
        write_at(file, &all.octets(), 0)
    })
}

/// The file of this user's counters.
pub fn own_path(folder: &str) -> Result<String, String> {
    Ok(format!("{}/{NAME}", own_folder(folder)?))
}

/// The files of all users' counters that are there.
pub fn paths(folder: &str) -> Vec<String> {
    let entries = std::fs::read_dir(folder).into_iter().flatten().flatten();
    let names = entries.map(|it| format!("{}/{NAME}", it.path().display()));
    let mut all: Vec<String> = names
        .filter(|it| std::path::Path::new(it).is_file())
        .collect();
    all.sort();
    all
}

#[cfg(test)]
mod tests {
    use super::*;
    use crate::store::tests::room;

    #[test]
    fn a_second_process_reads_what_was_counted() {
        let folder = room("counters");
        for minor in [
            None,
            None,
            Some(status::MINOR | 17),
            Some(status::STORE_AWAY),
            Some(0),
        ] {
            count(&folder, minor, Duration::from_micros(300)).unwrap();
        }
        let [path] = &paths(&folder)[..] else {
            panic!("one file")
        };
        assert_eq!(*path, own_path(&folder).unwrap());
        let all = read(&File::open(path).unwrap()).unwrap();
        assert_eq!(all.admitted(), 2);
        let refused = [
            (status::MINOR, 1),
            (status::MINOR | 17, 1),
            (status::STORE_AWAY, 1),
        ];
        assert_eq!(all.refused(), refused);
        assert_eq!(all.latency(), (1500, 300));
        assert_eq!(all.buckets(), [(512, 5)]);
    }

    #[test]
    fn no_number_is_out_of_place() {
        let mut all = Counters::new();
        for minor in (0..=0xffff).chain([u32::MAX]) {
            all.count(Some(minor), Duration::ZERO);
        }
        let sum: u64 = all.refused().iter().map(|it| it.1).sum();
        assert_eq!(sum, 0x10001);
        all.count(None, Duration::MAX);
        assert_eq!(all.buckets(), [(1, 0x10001), (1 << 23, 1)]);
    }

    #[test]
    fn another_format_is_begun_anew() {
        let folder = room("format");
        std::fs::write(own_path(&folder).unwrap(), "something else").unwrap();
        count(&folder, None, Duration::ZERO).unwrap();
        let all = read(&File::open(own_path(&folder).unwrap()).unwrap()).unwrap();
        assert_eq!(all.admitted(), 1);
    }
}
