//! Admissions by a replay book whose window holds a thousand, a hundred thousand or a million records: asks in the order
//! of time, replays, asks that come late, and one after which no other record stays.

use anyhow::{Context, Result};
use krb_der::{IntegerAsn1, Items, Name, Octets, Time, boxed};
use krb_messages::PrincipalName;
use krb_replay::{Ask, Record, ReplayBook, ReplayGate, Verdict};
use std::alloc::Global;
use std::rt::Clock;
use std::time::{Duration, Instant};

/// The skew of each book, in seconds.
const SKEW: u32 = 300;

/// A time in microseconds.
const WINDOW_TIME: u32 = 300_000_000;

/// When the first ask comes, in microseconds since 1970.
const BEGIN: u64 = 1_700_000_000_000_000;

/// How many asks are made before they are put to the book under the clock.
const BATCH: u32 = 1_000;

/// In the order of time.
const ONE_BY_ONE: u32 = 1;

/// A prime that jumps about among the asks.
const SCATTERED: u32 = 7_919;

/// A stretch of a stream of asks, which come at even distances of time.
#[derive(Clone, Copy)]
pub(crate) struct Stretch {
    pub(crate) name: &'static str,
    /// How many asks of the stream come within the skew.
    pub(crate) window: u32,
    /// The number in the stream of the first ask.
    pub(crate) first: u32,
    /// How many asks there are.
    pub(crate) count: u32,
    /// From each ask to the next, around the end of the stretch.
    pub(crate) step: u32,
    /// By how many seconds an ask is late at most.
    pub(crate) late: u32,
}

/// The answer of a book.
#[derive(Clone, Copy)]
struct Tally {
    admitted: u32,
    replayed: u32,
}

fn name(alloc: Global, text: &[u8]) -> Option<Name> {
    Name::new(Vec::from_slice(alloc, text).ok()?)
}

/// A name of one component, of type 1.
fn principal(alloc: Global, component: &[u8]) -> Option<PrincipalName> {
    let mut components = Vec::new(alloc);
    components.push(name(alloc, component)?).ok()?;
    Some(PrincipalName {
        name_type: IntegerAsn1::from_bytes_be(Vec::from_slice(alloc, &[1]).ok()?),
        name_string: Items::new(components),
    })
}

/// The record of ask number `k`. Its octets of cusec are of no other ask.
fn record(alloc: Global, k: u32, ctime: Time) -> Option<Record> {
    let cusec = Vec::from_slice(alloc, &k.to_be_bytes()).ok()?;
    let realm = name(alloc, b"EXAMPLE.COM")?;
    Some(Record {
        ctime,
        cusec: Octets::new(cusec),
        realm,
        name: principal(alloc, b"alice")?,
    })
}

/// The moment of ask number `k`, in microseconds.
fn moment(window: u32, k: u32) -> u64 {
    let spacing = WINDOW_TIME.checked_div(window).unwrap_or(0);
    BEGIN.saturating_add(u64::from(k).saturating_mul(u64::from(spacing)))
}

/// By how many seconds ask number `k` is late, at most this many.
fn lateness(k: u32, late: u32) -> u32 {
    let scattered = k.wrapping_mul(2_654_435_761).rotate_left(16);
    scattered.checked_rem(late.saturating_add(1)).unwrap_or(0)
}

/// The ask at this index of the stretch.
fn ask_at(alloc: Global, stretch: &Stretch, index: u32) -> Option<Ask> {
    let jump = u64::from(index).saturating_mul(u64::from(stretch.step));
    let jump = jump.checked_rem(u64::from(stretch.count))?;
    let k = stretch.first.saturating_add(u32::try_from(jump).ok()?);
    let moment = moment(stretch.window, k);
    let seconds = i64::try_from(moment / 1_000_000).ok()?;
    let ctime = seconds.saturating_sub(i64::from(lateness(k, stretch.late)));
    let entry = record(alloc, k, Time::new(ctime.clamp(0, 253_402_300_799)))?;
    let entry = boxed(alloc, entry).ok()?;
    Some(Ask {
        sname: principal(alloc, b"http")?,
        entry: Box::into_inner(entry),
        start: Time::new(1_600_000_000),
        end: Time::new(100_000_000_000),
        moment,
    })
}

fn add_ask(asks: &mut Vec<Ask>, ask: Ask) -> Option<()> {
    asks.push(ask).ok()
}

/// A batch of the stretch's asks.
pub(crate) fn asks_of(alloc: Global, stretch: &Stretch, batch: u32) -> Option<Vec<Ask>> {
    let mut asks = Vec::with_capacity(alloc, BATCH as usize).ok()?;
    let start = batch.saturating_mul(BATCH);
    let end = start.saturating_add(BATCH).min(stretch.count);
    for index in start..end {
        add_ask(&mut asks, ask_at(alloc, stretch, index)?)?;
    }
    Some(asks)
}

/// Puts the asks to the book, and counts its answers.
fn put(book: &mut ReplayBook, asks: Vec<Ask>, tally: &mut Tally) -> Option<()> {
    for ask in asks {
        match book.admit(ask).ok()? {
            Verdict::Admitted => tally.admitted = tally.admitted.saturating_add(1),
            Verdict::Replayed => tally.replayed = tally.replayed.saturating_add(1),
            Verdict::Skew | Verdict::NotYet | Verdict::Expired => {}
        }
    }
    Some(())
}

/// Puts a stretch to the book, and prints what it answered and how long an ask took, which is the book's time alone.
fn measure(
    rt: &(impl Print + Eprint + Clock + AllocGlobal),
    book: &mut ReplayBook,
    stretch: Stretch,
) -> Result<()> {
    let mut tally = Tally {
        admitted: 0,
        replayed: 0,
    };
    let mut spent = Duration::ZERO;
    for batch in 0..stretch.count.div_ceil(BATCH) {
        let asks = asks_of(rt.alloc(), &stretch, batch).context("out of memory")?;
        let start = Instant::now(rt)?;
        put(book, asks, &mut tally).context("out of memory")?;
        spent = spent.saturating_add(start.elapsed(rt)?);
    }
    let Stretch {
        name,
        window,
        count,
        ..
    } = stretch;
    let Tally { admitted, replayed } = tally;
    let kept = book.kept();
    println!(rt;
        "replay book, window of {window}: {name}: {admitted} admitted, {replayed} replayed, {kept} kept"
    )?;
    let each = spent.as_nanos().checked_div(u128::from(count)).unwrap_or(0);
    eprintln!(rt; "replay book, window of {window}: {name}: {each} ns each")?;
    Ok(())
}

/// Fills a window in the order of time, and measures in that order, then replays of its newer half, then asks that are
/// late by up to 2 and up to 250 seconds, and at the end one ask that comes after all records fell out of the window.
fn measure_stretches(
    rt: &(impl Print + Eprint + Clock + AllocGlobal),
    book: &mut ReplayBook,
    window: u32,
    count: u32,
    late_count: u32,
) -> Result<()> {
    let fill = Stretch {
        name: "fill",
        window,
        first: 0,
        count: window,
        step: ONE_BY_ONE,
        late: 0,
    };
    measure(rt, book, fill)?;
    let in_order = Stretch {
        name: "in order",
        first: window,
        count,
        ..fill
    };
    measure(rt, book, in_order)?;
    let end = window.saturating_add(count);
    let replays = Stretch {
        name: "replays",
        first: end.saturating_sub(window / 2),
        count: window / 2,
        step: SCATTERED,
        ..fill
    };
    measure(rt, book, replays)?;
    let late = Stretch {
        name: "late by up to 2 s",
        first: end,
        count: late_count,
        late: 2,
        ..fill
    };
    measure(rt, book, late)?;
    let later = Stretch {
        name: "late by up to 250 s",
        first: end.saturating_add(late_count),
        late: 250,
        ..late
    };
    measure(rt, book, later)?;
    let behind = Stretch {
        name: "all fall out",
        first: end.saturating_add(late_count.saturating_add(window).saturating_mul(2)),
        count: 1,
        ..fill
    };
    measure(rt, book, behind)
}

/// Measures a new book with that window.
fn measure_window(
    rt: &(impl Print + Eprint + Clock + AllocGlobal),
    window: u32,
    count: u32,
    late_count: u32,
) -> Result<()> {
    let mut book = boxed(rt.alloc(), ReplayBook::new(rt.alloc(), SKEW)?)?;
    measure_stretches(rt, &mut book, window, count, late_count)
}

/// Measures a small window, or with `full` windows of 1,000, 100,000 and 1,000,000 records.
pub fn run(rt: &(impl Print + Eprint + Clock + AllocGlobal), full: bool) -> Result<()> {
    if full {
        measure_window(rt, 1_000, 100_000, 10_000)?;
        measure_window(rt, 100_000, 100_000, 10_000)?;
        measure_window(rt, 1_000_000, 100_000, 1_000)
    } else {
        measure_window(rt, 1_000, 1_000, 100)
    }
}
