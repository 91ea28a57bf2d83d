//! Lists of asks, with the answers worked out by hand.

mod table;

use krb_der::{IntegerAsn1, Items, Name, Octets, OutOfMemory, Time, TryCopy};
use krb_messages::PrincipalName;
use krb_replay::Verdict::{self, Admitted, Expired, NotYet, Replayed, Skew};
use krb_replay::{Ask, CacheGate, Record, ReplayBook, ReplayGate, TellingGate};
use std::alloc::Global;
use std::process::Abort;
use std::test::Fail;

/// 2023-11-14T22:13:20Z, in seconds.
const T0: i64 = 1_700_000_000;

/// A time in microseconds.
const M0: u64 = 1_700_000_000_000_000;

/// A time after each other one.
const FAR: i64 = i64::MAX;

/// The last moment that the acceptor takes, in microseconds: the end of 9999-12-28.
const LAST: u64 = 253_402_041_599_999_999;

/// A time of these seconds, or the nearest one that there is.
fn time(seconds: i64) -> Time {
    Time::new(seconds.clamp(-62_167_219_200, 253_402_300_799))
}

/// A name without components, of this type.
fn principal(alloc: Global, name_type: u8) -> Result<PrincipalName, OutOfMemory> {
    Ok(PrincipalName {
        name_type: IntegerAsn1::from_bytes_be(Vec::from_slice(alloc, &[name_type])?),
        name_string: Items::new(Vec::new(alloc)),
    })
}

/// The record of a client of this realm, by one octet of cusec.
fn record(alloc: Global, realm: &[u8], cusec: u8, ctime: i64) -> Result<Record, Fail> {
    let realm = Name::new(Vec::from_slice(alloc, realm)?).ok_or("not ASCII")?;
    let cusec = Octets::new(Vec::from_slice(alloc, &[cusec])?);
    Ok(Record {
        ctime: time(ctime),
        cusec,
        realm,
        name: principal(alloc, 1)?,
        tag: Octets::new(Vec::new(alloc)),
    })
}

/// The ask of a ticket that lives from `start` to `end`, all in seconds but the moment, for a service of this type of name.
fn ask_for(
    alloc: Global,
    name_type: u8,
    entry: Record,
    lifetime: (i64, i64),
    moment: u64,
) -> Result<Ask, Fail> {
    let sname = principal(alloc, name_type)?;
    Ok(Ask {
        entry,
        sname,
        start: time(lifetime.0),
        end: time(lifetime.1),
        moment,
    })
}

/// The ask of a client of EXAMPLE.COM.
fn ask(alloc: Global, ctime: i64, start: i64, end: i64, moment: u64) -> Result<Ask, Fail> {
    let entry = record(alloc, b"EXAMPLE.COM", 0, ctime)?;
    ask_for(alloc, 2, entry, (start, end), moment)
}

/// The verdict of any gate.
fn verdict_of<G: ReplayGate>(gate: &mut G, ask: Ask) -> Result<Verdict, Fail> {
    Ok(gate.admit(ask)?)
}

/// The verdict of any gate on a copy.
fn verdict_on<G: ReplayGate>(alloc: Global, gate: &mut G, ask: &Ask) -> Result<Verdict, Fail> {
    verdict_of(gate, ask.copy(alloc)?)
}

/// The verdicts of a book and of a cache.
fn both_verdicts(
    alloc: Global,
    book: &mut ReplayBook,
    cache: &mut CacheGate,
    ask: &Ask,
) -> Result<[Verdict; 2], Fail> {
    let by_the_book = verdict_on(alloc, book, ask)?;
    Ok([by_the_book, verdict_on(alloc, cache, ask)?])
}

/// The verdicts of a new book and a new cache.
fn first_verdicts(alloc: Global, skew: u32, ask: &Ask) -> Result<[Verdict; 2], Fail> {
    let mut book = ReplayBook::new(alloc, skew)?;
    both_verdicts(alloc, &mut book, &mut CacheGate::new(alloc, skew), ask)
}

/// A skew, an authenticator's time, a ticket's start and end, all in seconds, a moment in microseconds, and the verdict.
type Clocked = (u32, i64, i64, i64, u64, Verdict);

static CLOCKED: [Clocked; 21] = [
    (300, T0, T0, FAR, M0 + 300_000_000, Admitted),
    (300, T0, T0, FAR, M0 + 300_000_001, Skew),
    (300, T0 + 300, T0, FAR, M0, Admitted),
    (300, T0 + 301, T0, FAR, M0 + 999_999, Skew),
    (300, T0, T0 + 300, FAR, M0, Admitted),
    (300, T0, T0 + 301, FAR, M0, NotYet),
    (300, T0, 0, T0 - 300, M0, Admitted),
    (300, T0, 0, T0 - 301, M0, Expired),
    (300, T0, T0 + 301, T0 - 301, M0, NotYet),
    (300, T0 + 301, T0 + 301, T0 - 301, M0, Skew),
    (0, 0, 0, 0, 0, Admitted),
    (0, 0, 0, 0, 1, Skew),
    (0, 1, 0, 0, 0, Skew),
    (0, 0, 1, 1, 0, NotYet),
    (0, 0, -1, -1, 0, Expired),
    (86_400, -86_400, 0, 0, 0, Admitted),
    (86_400, -86_401, 0, 0, 0, Skew),
    (0, 253_402_041_599, 0, FAR, LAST, Skew),
    (1, 253_402_041_599, 0, FAR, LAST, Admitted),
    (86_400, 253_402_127_999, 0, FAR, LAST, Admitted),
    (86_400, 253_402_128_000, 0, FAR, LAST, Skew),
];

fn clocked() -> &'static [Clocked] {
    &CLOCKED
}

/// The verdicts of a new book and of a new cache on one row.
fn verdicts_of_row(alloc: Global, row: &Clocked) -> Result<[Verdict; 2], Fail> {
    let &(skew, ctime, start, end, moment, _) = row;
    let ask = ask(alloc, ctime, start, end, moment)?;
    first_verdicts(alloc, skew, &ask)
}

#[test]
fn every_gate_judges_by_the_clock(rt: HostRuntime) -> Result<(), Fail> {
    for row in clocked() {
        let (skew, ctime, start, end, moment, verdict) = row;
        assert_eq!(rt;
            verdicts_of_row(rt.alloc(), row)?,
            [*verdict; 2],
            "{skew} {ctime} {start} {end} {moment}"
        );
    }
    Ok(())
}

/// The verdicts of both by the type of the service's name in the clear part of the ticket.
fn named_verdicts(
    alloc: Global,
    book: &mut ReplayBook,
    cache: &mut CacheGate,
    name_type: u8,
) -> Result<[Verdict; 2], Fail> {
    let entry = record(alloc, b"EXAMPLE.COM", 0, T0)?;
    let ask = ask_for(alloc, name_type, entry, (T0, T0 + 36_000), M0)?;
    both_verdicts(alloc, book, cache, &ask)
}

/// Puts each ask to both.
fn deceive(
    rt: &(impl AllocGlobal + Abort),
    book: &mut ReplayBook,
    cache: &mut CacheGate,
) -> Result<(), Fail> {
    for (name_type, verdicts) in [
        (2, [Admitted, Admitted]),
        (2, [Replayed, Replayed]),
        (1, [Replayed, Admitted]),
    ] {
        assert_eq!(rt;
            named_verdicts(rt.alloc(), book, cache, name_type)?,
            verdicts
        );
    }
    assert_eq!(rt; (book.kept(), cache.cache.len()), (1, 2));
    assert_eq!(rt; (book.moment(), cache.last_moment()), (M0, M0));
    Ok(())
}

#[test]
fn a_changed_service_name_deceives_the_cache_alone(rt: HostRuntime) -> Result<(), Fail> {
    let mut book = ReplayBook::new(rt.alloc(), 300)?;
    deceive(&rt, &mut book, &mut CacheGate::new(rt.alloc(), 300))
}

/// Seconds after T0, which are the authenticator's time and the moment, the verdict, and how many records are then in the
/// window.
type Told = (u16, u16, Verdict, u64);

/// Puts such an ask to the book.
fn told(
    alloc: Global,
    book: &mut ReplayBook,
    ctime: u16,
    moment: u16,
) -> Result<(Verdict, u64), Fail> {
    let moment = M0 + u64::from(moment) * 1_000_000;
    let ask = ask(alloc, T0 + i64::from(ctime), T0, T0 + 36_000, moment)?;
    let verdict = book.admit(ask)?;
    Ok((verdict, book.kept()))
}

/// Puts a list of asks to a new book that has room for three records.
fn follow(rt: &(impl AllocGlobal + Abort), list: &[Told]) -> Result<(), Fail> {
    let mut book = ReplayBook::new(rt.alloc(), 300)?;
    book.reserve(3)?;
    for &(ctime, moment, verdict, kept) in list {
        let answer = told(rt.alloc(), &mut book, ctime, moment)?;
        assert_eq!(rt; answer, (verdict, kept));
    }
    Ok(())
}

#[test]
fn the_greatest_moment_decides(rt: HostRuntime) -> Result<(), Fail> {
    let falls_back = [
        (0, 0, Admitted, 1),
        (200, 200, Admitted, 2),
        (301, 301, Admitted, 2),
        (0, 0, Skew, 2),
        (200, 0, Replayed, 2),
    ];
    follow(&rt, &falls_back)?;
    // Two equal asks and a later one, in each order.
    let (first, again, early) = ((0, 0, Admitted, 1), (0, 0, Replayed, 1), (0, 0, Skew, 1));
    let later = (3_600, 3_600, Admitted, 1);
    follow(&rt, &[first, later, early])?;
    follow(&rt, &[first, again, later])?;
    follow(&rt, &[later, early, early])
}

/// Seconds after T0: the store's own time when it answered that it did not have the record, and then the authenticator's time
/// and the moment of each of two asks, with its verdict. What the store was asked about has T0 as both.
type Stored = (u16, [(u16, u16, Verdict); 2]);

fn stored() -> [Stored; 5] {
    [
        (0, [(0, 0, Admitted), (0, 0, Replayed)]),
        (0, [(1, 0, Replayed), (0, 0, Admitted)]),
        (0, [(0, 1, Replayed), (0, 0, Admitted)]),
        (300, [(0, 0, Admitted), (0, 0, Replayed)]),
        (301, [(0, 0, Skew), (301, 0, Replayed)]),
    ]
}

fn moment_after(seconds: u16) -> u64 {
    M0 + u64::from(seconds) * 1_000_000
}

/// The ask of this time and this moment.
fn ask_after(alloc: Global, ctime: u16, moment: u16) -> Result<Ask, Fail> {
    let ctime = T0 + i64::from(ctime);
    ask(alloc, ctime, T0, T0 + 36_000, moment_after(moment))
}

/// The gate of a store.
fn telling(alloc: Global, moment: u16, seen: bool) -> Result<TellingGate, Fail> {
    Ok(TellingGate {
        skew: 300,
        moment: moment_after(moment),
        told: ask_after(alloc, 0, 0)?,
        seen,
    })
}

fn answer_of(
    alloc: Global,
    gate: &mut TellingGate,
    ctime: u16,
    moment: u16,
) -> Result<Verdict, Fail> {
    verdict_of(gate, ask_after(alloc, ctime, moment)?)
}

fn is_answered_so(alloc: Global, row: &Stored) -> Result<bool, Fail> {
    let &(moment, asks) = row;
    let mut gate = telling(alloc, moment, false)?;
    for (ctime, moment, verdict) in asks {
        if answer_of(alloc, &mut gate, ctime, moment)? != verdict {
            return Ok(false);
        }
    }
    Ok(true)
}

#[test]
fn a_telling_gate_admits_one_ask_once(rt: HostRuntime) -> Result<(), Fail> {
    let rows = stored();
    for row in &rows {
        let (moment, _) = row;
        assert!(rt; is_answered_so(rt.alloc(), row)?, "{moment}");
    }
    let mut gate = telling(rt.alloc(), 0, true)?;
    let verdict = answer_of(rt.alloc(), &mut gate, 0, 0)?;
    assert_eq!(rt; (verdict, gate.last_moment()), (Replayed, M0));
    Ok(())
}

/// Whether the records go first by their times and then by their octets of cusec.
fn are_ordered(first: &Record, other: &Record, later: &Record) -> bool {
    first < later && first != other && first < other && other < later
}

#[test]
fn records_go_by_their_parts(rt: HostRuntime) -> Result<(), Fail> {
    let alloc = rt.alloc();
    let mut records = Vec::new(alloc);
    for (cusec, ctime) in [(0, T0), (1, T0), (0, T0 + 1), (0, T0)] {
        records.push(record(alloc, b"EXAMPLE.COM", cusec, ctime)?)?;
    }
    let [first, other, later, again] = records.as_slice() else {
        return Err(Fail::from("four records"));
    };
    assert!(rt; first == again && are_ordered(first, other, later));
    Ok(())
}

/// The record of a client at `T0`, with a tag of these octets.
fn tagged(alloc: Global, tag: &[u8]) -> Result<Record, Fail> {
    let mut record = record(alloc, b"EXAMPLE.COM", 0, T0)?;
    record.tag = Octets::new(Vec::from_slice(alloc, tag)?);
    Ok(record)
}

#[test]
fn a_tag_tells_records_apart(rt: HostRuntime) -> Result<(), Fail> {
    let alloc = rt.alloc();
    let mut records = Vec::new(alloc);
    for tag in [b"".as_slice(), b"a", b"b", b"b"] {
        records.push(tagged(alloc, tag)?)?;
    }
    let [first, other, later, again] = records.as_slice() else {
        return Err(Fail::from("four records"));
    };
    assert!(rt; later == again && are_ordered(first, other, later));
    Ok(())
}

/// Log-ins of one microsecond by their tags, the verdicts of a book, and how many records it keeps then.
static TAGGED: [(&str, Verdict, u64); 5] = [
    ("a", Admitted, 1),
    ("b", Admitted, 2),
    ("a", Replayed, 2),
    ("", Admitted, 3),
    ("", Replayed, 3),
];

fn tags() -> &'static [(&'static str, Verdict, u64)] {
    &TAGGED
}

fn verdict_of_tag(alloc: Global, book: &mut ReplayBook, tag: &str) -> Result<Verdict, Fail> {
    let ask = ask_for(alloc, 2, tagged(alloc, tag.as_bytes())?, (T0, FAR), M0)?;
    verdict_of(book, ask)
}

#[test]
fn a_book_keeps_a_record_for_each_tag(rt: HostRuntime) -> Result<(), Fail> {
    let mut book = ReplayBook::new(rt.alloc(), 300)?;
    for (tag, verdict, kept) in tags() {
        assert_eq!(rt;
            verdict_of_tag(rt.alloc(), &mut book, tag)?,
            *verdict,
            "{tag}"
        );
        assert_eq!(rt; book.kept(), *kept);
    }
    Ok(())
}

#[test]
fn verdicts_are_written_by_name(rt: HostRuntime) -> Result<(), Fail> {
    for (verdict, word) in [
        (Admitted, "Admitted"),
        (Skew, "Skew"),
        (NotYet, "NotYet"),
        (Expired, "Expired"),
        (Replayed, "Replayed"),
    ] {
        let written = format!(in rt.alloc(); "{verdict}")?;
        assert_eq!(rt; written.as_str(), word);
    }
    Ok(())
}
