//! A book on a table, asked from two threads after pauses that wait for each other.

ghost use Rattle.std.specs.Prelude.{◌≡◌};

use crate::krb_threads_tests::Held;
use krb_der::{IntegerAsn1, Items, Name, Octets, OutOfMemory, Time};
use krb_messages::PrincipalName;
use krb_replay::Verdict::{self, Admitted, Replayed};
use krb_replay::{Ask, Record, ReplayGate};
use krb_shared::{Pass, TableBook, TableGate};
use krb_threads::PausedGate;
use std::alloc::Global;
use std::sync::Wait;
use std::sync::atomic::AtomicBool;
use std::test::Fail;
use std::thread::{Threads, join};

/// 2023-11-14T22:13:20Z, in seconds.
const SECOND: i64 = 1_700_000_000;

/// A name without components, of this type.
fn principal(alloc: Global, name_type: u8) -> Result<PrincipalName, OutOfMemory> {
    Ok(PrincipalName {
        name_type: IntegerAsn1::from_bytes_be(Vec::from_slice(alloc, &[name_type])?),
        name_string: Items::new(Vec::new(alloc)),
    })
}

/// That client at that microsecond.
pub(crate) fn ask(alloc: Global) -> Result<Ask, Fail> {
    let realm = Name::new(Vec::from_slice(alloc, b"EXAMPLE.COM")?).ok_or("not ASCII")?;
    Ok(Ask {
        entry: Record {
            ctime: Time::new(SECOND),
            cusec: Octets::new(Vec::from_slice(alloc, &[0])?),
            realm,
            name: principal(alloc, 1)?,
            tag: Octets::new(Vec::new(alloc)),
        },
        sname: principal(alloc, 2)?,
        start: Time::new(SECOND),
        end: Time::new(SECOND + 36_000),
        moment: 1_700_000_000_000_000,
    })
}

/// The answer to a pass after a pause, and how far it has seen.
fn ask_held<R: Wait>(
    rt: &R,
    book: &TableBook,
    pass: Pass,
    pause: &mut Held<'_>,
    ask: Ask,
) -> (Result<Verdict, OutOfMemory>, u64)
    requires { pass.table ≡ book.now.table }
{
    let mut pass = pass;
    let answer = PausedGate::new(pause, TableGate::new(rt, book, &mut pass)).admit(ask);
    (answer, pass.seen())
}

/// Two passes ask the same after these pauses, each in a thread of its own.
fn ask_both<R: Threads + Wait + Sync>(
    rt: &R,
    alloc: Global,
    first: &mut Held<'_>,
    second: &mut Held<'_>,
) -> Result<((Verdict, u64), (Verdict, u64)), Fail> {
    let (book, passes) = TableBook::with_passes(alloc, 300, 2)?;
    let mut passes = passes.into_inner();
    let high = passes.pop().unwrap();
    let low = passes.pop().unwrap();
    let (one, two) = (ask(alloc)?, ask(alloc)?);
    let shared = &book;
    let (a, b) = join(
        rt,
        move || -> (Result<Verdict, OutOfMemory>, u64)
            requires { low.table ≡ shared.now.table }
        { ask_held(rt, shared, low, first, one) },
        move || -> (Result<Verdict, OutOfMemory>, u64)
            requires { high.table ≡ shared.now.table }
        { ask_held(rt, shared, high, second, two) },
    );
    Ok(((a.0?, a.1), (b.0?, b.1)))
}

/// Each thread is held before its call until the other has come so far, and one of them is admitted.
#[test]
fn held_call_over_a_table(rt: HostRuntime) -> Result<(), Fail> {
    let low = AtomicBool::new(false);
    let high = AtomicBool::new(false);
    let mut first = Held::new(&low, &high);
    let mut second = Held::new(&high, &low);
    let (one, two) = ask_both(&rt, rt.alloc(), &mut first, &mut second)?;
    assert!(rt; first.saw && second.saw);
    assert_eq!(rt; (first.calls, second.calls), (1, 1));
    let expected = if one.0 == Admitted {
        ((Admitted, 1), (Replayed, 2))
    } else {
        ((Replayed, 2), (Admitted, 1))
    };
    assert_eq!(rt; (one, two), expected);
    Ok(())
}
