//! A gate after a pause, which sees that its pause was asked before it.

use crate::krb_shared_tests::ask;
use krb_der::OutOfMemory;
use krb_replay::Verdict::{self, Admitted, Replayed};
use krb_replay::{Ask, ReplayBook, ReplayGate};
use krb_threads::{Pause, PausedGate};
use std::sync::atomic::{AtomicBool, AtomicU64, Ordering};
use std::test::Fail;

/// A pause that leaves a mark.
#[derive(Drop)]
struct Marking<'a> {
    mark: &'a AtomicBool,
}

impl<'a> Pause for Marking<'a> {
    fn before(&mut self) {
        self.mark.store(true, Ordering::SeqCst);
    }
}

/// A gate that counts its calls before which the mark was left, and takes the mark away.
#[derive(Drop)]
struct Watching<'a, G> {
    mark: &'a AtomicBool,
    marked: &'a AtomicU64,
    gate: G,
}

impl<'a, G: ReplayGate> ReplayGate for Watching<'a, G> {
    ghost skew = { λ watching. G.skew watching.gate };

    ghost moment = { λ watching. G.moment watching.gate };

    ghost admits = { λ old ask verdict new. G.admits old.gate ask verdict new.gate };

    ghost is_same = { λ old new. G.is_same old.gate new.gate };

    ghost same = { λ watching. G.same watching.gate };

    ghost same_moment = { λ a b same. G.same_moment a.gate b.gate same };

    ghost same_skew = { λ a b same. G.same_skew a.gate b.gate same };

    ghost judges = { λ old new ask verdict step. G.judges old.gate new.gate ask verdict step };

    ghost keeps_skew = { λ old new ask verdict step. G.keeps_skew old.gate new.gate ask verdict step };

    ghost goes_on = { λ a b c ask verdict same step. G.goes_on a.gate b.gate c.gate ask verdict same step };

    fn admit(&mut self, ask: Ask) -> Result<Verdict, OutOfMemory> {
        if self.mark.swap(false, Ordering::SeqCst) {
            self.marked.fetch_add(1, Ordering::SeqCst);
        }
        self.gate.admit(ask)
    }

    fn last_moment(&self) -> u64 {
        self.gate.last_moment()
    }
}

/// The pause is asked before each call of the gate, and each of two calls is one of the gate.
#[test]
fn a_gate_is_called_behind_its_pause(rt: HostRuntime) -> Result<(), Fail> {
    let mark = AtomicBool::new(false);
    let marked = AtomicU64::new(0);
    let mut pause = Marking { mark: &mark };
    let watching = Watching {
        mark: &mark,
        marked: &marked,
        gate: ReplayBook::new(rt.alloc(), 300)?,
    };
    let mut gate = PausedGate::new(&mut pause, watching);
    let first = gate.admit(ask(rt.alloc())?)?;
    let second = gate.admit(ask(rt.alloc())?)?;
    assert_eq!(rt; (first, second), (Admitted, Replayed));
    assert_eq!(rt; marked.load(Ordering::SeqCst), 2);
    assert!(rt; !mark.load(Ordering::SeqCst));
    Ok(())
}
