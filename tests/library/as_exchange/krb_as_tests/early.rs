//! A first reply that is an AS-REP, where a rule takes it.

use super::exchanges::{ALICE, FIRST, SECOND, alices};
use super::{Recorded, Turn, draws, exchange_at, is_end, kerberos, key_in, run};
use krb_context::Rules;
use krb_replies::ReplyKey;
use sspi_core::Cause;
use std::alloc::Global;

/// The end of an exchange of alice whose first reply is an AS-REP, if a rule accepts that.
fn early_end(alloc: Global) -> Result<ReplyKey, Cause> {
    let turns = [Turn {
        reply: SECOND.reply,
        ..FIRST
    }];
    let draws = draws(&turns);
    let mut kerberos = kerberos(alloc, &ALICE)?;
    kerberos.rules = Rules::NO_PREAUTHENTICATION;
    let exchange = exchange_at(alloc, &kerberos, &ALICE, &draws[0])?;
    let mut network = Recorded {
        alloc,
        url: ALICE.url,
        turns: &turns,
        is_same: true,
        faults: 0,
    };
    match run(alloc, exchange, &mut network, &draws) {
        Ok(done) => key_in(alloc, &ALICE, &done),
        Err(error) => Err(error.cause),
    }
}

#[test]
fn a_first_as_rep_is_taken_where_that_is_a_rule(rt: HostRuntime) {
    let alloc = rt.alloc();
    assert!(rt; is_end(&early_end(alloc), &Ok(alices().end)));
}
