//! The suite of the key that the time is sealed under, where each key goes by its own.

use super::exchanges::{ALICE, alices};
use super::{Recorded, draws, exchange_at, kerberos, run};
use krb_context::Rules;
use krb_crypto::CipherSuite;
use sspi_core::Cause;
use std::alloc::Global;

/// Whether alice, whose KDC names AES-256, asks as she did then, where her context has AES-128 and these rules.
fn asks_the_same(alloc: Global, rules: Rules) -> Result<bool, Cause> {
    let turns = alices().turns;
    let draws = draws(turns);
    let mut kerberos = kerberos(alloc, &ALICE)?;
    kerberos.rules = rules;
    kerberos.encryption_params.encryption_type = Some(CipherSuite::Aes128CtsHmacSha196);
    let exchange = exchange_at(alloc, &kerberos, &ALICE, &draws[0])?;
    let mut network = Recorded {
        alloc,
        url: ALICE.url,
        turns,
        is_same: true,
        faults: 0,
    };
    match run(alloc, exchange, &mut network, &draws) {
        Ok(_) => Ok(network.is_same),
        Err(error) => Err(error.cause),
    }
}

#[test]
fn the_time_goes_by_the_suite_that_the_kdc_names(rt: HostRuntime) {
    let alloc = rt.alloc();
    let named = asks_the_same(alloc, Rules::SUITE_OF_EACH_KEY);
    let own = asks_the_same(alloc, Rules::none());
    assert!(rt; matches!(named, Ok(true)));
    assert!(rt; matches!(own, Ok(false)));
}
