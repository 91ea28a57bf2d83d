//! The third leg of DCE style at an acceptor that compares its number by value, as other implementations spell it.

use super::{answer, context_of};
use krb_context::{Kerberos, KerberosState, Rules};
use krb_der::Octets;
use sspi_core::{Cause, Secret, ServerRequestFlags};
use std::alloc::Global;
use std::test::Fail;

/// A third leg: the session key under which it is sealed, the acceptor's number before that of its AP-REP, and the token.
struct Word {
    key: &'static str,
    number: u32,
    token: &'static str,
}

static WORDS: [Word; 4] = [
    // Recorded of a client of Heimdal 7.8: 00 90 00 00 01.
    Word {
        key: "30186293e42455a730c6ce25f99aaf869fbdba628633e7f7891d12790ea1d36f",
        number: 2415919104,
        token: "6f5c305aa003020105a10302010fa24e304ca003020112a24504434eddbce9c05488f15108e64af1d4c5ede6ce00104a72f84cd2e5f767abbb9a89773e4f5823e68f22ff0ab857411f592836a8586a53200e4cb172f68f86ad6448a04fe3",
    },
    // Recorded of a client of MIT krb5 1.20.1: 00 90 00 00 01.
    Word {
        key: "30186293e42455a730c6ce25f99aaf869fbdba628633e7f7891d12790ea1d36f",
        number: 2415919104,
        token: "6f5c305aa003020105a10302010fa24e304ca003020112a2450443e2af9545dd1099cd886f7e71c79d7915517771ad4dd0bac3e4830a0c22100138549a184f48d96019a4b485eb2e41f0ef41a084f7455b6427fc38d36ed9a56d8b45b51a",
    },
    // Of a second implementation: 65.
    Word {
        key: "202122232425262728292a2b2c2d2e2f303132333435363738393a3b3c3d3e3f",
        number: 100,
        token: "6f593057a003020105a10302010fa24b3049a003020112a24204405b96298e732827e205ccf8c450a262def6b83620f909e3891e38e7ec4bee241b1df126bc14c2179f2f4238c4de453d2ed56769f5c3da872a7a2c56474682a24f",
    },
    // Of a second implementation: 9c, which is -100, as older ones spell ff ff ff 9c.
    Word {
        key: "202122232425262728292a2b2c2d2e2f303132333435363738393a3b3c3d3e3f",
        number: 4294967195,
        token: "6f593057a003020105a10302010fa24b3049a003020112a24204405b96298e732827e205ccf8c450a262def6b83620f909e3891e38e7ec4bee241bafccdb554d3acef6b5d9e1475a45c016d56769f5aef8c3b2f95bee4c116af73e",
    },
];

fn words() -> &'static [Word] {
    &WORDS
}

/// Lets an acceptor wait for the third leg.
fn wait(server: &mut Kerberos, key: Octets, rules: Option<Rules>) {
    server.state = KerberosState::ApExchange;
    server.encryption_params.session_key = Some(Secret::new(key));
    if let Some(rules) = rules {
        server.rules = rules;
    }
}

/// How an acceptor with this number and these rules answers the word.
fn refusal(
    alloc: Global,
    word: &Word,
    number: u32,
    rules: Option<Rules>,
) -> Result<Option<Cause>, Fail> {
    let key = Octets::new(hex::decode(alloc, word.key)?);
    let token = hex::decode(alloc, word.token)?;
    let mut server = context_of(alloc, number)?;
    wait(&mut server, key, rules);
    let answer = answer(
        alloc,
        &mut server,
        &token,
        ServerRequestFlags::USE_DCE_STYLE,
    )?;
    Ok(answer.err())
}

#[test]
fn a_last_word_is_taken_in_any_spelling(rt: HostRuntime) -> Result<(), Fail> {
    let by_value = Some(Rules::THIRD_LEG_BY_VALUE);
    for word in words() {
        assert!(rt; refusal(rt.alloc(), word, word.number, by_value)?.is_none());
    }
    Ok(())
}

#[test]
fn a_last_word_has_the_number_by_value_too(rt: HostRuntime) -> Result<(), Fail> {
    let by_value = Some(Rules::THIRD_LEG_BY_VALUE);
    for word in words() {
        assert_eq!(rt;
            refusal(rt.alloc(), word, word.number.wrapping_add(1), by_value)?,
            Some(Cause::Number)
        );
    }
    Ok(())
}

#[test]
fn another_spelling_is_refused_else(rt: HostRuntime) -> Result<(), Fail> {
    let another = Some(Rules::EXTRA_COUNT_BY_TOKEN);
    for word in words() {
        assert_eq!(rt;
            refusal(rt.alloc(), word, word.number, None)?,
            Some(Cause::Number)
        );
        assert_eq!(rt;
            refusal(rt.alloc(), word, word.number, another)?,
            Some(Cause::Number)
        );
    }
    Ok(())
}
