//! MIC tokens, and how a second implementation and Java make them.

use super::cause_of;
use super::ends::{ACCEPTOR, End, INITIATOR, SHORT_ACCEPTOR, context_of, octets};
use krb_context::Rules;
use krb_der::Octets;
use sspi_core::{Cause, Error, ErrorKind};
use std::alloc::Global;
use std::test::Fail;

/// The end that makes a token, what is signed, and the token in hex.
struct Mic {
    end: End,
    payload: &'static str,
    token: &'static str,
}

/// The initiator of recorded tokens of Java.
const JAVA: End = End {
    key: "31b73bcb960c1ae04a4789e9723cfb24d68b6f8f36ba8f6f2fc81c312e4b9309",
    number: 976321985,
    rules: Some(Rules::SUBKEY_FLAG_BY_ORIGIN),
    ..INITIATOR
};

static MICS: [Mic; 8] = [
    Mic {
        end: INITIATOR,
        payload: "payload",
        token: "040404ffffffffff00000000000004d3e6124d18b05d9e8e56cea9d2",
    },
    Mic {
        end: ACCEPTOR,
        payload: "payload",
        token: "040405ffffffffff0000000000000001aa96ad9897f55fd731d38f4e",
    },
    Mic {
        end: End {
            acceptor: false,
            number: 4294967295,
            ..SHORT_ACCEPTOR
        },
        payload: "",
        token: "040404ffffffffff00000000000000006ed52c0647a25e244b330c98",
    },
    Mic {
        end: End {
            number: 4294967294,
            ..SHORT_ACCEPTOR
        },
        payload: "",
        token: "040405ffffffffff00000000ffffffffb5c3809c2d6964a7ee0c1e3e",
    },
    // Two that Java made without mutual authentication, where the key came in no AP-REP.
    Mic {
        end: JAVA,
        payload: "",
        token: "040400ffffffffff000000003a317dc236d702ea4c651d28a806d545",
    },
    Mic {
        end: End {
            number: 976321986,
            ..JAVA
        },
        payload: "\"",
        token: "040400ffffffffff000000003a317dc34298f149e2a180661beef8a8",
    },
    // By an acceptor where it came in none, and by one where it did.
    Mic {
        end: End {
            rules: Some(Rules::SUBKEY_FLAG_BY_ORIGIN),
            ..ACCEPTOR
        },
        payload: "payload",
        token: "040401ffffffffff0000000000000001cec67c70b73e803a7812edd3",
    },
    Mic {
        end: End {
            acceptor_subkey: true,
            rules: Some(Rules::SUBKEY_FLAG_BY_ORIGIN),
            ..ACCEPTOR
        },
        payload: "payload",
        token: "040405ffffffffff0000000000000001aa96ad9897f55fd731d38f4e",
    },
];

fn mics() -> &'static [Mic] {
    &MICS
}

/// The first token with another header or without its end, as its acceptor refuses it.
static CHANGED: [(&str, Cause); 7] = [
    (
        "040504ffffffffff00000000000004d3e6124d18b05d9e8e56cea9d2",
        Cause::Header,
    ),
    (
        "040404ffffffff0000000000000004d3e6124d18b05d9e8e56cea9d2",
        Cause::Header,
    ),
    ("040404ffffffffff000000000000", Cause::Header),
    (
        "040407ffffffffff00000000000004d3e6124d18b05d9e8e56cea9d2",
        Cause::Direction,
    ),
    (
        "040406ffffffffff00000000000004d3e6124d18b05d9e8e56cea9d2",
        Cause::Sealed,
    ),
    (
        "040404ffffffffff00000000000004d4e6124d18b05d9e8e56cea9d2",
        Cause::Altered,
    ),
    (
        "040404ffffffffff00000000000004d3e6124d18b05d9e8e56cea9",
        Cause::Altered,
    ),
];

fn changed() -> &'static [(&'static str, Cause)] {
    &CHANGED
}

/// The token of a new end.
fn made(alloc: Global, end: &End, payload: &str) -> Result<Result<Octets, Error>, Fail> {
    let mut context = context_of(alloc, end)?;
    Ok(context.generate_mic_token(alloc, payload.as_bytes()))
}

/// Whether the row's end makes the row's token.
fn makes(alloc: Global, row: &Mic) -> Result<bool, Fail> {
    let wanted = octets(alloc, row.token)?;
    Ok(made(alloc, &row.end, row.payload)? == Ok(wanted))
}

#[test]
fn mic_tokens_are_those_of_a_second_implementation(rt: HostRuntime) -> Result<(), Fail> {
    for row in mics() {
        assert!(rt; makes(rt.alloc(), row)?);
    }
    Ok(())
}

/// The answer of a new end to a token.
fn verdict(alloc: Global, end: &End, token: &str, payload: &str) -> Result<Option<Cause>, Fail> {
    let token = octets(alloc, token)?;
    let context = context_of(alloc, end)?;
    Ok(cause_of(context.verify_mic_token(token.as_slice(), payload.as_bytes())))
}

/// The answer of the other side to the row's token, that of the token's own side, and that of the other side with other octets.
fn verdicts(alloc: Global, row: &Mic) -> Result<[Option<Cause>; 3], Fail> {
    let peer = End {
        acceptor: !row.end.acceptor,
        ..row.end
    };
    Ok([
        verdict(alloc, &peer, row.token, row.payload)?,
        verdict(alloc, &row.end, row.token, row.payload)?,
        verdict(alloc, &peer, row.token, "other")?,
    ])
}

#[test]
fn mic_tokens_are_taken_by_the_other_side(rt: HostRuntime) -> Result<(), Fail> {
    let wanted = [None, Some(Cause::Direction), Some(Cause::Altered)];
    for row in mics() {
        assert_eq!(rt; verdicts(rt.alloc(), row)?, wanted);
    }
    Ok(())
}

#[test]
fn changed_mic_tokens_are_refused(rt: HostRuntime) -> Result<(), Fail> {
    for (token, cause) in changed() {
        assert_eq!(rt;
            verdict(rt.alloc(), &ACCEPTOR, token, "payload")?,
            Some(*cause)
        );
    }
    Ok(())
}

/// The answer of a context without a sub-session key to a call for a token.
fn unsigned(alloc: Global) -> Result<Option<Error>, Fail> {
    let mut context = context_of(alloc, &ACCEPTOR)?;
    context.encryption_params.sub_session_key = None;
    Ok(context.generate_mic_token(alloc, b"payload").err())
}

#[test]
fn mic_tokens_want_a_sub_session_key(rt: HostRuntime) -> Result<(), Fail> {
    let wanted = Error::new(ErrorKind::InternalError, Cause::NoSubKey);
    assert_eq!(rt; unsigned(rt.alloc())?, Some(wanted));
    Ok(())
}
