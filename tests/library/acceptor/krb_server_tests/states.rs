//! States of an acceptor, and which of them wait for a token.

use super::{ONE_WAY, answer, context_of};
use bitflags::Flags;
use krb_context::{Kerberos, KerberosState};
use sspi_core::{Cause, ServerRequestFlags};
use std::alloc::Global;
use std::test::Fail;

/// A state of an acceptor, whether its caller asks for DCE style, and the refusal.
struct Wait {
    state: KerberosState,
    dce: bool,
    refusal: Option<Cause>,
}

static WAITS: [Wait; 4] = [
    Wait {
        state: KerberosState::Preauthentication,
        dce: false,
        refusal: None,
    },
    Wait {
        state: KerberosState::ApExchange,
        dce: false,
        refusal: Some(Cause::Sequence),
    },
    Wait {
        state: KerberosState::Final,
        dce: false,
        refusal: Some(Cause::Sequence),
    },
    // Where the third leg is awaited, a frame is none.
    Wait {
        state: KerberosState::ApExchange,
        dce: true,
        refusal: Some(Cause::Shape),
    },
];

fn waits() -> &'static [Wait] {
    &WAITS
}

fn flags_of(dce: bool) -> ServerRequestFlags {
    if dce {
        ServerRequestFlags::USE_DCE_STYLE
    } else {
        ServerRequestFlags::empty()
    }
}

/// Why the acceptor refuses the AP-REQ in this state, if it does.
fn refusal_in(alloc: Global, server: &mut Kerberos, wait: &Wait) -> Result<Option<Cause>, Fail> {
    let token = hex::decode(alloc, ONE_WAY)?;
    server.state = wait.state;
    Ok(answer(alloc, server, &token, flags_of(wait.dce))?.err())
}

/// The answer of a new acceptor.
fn new_acceptors_refusal(alloc: Global, wait: &Wait) -> Result<Option<Cause>, Fail> {
    let mut server = context_of(alloc, 100)?;
    refusal_in(alloc, &mut server, wait)
}

#[test]
fn a_context_waits_for_a_token_before_it_is_established(rt: HostRuntime) -> Result<(), Fail> {
    for wait in waits() {
        assert_eq!(rt; new_acceptors_refusal(rt.alloc(), wait)?, wait.refusal);
    }
    Ok(())
}
