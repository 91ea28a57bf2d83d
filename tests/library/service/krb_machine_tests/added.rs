//! Connections that are added to a service.

use super::{acceptor, config, service};
use krb_context::Kerberos;
use krb_der::boxed;
use krb_machine::Service;
use krb_replay::ReplayBook;
use sspi_core::{Cause, Error};
use std::alloc::Global;
use std::test::Fail;

/// An addition: the number of the connection, whether its context is an initiator's, whether it is added as one, and the
/// refusal.
type Addition = (u32, bool, bool, Option<Cause>);

static ADDITIONS: [Addition; 8] = [
    (1, false, false, None),
    (2, true, true, None),
    (1, false, false, Some(Cause::Connection)),
    (2, true, true, Some(Cause::Connection)),
    (3, true, false, Some(Cause::Role)),
    (3, false, true, Some(Cause::Role)),
    // The number comes first.
    (2, true, false, Some(Cause::Connection)),
    (1, false, true, Some(Cause::Connection)),
];

fn additions() -> &'static [Addition] {
    &ADDITIONS
}

fn initiator(alloc: Global) -> Result<Box<Kerberos>, Fail> {
    let config = config(alloc)?;
    Ok(boxed(alloc, Kerberos::new_client_from_config(config, [0; 4]))?)
}

fn context(alloc: Global, is_client: bool) -> Result<Box<Kerberos>, Fail> {
    if is_client {
        initiator(alloc)
    } else {
        acceptor(alloc)
    }
}

fn cause_of(answer: Result<(), Error>) -> Option<Cause> {
    match answer {
        Ok(()) => None,
        Err(error) => Some(error.cause),
    }
}

/// Why the addition is refused.
fn refusal(
    alloc: Global,
    service: &mut Service<ReplayBook>,
    &(id, is_client, as_client, _): &Addition,
) -> Result<Option<Cause>, Fail> {
    let context = Box::into_inner(context(alloc, is_client)?);
    Ok(cause_of(if as_client {
        service.add_initiator(id, context, None)
    } else {
        service.add_acceptor(id, context)
    }))
}

/// Whether the connection is an initiator's, where there is one.
fn is_client(service: &Service<ReplayBook>, id: u32) -> Option<bool> {
    match service.connection(id) {
        Some(context) => Some(context.is_client()),
        None => None,
    }
}

/// How many of the additions, from the first on, are refused for their cause or not at all.
fn are_added(
    alloc: Global,
    service: &mut Service<ReplayBook>,
    additions: &[Addition],
) -> Result<usize, Fail> {
    let mut count = 0usize;
    for addition in additions {
        if refusal(alloc, service, addition)? != addition.3 {
            return Ok(count);
        }
        count = count.saturating_add(1);
    }
    Ok(count)
}

#[test]
fn connections_are_added_once_and_in_their_role(rt: HostRuntime) -> Result<(), Fail> {
    let mut service = service(rt.alloc())?;
    let count = are_added(rt.alloc(), &mut service, additions())?;
    assert_eq!(rt; count, additions().len());
    assert_eq!(rt;
        (
            is_client(&service, 1),
            is_client(&service, 2),
            is_client(&service, 3)
        ),
        (Some(false), Some(true), None)
    );
    Ok(())
}
