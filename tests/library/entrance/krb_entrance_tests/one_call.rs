//! Clients that are let in by one call.

use super::{MUTUAL, draw, gave, octets, service};
use krb_der::boxed;
use krb_entrance::{Cause, Error, Service, Session};
use std::alloc::Global;
use std::test::Fail;

/// The answer to the client, as a second implementation has it.
const ANSWER: &str =
    "60819a06092a864886f71201020202006f818a308187a003020105a10302010fa27b3079a003020112a2720470807297625500f63d4210f4a2cf15e3219cc5204dda7aa6f63d419262a1af2264426ab9962d4db7b24a0a8974ead22d9b246c2bd660df641c5713fde227bdde90eba975855737c3fb632806a7c5189694196afe38e297578c66541bbf336792a6ebefd683d9513178a276afac069aac91";

/// The text `some plain message` as the acceptor seals it first, as a second implementation has it.
const SEALED: &str =
    "050407ff0000001c00000000000000000736dbcf7e8b4ffe328a774a9e6127f7229440a73711dea1e5cc7970809faad35210f356c53b0b9a02f53c7331e075761b0a79e4987f5209630941f9d015";

const CONFOUNDER: [u8; 16] = [0, 1, 2, 3, 4, 5, 6, 7, 8, 9, 10, 11, 12, 13, 14, 15];

fn accepted(
    alloc: Global,
    service: &mut Service,
    token: &str,
) -> Result<Result<Box<Session>, Error>, Fail> {
    let token = hex::decode(alloc, token)?;
    match service.accept(alloc, &token, &draw()) {
        Ok(session) => Ok(Ok(boxed(alloc, session)?)),
        Err(error) => Ok(Err(error)),
    }
}

fn refusal(alloc: Global, service: &mut Service, token: &str) -> Result<Option<Cause>, Fail> {
    match accepted(alloc, service, token)? {
        Ok(_) => Ok(None),
        Err(error) => Ok(Some(error.cause)),
    }
}

fn answers(alloc: Global, session: &Session) -> Result<bool, Fail> {
    let mut room = [0; 512];
    let count = session.answer(&mut room);
    Ok(gave(count, &room, &hex::decode(alloc, ANSWER)?))
}

fn tells_the_name(alloc: Global, session: &Session) -> bool {
    let mut room = [0; 64];
    let count = session.local_name(alloc, &mut room);
    gave(count, &room, b"alice@example.com")
}

fn seals(alloc: Global, session: &mut Session) -> Result<bool, Fail> {
    let mut room = [0; 128];
    let count = session.wrap(alloc, b"some plain message", CONFOUNDER, &mut room);
    Ok(gave(count, &room, &hex::decode(alloc, SEALED)?))
}

fn is_served(alloc: Global, service: &mut Service) -> Result<[bool; 3], Fail> {
    match accepted(alloc, service, MUTUAL)? {
        Ok(mut session) => Ok([
            answers(alloc, &session)?,
            tells_the_name(alloc, &session),
            seals(alloc, &mut session)?,
        ]),
        Err(_) => Err(Fail::from("refused")),
    }
}

#[test]
fn a_client_is_let_in_once(rt: HostRuntime) -> Result<(), Fail> {
    let mut service = service(rt.alloc())?;
    service.reserve(8)?;
    assert_eq!(rt; is_served(rt.alloc(), &mut service)?, [true; 3]);
    assert_eq!(rt;
        refusal(rt.alloc(), &mut service, MUTUAL)?,
        Some(Cause::Replayed)
    );
    assert_eq!(rt; service.kept(), 1);
    Ok(())
}

#[test]
fn a_further_name_has_its_key(rt: HostRuntime) -> Result<(), Fail> {
    let alloc = rt.alloc();
    let mut service = boxed(
        alloc,
        Service::new(alloc, "kafka/a", octets(alloc, 16)?, 300)?,
    )?;
    assert_eq!(rt;
        refusal(alloc, &mut service, MUTUAL)?,
        Some(Cause::NoServiceKey)
    );
    service.add_key(alloc, "host/server.example.com", octets(alloc, 32)?)?;
    assert_eq!(rt; refusal(alloc, &mut service, MUTUAL)?, None);
    Ok(())
}
