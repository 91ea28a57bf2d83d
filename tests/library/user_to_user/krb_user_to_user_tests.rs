//! A TGT-REQ at a service, and the exchange in which the service fetches the ticket that it answers with.

mod tgt_reps;

use crate::services::{acceptor_for, flags_of, user_with_key, user_with_password};
use krb_conf::Env;
use krb_context::Kerberos;
use krb_der::{Asn1, boxed};
use krb_exchange::TgtReq;
use krb_user_to_user::request_tgt;
use sspi_core::{Cause, CredentialsBuffers, Error};
use std::alloc::Global;
use std::test::Fail;

/// A TGT-REQ for host/server.example.com.
const OWN: &str =
    "3031a003020105a103020110a2253023a003020102a11c301a1b04686f73741b127365727665722e6578616d706c652e636f6d";

/// A TGT-REQ in hex, the realm of the user and whether it has a key, and the refusal.
struct Request {
    tgt_req: &'static str,
    realm: &'static str,
    has_key: bool,
    refusal: Option<Cause>,
}

static REQUESTS: [Request; 6] = [
    Request {
        tgt_req: OWN,
        realm: "EXAMPLE.COM",
        has_key: false,
        refusal: None,
    },
    // For host/other.
    Request {
        tgt_req: "3024a003020105a103020110a2183016a003020102a10f300d1b04686f73741b056f74686572",
        realm: "EXAMPLE.COM",
        has_key: false,
        refusal: Some(Cause::ServerName),
    },
    // These components, in a name of type 1, with another version and type of message.
    Request {
        tgt_req: "3031a003020109a103020109a2253023a003020101a11c301a1b04686f73741b127365727665722e6578616d706c652e636f6d",
        realm: "EXAMPLE.COM",
        has_key: false,
        refusal: Some(Cause::ServerName),
    },
    // The type 2 in two octets, at a user with a key.
    Request {
        tgt_req: "3032a003020109a103020109a2263024a00402020002a11c301a1b04686f73741b127365727665722e6578616d706c652e636f6d",
        realm: "EXAMPLE.COM",
        has_key: true,
        refusal: Some(Cause::ServerName),
    },
    Request {
        tgt_req: OWN,
        realm: "EXAMPLE.COM",
        has_key: true,
        refusal: Some(Cause::KeytabUser),
    },
    Request {
        tgt_req: OWN,
        realm: "EXÄMPLE.COM",
        has_key: false,
        refusal: Some(Cause::NotAscii),
    },
];

fn requests() -> &'static [Request] {
    &REQUESTS
}

fn tgt_req_of(alloc: Global, digits: &str) -> Result<Box<TgtReq>, Fail> {
    let octets = hex::decode(alloc, digits)?;
    Ok(boxed(alloc, TgtReq::read(alloc, &octets)?)?)
}

fn user_of(alloc: Global, row: &Request) -> Result<Box<CredentialsBuffers>, Fail> {
    if row.has_key {
        user_with_key(alloc, "00")
    } else {
        user_with_password(alloc, "service", row.realm, "pass")
    }
}

fn cause_of(error: Option<Error>) -> Option<Cause> {
    match error {
        None => None,
        Some(error) => Some(error.cause),
    }
}

/// Why the acceptor refuses the row's TGT-REQ for this user, if it does.
fn refusal_for(
    alloc: Global,
    server: &Kerberos,
    user: &CredentialsBuffers,
    row: &Request,
) -> Result<Option<Cause>, Fail> {
    let tgt_req = tgt_req_of(alloc, row.tgt_req)?;
    let (flags, env) = (flags_of(false), Env::new(alloc));
    let answer = request_tgt(alloc, server, user, &tgt_req, flags, &env);
    Ok(cause_of(answer.err()))
}

fn refusal_at(alloc: Global, server: &Kerberos, row: &Request) -> Result<Option<Cause>, Fail> {
    let user = user_of(alloc, row)?;
    refusal_for(alloc, server, &user, row)
}

fn refusal_of(alloc: Global, row: &Request) -> Result<Option<Cause>, Fail> {
    let server = acceptor_for(alloc, "tcp://kdc.example:88", None)?;
    refusal_at(alloc, &server, row)
}

#[test]
fn a_tgt_req_is_for_the_service_and_its_user(rt: HostRuntime) -> Result<(), Fail> {
    for row in requests() {
        assert_eq!(rt; refusal_of(rt.alloc(), row)?, row.refusal);
    }
    Ok(())
}
