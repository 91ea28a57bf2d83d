//! Requests of a client to a ticket-granting service.

ghost use Rattle.std.specs.Prelude.{◌≡◌, ◌<◌, ◌≤◌, ◌^◌, IfOk, IfSome, true, length};
ghost use Rattle.krb_messages.specs.Layouts.{ticket_layout};
ghost use Rattle.krb_exchange.specs.Layouts.{tgs_req_layout};
ghost use Rattle.krb_requests.specs.Pieces.{Fits};
ghost use Rattle.krb_as.specs.Granted.{IsSendable};
ghost use Rattle.krb_authenticators.specs.TgsRequests.{AreShortTickets};

use super::{BEHIND, SHOWN, as_rep, authenticator, behind, counted, key_of, messages};
use crate::rows::ends;
use bitflags::Flags;
use krb_authenticators::{GenerateTgsReqOptions, generate_tgs_req};
use krb_context::EncryptionParams;
use krb_der::{Asn1, Items, OutOfMemory, TryCopy, boxed};
use krb_exchange::{KdcRep, TgsReq};
use krb_messages::Ticket;
use sspi_core::{Cause, ClientRequestFlags, Error};
use std::alloc::Global;

/// A request to a ticket-granting service, with a key of this many octets from 20 hex on.
#[derive(Clone, Copy)]
struct Wanted {
    realm: &'static str,
    service: &'static str,
    length: usize,
    /// The client delegates, and asks for a ticket under the session key of its ticket.
    is_user_to_user: bool,
}

const WANTED: Wanted = Wanted {
    realm: "EXAMPLE.COM",
    service: "host/server.example.com",
    length: 32,
    is_user_to_user: false,
};

static TGS_REQS: [(Wanted, Result<&str, Cause>); 7] = [
    (WANTED, Ok(messages::TGS_REQ)),
    (
        Wanted {
            is_user_to_user: true,
            ..WANTED
        },
        Ok(messages::USER_TO_USER),
    ),
    (
        Wanted {
            service: "host",
            ..WANTED
        },
        Err(Cause::Target),
    ),
    (
        Wanted {
            realm: "EX\u{e4}MPLE.COM",
            length: 31,
            ..WANTED
        },
        Err(Cause::NotAscii),
    ),
    (
        Wanted {
            service: "host/s\u{e9}rver",
            ..WANTED
        },
        Err(Cause::NotAscii),
    ),
    (
        Wanted {
            length: 31,
            ..WANTED
        },
        Err(Cause::KeyLength),
    ),
    (
        Wanted {
            length: 16,
            ..WANTED
        },
        Err(Cause::KeyLength),
    ),
];

/// A short ticket alone.
fn list_of(alloc: Global, ticket: &Ticket) -> Result<Items<Ticket>, OutOfMemory>
    requires { Fits ticket_layout (2 ^ 24) ticket.now }
    ensures { IfOk result (λ tickets. AreShortTickets (Some tickets)) }
{
    let written = ticket.write(alloc)?;
    if written.as_slice().len() > 1024 {
        return Err(OutOfMemory);
    }
    let copy = ticket.copy(alloc)?;
    let mut tickets = Vec::new(alloc);
    tickets.push(copy)?;
    Ok(Items::new(tickets))
}

fn tickets(
    alloc: Global,
    ticket: &Ticket,
    is_there: bool,
) -> Result<Option<Items<Ticket>>, OutOfMemory>
    requires { Fits ticket_layout (2 ^ 24) ticket.now }
    ensures { IfOk result AreShortTickets }
{
    if !is_there {
        return Ok(None);
    }
    Ok(Some(list_of(alloc, ticket)?))
}

fn tgs_req_of(alloc: Global, rep: &KdcRep, wanted: &Wanted) -> Result<TgsReq, Error>
    requires { IsSendable rep.now }
    ensures { IfOk result (λ made. Fits tgs_req_layout (2 ^ 29) made) }
{
    if wanted.realm.len() > 64 || wanted.service.len() > 64 {
        return Err(Error::from(OutOfMemory));
    }
    let session_key = key_of(alloc, 0x20, wanted.length)?;
    let authenticator = boxed(alloc, authenticator(alloc, rep, &SHOWN)?)?;
    let ticket = boxed(alloc, rep.ticket.copy(alloc)?)?;
    let additional_tickets = tickets(alloc, &rep.ticket, wanted.is_user_to_user)?;
    let flags = if wanted.is_user_to_user { 0x21 } else { 0 };
    let enc_params = EncryptionParams::default_for_client();
    let options = GenerateTgsReqOptions {
        realm: wanted.realm,
        service_principal: wanted.service,
        session_key: &session_key,
        ticket: Box::into_inner(ticket),
        authenticator: Box::into_inner(authenticator),
        additional_tickets,
        enc_params: &enc_params,
        context_requirements: ClientRequestFlags::from_bits_retain(flags),
    };
    generate_tgs_req(alloc, options, behind(BEHIND), [0, 1, 2, 3], counted(0))
}

fn is_wanted(alloc: Global, wanted: &Wanted, end: &Result<&str, Cause>) -> bool {
    match as_rep(alloc) {
        Ok(rep) => ends(alloc, tgs_req_of(alloc, &rep, wanted), end),
        Err(_) => false,
    }
}

#[test]
fn tgs_reqs(rt: HostRuntime) {
    for (wanted, end) in &TGS_REQS {
        assert!(rt; is_wanted(rt.alloc(), wanted, end), "{}", wanted.service);
    }
}
