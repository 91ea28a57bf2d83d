//! Tickets of credential caches of MIT krb5 and Heimdal, held and cached again.

use crate::files::{HEIMDAL, MIT};
use krb_ccache::{Ccache, Credential, is_option};
use krb_der::{Items, Octets};
use krb_tickets::{HeldTicket, credential_of, held_of};
use sspi_core::Cause;
use std::alloc::Global;
use std::test::Fail;

pub fn read(alloc: Global, file: &str) -> Result<Ccache, Fail> {
    let octets = hex::decode(alloc, file)?;
    match Ccache::read(alloc, &octets) {
        Ok(cache) => Ok(cache),
        Err(_) => Err(Fail::from("no cache")),
    }
}

fn held(alloc: Global, credential: &Credential) -> Result<HeldTicket, Fail> {
    match held_of(alloc, credential) {
        Ok(held) => Ok(held),
        Err(_) => Err(Fail::from("no ticket")),
    }
}

/// The credential of the ticket that this one is, or itself if it is an option.
fn again(alloc: Global, credential: Credential) -> Result<Credential, Fail> {
    if is_option(&credential) {
        return Ok(credential);
    }
    let held = held(alloc, &credential)?;
    Ok(credential_of(alloc, held.as_grant())?)
}

/// The file with the credentials of the tickets that its credentials are.
fn written_again(alloc: Global, file: &str) -> Result<Octets, Fail> {
    let mut cache = read(alloc, file)?;
    let mut credentials = Vec::new(alloc);
    for credential in cache.credentials.into_inner() {
        credentials.push(again(alloc, credential)?)?;
    }
    cache.credentials = Items::new(credentials);
    if !cache.is_writable() {
        return Err(Fail::from("too long"));
    }
    Ok(cache.write(alloc)?)
}

#[test]
fn tickets_are_cached_as_they_were(rt: HostRuntime) -> Result<(), Fail> {
    let alloc = rt.alloc();
    for file in [MIT, HEIMDAL] {
        let octets = hex::decode(alloc, file)?;
        assert!(rt; written_again(alloc, file)?.as_slice() == octets.as_slice());
    }
    Ok(())
}

/// The ticket of MIT's cache for the service `host/server.example.com`.
pub fn host_ticket(alloc: Global) -> Result<Credential, Fail> {
    let mut credentials = read(alloc, MIT)?.credentials.into_inner();
    credentials.pop();
    match credentials.pop() {
        Some(credential) => Ok(credential),
        None => Err(Fail::from("no credential")),
    }
}

/// Its ticket for the ticket-granting service, which is third, after two options.
pub fn tgt(alloc: Global) -> Result<Credential, Fail> {
    let mut credentials = read(alloc, MIT)?.credentials.into_inner();
    credentials.truncate(3);
    match credentials.pop() {
        Some(credential) => Ok(credential),
        None => Err(Fail::from("no credential")),
    }
}

/// Why a credential is no ticket.
fn cause_of(alloc: Global, credential: &Credential) -> Option<Cause> {
    match held_of(alloc, credential) {
        Ok(_) => None,
        Err(cause) => Some(cause),
    }
}

#[test]
fn a_held_ticket_has_the_facts_of_its_credential(rt: HostRuntime) -> Result<(), Fail> {
    let alloc = rt.alloc();
    let held = held(alloc, &host_ticket(alloc)?)?;
    let grant = held.as_grant();
    assert_eq!(rt; grant.suite.number(), 18);
    assert_eq!(rt; grant.key.as_ref().as_slice().len(), 32);
    assert_eq!(rt; grant.rep.crealm.as_str(), "EXAMPLE.COM");
    assert_eq!(rt; grant.rep.cname.name_type.as_slice(), &[1][..]);
    assert_eq!(rt; grant.facts.srealm.as_str(), "EXAMPLE.COM");
    assert_eq!(rt;
        grant.facts.flags.octets.as_slice(),
        &[0x40, 0x29, 0, 0][..]
    );
    assert_eq!(rt; grant.facts.authtime.seconds(), 1_796_096_853);
    assert_eq!(rt; grant.facts.endtime.seconds(), 1_796_183_253);
    assert!(rt; grant.facts.renew_till.is_none());
    Ok(())
}

#[test]
fn keys_of_other_types_are_refused(rt: HostRuntime) -> Result<(), Fail> {
    let alloc = rt.alloc();
    let mut credential = host_ticket(alloc)?;
    for key_type in [0, 16, 19, 23, 274] {
        credential.key.key_type = key_type;
        assert_eq!(rt; cause_of(alloc, &credential), Some(Cause::Etype));
    }
    for key_type in [17, 18] {
        credential.key.key_type = key_type;
        assert_eq!(rt; cause_of(alloc, &credential), None);
    }
    Ok(())
}

#[test]
fn names_past_ascii_are_refused(rt: HostRuntime) -> Result<(), Fail> {
    let alloc = rt.alloc();
    let mut credential = host_ticket(alloc)?;
    credential.client.realm = Octets::from_slice(alloc, &[0x80])?;
    assert_eq!(rt; cause_of(alloc, &credential), Some(Cause::NotAscii));
    credential = host_ticket(alloc)?;
    let mut components = Vec::new(alloc);
    components.push(Octets::from_slice(alloc, &[0xc3, 0xa9])?)?;
    credential.client.components = Items::new(components);
    assert_eq!(rt; cause_of(alloc, &credential), Some(Cause::NotAscii));
    Ok(())
}

#[test]
fn tickets_that_are_cut_are_refused(rt: HostRuntime) -> Result<(), Fail> {
    let alloc = rt.alloc();
    let mut credential = host_ticket(alloc)?;
    let whole = Octets::from_slice(alloc, credential.ticket.as_slice())?;
    for size in 0..whole.as_slice().len() {
        credential.ticket = Octets::from_slice(alloc, &whole.as_slice()[..size])?;
        assert_eq!(rt; cause_of(alloc, &credential), Some(Cause::Shape));
    }
    Ok(())
}

/// The type that a name of this type has in a cache again.
fn type_again(alloc: Global, name_type: u32) -> Result<u32, Fail> {
    let mut credential = host_ticket(alloc)?;
    credential.client.name_type = name_type;
    Ok(again(alloc, credential)?.client.name_type)
}

#[test]
fn types_of_names_stay(rt: HostRuntime) -> Result<(), Fail> {
    let alloc = rt.alloc();
    for name_type in [
        0,
        1,
        10,
        127,
        128,
        255,
        256,
        32767,
        32768,
        8_388_607,
        8_388_608,
        2_147_483_647,
        2_147_483_648,
        4_286_578_687,
        4_286_578_688,
        4_294_934_527,
        4_294_934_528,
        4_294_967_167,
        4_294_967_168,
        4_294_967_295,
    ] {
        assert_eq!(rt; type_again(alloc, name_type)?, name_type);
    }
    Ok(())
}
