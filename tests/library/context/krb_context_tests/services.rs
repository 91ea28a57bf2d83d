//! The keys of an acceptor's services.

use super::cause_of;
use super::ends::{SHORT_ACCEPTOR, octets, properties};
use krb_context::{AdditionalServiceKeys, ServerProperties};
use krb_der::{Octets, TryCopy, boxed};
use krb_messages::PrincipalName;
use sspi_core::{Cause, Secret};
use std::alloc::Global;
use std::test::Fail;

/// The two components of a service, and whether it has a key where kafka/localhost alone was given one.
static SERVICES: [(&str, &str, bool); 3] = [
    ("kafka", "localhost", true),
    ("kafka", "server.example.com", false),
    ("host", "server.example.com", false),
];

fn services() -> &'static [(&'static str, &'static str, bool)] {
    &SERVICES
}

fn has_key(server: &ServerProperties, name: &PrincipalName) -> bool {
    server.ticket_decryption_key_for(name).is_some()
}

/// Whether the service of these components has a key.
fn have_key(alloc: Global, server: &ServerProperties, components: &[&str]) -> Result<bool, Fail> {
    let named = boxed(
        alloc,
        ServerProperties::new(alloc, components, None, 0, None)?,
    )?;
    Ok(has_key(server, &named.service_name))
}

/// Whether each service of the table has a key or has none.
fn are_known(alloc: Global, server: &ServerProperties) -> Result<bool, Fail> {
    for &(first, second, wanted) in services() {
        if have_key(alloc, server, &[first, second])? != wanted {
            return Ok(false);
        }
    }
    Ok(true)
}

fn are_known_to_a_copy(alloc: Global, server: &ServerProperties) -> Result<bool, Fail> {
    let copied = boxed(alloc, server.copy(alloc)?)?;
    are_known(alloc, &copied)
}

/// The cause where a key is not added to these components.
fn refusal(
    alloc: Global,
    server: &mut ServerProperties,
    components: &[&str],
) -> Result<Option<Cause>, Fail> {
    let key = Secret::new(octets(alloc, SHORT_ACCEPTOR.key)?);
    Ok(cause_of(server.add_service_key(alloc, components, key)))
}

/// Whether a further service gets its key, and one past ASCII none.
fn takes_keys(alloc: Global, server: &mut ServerProperties) -> Result<bool, Fail> {
    let added = refusal(alloc, server, &["kafka", "localhost"])?;
    let past_ascii = refusal(alloc, server, &["kafk\u{e4}"])?;
    Ok(added.is_none() && past_ascii == Some(Cause::NotAscii))
}

/// Whether a service takes further keys, and it and a copy of it know them then.
fn are_known_once_added(alloc: Global, server: &mut ServerProperties) -> Result<bool, Fail> {
    Ok(
        takes_keys(alloc, server)?
            && are_known(alloc, server)?
            && are_known_to_a_copy(alloc, server)?,
    )
}

fn have_keys(alloc: Global) -> Result<bool, Fail> {
    let mut server = properties(alloc)?;
    are_known_once_added(alloc, &mut server)
}

#[test]
fn services_have_keys_by_their_components(rt: HostRuntime) -> Result<(), Fail> {
    assert!(rt; have_keys(rt.alloc())?);
    Ok(())
}

fn named(alloc: Global, instance: &str) -> Result<PrincipalName, Fail> {
    let named = boxed(
        alloc,
        ServerProperties::new(alloc, &["host", instance], None, 0, None)?,
    )?;
    Ok(named.service_name.copy(alloc)?)
}

fn numbered_service(alloc: Global, number: u16) -> Result<PrincipalName, Fail> {
    let instance = format!(in alloc; "{number}")?;
    named(alloc, instance.as_str())
}

fn numbered_key(alloc: Global, number: u16) -> Result<Secret<Octets>, Fail> {
    Ok(Secret::new(Octets::from_slice(alloc, &number.to_be_bytes())?))
}

/// One service more, with the key of its number.
fn add_numbered(
    alloc: Global,
    services: &mut Vec<(PrincipalName, Secret<Octets>)>,
    number: u16,
) -> Result<(), Fail> {
    let key = numbered_key(alloc, number)?;
    services.push((numbered_service(alloc, number)?, key))?;
    Ok(())
}

/// 300 services with the keys of their numbers.
fn many_keys(alloc: Global) -> Result<Box<AdditionalServiceKeys>, Fail> {
    let mut services = Vec::new(alloc);
    for number in 0..300 {
        add_numbered(alloc, &mut services, number)?;
    }
    Ok(boxed(alloc, AdditionalServiceKeys::new(alloc, services)?)?)
}

/// The first once more, with another key.
fn add_again(alloc: Global, keys: &mut AdditionalServiceKeys) -> Result<(), Fail> {
    let key = numbered_key(alloc, 999)?;
    let service = numbered_service(alloc, 0)?;
    keys.push(alloc, service, key)?;
    Ok(())
}

/// Whether the service with this number has the key of its number, or none.
fn has_its_key(
    alloc: Global,
    keys: &AdditionalServiceKeys,
    number: u16,
    wanted: bool,
) -> Result<bool, Fail> {
    let service = numbered_service(alloc, number)?;
    match keys.find(&service.name_string) {
        Some(key) => Ok(wanted && key.as_ref().as_slice() == number.to_be_bytes().as_slice()),
        None => Ok(!wanted),
    }
}

#[test]
fn the_first_key_of_a_name_is_found_among_many(rt: HostRuntime) -> Result<(), Fail> {
    let mut keys = many_keys(rt.alloc())?;
    add_again(rt.alloc(), &mut keys)?;
    assert_eq!(rt; keys.as_slice().len(), 301);
    for (number, wanted) in [(0, true), (299, true), (300, false)] {
        assert!(rt; has_its_key(rt.alloc(), &keys, number, wanted)?, "{number}");
    }
    Ok(())
}
