//! Names of clients, by their type.

use krb_der::{IntegerAsn1, Items, Name};
use krb_messages::PrincipalName;
use krb_server::client_upn;
use sspi_core::{Cause, Error, Username};
use std::alloc::{AllocError, Global};
use std::test::Fail;

/// A client at the realm EXAMPLE.COM: the octets of its name's type in hex, its two components, and the user that it is, or
/// no text where it is refused.
struct Client {
    name_type: &'static str,
    first: &'static str,
    second: &'static str,
    user: &'static str,
}

static CLIENTS: [Client; 10] = [
    Client {
        name_type: "01",
        first: "alice",
        second: "",
        user: "alice@example.com",
    },
    Client {
        name_type: "01",
        first: "kafka",
        second: "Host",
        user: "kafka@example.com",
    },
    Client {
        name_type: "01",
        first: "a@b",
        second: "",
        user: "a@b@example.com",
    },
    Client {
        name_type: "01",
        first: "a\\b",
        second: "",
        user: "",
    },
    Client {
        name_type: "0a",
        first: "alice@Other.Example",
        second: "",
        user: "alice@Other.Example",
    },
    Client {
        name_type: "0a",
        first: "DOMAIN\\alice",
        second: "x",
        user: "DOMAIN\\alice",
    },
    Client {
        name_type: "0a",
        first: "a\\b@c",
        second: "",
        user: "",
    },
    Client {
        name_type: "02",
        first: "alice",
        second: "",
        user: "",
    },
    Client {
        name_type: "0001",
        first: "alice",
        second: "",
        user: "",
    },
    Client {
        name_type: "00",
        first: "alice",
        second: "",
        user: "",
    },
];

fn clients() -> &'static [Client] {
    &CLIENTS
}

fn name(alloc: Global, text: &str) -> Result<Name, Fail> {
    let octets = Vec::from_slice(alloc, text.as_bytes())?;
    Ok(Name::new(octets).ok_or("not ASCII")?)
}

fn add(names: &mut Vec<Name>, name: Name) -> Result<(), AllocError> {
    names.push(name)?;
    Ok(())
}

fn principal(alloc: Global, row: &Client) -> Result<PrincipalName, Fail> {
    let name_type = IntegerAsn1::from_bytes_be(hex::decode(alloc, row.name_type)?);
    let mut components = Vec::new(alloc);
    add(&mut components, name(alloc, row.first)?)?;
    add(&mut components, name(alloc, row.second)?)?;
    Ok(PrincipalName {
        name_type,
        name_string: Items::new(components),
    })
}

/// The user that the row's client is.
fn user_of(alloc: Global, row: &Client) -> Result<Result<Username, Error>, Fail> {
    let realm = name(alloc, "EXAMPLE.COM")?;
    let cname = principal(alloc, row)?;
    Ok(client_upn(alloc, &cname, &realm))
}

fn is_user(alloc: Global, user: &Username, text: &str) -> Result<bool, Fail> {
    let wanted = Username::parse(alloc, text)?;
    Ok(*user == wanted)
}

/// Whether the row's client is the row's user, or is refused.
fn is_known_so(alloc: Global, row: &Client) -> Result<bool, Fail> {
    match user_of(alloc, row)? {
        Ok(user) => Ok(!row.user.is_empty() && is_user(alloc, &user, row.user)?),
        Err(error) => Ok(row.user.is_empty() && error.cause == Cause::ClientName),
    }
}

#[test]
fn clients_are_known_by_the_types_of_their_names(rt: HostRuntime) -> Result<(), Fail> {
    for row in clients() {
        assert!(rt; is_known_so(rt.alloc(), row)?);
    }
    Ok(())
}
