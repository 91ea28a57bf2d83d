//! Names and identities, and their parts.

use krb_der::{Octets, Text, TryCopy, boxed};
use sspi_core::{
    AuthIdentity, AuthIdentityBuffers, Credentials, CredentialsBuffers, DownLevelLogonName,
    KeytabIdentity, Secret, UserPrincipalName, Username, UsernameParts,
};
use std::alloc::Global;
use std::test::Fail;

/// A text, and how its parts are written.
static CUTS: [(&str, &str); 8] = [
    (
        "user@example.com",
        "user@example.com is user at example.com",
    ),
    (
        "user@dept@tbt.com",
        "user@dept@tbt.com is user@dept at tbt.com",
    ),
    ("@", "@ is  at "),
    ("EXAMPLE\\user", "user of EXAMPLE"),
    ("\\user", "user of "),
    ("user", "user"),
    ("", ""),
    (
        "user\u{e9}@\u{e9}",
        "user\u{e9}@\u{e9} is user\u{e9} at \u{e9}",
    ),
];

fn cuts() -> &'static [(&'static str, &'static str)] {
    &CUTS
}

fn principal_written(alloc: Global, name: &UserPrincipalName<'_>) -> Result<String, Fail> {
    let text = format!(in alloc;
        "{} is {} at {}",
        name.upn(),
        name.account_name(),
        name.suffix()
    )?;
    Ok(text)
}

fn account_written(alloc: Global, name: &DownLevelLogonName<'_>) -> Result<String, Fail> {
    let text = match name.netbios_domain() {
        Some(domain) => format!(in alloc; "{} of {domain}", name.account_name())?,
        None => String::from_str(alloc, name.account_name())?,
    };
    Ok(text)
}

/// A text that tells the name's parts apart.
fn written(alloc: Global, name: &Username) -> Result<String, Fail> {
    match name.parts() {
        UsernameParts::UserPrincipalName(name) => principal_written(alloc, &name),
        UsernameParts::DownLevelLogonName(name) => account_written(alloc, &name),
    }
}

fn has_parts_of(alloc: Global, name: &Username, want: &str) -> Result<bool, Fail> {
    let parts = written(alloc, name)?;
    Ok(parts.as_str() == want)
}

/// Whether a copy is the name, and its parts are written so.
fn is_cut(alloc: Global, text: &str, want: &str) -> Result<bool, Fail> {
    let name = boxed(alloc, Username::parse(alloc, text)?)?;
    let copy = boxed(alloc, name.copy(alloc)?)?;
    Ok(*copy == *name && has_parts_of(alloc, &copy, want)?)
}

#[test]
fn a_name_is_cut_at_its_sign(rt: HostRuntime) -> Result<(), Fail> {
    for (text, want) in cuts() {
        assert!(rt; is_cut(rt.alloc(), text, want)?, "{text}");
    }
    Ok(())
}

fn identity(alloc: Global, name: &str) -> Result<Box<AuthIdentity>, Fail> {
    let password = Text::from_str(alloc, "password")?;
    let identity = AuthIdentity {
        username: Username::parse(alloc, name)?,
        password: Secret::new(password),
    };
    Ok(boxed(alloc, identity)?)
}

fn has_parts(buffers: &AuthIdentityBuffers, user: &str, domain: &str) -> bool {
    buffers.user.as_str() == user
        && buffers.domain.as_str() == domain
        && buffers.password.as_ref().as_str() == "password"
}

/// Whether the identity of this name has these parts, and is that of its parts.
fn returns(alloc: Global, name: &str, user: &str, domain: &str) -> Result<bool, Fail> {
    let whole = identity(alloc, name)?;
    let buffers = boxed(alloc, AuthIdentityBuffers::from_identity(alloc, &whole)?)?;
    let again = boxed(alloc, AuthIdentity::from_buffers(alloc, &buffers)?)?;
    Ok(has_parts(&buffers, user, domain) && *again == *whole)
}

#[test]
fn an_identity_returns_from_its_parts(rt: HostRuntime) -> Result<(), Fail> {
    let alloc = rt.alloc();
    assert!(rt; returns(alloc, "user@example.com", "user@example.com", "")?);
    assert!(rt; returns(alloc, "EXAMPLE\\user", "user", "EXAMPLE")?);
    assert!(rt; returns(alloc, "user", "user", "")?);
    Ok(())
}

fn keytab(alloc: Global) -> Result<Box<KeytabIdentity>, Fail> {
    let key = Octets::from_slice(alloc, &[7; 16])?;
    let identity = KeytabIdentity {
        principal: Username::parse(alloc, "host")?,
        key: Secret::new(key),
        key_enctype: 17,
    };
    Ok(boxed(alloc, identity)?)
}

/// The credentials that are kept, copied.
fn kept(alloc: Global, credentials: &Credentials) -> Result<Box<CredentialsBuffers>, Fail> {
    let kept = boxed(
        alloc,
        CredentialsBuffers::from_credentials(alloc, credentials)?,
    )?;
    let copy = boxed(alloc, kept.copy(alloc)?)?;
    if *copy == *kept {
        Ok(copy)
    } else {
        Err(Fail::from("another copy"))
    }
}

fn of_user(alloc: Global) -> Result<Box<Credentials>, Fail> {
    let identity = identity(alloc, "EXAMPLE\\user")?;
    Ok(boxed(alloc, Credentials::AuthIdentity(Box::into_inner(identity)))?)
}

#[test]
fn a_password_is_kept_with_its_user(rt: HostRuntime) -> Result<(), Fail> {
    let credentials = of_user(rt.alloc())?;
    let kept = kept(rt.alloc(), &credentials)?;
    assert!(rt;
        matches!(&*kept, CredentialsBuffers::AuthIdentity(parts) if has_parts(parts, "user", "EXAMPLE"))
    );
    Ok(())
}

fn of_host(alloc: Global) -> Result<Box<Credentials>, Fail> {
    let identity = keytab(alloc)?;
    Ok(boxed(alloc, Credentials::Keytab(Box::into_inner(identity)))?)
}

#[test]
fn a_key_is_kept_with_its_type(rt: HostRuntime) -> Result<(), Fail> {
    let credentials = of_host(rt.alloc())?;
    let kept = kept(rt.alloc(), &credentials)?;
    let wanted = keytab(rt.alloc())?;
    assert!(rt; matches!(&*kept, CredentialsBuffers::Keytab(identity) if *identity == *wanted));
    Ok(())
}
