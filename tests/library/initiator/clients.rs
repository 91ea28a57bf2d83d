//! Initiators, as scripts have them.

use crate::octets::octets;
use crate::script::Script;
use bitflags::Flags;
use krb_conf::{Env, KerberosConfig};
use krb_context::{Kerberos, Rules};
use krb_der::{Items, Name, Octets, OutOfMemory, Text, boxed};
use sspi_core::{AuthIdentityBuffers, CredentialsBuffers, KeytabIdentity, Secret, Username};
use std::alloc::Global;
use std::test::Fail;

/// An initiator, line by line.
#[derive(Clone, Copy)]
pub struct Initiator {
    /// Its number, the name of its machine, and the service and its host.
    pub itself: &'static str,
    /// The rules that its context goes by: a line `rules` has their bits.
    pub rules: Rules,
    /// The URL of its KDC.
    pub kdc: Option<&'static str>,
    /// A user, its realm and its password.
    pub password: Option<&'static str>,
    /// A principal, the number of its key's suite, and the key in hex.
    pub keytab: Option<&'static str>,
    /// Two variables of its environment, each with its value.
    pub variables: [Option<&'static str>; 2],
}

/// The rules that a line has the bits of; none without it.
pub fn rules_of(bits: Option<&str>) -> Rules {
    Rules::from_bits_retain(bits.unwrap_or("").parse().unwrap_or(0))
}

impl Initiator {
    /// The initiator with which a script begins.
    pub fn next(script: &mut Script) -> Initiator {
        Initiator {
            itself: script.take("initiator").unwrap_or(""),
            rules: rules_of(script.take("rules")),
            kdc: script.take("kdc"),
            password: script.take("password"),
            keytab: script.take("keytab"),
            variables: [script.take("env"), script.take("env")],
        }
    }

    /// The context before its exchange.
    pub fn client(&self, alloc: Global) -> Result<Box<Kerberos>, OutOfMemory> {
        let mut words = self.itself.split(' ');
        let number: u32 = words.next().unwrap_or("").parse().unwrap_or(0);
        let config = config(alloc, self.kdc, words.next().unwrap_or(""))?;
        let mut client = Kerberos::new_client_from_config(config, number.to_be_bytes());
        client.rules = self.rules;
        boxed(alloc, client)
    }

    /// Its request, if it has one.
    pub fn target(&self, alloc: Global) -> Result<Option<Name>, Fail> {
        let mut words = self.itself.split(' ');
        match words.nth(2).unwrap_or("-") {
            "-" => Ok(None),
            target => {
                let target = Vec::from_slice(alloc, target.as_bytes())?;
                Ok(Some(Name::new(target).ok_or("not ASCII")?))
            }
        }
    }

    /// Whom it speaks for, if anyone.
    pub fn credentials(&self, alloc: Global) -> Result<Option<CredentialsBuffers>, Fail> {
        match (self.password, self.keytab) {
            (Some(user), _) => Ok(Some(with_password(alloc, user)?)),
            (None, Some(entry)) => Ok(Some(with_key(alloc, entry)?)),
            (None, None) => Ok(None),
        }
    }

    /// Its environment, without a file.
    pub fn env(&self, alloc: Global) -> Result<Env, OutOfMemory> {
        let mut variables = Vec::new(alloc);
        add_variables(alloc, &mut variables, &self.variables)?;
        Ok(Env {
            vars: Items::new(variables),
            files: Items::new(Vec::new(alloc)),
        })
    }
}

/// Of the KDC at this URL, if there is one.
pub fn config(
    alloc: Global,
    kdc: Option<&str>,
    machine: &str,
) -> Result<KerberosConfig, OutOfMemory> {
    let client_computer_name = Text::from_str(alloc, machine)?;
    match kdc {
        Some(url) => KerberosConfig::new(alloc, url, client_computer_name),
        None => Ok(KerberosConfig {
            kdc_url: None,
            client_computer_name,
        }),
    }
}

fn with_password(alloc: Global, user: &str) -> Result<CredentialsBuffers, OutOfMemory> {
    let mut words = user.split(' ');
    Ok(CredentialsBuffers::AuthIdentity(AuthIdentityBuffers {
        user: Text::from_str(alloc, words.next().unwrap_or(""))?,
        domain: Text::from_str(alloc, words.next().unwrap_or(""))?,
        password: Secret::new(Text::from_str(alloc, words.next().unwrap_or(""))?),
    }))
}

/// With a key of AES-128, whose number is 17, or else of AES-256.
fn with_key(alloc: Global, entry: &'static str) -> Result<CredentialsBuffers, Fail> {
    let mut words = entry.split(' ');
    let user = words.next().unwrap_or("");
    let number = words.next().unwrap_or("");
    let key = octets(alloc, words.next().unwrap_or(""))?;
    Ok(CredentialsBuffers::Keytab(KeytabIdentity {
        principal: Username::parse(alloc, user)?,
        key: Secret::new(key),
        key_enctype: if number == "17" { 17 } else { 18 },
    }))
}

fn variable(alloc: Global, line: &str) -> Result<(Text, Text), OutOfMemory> {
    let (name, value) = line.split_once(' ').unwrap_or((line, ""));
    let name = Text::from_str(alloc, name)?;
    let value = Text::from_str(alloc, value)?;
    Ok((name, value))
}

fn add_variable(
    alloc: Global,
    variables: &mut Vec<(Text, Text)>,
    line: &str,
) -> Result<(), OutOfMemory> {
    let variable = variable(alloc, line)?;
    variables.push(variable)?;
    Ok(())
}

fn add_variables(
    alloc: Global,
    variables: &mut Vec<(Text, Text)>,
    lines: &[Option<&'static str>],
) -> Result<(), OutOfMemory> {
    for line in lines {
        if let Some(line) = line {
            add_variable(alloc, variables, line)?;
        }
    }
    Ok(())
}
