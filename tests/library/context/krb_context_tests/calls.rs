//! Calls that change a context, that no context has, and that tell of the package.

use super::cause_of;
use super::queries::{new_client, password_identity};
use bitflags::Flags;
use krb_conf::{Env, KerberosConfig};
use krb_context::{
    ApOptions, ContextChange, EncryptionParams, GssFlags, Kerberos, KerberosState, package_info,
};
use krb_der::{Items, Text, boxed};
use sspi_core::{Cause, ClientRequestFlags, CredentialUse, Credentials, CredentialsBuffers};
use std::alloc::Global;
use std::test::Fail;

/// A call that is refused.
#[derive(Clone, Copy)]
enum Call {
    MakeSignature,
    VerifySignature,
    TellTrust,
    SpeakForNobody,
}

static REFUSED: [(Call, Cause); 4] = [
    (Call::MakeSignature, Cause::Unsupported),
    (Call::VerifySignature, Cause::Unsupported),
    (Call::TellTrust, Cause::Unsupported),
    (Call::SpeakForNobody, Cause::NoIdentity),
];

fn refused() -> &'static [(Call, Cause)] {
    &REFUSED
}

fn refusal(alloc: Global, context: &mut Kerberos, call: Call) -> Option<Cause> {
    match call {
        Call::MakeSignature => cause_of(context.make_signature()),
        Call::VerifySignature => cause_of(context.verify_signature()),
        Call::TellTrust => cause_of(context.query_context_cert_trust_status()),
        Call::SpeakForNobody => cause_of(context.acquire_credentials_handle(
            alloc,
            CredentialUse::Outbound,
            None,
        )),
    }
}

fn new_client_refuses(alloc: Global, call: Call) -> Result<Option<Cause>, Fail> {
    let mut client = new_client(alloc)?;
    Ok(refusal(alloc, &mut client, call))
}

#[test]
fn calls_are_refused(rt: HostRuntime) -> Result<(), Fail> {
    for &(call, cause) in refused() {
        assert_eq!(rt; new_client_refuses(rt.alloc(), call)?, Some(cause));
    }
    Ok(())
}

/// Whether it gives back these buffers, and keeps them.
fn takes(
    alloc: Global,
    client: &mut Kerberos,
    credentials: &Credentials,
    wanted: &Option<CredentialsBuffers>,
) -> Result<bool, Fail> {
    let given = boxed(
        alloc,
        client.acquire_credentials_handle(alloc, CredentialUse::Outbound, Some(credentials))?,
    )?;
    Ok(*given == *wanted && client.auth_identity == *wanted)
}

fn takes_credentials(alloc: Global, client: &mut Kerberos) -> Result<bool, Fail> {
    let credentials = password_identity(alloc)?;
    let wanted = CredentialsBuffers::from_credentials(alloc, &credentials)?;
    let wanted = boxed(alloc, Some(wanted))?;
    takes(alloc, client, &credentials, &wanted)
}

/// The context after an exchange.
fn change(realm: Text) -> ContextChange {
    ContextChange {
        state: KerberosState::Final,
        realm: Some(realm),
        encryption_params: EncryptionParams::default_for_client(),
        seq_number: 7,
        krb5_user_to_user: false,
        asked_at: None,
        ticket_decryption_key: None,
    }
}

/// Whether the next number is the one after the exchange's, and nothing is left to complete.
fn counts_on(alloc: Global, client: &mut Kerberos) -> Result<bool, Fail> {
    client.settle(change(Text::from_str(alloc, "EXAMPLE.COM")?));
    Ok(
        client.next_seq_number() == 8
            && client.complete_auth_token().is_ok()
            && client.query_context_package_info(alloc).is_ok(),
    )
}

fn speaks_and_counts_on(alloc: Global, client: &mut Kerberos) -> Result<bool, Fail> {
    Ok(takes_credentials(alloc, client)? && counts_on(alloc, client)?)
}

fn new_client_speaks_and_counts_on(alloc: Global) -> Result<bool, Fail> {
    let mut client = new_client(alloc)?;
    speaks_and_counts_on(alloc, &mut client)
}

#[test]
fn a_client_speaks_for_its_credentials_and_counts_on(rt: HostRuntime) -> Result<(), Fail> {
    assert!(rt; new_client_speaks_and_counts_on(rt.alloc())?);
    Ok(())
}

/// Whether it tells its realm, and this KDC of it.
fn tells_kdc(alloc: Global, client: &Kerberos, env: &Env, kdc_url: &str) -> Result<bool, Fail> {
    let kdc = boxed(alloc, client.get_kdc(alloc, env)?)?;
    Ok(match &*kdc {
        Some((realm, url)) => realm.as_str() == "EXAMPLE.COM" && url.as_str() == kdc_url,
        None => false,
    })
}

/// A client of EXAMPLE.COM.
fn client_with_kdc(alloc: Global, kdc_url: &str) -> Result<Box<Kerberos>, Fail> {
    let name = Text::from_str(alloc, "hostname")?;
    let config = KerberosConfig::new(alloc, kdc_url, name)?;
    let mut client = boxed(alloc, Kerberos::new_client_from_config(config, [0; 4]))?;
    client.realm = Some(Text::from_str(alloc, "EXAMPLE.COM")?);
    Ok(client)
}

fn has_kdc_in(alloc: Global, env: &Env, kdc_url: &str) -> Result<bool, Fail> {
    let client = client_with_kdc(alloc, kdc_url)?;
    tells_kdc(alloc, &client, env, kdc_url)
}

fn has_kdc(alloc: Global, kdc_url: &str) -> Result<bool, Fail> {
    let env = Env {
        vars: Items::new(Vec::new(alloc)),
        files: Items::new(Vec::new(alloc)),
    };
    has_kdc_in(alloc, &env, kdc_url)
}

#[test]
fn a_client_knows_its_kdc(rt: HostRuntime) -> Result<(), Fail> {
    assert!(rt; has_kdc(rt.alloc(), "tcp://kdc.example.com:88")?);
    Ok(())
}

#[test]
fn the_package_is_kerberos(rt: HostRuntime) -> Result<(), Fail> {
    let info = package_info(rt.alloc())?;
    assert_eq!(rt; info.name.as_str(), "Kerberos");
    assert_eq!(rt; info.comment.as_str(), "Kerberos Security Package");
    let flags = GssFlags::from_client_flags(ClientRequestFlags::MUTUAL_AUTH);
    assert_eq!(rt; flags, GssFlags::GSS_C_MUTUAL_FLAG);
    // The third bit of the four octets (RFC 4120, section 5.5.1).
    let options = ApOptions::from_client_flags(ClientRequestFlags::MUTUAL_AUTH);
    assert_eq!(rt; options.bits(), 0x2000_0000);
    assert_eq!(rt;
        EncryptionParams::default_for_client().sspi_encrypt_key_usage,
        24
    );
    Ok(())
}
