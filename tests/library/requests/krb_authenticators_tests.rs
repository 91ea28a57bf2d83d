//! Tokens of a client for services and for ticket-granting services, octet by octet.

mod messages;
mod tgs_requests;

ghost use Rattle.std.specs.Prelude.{◌≡◌, ◌<◌, ◌≤◌, ◌^◌, IfOk, IfSome, true, length};
ghost use Rattle.krb_messages.specs.Layouts.{ap_req_layout, authenticator_layout};
ghost use Rattle.sspi_core.specs.Moments.{last_moment};
ghost use Rattle.krb_requests.specs.Pieces.{Fits};
ghost use Rattle.krb_as.specs.Granted.{IsSendable};
ghost use Rattle.krb_authenticators.specs.Authenticators.{IsShortChecksum};
ghost use Rattle.krb_authenticators.specs.Bindings.{AreShortBindings};
ghost use Rattle.krb_authenticators.specs.Passwords.{FitsPriv};

use crate::rows::{ends, is_row, owned};
use bitflags::Flags;
use krb_as::{granted_as_rep, granted_tgs_rep};
use krb_authenticators::{
    ChecksumOptions, ChecksumValues, EncKey, GenerateAuthenticatorOptions, bindings_hash,
    generate_ap_req, generate_authenticator, generate_krb_priv_request, generate_tgs_ap_req,
};
use krb_context::{ApOptions, EncryptionParams, GssFlags};
use krb_crypto::CipherSuite;
use krb_der::{Items, Octets, OutOfMemory, TryCopy, boxed};
use krb_exchange::{AsRep, KdcRep, KrbPrivMessage, TgsRep};
use krb_messages::{ApReq, Authenticator};
use sspi_core::{Cause, ChannelBindings, ClientRequestFlags, Error, NetworkProtocol, Secret};
use sspi_generator::NetFault;
use std::alloc::Global;

/// 2023-11-14 22:13:20.
const T0: u64 = 1_700_000_000_000_000;

/// The microseconds after it.
const BEHIND: u32 = 123_456;

/// This many microseconds after that second.
fn behind(microseconds: u32) -> u64
    ensures { result ≤ last_moment }
{
    T0 + u64::from(microseconds)
}

/// The octets from the first on, each one more than the one before.
fn counted<const N: usize>(first: u8) -> [u8; N] {
    let mut octets = [0; N];
    let mut next = first;
    for octet in octets.iter_mut() {
        *octet = next;
        next = next.wrapping_add(1);
    }
    octets
}

/// A checksum of an authenticator.
#[derive(Clone, Copy)]
enum Sum {
    None,
    /// That of flags, and of channel bindings.
    Flags(u32),
    /// Of the same type, with 19 octets.
    Short,
    /// The MD5 of a body, in hex.
    Md5(&'static str),
}

/// The fields of an authenticator.
#[derive(Clone, Copy)]
struct Shown {
    seq_num: u32,
    microseconds: u32,
    /// The client chose the octets 0 to 31 for a key.
    has_key: bool,
    sum: Sum,
    /// The channel has bindings, all of them empty.
    is_bound: bool,
}

const SHOWN: Shown = Shown {
    seq_num: 42,
    microseconds: BEHIND,
    has_key: false,
    sum: Sum::None,
    is_bound: false,
};

fn chosen_key(alloc: Global, has_key: bool) -> Result<Option<EncKey>, OutOfMemory>
    ensures { IfOk result (λ key. IfSome key (λ k. length k.key_value ≤ 2 ^ 24)) }
{
    if !has_key {
        return Ok(None);
    }
    let octets: [u8; 32] = counted(0);
    Ok(Some(EncKey {
        key_type: CipherSuite::Aes256CtsHmacSha196,
        key_value: Secret::new(Octets::from_slice(alloc, &octets)?),
    }))
}

fn checksum_of(
    alloc: Global,
    checksum_type: &[u8],
    checksum_value: Octets,
) -> Result<ChecksumOptions, OutOfMemory>
    requires some { 0 < length checksum_type.now }
    ensures { IfOk result IsShortChecksum }
{
    if checksum_type.len() > 64 || checksum_value.as_slice().len() > 64 {
        return Err(OutOfMemory);
    }
    Ok(ChecksumOptions {
        checksum_type: Octets::from_slice(alloc, checksum_type)?,
        checksum_value,
    })
}

fn flags_value(alloc: Global, flags: u32) -> Result<Octets, OutOfMemory> {
    let mut values = ChecksumValues::default();
    values.set_flags(GssFlags::from_bits_retain(flags));
    values.into_inner(alloc)
}

fn checksum(alloc: Global, sum: Sum) -> Result<Option<ChecksumOptions>, OutOfMemory>
    ensures { IfOk result (λ options. IfSome options IsShortChecksum) }
{
    let options = match sum {
        Sum::None => return Ok(None),
        Sum::Flags(flags) => checksum_of(alloc, b"\x00\x80\x03", flags_value(alloc, flags)?)?,
        Sum::Short => checksum_of(alloc, b"\x00\x80\x03", Octets::from_slice(alloc, &[0; 19])?)?,
        Sum::Md5(digits) => checksum_of(alloc, b"\x07", owned(alloc, digits)?)?,
    };
    Ok(Some(options))
}

fn no_bindings(alloc: Global) -> ChannelBindings
    ensures { AreShortBindings result }
{
    ChannelBindings {
        initiator_addr_type: 0,
        initiator: Octets::new(Vec::new(alloc)),
        acceptor_addr_type: 0,
        acceptor: Octets::new(Vec::new(alloc)),
        application_data: Octets::new(Vec::new(alloc)),
    }
}

fn bindings_if(alloc: Global, is_bound: bool) -> Option<ChannelBindings>
    ensures { IfSome result AreShortBindings }
{
    if is_bound {
        Some(no_bindings(alloc))
    } else {
        None
    }
}

fn authenticator_over(
    alloc: Global,
    rep: &KdcRep,
    shown: &Shown,
    bindings: &Option<ChannelBindings>,
) -> Result<Authenticator, Error>
    requires rep { IsSendable rep.now }
    requires bindings { IfSome bindings.now AreShortBindings }
    ensures { IfOk result (λ made. Fits authenticator_layout (2 ^ 27) made) }
{
    let sub_key = chosen_key(alloc, shown.has_key)?;
    let checksum = checksum(alloc, shown.sum)?;
    let options = GenerateAuthenticatorOptions {
        kdc_rep: rep,
        seq_num: Some(shown.seq_num),
        sub_key,
        checksum,
        channel_bindings: bindings.as_ref(),
        extensions: Items::new(Vec::new(alloc)),
    };
    generate_authenticator(alloc, options, behind(shown.microseconds))
}

/// An authenticator of the client of a reply.
fn authenticator(alloc: Global, rep: &KdcRep, shown: &Shown) -> Result<Authenticator, Error>
    requires { IsSendable rep.now }
    ensures { IfOk result (λ made. Fits authenticator_layout (2 ^ 27) made) }
{
    let bindings = bindings_if(alloc, shown.is_bound);
    authenticator_over(alloc, rep, shown, &bindings)
}

/// A message of a KDC as UDP brings it here, after four octets.
fn reply(alloc: Global, digits: &str) -> Result<Octets, NetFault> {
    match behind_four(alloc, digits) {
        Ok(reply) => Ok(reply),
        Err(OutOfMemory) => Err(NetFault::OutOfMemory),
    }
}

fn behind_four(alloc: Global, digits: &str) -> Result<Octets, OutOfMemory> {
    let message = owned(alloc, digits)?;
    let mut octets = Vec::from_slice(alloc, &[0; 4])?;
    octets.extend_from_slice(message.as_slice())?;
    Ok(Octets::new(octets))
}

fn as_rep(alloc: Global) -> Result<Box<KdcRep>, Cause>
    ensures { IfOk result (λ rep. IsSendable rep.value) }
{
    let reply = reply(alloc, messages::AS_REP);
    let AsRep(rep) = granted_as_rep(alloc, NetworkProtocol::Udp, reply)?;
    Ok(boxed(alloc, rep)?)
}

fn tgs_rep(alloc: Global) -> Result<Box<KdcRep>, Cause>
    ensures { IfOk result (λ rep. IsSendable rep.value) }
{
    let reply = reply(alloc, messages::TGS_REP);
    let TgsRep(rep) = granted_tgs_rep(alloc, NetworkProtocol::Udp, reply)?;
    Ok(boxed(alloc, rep)?)
}

static AUTHENTICATORS: [(Shown, Result<&str, Cause>); 4] = [
    (SHOWN, Ok(messages::PLAIN)),
    (
        Shown {
            seq_num: u32::MAX,
            has_key: true,
            sum: Sum::Flags(0x3e),
            ..SHOWN
        },
        Ok(messages::CHOSEN),
    ),
    (
        Shown {
            sum: Sum::Flags(0),
            is_bound: true,
            ..SHOWN
        },
        Ok(messages::BOUND),
    ),
    (
        Shown {
            sum: Sum::Short,
            is_bound: true,
            ..SHOWN
        },
        Err(Cause::Checksum),
    ),
];

#[tactic(auto, using(crate::proofs::Fitting::from_27))]
fn is_shown(alloc: Global, shown: &Shown, end: &Result<&str, Cause>) -> bool {
    match as_rep(alloc) {
        Ok(rep) => ends(alloc, authenticator(alloc, &rep, shown), end),
        Err(_) => false,
    }
}

#[test]
fn authenticators(rt: HostRuntime) {
    for (shown, end) in &AUTHENTICATORS {
        assert!(rt; is_shown(rt.alloc(), shown, end), "{}", shown.seq_num);
    }
}

#[test]
fn bindings_have_a_hash(rt: HostRuntime) {
    let hash = bindings_hash(&no_bindings(rt.alloc()));
    assert!(rt; is_row(&hash, "441018525208457705bf09a8ee3c1093"));
}

#[test]
fn flags_stand_in_checksums(rt: HostRuntime) -> Result<(), OutOfMemory> {
    let alloc = rt.alloc();
    let plain = ChecksumValues::default().into_inner(alloc)?;
    assert!(rt;
        is_row(
            plain.as_slice(),
            "100000000000000000000000000000000000000000000000"
        )
    );
    let asked = ClientRequestFlags::MUTUAL_AUTH.bits()
        | ClientRequestFlags::REPLAY_DETECT.bits()
        | ClientRequestFlags::SEQUENCE_DETECT.bits()
        | ClientRequestFlags::CONFIDENTIALITY.bits()
        | ClientRequestFlags::INTEGRITY.bits();
    let flags = GssFlags::from_client_flags(ClientRequestFlags::from_bits_retain(asked));
    let mut values = ChecksumValues::from(counted(0));
    values.set_flags(flags);
    let flagged = values.into_inner(alloc)?;
    assert!(rt;
        is_row(
            flagged.as_slice(),
            "000102030405060708090a0b0c0d0e0f101112133e000000"
        )
    );
    Ok(())
}

/// So many octets from the first on.
fn key_of(alloc: Global, first: u8, length: usize) -> Result<Secret<Octets>, OutOfMemory> {
    let octets: [u8; 32] = counted(first);
    if length > 32 {
        return Err(OutOfMemory);
    }
    Ok(Secret::new(Octets::from_slice(alloc, &octets[..length])?))
}

/// The AP-REQ of a TGS-REQ, whose authenticator has the MD5 of the body.
fn tgs_ap_req(alloc: Global, rep: &KdcRep, length: usize) -> Result<ApReq, Error>
    requires { IsSendable rep.now }
    ensures { IfOk result (λ made. Fits ap_req_layout (2 ^ 28) made) }
{
    let shown = Shown {
        sum: Sum::Md5("ea365a24d041bd8e0e41d4834c4ae051"),
        ..SHOWN
    };
    let session_key = key_of(alloc, 0x20, length)?;
    let authenticator = boxed(alloc, authenticator(alloc, rep, &shown)?)?;
    let ticket = rep.ticket.copy(alloc)?;
    let enc_params = EncryptionParams::default_for_client();
    generate_tgs_ap_req(
        alloc,
        ticket,
        &session_key,
        &authenticator,
        &enc_params,
        counted(0),
    )
}

#[tactic(auto, using(crate::proofs::Fitting::from_28))]
fn is_tgs_ap_req(alloc: Global, length: usize, end: &Result<&str, Cause>) -> bool {
    match as_rep(alloc) {
        Ok(rep) => ends(alloc, tgs_ap_req(alloc, &rep, length), end),
        Err(_) => false,
    }
}

#[test]
fn ap_reqs_to_ticket_granting_services(rt: HostRuntime) {
    let alloc = rt.alloc();
    assert!(rt; is_tgs_ap_req(alloc, 32, &Ok(messages::TGS_AP_REQ)));
    assert!(rt; is_tgs_ap_req(alloc, 31, &Err(Cause::KeyLength)));
}

/// The AP-REQ to a service, under the key of the TGS-REP.
fn ap_req(alloc: Global, rep: &KdcRep, key: &str) -> Result<ApReq, Error>
    requires { IsSendable rep.now }
    ensures { IfOk result (λ made. Fits ap_req_layout (2 ^ 28) made) }
{
    let shown = Shown {
        seq_num: 1235,
        microseconds: 0,
        has_key: true,
        sum: Sum::Flags(0x3e),
        is_bound: false,
    };
    let session_key = Secret::new(owned(alloc, key)?);
    let authenticator = boxed(alloc, authenticator(alloc, rep, &shown)?)?;
    let ticket = rep.ticket.copy(alloc)?;
    let enc_params = EncryptionParams::default_for_client();
    generate_ap_req(
        alloc,
        ticket,
        &session_key,
        &authenticator,
        &enc_params,
        ApOptions::MUTUAL_REQUIRED,
        counted(0x20),
    )
}

#[tactic(auto, using(crate::proofs::Fitting::from_28))]
fn is_ap_req(alloc: Global, key: &str, end: &Result<&str, Cause>) -> bool {
    match tgs_rep(alloc) {
        Ok(rep) => ends(alloc, ap_req(alloc, &rep, key), end),
        Err(_) => false,
    }
}

#[test]
fn ap_reqs_to_services(rt: HostRuntime) {
    let alloc = rt.alloc();
    let key = "b769a1ae576139333854a9afee9e05a056becabeb30e20a4ad65383ad83f2a76";
    assert!(rt; is_ap_req(alloc, key, &Ok(messages::AP_REQ)));
    assert!(rt; is_ap_req(alloc, &key[2..], &Err(Cause::KeyLength)));
}

/// The request for a new password, with a key that the client chose or with none.
fn new_password(alloc: Global, rep: &KdcRep, has_key: bool) -> Result<KrbPrivMessage, Error>
    requires { IsSendable rep.now }
    ensures { IfOk result FitsPriv }
{
    let shown = Shown {
        seq_num: 8,
        has_key,
        ..SHOWN
    };
    let session_key = key_of(alloc, 0x40, 32)?;
    let authenticator = boxed(alloc, authenticator(alloc, rep, &shown)?)?;
    let ticket = rep.ticket.copy(alloc)?;
    let enc_params = EncryptionParams::default_for_client();
    generate_krb_priv_request(
        alloc,
        ticket,
        &session_key,
        b"newpass",
        &authenticator,
        &enc_params,
        8,
        "pc",
        [counted(0x20), counted(0x30)],
    )
}

/// Whether an answer is this message, or this refusal.
fn is_message(
    alloc: Global,
    answer: &Result<KrbPrivMessage, Error>,
    end: &Result<&str, Cause>,
) -> bool
    requires { IfOk answer.now FitsPriv }
{
    match (answer, end) {
        (Ok(message), Ok(digits)) => match message.write(alloc) {
            Ok(written) => is_row(written.as_slice(), digits),
            Err(_) => false,
        },
        (Err(error), Err(cause)) => error.cause == *cause,
        _ => false,
    }
}

fn is_new_password(alloc: Global, has_key: bool, end: &Result<&str, Cause>) -> bool {
    match as_rep(alloc) {
        Ok(rep) => is_message(alloc, &new_password(alloc, &rep, has_key), end),
        Err(_) => false,
    }
}

#[test]
fn requests_for_new_passwords(rt: HostRuntime) {
    let alloc = rt.alloc();
    assert!(rt; is_new_password(alloc, true, &Ok(messages::NEW_PASSWORD)));
    assert!(rt; is_new_password(alloc, false, &Err(Cause::KeyLength)));
}
