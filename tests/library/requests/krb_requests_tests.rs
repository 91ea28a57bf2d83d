//! Requests of a client to a KDC, octet by octet.

mod bodies;
mod pa_datas;

ghost use Rattle.std.specs.Prelude.{◌≡◌, ◌≤◌, ◌^◌, IfOk, map, true, length};
ghost use Rattle.krb_der.specs.Layout.{items_layout};
ghost use Rattle.krb_exchange.specs.Layouts.{kdc_req_body_layout, pa_data_layout, tgt_req_layout};
ghost use Rattle.krb_tests_requests.specs.Short.{IsShortPair};
ghost use Rattle.krb_requests.specs.Pieces.{Fits};

use crate::rows::{ends, is_row, owned};
use bitflags::Flags;
use krb_context::EncryptionParams;
use krb_der::{Items, Octets, OutOfMemory};
use krb_exchange::{KdcReqBody, PaData, TgtReq};
use krb_requests::{
    GenerateAsPaDataOptions, GenerateAsReqOptions, GenerateKeytabPaDataOptions,
    generate_as_req_kdc_body, generate_pa_datas_for_as_req, generate_pa_datas_for_as_req_with_key,
    generate_tgt_req, get_mech_list,
};
use sspi_core::{Cause, ClientRequestFlags, Error, Secret};
use std::alloc::Global;

/// 123456 microseconds after 2023-11-14 22:13:20.
const MOMENT: u64 = 1_700_000_000_123_456;

/// The octets 0 to 15.
const CONFOUNDER: [u8; 16] = [0, 1, 2, 3, 4, 5, 6, 7, 8, 9, 10, 11, 12, 13, 14, 15];

/// Whom a client asks for which service.
pub struct Asked {
    pub realm: &'static str,
    pub user: &'static str,
    pub host: &'static str,
    pub service: [&'static str; 2],
    pub flags: u32,
}

fn is_short(text: &str) -> bool
    ensures { result ≡ true → length text.now ≤ 64 }
{
    text.len() <= 64
}

fn is_short_pair(parts: &[&str; 2]) -> bool
    ensures { result ≡ true → IsShortPair (map (λ part. part.now) parts.now) }
{
    let [first, second] = parts;
    is_short(first) && is_short(second)
}

/// The body of an AS-REQ for this.
fn body_of(alloc: Global, asked: &Asked, service: &[&str; 2]) -> Result<KdcReqBody, Error>
    requires realm { length asked.now.realm.now ≤ 64 }
    requires user { length asked.now.user.now ≤ 64 }
    requires host { length asked.now.host.now ≤ 64 }
    requires service { IsShortPair (map (λ part. part.now) service.now) }
    ensures { IfOk result (λ body. Fits kdc_req_body_layout (2 ^ 28) body) }
{
    let options = GenerateAsReqOptions {
        realm: asked.realm,
        username: asked.user,
        cname_type: 1,
        snames: service,
        nonce: [0, 1, 2, 3],
        hostname: asked.host,
        context_requirements: ClientRequestFlags::from_bits_retain(asked.flags),
    };
    generate_as_req_kdc_body(alloc, &options, MOMENT)
}

#[tactic(auto, using(crate::proofs::Fitting::from_28))]
fn is_body(alloc: Global, asked: &Asked, end: &Result<&str, Cause>) -> bool {
    is_short(asked.realm)
        && is_short(asked.user)
        && is_short(asked.host)
        && is_short_pair(&asked.service)
        && ends(alloc, body_of(alloc, asked, &asked.service), end)
}

#[test]
fn bodies_of_as_reqs(rt: HostRuntime) {
    for (asked, end) in &bodies::BODIES {
        assert!(rt; is_body(rt.alloc(), asked, end), "{}", asked.user);
    }
}

fn tgt_req_of(alloc: Global, service: &[&str; 2]) -> Result<TgtReq, Error>
    requires { IsShortPair (map (λ part. part.now) service.now) }
    ensures { IfOk result (λ made. Fits tgt_req_layout (2 ^ 25) made) }
{
    generate_tgt_req(alloc, service)
}

#[tactic(auto, using(crate::proofs::Fitting::from_25))]
fn is_tgt_req(alloc: Global, service: &[&str; 2], end: &Result<&str, Cause>) -> bool {
    is_short_pair(service) && ends(alloc, tgt_req_of(alloc, service), end)
}

#[test]
fn tgt_reqs(rt: HostRuntime) {
    let alloc = rt.alloc();
    assert!(rt; is_tgt_req(alloc, &["host", "server.example.com"], &Ok(bodies::TGT_REQ)));
    assert!(rt;
        is_tgt_req(
            alloc,
            &["host", "server.ex\u{e4}mple.com"],
            &Err(Cause::NotAscii)
        )
    );
}

/// The pre-authentication of alice.
fn with_password(alloc: Global, with_pre_auth: bool) -> Result<Items<PaData>, Error>
    ensures { IfOk result (λ made. Fits (items_layout pa_data_layout) (2 ^ 12) made) }
{
    let enc_params = EncryptionParams::default_for_client();
    let options = GenerateAsPaDataOptions {
        password: "secret",
        salt: b"EXAMPLE.COMalice",
        enc_params: &enc_params,
        with_pre_auth,
    };
    generate_pa_datas_for_as_req(alloc, &options, MOMENT, CONFOUNDER)
}

#[test]
#[tactic(auto, using(crate::proofs::Fitting::from_12))]
fn pre_authentication_with_a_password(rt: HostRuntime) {
    let alloc = rt.alloc();
    assert!(rt; ends(alloc, with_password(alloc, false), &Ok(pa_datas::PLAIN)));
    assert!(rt; ends(alloc, with_password(alloc, true), &Ok(pa_datas::TIMED)));
}

/// The pre-authentication under a key, which is of AES-128 or else of AES-256.
fn with_key(
    alloc: Global,
    key: Octets,
    is_weak: bool,
    with_pre_auth: bool,
) -> Result<Items<PaData>, Error>
    ensures { IfOk result (λ made. Fits (items_layout pa_data_layout) (2 ^ 12) made) }
{
    let options = GenerateKeytabPaDataOptions {
        key: Secret::new(key),
        key_enctype: if is_weak { 17 } else { 18 },
        with_pre_auth,
    };
    generate_pa_datas_for_as_req_with_key(alloc, &options, MOMENT, CONFOUNDER)
}

#[tactic(auto, using(crate::proofs::Fitting::from_12))]
fn is_keyed(alloc: Global, row: &pa_datas::Keyed) -> bool {
    let (key, is_weak, with_pre_auth, end) = row;
    match owned(alloc, key) {
        Ok(key) => ends(alloc, with_key(alloc, key, *is_weak, *with_pre_auth), end),
        Err(OutOfMemory) => false,
    }
}

#[test]
fn pre_authentication_with_a_key(rt: HostRuntime) {
    for row in &pa_datas::KEYED {
        assert!(rt; is_keyed(rt.alloc(), row), "{}", row.0);
    }
}

#[test]
fn mechanisms(rt: HostRuntime) {
    let [first, second] = get_mech_list();
    assert!(rt; is_row(first.contents(), "2a864882f712010202"));
    assert!(rt; is_row(second.contents(), "2a864886f712010202"));
}
