//! AP-REPs alone, as a second implementation has them.

ghost use Rattle.std.specs.Prelude.{◌≤◌, ◌^◌, length, IfOk, IfSome};

use krb_context::EncryptionParams;
use krb_der::{Asn1, IntegerAsn1, Octets, Time};
use krb_messages::ApRep;
use krb_server::generate_ap_rep;
use sspi_core::{Cause, Error, Secret};
use std::alloc::Global;
use std::test::Fail;

/// The octets 0 to 31, which are the sub-session key where there is one.
const SUBKEY: [u8; 32] = [
    0, 1, 2, 3, 4, 5, 6, 7, 8, 9, 10, 11, 12, 13, 14, 15, 16, 17, 18, 19, 20, 21, 22, 23, 24, 25,
    26, 27, 28, 29, 30, 31,
];

/// The session key in hex, the octets of cusec, whether there is a sub-session key, the number, the first octet of the
/// confounder, each of whose octets is one more than the one before, and the AP-REP in hex, or no text where the key has
/// another length than the suite's.
struct Reply {
    key: &'static str,
    cusec: [u8; 4],
    has_subkey: bool,
    number: [u8; 4],
    confounder: u8,
    reply: &'static str,
}

static REPLIES: [Reply; 3] = [
    // As an initiator answers for the third time, with the number 101.
    Reply {
        key: "202122232425262728292a2b2c2d2e2f303132333435363738393a3b3c3d3e3f",
        cusec: [0x00, 0x01, 0xe2, 0x40],
        has_subkey: false,
        number: [0, 0, 0, 0x65],
        confounder: 0x00,
        reply: "6f5c305aa003020105a10302010fa24e304ca003020112a2450443868e5ee6e0cc6d3f9ee1e522d3b431c8058a450df75a730dd1cf0d6a713f69c62c919884ffb92733dd251f762ca9da5916af7c6efba79039ce28f3578340e041a083a4",
    },
    // As an acceptor answers whose number was the last one.
    Reply {
        key: "202122232425262728292a2b2c2d2e2f303132333435363738393a3b3c3d3e3f",
        cusec: [0, 0, 0, 7],
        has_subkey: true,
        number: [0, 0, 0, 0],
        confounder: 0x20,
        reply: "6f818a308187a003020105a10302010fa27b3079a003020112a2720470807297625500f63d4210f4a2cf15e3219cc5204dda7aa6f63d419262a1af2264426ab9962d4db7b24a0a8974ead22d9b246c2bd660df641c5713fde227bdde90eba975855737c3fb632806a7c5189694196afe38e297578c66541bbf336792a6ebefd683d9513178a276afac069aac91",
    },
    // A session key of 31 octets.
    Reply {
        key: "202122232425262728292a2b2c2d2e2f303132333435363738393a3b3c3d3e",
        cusec: [0, 0, 0, 7],
        has_subkey: true,
        number: [0, 0, 0, 0],
        confounder: 0x20,
        reply: "",
    },
];

fn replies() -> &'static [Reply] {
    &REPLIES
}

fn confounder(first: u8) -> [u8; 16] {
    let mut confounder = [0; 16];
    let mut octet = first;
    for place in confounder.iter_mut() {
        *place = octet;
        octet = octet.wrapping_add(1);
    }
    confounder
}

/// The parameters of an acceptor, with the sub-session key or without one.
fn params(alloc: Global, has_subkey: bool) -> Result<EncryptionParams, Fail>
    ensures { IfOk result (λ params. IfSome params.sub_session_key (λ key. length key ≤ 2 ^ 24)) }
{
    let mut params = EncryptionParams::default_for_server();
    if has_subkey {
        params.sub_session_key = Some(Secret::new(Octets::from_slice(alloc, &SUBKEY)?));
    }
    Ok(params)
}

/// The AP-REP to an authenticator of 1700000000 s.
fn made(alloc: Global, row: &Reply) -> Result<Result<ApRep, Error>, Fail> {
    let key = Secret::new(Octets::new(hex::decode(alloc, row.key)?));
    let cusec = IntegerAsn1::from_bytes_be(Vec::from_slice(alloc, &row.cusec)?);
    let params = params(alloc, row.has_subkey)?;
    let time = Time::new(1_700_000_000);
    let confounder = confounder(row.confounder);
    Ok(generate_ap_rep(alloc, &key, time, &cusec, row.number, &params, confounder))
}

fn is_same(made: &ApRep, wanted: &ApRep) -> bool {
    made.pvno == wanted.pvno
        && made.msg_type == wanted.msg_type
        && made.enc_part.etype == wanted.enc_part.etype
        && made.enc_part.kvno.is_none()
        && made.enc_part.cipher == wanted.enc_part.cipher
}

fn is_reply(alloc: Global, made: &ApRep, reply: &str) -> Result<bool, Fail> {
    let reply = hex::decode(alloc, reply)?;
    let wanted = ApRep::read(alloc, &reply)?;
    Ok(is_same(made, &wanted))
}

/// Whether the row's AP-REP is made, or refused.
fn is_made_so(alloc: Global, row: &Reply) -> Result<bool, Fail> {
    match made(alloc, row)? {
        Ok(made) => is_reply(alloc, &made, row.reply),
        Err(error) => Ok(row.reply.is_empty() && error.cause == Cause::KeyLength),
    }
}

#[test]
fn ap_reps_are_those_of_a_second_implementation(rt: HostRuntime) -> Result<(), Fail> {
    for row in replies() {
        assert!(rt; is_made_so(rt.alloc(), row)?);
    }
    Ok(())
}
