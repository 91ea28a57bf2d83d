//! A TGT-REP alone.

use krb_der::{Asn1, TryCopy};
use krb_exchange::TgtRep;
use krb_user_to_user::generate_tgt_rep;
use std::alloc::Global;
use std::test::Fail;

/// A TGT-REP.
const TGT_REP: &str =
    "308193a003020105a103020111a28186618183308180a003020105a10d1b0b4558414d504c452e434f4da220301ea003020102a11730151b066b72627467741b0b4558414d504c452e434f4da3483046a003020112a23f043d3d444b525960676e757c838a91989fa6adb4bbc2c9d0d7dee5ecf3fa01080f161d242b323940474e555c636a71787f868d949ba2a9b0b7bec5ccd3dae1";

fn is_same(made: &TgtRep, wanted: &TgtRep) -> bool {
    made.pvno == wanted.pvno
        && made.msg_type == wanted.msg_type
        && made.ticket.realm == wanted.ticket.realm
        && made.ticket.enc_part.cipher == wanted.ticket.enc_part.cipher
}

/// Whether the TGT-REP with this one's ticket is this one.
fn is_made_again(alloc: Global, wanted: &TgtRep) -> Result<bool, Fail> {
    let ticket = wanted.ticket.copy(alloc)?;
    let made = generate_tgt_rep(alloc, ticket)?;
    Ok(is_same(&made, wanted))
}

fn row_is_made_again(alloc: Global) -> Result<bool, Fail> {
    let octets = hex::decode(alloc, TGT_REP)?;
    let wanted = TgtRep::read(alloc, &octets)?;
    is_made_again(alloc, &wanted)
}

#[test]
fn a_tgt_rep_has_version_5_and_type_17(rt: HostRuntime) -> Result<(), Fail> {
    assert!(rt; row_is_made_again(rt.alloc())?);
    Ok(())
}
