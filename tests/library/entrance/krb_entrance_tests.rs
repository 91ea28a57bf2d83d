//! Clients that are let in, in one call and in two halves, and their messages.

mod bound;
mod delegation;
mod halves;
mod keys;
mod messages;
mod one_call;
mod order;

use krb_der::{Octets, boxed};
use krb_entrance::{Draw, Fault, Service};
use std::alloc::Global;
use std::test::Fail;

/// An AP-REQ for host/server.example.com that asks for an answer.
const MUTUAL: &str =
    "608201b906092a864886f71201020201006e8201a8308201a4a003020105a10302010ea20703050020000000a3820115618201113082010da003020105a10d1b0b4558414d504c452e434f4da2253023a003020102a11c301a1b04686f73741b127365727665722e6578616d706c652e636f6da381cf3081cca003020112a281c40481c15c112a47a169c3267a9ff3afbdc5f126179eb939d1669b6d4c3033c2154b15e507170affa88bdd8b06aa49b779a104602531976088d214bc08a463fab523069fb7c94ea703b6e00281e48ed27136bca13d61c864e575f489e30a33c70c11b7bd9ba6027437381531a755ffae453277ca7a5eaaf8984e949155f774b66049188699095c77f195e32b49f019b3598f6601434cb5fe852befebef4ca476341c6b34d6fa7ce2fa1e5fa3a7da091cc1ea32013bca694ae5498b2645c1e94afb3888eed5a4763074a003020112a26d046b1ff72444274c816836e6309012203556e5cff8258d53b31409abe24459c6bc95ed5f7617f8309492bbb2cd02ed22dac4d510c48803e5bd9319679929712b670874c86bb9117ffa2395eecfb38cc5922055cd42465c5be3debf481fd0ed7a975cc255fcb4c013872857dca8";

/// An AP-REQ of alice/admin for host/server.example.com. Its client's clock is two seconds ahead of the draw's time.
const ADMIN: &str =
    "608201e706092a864886f71201020201006e8201d6308201d2a003020105a10302010ea20703050000000000a38201426182013e3082013aa003020105a10d1b0b4558414d504c452e434f4da2253023a003020102a11c301a1b04686f73741b127365727665722e6578616d706c652e636f6da381fc3081f9a003020112a281f10481eea34a3611027585d846c6094548d3e361c2bc5b24f50a34ed24828883ba41b5ac0f452aacbd16a1d6b41c071f28d2ceb91f987ceef5d0e7d96deeb2f5bf9bdfe3f44da75ccebf4c9a47d37fa64c98eb4851cb3d7fd50930a6886950220acf02699fba6a8768136924470192ebce825142d2e7faacecbd3e02bc1914675d60f2b0b1c298c59d980f157869577323c58849c84ae5725ee59768a1d18a78b23d52b8a6c24bb3c82645d66a1105ab8b9b2fcde69b5b07a50358765926fbb69fa74118a2ac4839ce3f3fe200788ea82e7d9ff7f73a41832f4db7c1d67c85fcd496e368ea5e03949257d604cb406036af15a4773075a003020112a26e046cdfd6ba0d5cb1f9b23d0e0590ae0da6943dc5a2c427837de72d8d2b0d41c3dfd1550387f0e2ac149d956feace481690ab76c9a21d1df874f26ac51764284c186537009fd99c97136089770cc50d47240c3b18869f7c137b2682f395db55b5e8cf0261ed13c00cdf9115e9ae31";

/// So many octets, each by one more than the one before.
fn octets(alloc: Global, count: u8) -> Result<Octets, Fail> {
    let mut octets = Vec::new(alloc);
    for octet in 0..count {
        octets.push(octet)?;
    }
    Ok(Octets::new(octets))
}

fn service(alloc: Global) -> Result<Box<Service>, Fail> {
    let key = octets(alloc, 32)?;
    let service = Service::new(alloc, "host/server.example.com", key, 300)?;
    Ok(boxed(alloc, service)?)
}

/// The octets 0 to 59 and four of 255, at 1700000000 s: the first number of a session is 2^32 - 1.
fn draw() -> Draw {
    let mut random = [255; 64];
    let mut octet = 0u8;
    for place in random[..60].iter_mut() {
        *place = octet;
        octet = octet.wrapping_add(1);
    }
    Draw {
        moment: 1_700_000_000_000_000,
        random,
    }
}

/// Whether these octets were put at the front of the room.
fn gave(count: Result<usize, Fault>, room: &[u8], wanted: &[u8]) -> bool {
    match count {
        Ok(count) => room.get(..count) == Some(wanted),
        Err(_) => false,
    }
}
