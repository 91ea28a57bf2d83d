//! Tokens of 2^24 octets and of one more.

use super::{answer, context_of};
use bitflags::Flags;
use krb_context::Kerberos;
use sspi_core::{Cause, ServerRequestFlags};
use std::alloc::Global;
use std::test::Fail;

/// The front of an AP-REQ for a service that has no key, all of whose other octets are zeros of the authenticator's cipher;
/// how many octets it has in all; and the refusal.
struct LongToken {
    front: &'static str,
    length: usize,
    refusal: Cause,
}

static LONG_TOKENS: [LongToken; 2] = [
    LongToken {
        front: "6083fffffb06092a864886f71201020201006e83ffffe93083ffffe4a003020105a10302010ea20703050000000000a35461523050a003020105a10d1b0b4558414d504c452e434f4da211300fa003020102a10830061b04686f7374a3273025a003020112a21e041c00000000000000000000000000000000000000000000000000000000a483ffff763083ffff71a003020112a283ffff670483ffff62",
        length: 16_777_216,
        refusal: Cause::NoServiceKey,
    },
    LongToken {
        front: "6083fffffc06092a864886f71201020201006e83ffffea3083ffffe5a003020105a10302010ea20703050000000000a35461523050a003020105a10d1b0b4558414d504c452e434f4da211300fa003020102a10830061b04686f7374a3273025a003020112a21e041c00000000000000000000000000000000000000000000000000000000a483ffff773083ffff72a003020112a283ffff680483ffff63",
        length: 16_777_217,
        refusal: Cause::Shape,
    },
];

fn long_tokens() -> &'static [LongToken] {
    &LONG_TOKENS
}

fn token_of(alloc: Global, row: &LongToken) -> Result<Vec<u8>, Fail> {
    let mut token = hex::decode(alloc, row.front)?;
    token.resize(row.length, 0)?;
    Ok(token)
}

fn refusal(alloc: Global, server: &mut Kerberos, row: &LongToken) -> Result<Option<Cause>, Fail> {
    let token = token_of(alloc, row)?;
    Ok(answer(alloc, server, &token, ServerRequestFlags::empty())?.err())
}

/// Why a new acceptor refuses the token.
fn new_acceptors_refusal(alloc: Global, row: &LongToken) -> Result<Option<Cause>, Fail> {
    let mut server = context_of(alloc, 100)?;
    refusal(alloc, &mut server, row)
}

#[test]
fn a_token_has_at_most_2_to_the_24_octets(rt: HostRuntime) -> Result<(), Fail> {
    for row in long_tokens() {
        assert_eq!(rt; new_acceptors_refusal(rt.alloc(), row)?, Some(row.refusal));
    }
    Ok(())
}
