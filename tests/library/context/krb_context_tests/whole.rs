//! Texts that are written into a room as tokens, and tokens that came whole: those of a second implementation, with the confounder 00 to 0f.

use super::ends::{ACCEPTOR, End, INITIATOR, SHORT_ACCEPTOR, context_of, octets};
use super::{CONFOUNDER, cause_of};
use krb_context::Kerberos;
use sspi_core::Cause;
use std::alloc::Global;
use std::test::Fail;

/// A text of an end, and its token, in hex.
#[derive(Clone, Copy)]
struct Row {
    end: End,
    text: &'static str,
    token: &'static str,
}

static ROWS: [Row; 4] = [
    Row {
        end: INITIATOR,
        text: "736f6d6520706c61696e206d657373616765",
        token: "050406ff0000001c00000000000004d337cfe6113628ffb62e5a44d02e1287dfa571feb04eef2994105a3614f51e1a956250a70b8338d587b858435e2df2883e99d74674c5dca867e964c6c0170f",
    },
    Row {
        end: End {
            number: 7,
            ..ACCEPTOR
        },
        text: "736f6d6520706c61696e206d657373616765",
        token: "050407ff0000001c00000000000000081d27ab3544cd8faddc61d037d96a91329de0d8924449daf3abdb742d23bd1f2824d7dc953587493a6b0cedd51c5f2b9995cdc376d2f6d39064ce25057cf9",
    },
    // Nothing, with an extra count of 16: the number after the last one.
    Row {
        end: End {
            number: 4294967295,
            ..SHORT_ACCEPTOR
        },
        text: "",
        token: "050407ff0010001c00000000000000005f85b35b11b8846f2e8b5c0ddf56a9c1f0fafc1df10f3e8428acebfbd0296c9f061c9cd228781cb8137c1dcfbd7790c8d992c8722ae8ddd86e5818a4",
    },
    // Seventeen octets under the shorter key.
    Row {
        end: End {
            acceptor: false,
            ec: 0,
            ..SHORT_ACCEPTOR
        },
        text: "4142434445464748494a4b4c4d4e4f5051",
        token: "050406ff0000001c00000000000000011337a427627572bfb47eb8a77a3e44bff07dbdab03d0f56f0b61108cb2c5e9fc85e9933ed944c688bc124739784260dc0400c584223fc6de821c4f4c7d",
    },
];

fn rows() -> &'static [Row] {
    &ROWS
}

fn all_are(octets: &[u8], value: u8) -> bool {
    octets.iter().all(|octet| *octet == value)
}

/// Whether a room that has as many octets more than the token holds the token, and its rest stays.
fn is_written(
    alloc: Global,
    context: &mut Kerberos,
    text: &[u8],
    token: &[u8],
    more: usize,
) -> Result<bool, Fail> {
    let mut room = vec![in alloc; 0x5a; token.len() + more]?;
    let count = context.wrap_into(alloc, text, &CONFOUNDER, room.as_mut_slice())?;
    let (front, back) = room.as_slice().split_at(count);
    Ok(count == token.len() && front == token && all_are(back, 0x5a))
}

/// Whether a room that is an octet too short is refused and stays, and the number of the context too.
fn stays(alloc: Global, context: &mut Kerberos, text: &[u8], token: &[u8]) -> Result<bool, Fail> {
    let number = context.seq_number;
    let mut room = vec![in alloc; 0x5a; token.len() - 1]?;
    let refusal = cause_of(context.wrap_into(alloc, text, &CONFOUNDER, room.as_mut_slice()));
    Ok(
        refusal == Some(Cause::TooSmall)
            && all_are(room.as_slice(), 0x5a)
            && context.seq_number == number,
    )
}

fn new_end_writes(alloc: Global, row: &Row, more: usize) -> Result<bool, Fail> {
    let mut context = context_of(alloc, &row.end)?;
    let text = octets(alloc, row.text)?;
    let token = octets(alloc, row.token)?;
    let len = context.wrapped_len(text.as_slice())?;
    let short = stays(alloc, &mut context, text.as_slice(), token.as_slice())?;
    let written = is_written(alloc, &mut context, text.as_slice(), token.as_slice(), more)?;
    Ok(len == token.as_slice().len() && short && written)
}

#[test]
fn texts_are_written_into_a_room(rt: HostRuntime) -> Result<(), Fail> {
    for row in rows() {
        for more in [0, 1, 100] {
            assert!(rt;
                new_end_writes(rt.alloc(), row, more)?,
                "{} {}",
                row.text,
                more
            );
        }
    }
    Ok(())
}

/// Whether an end opens the token once.
fn opens_once(
    alloc: Global,
    context: &mut Kerberos,
    text: &[u8],
    token: &[u8],
) -> Result<bool, Fail> {
    let opened = context.unwrap_token(alloc, token)?;
    let same = opened.as_slice() == text && opened.into_octets().as_slice() == text;
    Ok(same && cause_of(context.unwrap_token(alloc, token)) == Some(Cause::Repeated))
}

fn peer_of(alloc: Global, row: &Row) -> Result<Box<Kerberos>, Fail> {
    let peer = End {
        acceptor: !row.end.acceptor,
        ..row.end
    };
    context_of(alloc, &peer)
}

fn peer_opens_once(alloc: Global, row: &Row) -> Result<bool, Fail> {
    let mut peer = peer_of(alloc, row)?;
    let text = octets(alloc, row.text)?;
    let token = octets(alloc, row.token)?;
    opens_once(alloc, &mut peer, text.as_slice(), token.as_slice())
}

/// Whether a token that is changed at its end is refused.
fn peer_refuses_another(alloc: Global, row: &Row) -> Result<bool, Fail> {
    let mut peer = peer_of(alloc, row)?;
    let mut token = octets(alloc, row.token)?.into_inner();
    let last = token.len() - 1;
    token[last] ^= 1;
    Ok(cause_of(peer.unwrap_token(alloc, token.as_slice())) == Some(Cause::Altered))
}

#[test]
fn tokens_that_came_whole_are_opened_once(rt: HostRuntime) -> Result<(), Fail> {
    for row in rows() {
        assert!(rt; peer_opens_once(rt.alloc(), row)?, "{}", row.token);
        assert!(rt; peer_refuses_another(rt.alloc(), row)?, "{}", row.token);
    }
    Ok(())
}
