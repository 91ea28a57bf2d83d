//! The third leg of DCE style, and what it leaves, with the octets of a second implementation.

use super::{answer_at, context_of};
use krb_context::{Kerberos, KerberosState};
use krb_replay::ReplayBook;
use sspi_core::{Cause, ServerRequestFlags};
use std::alloc::Global;
use std::test::Fail;

/// A token, and by which cause it is refused.
struct Leg {
    token: &'static str,
    refusal: Option<Cause>,
}

/// The tokens of one client before the acceptor makes a MIC token.
static BEFORE: [Leg; 5] = [
    // An AP-REQ that asks for an answer.
    Leg {
        token: "6e8201a8308201a4a003020105a10302010ea20703050020000000a3820115618201113082010da003020105a10d1b0b4558414d504c452e434f4da2253023a003020102a11c301a1b04686f73741b127365727665722e6578616d706c652e636f6da381cf3081cca003020112a281c40481c15c112a47a169c3267a9ff3afbdc5f126179eb939d1669b6d4c3033c2154b15e507170affa88bdd8b06aa49b779a104602531976088d214bc08a463fab523069fb7c94ea703b6e00281e48ed27136bca13d61c864e575f489e30a33c70c11b7bd9ba6027437381531a755ffae453277ca7a5eaaf8984e949155f774b66049188699095c77f195e32b49f019b3598f6601434cb5fe852befebef4ca476341c6b34d6fa7ce2fa1e5fa3a7da091cc1ea32013bca694ae5498b2645c1e94afb3888eed5a4763074a003020112a26d046b1ff72444274c816836e6309012203556e5cff8258d53b31409abe24459c6bc95ed5f7617f8309492bbb2cd02ed22dac4d510c48803e5bd9319679929712b670874c86bb9117ffa2395eecfb38cc5922055cd42465c5be3debf481fd0ed7a975cc255fcb4c013872857dca8",
        refusal: None,
    },
    // Sealed under another key.
    Leg {
        token: "6f5c305aa003020105a10302010fa24e304ca003020112a2450443608da10e76fc898d661562e4e3ab72e5063bc1a4a9db64ffacdf13763eb7d32f21a2524325ee7b9527d438ab8b2e2c79a74c7a3747223ed6dd44c2ceb28a7c2842f0fb",
        refusal: Some(Cause::Reply),
    },
    // Without a number.
    Leg {
        token: "6f543052a003020105a10302010fa2463044a003020112a23d043b5b96298e732827e205ccf8c450a262de4ed6a33de1399fdc645d01b77d19ced3e9e953191b6a586131316be56e0b97d6772e9f5fd55690b1a24b90",
        refusal: Some(Cause::NoNumber),
    },
    // The number in three octets.
    Leg {
        token: "6f593057a003020105a10302010fa24b3049a003020112a24204405b96298e732827e205ccf8c450a262def6b83620f909e3891e38e7ec4bee241b1df126bc14c2179f2f4238c4de453d2ed56769f5c3da872a7a2c56474682a24f",
        refusal: Some(Cause::Number),
    },
    // Another number.
    Leg {
        token: "6f5c305aa003020105a10302010fa24e304ca003020112a24504435b96298e732827e205ccf8c450a262dea67f0843b442a6f61a0ef9c4c26781746dbd5e22c985d8d8ccb3bf2dba34fa952324966c4e11286987fab92200a18b98ef968f",
        refusal: Some(Cause::Number),
    },
];

/// And after it.
static BEHIND: [Leg; 3] = [
    // The number that the acceptor sent, before its MIC token.
    Leg {
        token: "6f5c305aa003020105a10302010fa24e304ca003020112a24504435b96298e732827e205ccf8c450a262dea67f0843b442a6f61a0ef9c4c267817434cddfefc7350194778f3df3b1a6e6772324966c4e1128595d9a5e8b61bdefb28a5531",
        refusal: Some(Cause::Number),
    },
    // The number after that of the MIC token.
    Leg {
        token: "6f5c305aa003020105a10302010fa24e304ca003020112a24504435b96298e732827e205ccf8c450a262dea67f0843b442a6f61a0ef9c4c26781740ecc93a95d8d38dc7db1ed9e32563b0d2324966c4e1128256a4f382fa4c66f7a43a681",
        refusal: None,
    },
    // Once more.
    Leg {
        token: "6f5c305aa003020105a10302010fa24e304ca003020112a24504435b96298e732827e205ccf8c450a262dea67f0843b442a6f61a0ef9c4c26781740ecc93a95d8d38dc7db1ed9e32563b0d2324966c4e1128256a4f382fa4c66f7a43a681",
        refusal: Some(Cause::Sequence),
    },
];

fn before() -> &'static [Leg] {
    &BEFORE
}

fn behind() -> &'static [Leg] {
    &BEHIND
}

/// Whether the tokens are answered so, one after another.
fn goes_so(
    alloc: Global,
    server: &mut Kerberos,
    book: &mut ReplayBook,
    legs: &[Leg],
) -> Result<bool, Fail> {
    let mut is_so = true;
    for leg in legs {
        let token = hex::decode(alloc, leg.token)?;
        let answer = answer_at(
            alloc,
            server,
            book,
            &token,
            ServerRequestFlags::USE_DCE_STYLE,
        );
        is_so &= answer.err() == leg.refusal;
    }
    Ok(is_so)
}

/// Whether messages can be sealed, with 16 octets of filler.
fn is_established(server: &Kerberos) -> Result<bool, Fail> {
    let sizes = server.query_context_sizes()?;
    Ok(server.state == KerberosState::Final && sizes.security_trailer == 76)
}

/// Whether the tokens are answered so before and after a MIC token of the acceptor's, which is established then.
fn ends_so(alloc: Global, server: &mut Kerberos, book: &mut ReplayBook) -> Result<bool, Fail> {
    let first = goes_so(alloc, server, book, before())?;
    server.generate_mic_token(alloc, b"a")?;
    let last = goes_so(alloc, server, book, behind())?;
    let established = is_established(server)?;
    Ok(first && last && established)
}

fn ends_so_at_a_new_book(alloc: Global, server: &mut Kerberos) -> Result<bool, Fail> {
    let mut book = ReplayBook::new(alloc, 300)?;
    ends_so(alloc, server, &mut book)
}

fn new_acceptor_ends_so(alloc: Global) -> Result<bool, Fail> {
    let mut server = context_of(alloc, 100)?;
    ends_so_at_a_new_book(alloc, &mut server)
}

#[test]
fn the_last_word_has_the_acceptors_number(rt: HostRuntime) -> Result<(), Fail> {
    assert!(rt; new_acceptor_ends_so(rt.alloc())?);
    Ok(())
}
