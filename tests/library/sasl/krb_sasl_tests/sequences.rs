//! Frames that come late, early or again: their numbers pass the window of the context.

use super::ends::{ACCEPTOR, Wanted, is_refused, octets};
use super::{ServerCase, new_server_passes};
use krb_sasl::{Order, SaslServer};
use sspi_core::Cause;
use std::alloc::Global;
use std::test::Fail;

/// An answer in Confidentiality, and the client's frames in the order in which they come, sealed by a second implementation.
const SEALED: &str = "050404ff000c000000000000000004d30400ffff616c6963650ec7253ea1ce4b57d5ce3d3b";

static SEALED_FRAMES: [(&str, Option<Wanted>); 8] = [
    (
        "0000003f050406ff0000001c00000000000004d49f36c06ced8d23a1bf9bea52d71f69ebed34fd889ed834277f518a44f51e1a956250a70b8338d587b858435eab727c",
        None,
    ),
    (
        "0000003f050406ff0000001c00000000000004d6a1005d1e43ac348ac5d4ebf0a11f69eb9ea53f424247910f7f477f0ff51e1a956250a70b8338d587b858435e2179b9",
        None,
    ),
    (
        "0000003f050406ff0000001c00000000000004d567a446f7244dc479ffa904d16e1f69eb8033b66329378000a673f520f51e1a956250a70b8338d587b858435e47a4af",
        None,
    ),
    (
        "0000003f050406ff0000001c00000000000004d567a446f7244dc479ffa904d16e1f69eb8033b66329378000a673f520f51e1a956250a70b8338d587b858435e47a4af",
        Some(Wanted::Context(Cause::Repeated)),
    ),
    (
        "0000003f050406ff0000001c00000000000004d49f36c06ced8d23a1bf9bea52d71f69ebed34fd889ed834277f518a44f51e1a956250a70b8338d587b858435eab727c",
        Some(Wanted::Context(Cause::Repeated)),
    ),
    (
        "0000003f050406ff0000001c000000000000051612e93956f039d6181584beeadf1f69ebc96a233901338f797471601df51e1a956250a70b8338d587b858435ed0ed70",
        None,
    ),
    (
        "0000003f050406ff0000001c00000000000004d6a1005d1e43ac348ac5d4ebf0a11f69eb9ea53f424247910f7f477f0ff51e1a956250a70b8338d587b858435e2179b9",
        Some(Wanted::Context(Cause::Old)),
    ),
    (
        "0000003f050406ff0000001c00000000000004d7a66df193586339101744e891df1f69eb1c3da99db036a418634f3994f51e1a956250a70b8338d587b858435ecb2cc6",
        None,
    ),
];

fn sealed_frames() -> &'static [(&'static str, Option<Wanted>)] {
    &SEALED_FRAMES
}

/// An answer in Integrity, and the client's frames.
const CHECKED: &str = "050404ff000c000000000000000004d30200ffff616c6963658c5dc7f16f81b6e30abd2581";

static CHECKED_FRAMES: [(&str, Option<Wanted>); 8] = [
    (
        "0000001f050404ff000c000000000000000004d461626331df40a9dd8f9662c5c8f1c0",
        None,
    ),
    (
        "0000001f050404ff000c000000000000000004d6616263b54dbabbed38ea8e89b8140c",
        None,
    ),
    (
        "0000001f050404ff000c000000000000000004d561626304542fe440825522e3cf469d",
        None,
    ),
    (
        "0000001f050404ff000c000000000000000004d561626304542fe440825522e3cf469d",
        Some(Wanted::Context(Cause::Repeated)),
    ),
    (
        "0000001f050404ff000c000000000000000004d461626331df40a9dd8f9662c5c8f1c0",
        Some(Wanted::Context(Cause::Repeated)),
    ),
    (
        "0000001f050404ff000c0000000000000000051661626342ad4eac75a8f77273515fe7",
        None,
    ),
    (
        "0000001f050404ff000c000000000000000004d6616263b54dbabbed38ea8e89b8140c",
        Some(Wanted::Context(Cause::Old)),
    ),
    (
        "0000001f050404ff000c000000000000000004d761626392aa092534033c260ae88341",
        None,
    ),
];

fn checked_frames() -> &'static [(&'static str, Option<Wanted>)] {
    &CHECKED_FRAMES
}

/// The frames of both layers at a server that goes by its own order: one too early, one again, and one past a gap are refused.
static SEALED_IN_ORDER: [(&str, Option<Wanted>); 9] = [
    (
        "0000003f050406ff0000001c00000000000004d49f36c06ced8d23a1bf9bea52d71f69ebed34fd889ed834277f518a44f51e1a956250a70b8338d587b858435eab727c",
        None,
    ),
    (
        "0000003f050406ff0000001c00000000000004d6a1005d1e43ac348ac5d4ebf0a11f69eb9ea53f424247910f7f477f0ff51e1a956250a70b8338d587b858435e2179b9",
        Some(Wanted::Context(Cause::Number)),
    ),
    (
        "0000003f050406ff0000001c00000000000004d567a446f7244dc479ffa904d16e1f69eb8033b66329378000a673f520f51e1a956250a70b8338d587b858435e47a4af",
        None,
    ),
    (
        "0000003f050406ff0000001c00000000000004d567a446f7244dc479ffa904d16e1f69eb8033b66329378000a673f520f51e1a956250a70b8338d587b858435e47a4af",
        Some(Wanted::Context(Cause::Repeated)),
    ),
    (
        "0000003f050406ff0000001c00000000000004d49f36c06ced8d23a1bf9bea52d71f69ebed34fd889ed834277f518a44f51e1a956250a70b8338d587b858435eab727c",
        Some(Wanted::Context(Cause::Repeated)),
    ),
    (
        "0000003f050406ff0000001c000000000000051612e93956f039d6181584beeadf1f69ebc96a233901338f797471601df51e1a956250a70b8338d587b858435ed0ed70",
        Some(Wanted::Context(Cause::Number)),
    ),
    (
        "0000003f050406ff0000001c00000000000004d6a1005d1e43ac348ac5d4ebf0a11f69eb9ea53f424247910f7f477f0ff51e1a956250a70b8338d587b858435e2179b9",
        None,
    ),
    (
        "0000003f050406ff0000001c00000000000004d7a66df193586339101744e891df1f69eb1c3da99db036a418634f3994f51e1a956250a70b8338d587b858435ecb2cc6",
        None,
    ),
    (
        "0000003f050406ff0000001c000000000000051612e93956f039d6181584beeadf1f69ebc96a233901338f797471601df51e1a956250a70b8338d587b858435ed0ed70",
        Some(Wanted::Context(Cause::Number)),
    ),
];

fn sealed_in_order() -> &'static [(&'static str, Option<Wanted>)] {
    &SEALED_IN_ORDER
}

static CHECKED_IN_ORDER: [(&str, Option<Wanted>); 9] = [
    (
        "0000001f050404ff000c000000000000000004d461626331df40a9dd8f9662c5c8f1c0",
        None,
    ),
    (
        "0000001f050404ff000c000000000000000004d6616263b54dbabbed38ea8e89b8140c",
        Some(Wanted::Context(Cause::Number)),
    ),
    (
        "0000001f050404ff000c000000000000000004d561626304542fe440825522e3cf469d",
        None,
    ),
    (
        "0000001f050404ff000c000000000000000004d561626304542fe440825522e3cf469d",
        Some(Wanted::Context(Cause::Repeated)),
    ),
    (
        "0000001f050404ff000c000000000000000004d461626331df40a9dd8f9662c5c8f1c0",
        Some(Wanted::Context(Cause::Repeated)),
    ),
    (
        "0000001f050404ff000c0000000000000000051661626342ad4eac75a8f77273515fe7",
        Some(Wanted::Context(Cause::Number)),
    ),
    (
        "0000001f050404ff000c000000000000000004d6616263b54dbabbed38ea8e89b8140c",
        None,
    ),
    (
        "0000001f050404ff000c000000000000000004d761626392aa092534033c260ae88341",
        None,
    ),
    (
        "0000001f050404ff000c0000000000000000051661626342ad4eac75a8f77273515fe7",
        Some(Wanted::Context(Cause::Number)),
    ),
];

fn checked_in_order() -> &'static [(&'static str, Option<Wanted>)] {
    &CHECKED_IN_ORDER
}

/// Whether both ends agree by an answer.
fn agrees(alloc: Global, server: &mut SaslServer, answer: &str) -> Result<bool, Fail> {
    let answer = octets(alloc, answer)?;
    let offered = server.offer(alloc).is_ok();
    Ok(offered && server.accept(alloc, answer.as_slice()).is_ok())
}

/// Whether a frame is unsealed to `abc`, or refused so.
fn takes(
    alloc: Global,
    server: &mut SaslServer,
    frame: &str,
    wanted: Option<Wanted>,
) -> Result<bool, Fail> {
    let frame = octets(alloc, frame)?;
    match server.unseal(alloc, frame.as_slice()) {
        Ok(data) => Ok(wanted.is_none() && data.as_slice() == "abc".as_bytes()),
        Err(refusal) => Ok(is_refused(&Some(refusal), wanted)),
    }
}

/// Whether a server that agreed by an answer takes these frames, one after another, as they say: in this order, or its own.
pub fn takes_all(
    alloc: Global,
    server: &mut SaslServer,
    order: Option<Order>,
    answer: &str,
    frames: &[(&'static str, Option<Wanted>)],
) -> Result<bool, Fail> {
    if let Some(order) = order {
        server.set_order(order);
    }
    let mut so_far = agrees(alloc, server, answer)?;
    for &(frame, wanted) in frames {
        so_far = takes(alloc, server, frame, wanted)? && so_far;
    }
    Ok(so_far)
}

#[test]
fn frames_are_unsealed_once_and_not_too_late(rt: HostRuntime) -> Result<(), Fail> {
    assert!(rt;
        new_server_passes(
            rt.alloc(),
            &ACCEPTOR,
            7,
            65535,
            ServerCase::Frames(Some(Order::Any), SEALED, sealed_frames())
        )?
    );
    assert!(rt;
        new_server_passes(
            rt.alloc(),
            &ACCEPTOR,
            7,
            65535,
            ServerCase::Frames(Some(Order::Any), CHECKED, checked_frames())
        )?
    );
    Ok(())
}

/// A server's own order, and the same from the number of the answer on.
#[test]
fn frames_are_unsealed_in_their_order(rt: HostRuntime) -> Result<(), Fail> {
    for order in [None, Some(Order::Next(0x4d3))] {
        for case in [
            ServerCase::Frames(order, SEALED, sealed_in_order()),
            ServerCase::Frames(order, CHECKED, checked_in_order()),
        ] {
            assert!(rt; new_server_passes(rt.alloc(), &ACCEPTOR, 7, 65535, case)?);
        }
    }
    Ok(())
}
