//! Tokens that the initiator of another library made in a real exchange, as messages of a layer.

use super::ends::{ACCEPTOR, End, fail, octets};
use super::{ServerCase, new_server_passes};
use krb_sasl::{Order, SaslServer};
use std::alloc::Global;
use std::test::Fail;

/// The acceptor of that exchange, with the subkey of its AP-REP.
const END: End = End {
    key: Some("673bb315566850748054d4e39086560c87473852564780209798c351b6cc1372"),
    ..ACCEPTOR
};

/// An answer in Confidentiality with the number before them, the tokens that the initiator sealed, in frames, and their texts.
const SEALED: &str = "050404ff000c00000000000022a0c4440400ffff616c69636547d9c7c4d7a2754290c5445e";

static SEALED_FRAMES: [(&str, &str); 8] = [
    (
        "0000003c050406ff0000001c0000000022a0c445c60bb69daa2f8cd888041954db5119c0449b7e794c85027d001dc9791904ddfcee42630075aedaed46c15772",
        "",
    ),
    (
        "0000003d050406ff0000001c0000000022a0c447da26b9cc75c9c2d419957b966c1e878f472fa0475ae4015299fef0566157b0021daaed06b878701efc623a12bf",
        "22",
    ),
    (
        "0000004b050406ff0000001c0000000022a0c4494b21d312272741dee5216b881c5ab2a4791e2402a84a866e3ac2de8fdb3158efa132fe0905ff16a88822e1e5c4f84e93016dce1e0da0d2448d3f0b",
        "fc1b1af75abc7f354fcdfb02067585",
    ),
    (
        "0000004c050406ff0000001c0000000022a0c44b2ca7becc7d185eec638c377f55c4535405e7cb2724c9bf64ed8a50da5d031630886a53b8e20be9229b0947f02a1b61884a799e7d06bdb65e06883be9",
        "abc18c5c6ff81e78f4c7007bd565f148",
    ),
    (
        "0000004d050406ff0000001c0000000022a0c44d80a9c9136826726a50d92cf58f13a2fe2e466b1070a2c96445801cd9a026c2c9e4f799077b3560236571ad2f2a063def643758273ef72813c851319c89",
        "c1bca085abe9066a604983ce8629ad4df5",
    ),
    (
        "0000005b050406ff0000001c0000000022a0c44f2c74386bac701167a5266ca29d4a7bf84d855241153ed67d11281e74569414c6a40ab8abe248e243e420a09c9b64285f36ded70408e64606a3f8d8483f6bb3cf81a8a4f9a5fb7509f0f3ea",
        "c3aa2403bf463678e52bc61c0efd93c34afd9064a7160f24b1ba11afa0130b",
    ),
    (
        "0000005c050406ff0000001c0000000022a0c451b6a1c0e2d7ae3c10e40c398a33ad4de63800e16aec3dc76384e2e68ef5256b78a0618b0af7191fd25524e185ba5e9017d38729b32066ae088fea138a7f52ba46eea877695b36b4ecf74c7382",
        "e3e9d113c1f12eed1e97af369b7507259cd1994d5753c7b2726774e66c21e03c",
    ),
    (
        "0000005d050406ff0000001c0000000022a0c45389f13b12bec5257638c55b09d698c49a9c39ff59d74d07de54f48312cb259bb4fd29d8b8098f81328b661698ba519e38e5d9107bcba99257ffa5bbeb9221aa988b4b12c9490a524029e4a6bdfc",
        "380b01925c24d12a9d05daa1c127b43b252a27d1fa433cd79388fc4691969d7aa6",
    ),
];

fn sealed_frames() -> &'static [(&'static str, &'static str)] {
    &SEALED_FRAMES
}

/// An answer in Integrity, and the tokens that the initiator made in the clear.
const CHECKED: &str = "050404ff000c00000000000022a0c4440200ffff616c696365200c2010ef665f57dbe01f8d";

static CHECKED_FRAMES: [(&str, &str); 2] = [
    (
        "0000001c050404ff000c000c0000000022a0c459adf410e002123695f2346d63",
        "",
    ),
    (
        "0000001d050404ff000c000c0000000022a0c45b3b005de2377bb2b246c38a6c22",
        "22",
    ),
];

fn checked_frames() -> &'static [(&'static str, &'static str)] {
    &CHECKED_FRAMES
}

/// Whether a frame is unsealed to this text.
fn takes(alloc: Global, server: &mut SaslServer, frame: &str, text: &str) -> Result<bool, Fail> {
    let frame = octets(alloc, frame)?;
    let text = octets(alloc, text)?;
    let data = server.unseal(alloc, frame.as_slice()).map_err(fail)?;
    Ok(data == text)
}

/// Whether a server agrees by an answer, and unseals all frames to their texts.
pub fn takes_all(
    alloc: Global,
    server: &mut SaslServer,
    answer: &str,
    frames: &[(&'static str, &'static str)],
) -> Result<bool, Fail> {
    server.set_order(Order::Any); // the tokens between them are left out
    let answer = octets(alloc, answer)?;
    let offered = server.offer(alloc).is_ok();
    let mut so_far = offered && server.accept(alloc, answer.as_slice()).is_ok();
    for &(frame, text) in frames {
        so_far = takes(alloc, server, frame, text)? && so_far;
    }
    Ok(so_far)
}

#[test]
fn tokens_of_another_library_are_unsealed(rt: HostRuntime) -> Result<(), Fail> {
    assert!(rt;
        new_server_passes(
            rt.alloc(),
            &END,
            7,
            65535,
            ServerCase::Texts(SEALED, sealed_frames())
        )?
    );
    assert!(rt;
        new_server_passes(
            rt.alloc(),
            &END,
            7,
            65535,
            ServerCase::Texts(CHECKED, checked_frames())
        )?
    );
    Ok(())
}
