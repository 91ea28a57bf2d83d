//! An AP-REQ in a frame and bare, and the third leg of DCE style.

use super::{Answer, Session, Step, first_other_of};
use crate::services::{Service, User};
use sspi_core::{Cause, SecurityStatus};
use std::test::Fail;

/// An AP-REQ without a frame that asks for no answer.
const ONE_WAY: &str =
    "6e8201a8308201a4a003020105a10302010ea20703050000000000a3820115618201113082010da003020105a10d1b0b4558414d504c452e434f4da2253023a003020102a11c301a1b04686f73741b127365727665722e6578616d706c652e636f6da381cf3081cca003020112a281c40481c15c112a47a169c3267a9ff3afbdc5f126179eb939d1669b6d4c3033c2154b15e507170affa88bdd8b06aa49b779a104602531976088d214bc08a463fab523069fb7c94ea703b6e00281e48ed27136bca13d61c864e575f489e30a33c70c11b7bd9ba6027437381531a755ffae453277ca7a5eaaf8984e949155f774b66049188699095c77f195e32b49f019b3598f6601434cb5fe852befebef4ca476341c6b34d6fa7ce2fa1e5fa3a7da091cc1ea32013bca694ae5498b2645c1e94afb3888eed5a4763074a003020112a26d046b1ff72444274c816836e6309012203556e5cff8258d53b31409abe24459c6bc95ed5f7617f8309492bbb2cd02ed22dac4d510c48803e5bd9319679929712b670874c86bb9117ffa2395eecfb38cc5922055cd42465c5be3debf481fd0ed7a975cc255fcb4c013872857dca8";

/// The third leg of a client.
const LAST_WORD: &str =
    "6f5c305aa003020105a10302010fa24e304ca003020112a24504435b96298e732827e205ccf8c450a262dea67f0843b442a6f61a0ef9c4c267817434cddfefc7350194778f3df3b1a6e6772324966c4e1128595d9a5e8b61bdefb28a5531";

/// A bare TGT-REQ.
const TGT_REQ: &str =
    "3031a003020105a103020110a2253023a003020102a11c301a1b04686f73741b127365727665722e6578616d706c652e636f6d";

static SESSIONS: [Session; 2] = [
    Session {
        service: Service {
            user: User::Nobody,
            kdc: "tcp://kdc.example:88",
            key: "000102030405060708090a0b0c0d0e0f101112131415161718191a1b1c1d1e1f",
        },
        steps: &[
            // A frame in DCE style.
            Step {
                token: "608201b906092a864886f71201020201006e8201a8308201a4a003020105a10302010ea20703050000000000a3820115618201113082010da003020105a10d1b0b4558414d504c452e434f4da2253023a003020102a11c301a1b04686f73741b127365727665722e6578616d706c652e636f6da381cf3081cca003020112a281c40481c15c112a47a169c3267a9ff3afbdc5f126179eb939d1669b6d4c3033c2154b15e507170affa88bdd8b06aa49b779a104602531976088d214bc08a463fab523069fb7c94ea703b6e00281e48ed27136bca13d61c864e575f489e30a33c70c11b7bd9ba6027437381531a755ffae453277ca7a5eaaf8984e949155f774b66049188699095c77f195e32b49f019b3598f6601434cb5fe852befebef4ca476341c6b34d6fa7ce2fa1e5fa3a7da091cc1ea32013bca694ae5498b2645c1e94afb3888eed5a4763074a003020112a26d046b1ff72444274c816836e6309012203556e5cff8258d53b31409abe24459c6bc95ed5f7617f8309492bbb2cd02ed22dac4d510c48803e5bd9319679929712b670874c86bb9117ffa2395eecfb38cc5922055cd42465c5be3debf481fd0ed7a975cc255fcb4c013872857dca8",
                dce: true,
                answer: Answer::Refused(Cause::Shape),
            },
            // None without it.
            Step {
                token: ONE_WAY,
                dce: false,
                answer: Answer::Refused(Cause::Shape),
            },
            Step {
                token: ONE_WAY,
                dce: true,
                answer: Answer::Done(SecurityStatus::Ok, "", true),
            },
        ],
    },
    Session {
        service: Service {
            user: User::WithPassword("EXAMPLE.COM", "pass"),
            kdc: "tcp://kdc.example:88",
            key: "000102030405060708090a0b0c0d0e0f101112131415161718191a1b1c1d1e1f",
        },
        steps: &[
            // An AP-REQ that asks for an answer.
            Step {
                token: "6e8201a8308201a4a003020105a10302010ea20703050020000000a3820115618201113082010da003020105a10d1b0b4558414d504c452e434f4da2253023a003020102a11c301a1b04686f73741b127365727665722e6578616d706c652e636f6da381cf3081cca003020112a281c40481c15c112a47a169c3267a9ff3afbdc5f126179eb939d1669b6d4c3033c2154b15e507170affa88bdd8b06aa49b779a104602531976088d214bc08a463fab523069fb7c94ea703b6e00281e48ed27136bca13d61c864e575f489e30a33c70c11b7bd9ba6027437381531a755ffae453277ca7a5eaaf8984e949155f774b66049188699095c77f195e32b49f019b3598f6601434cb5fe852befebef4ca476341c6b34d6fa7ce2fa1e5fa3a7da091cc1ea32013bca694ae5498b2645c1e94afb3888eed5a4763074a003020112a26d046b1ff72444274c816836e6309012203556e5cff8258d53b31409abe24459c6bc95ed5f7617f8309492bbb2cd02ed22dac4d510c48803e5bd9319679929712b670874c86bb9117ffa2395eecfb38cc5922055cd42465c5be3debf481fd0ed7a975cc255fcb4c013872857dca8",
                dce: true,
                answer: Answer::Done(
                    SecurityStatus::ContinueNeeded,
                    "6f818a308187a003020105a10302010fa27b3079a003020112a2720470807297625500f63d4210f4a2cf15e3219cc5204dda7aa6f63d419262a1af2264426ab9962d4db7b24a0a8974ead22d9b246c2bd660df641c5713fde227bdde90eba975855737c3fb632806a7c5189694b27a96291c0e6cb4bd97dda50b4af093ebefd68370f370f37175038d32e08a77",
                    true,
                ),
            },
            Step {
                token: LAST_WORD,
                dce: false,
                answer: Answer::Refused(Cause::Sequence),
            },
            // With another number.
            Step {
                token: "6f5c305aa003020105a10302010fa24e304ca003020112a24504435b96298e732827e205ccf8c450a262dea67f0843b442a6f61a0ef9c4c26781746dbd5e22c985d8d8ccb3bf2dba34fa952324966c4e11286987fab92200a18b98ef968f",
                dce: true,
                answer: Answer::Refused(Cause::Number),
            },
            // A TGT-REQ in its place.
            Step {
                token: TGT_REQ,
                dce: true,
                answer: Answer::Refused(Cause::Shape),
            },
            Step {
                token: LAST_WORD,
                dce: true,
                answer: Answer::Done(SecurityStatus::Ok, "", false),
            },
            Step {
                token: LAST_WORD,
                dce: true,
                answer: Answer::Refused(Cause::Sequence),
            },
        ],
    },
];

fn sessions() -> &'static [Session] {
    &SESSIONS
}

#[test]
fn tokens_are_bare_in_dce_style_alone(rt: HostRuntime) -> Result<(), Fail> {
    for session in sessions() {
        assert_eq!(rt; first_other_of(rt.alloc(), session)?, None);
    }
    Ok(())
}
