//! A TGT-REQ at services that are users and at others: a run is not started, so the context is as before.

use super::{Answer, Session, Step, first_other_of};
use crate::services::{Service, User};
use sspi_core::{Cause, SecurityStatus};
use std::test::Fail;

/// A TGT-REQ for host/server.example.com, in a frame of user-to-user.
const FRAMED: &str =
    "6041060a2a864886f7120102020304003031a003020105a103020110a2253023a003020102a11c301a1b04686f73741b127365727665722e6578616d706c652e636f6d";

/// The token without a frame.
const BARE: &str =
    "3031a003020105a103020110a2253023a003020102a11c301a1b04686f73741b127365727665722e6578616d706c652e636f6d";

/// A TGT-REQ for host/other.
const OTHER: &str =
    "6034060a2a864886f7120102020304003024a003020105a103020110a2183016a003020102a10f300d1b04686f73741b056f74686572";

/// An AP-REQ for host/server.example.com that asks for no answer.
const AP_REQ: &str =
    "608201b906092a864886f71201020201006e8201a8308201a4a003020105a10302010ea20703050000000000a3820115618201113082010da003020105a10d1b0b4558414d504c452e434f4da2253023a003020102a11c301a1b04686f73741b127365727665722e6578616d706c652e636f6da381cf3081cca003020112a281c40481c15c112a47a169c3267a9ff3afbdc5f126179eb939d1669b6d4c3033c2154b15e507170affa88bdd8b06aa49b779a104602531976088d214bc08a463fab523069fb7c94ea703b6e00281e48ed27136bca13d61c864e575f489e30a33c70c11b7bd9ba6027437381531a755ffae453277ca7a5eaaf8984e949155f774b66049188699095c77f195e32b49f019b3598f6601434cb5fe852befebef4ca476341c6b34d6fa7ce2fa1e5fa3a7da091cc1ea32013bca694ae5498b2645c1e94afb3888eed5a4763074a003020112a26d046b1ff72444274c816836e6309012203556e5cff8258d53b31409abe24459c6bc95ed5f7617f8309492bbb2cd02ed22dac4d510c48803e5bd9319679929712b670874c86bb9117ffa2395eecfb38cc5922055cd42465c5be3debf481fd0ed7a975cc255fcb4c013872857dca8";

static SESSIONS: [Session; 4] = [
    Session {
        service: Service {
            user: User::WithPassword("EXAMPLE.COM", "pass"),
            kdc: "tcp://kdc.example:88",
            key: "",
        },
        steps: &[
            Step {
                token: OTHER,
                dce: false,
                answer: Answer::Refused(Cause::ServerName),
            },
            // Out of its frame, in one where none may be, and with an octet after it.
            Step {
                token: BARE,
                dce: false,
                answer: Answer::Refused(Cause::Shape),
            },
            Step {
                token: FRAMED,
                dce: true,
                answer: Answer::Refused(Cause::Shape),
            },
            Step {
                token: "6042060a2a864886f7120102020304003031a003020109a103020109a2253023a003020102a11c301a1b04686f73741b127365727665722e6578616d706c652e636f6d00",
                dce: false,
                answer: Answer::Refused(Cause::Shape),
            },
            // Behind the token identifier of an AP-REQ and of a TGT-REP.
            Step {
                token: "6041060a2a864886f7120102020301003031a003020109a103020109a2253023a003020102a11c301a1b04686f73741b127365727665722e6578616d706c652e636f6d",
                dce: false,
                answer: Answer::Refused(Cause::Shape),
            },
            Step {
                token: "6041060a2a864886f7120102020304013031a003020109a103020109a2253023a003020102a11c301a1b04686f73741b127365727665722e6578616d706c652e636f6d",
                dce: false,
                answer: Answer::Refused(Cause::Shape),
            },
            // With a realm, and without a name.
            Step {
                token: "6050060a2a864886f7120102020304003040a003020105a103020110a2253023a003020102a11c301a1b04686f73741b127365727665722e6578616d706c652e636f6da30d1b0b4558414d504c452e434f4d",
                dce: false,
                answer: Answer::Refused(Cause::Shape),
            },
            Step {
                token: "601a060a2a864886f712010202030400300aa003020105a103020110",
                dce: false,
                answer: Answer::Refused(Cause::Shape),
            },
            // An AP-REQ after the token identifier of a TGT-REQ.
            Step {
                token: "608201b906092a864886f71201020204006e8201a8308201a4a003020105a10302010ea20703050000000000a3820115618201113082010da003020105a10d1b0b4558414d504c452e434f4da2253023a003020102a11c301a1b04686f73741b127365727665722e6578616d706c652e636f6da381cf3081cca003020112a281c40481c15c112a47a169c3267a9ff3afbdc5f126179eb939d1669b6d4c3033c2154b15e507170affa88bdd8b06aa49b779a104602531976088d214bc08a463fab523069fb7c94ea703b6e00281e48ed27136bca13d61c864e575f489e30a33c70c11b7bd9ba6027437381531a755ffae453277ca7a5eaaf8984e949155f774b66049188699095c77f195e32b49f019b3598f6601434cb5fe852befebef4ca476341c6b34d6fa7ce2fa1e5fa3a7da091cc1ea32013bca694ae5498b2645c1e94afb3888eed5a4763074a003020112a26d046b1ff72444274c816836e6309012203556e5cff8258d53b31409abe24459c6bc95ed5f7617f8309492bbb2cd02ed22dac4d510c48803e5bd9319679929712b670874c86bb9117ffa2395eecfb38cc5922055cd42465c5be3debf481fd0ed7a975cc255fcb4c013872857dca8",
                dce: false,
                answer: Answer::Refused(Cause::Shape),
            },
            // The service has no key yet.
            Step {
                token: AP_REQ,
                dce: false,
                answer: Answer::Refused(Cause::NoServiceKey),
            },
            // In a frame of another mechanism.
            Step {
                token: "603806010104003031a003020109a103020109a2253023a003020102a11c301a1b04686f73741b127365727665722e6578616d706c652e636f6d",
                dce: false,
                answer: Answer::Run,
            },
            Step {
                token: FRAMED,
                dce: false,
                answer: Answer::Run,
            },
            Step {
                token: BARE,
                dce: true,
                answer: Answer::Run,
            },
        ],
    },
    Session {
        service: Service {
            user: User::Nobody,
            kdc: "tcp://kdc.example:88",
            key: "",
        },
        steps: &[
            // No user: that comes before the name.
            Step {
                token: OTHER,
                dce: false,
                answer: Answer::Refused(Cause::Credentials),
            },
            Step {
                token: BARE,
                dce: true,
                answer: Answer::Refused(Cause::Credentials),
            },
        ],
    },
    Session {
        service: Service {
            user: User::WithKey("00"),
            kdc: "tcp://kdc.example:88",
            key: "",
        },
        steps: &[
            Step {
                token: OTHER,
                dce: false,
                answer: Answer::Refused(Cause::ServerName),
            },
            Step {
                token: FRAMED,
                dce: false,
                answer: Answer::Refused(Cause::KeytabUser),
            },
        ],
    },
    Session {
        service: Service {
            user: User::WithPassword("EXAMPLE.COM", "pass"),
            kdc: "tcp://kdc.example:88",
            key: "000102030405060708090a0b0c0d0e0f101112131415161718191a1b1c1d1e1f",
        },
        steps: &[
            // A service with a key admits clients as well, and then no TGT-REQ is awaited.
            Step {
                token: FRAMED,
                dce: false,
                answer: Answer::Run,
            },
            Step {
                token: AP_REQ,
                dce: false,
                answer: Answer::Done(SecurityStatus::Ok, "", true),
            },
            Step {
                token: FRAMED,
                dce: false,
                answer: Answer::Refused(Cause::Sequence),
            },
        ],
    },
];

fn sessions() -> &'static [Session] {
    &SESSIONS
}

#[test]
fn a_tgt_req_begins_user_to_user_at_a_service_that_is_a_user(rt: HostRuntime) -> Result<(), Fail> {
    for session in sessions() {
        assert_eq!(rt; first_other_of(rt.alloc(), session)?, None);
    }
    Ok(())
}
