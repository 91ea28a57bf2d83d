//! Calls of dialogues, their answers and results.

use crate::conversation::{draw_at, first_wrong, of_alice, tell_alice, with_host};
use krb_dialogue::{Cause, Dialogue, Error, Fault, MAX_MOMENT, Next, Rules};
use std::alloc::Global;
use std::test::Fail;

/// From a password to a context that is established. Steps out of their turn are refused, and change nothing.
const WHOLE: &str = "\
     answer TGS_REP OutOfSequence Sequence\n\
     fault 5 OutOfSequence Sequence\n\
     start - ask\n\
     start - OutOfSequence Sequence\n\
     hear FRAMED_AP_REP OutOfSequence Sequence\n\
     asks tcp://kdc.example:88 HOSTNAME_ASKS\n\
     answer NEEDS_PREAUTHENTICATION ask\n\
     asks tcp://kdc.example:88 HOSTNAME_ASKS_AGAIN\n\
     answer AS_REP_WITH_SALT ask\n\
     asks tcp://kdc.example:88 HOSTNAME_ASKS_FOR_SERVICE\n\
     answer TGS_REP send\n\
     shows FRAMED_AP_REQ\n\
     start - OutOfSequence Sequence\n\
     answer TGS_REP OutOfSequence Sequence\n\
     hear BARE_AP_REP InvalidToken Shape\n\
     shows FRAMED_AP_REQ\n\
     hear FRAMED_AP_REP established\n\
     shows -\n\
     hear FRAMED_AP_REP OutOfSequence Sequence";

/// A refusal, or a failure of the network, ends an exchange, and another can begin: without a rule, so that the first reply may not be
/// an AS-REP.
const REFUSED: &str = "\
     start - ask\n\
     answer AS_REP_WITH_SALT InvalidToken EarlyAsRep\n\
     answer NEEDS_PREAUTHENTICATION OutOfSequence Sequence\n\
     start - ask\n\
     fault 5 NoAuthenticatingAuthority Network 5\n\
     start - ask\n\
     answer 000000 InternalError ReplyShort\n\
     start - ask\n\
     answer NEEDS_PREAUTHENTICATION ask\n\
     answer NEEDS_PREAUTHENTICATION KdcInvalidRequest Kdc 25\n\
     start - ask\n\
     asks tcp://kdc.example:88 HOSTNAME_ASKS";

/// Nobody asks yet.
const NOBODY: &str = "\
     start - WrongCredentialHandle NoIdentity\n\
     fault 5 OutOfSequence Sequence";

/// There is no KDC.
const NO_KDC: &str = "\
     start - NoAuthenticatingAuthority NoKdc";

/// The KDC is asked.
const ASKS: &str = "\
     start - ask\n\
     asks tcp://kdc.example:88 HOSTNAME_ASKS";

/// Where nobody said by which rules, it goes by the RFCs: the first reply may be an AS-REP, and each has to repeat what was asked in this
/// very exchange.
const BY_RFC: &str = "\
     start other ask\n\
     answer AS_REP_WITH_SALT InvalidToken Nonce\n\
     start other ask\n\
     answer NEEDS_PREAUTHENTICATION ask\n\
     answer AS_REP_WITH_SALT InvalidToken Nonce\n\
     answer AS_REP_WITH_SALT OutOfSequence Sequence\n\
     start - ask\n\
     answer AS_REP_WITH_SALT ask\n\
     asks tcp://kdc.example:88 HOSTNAME_ASKS_FOR_SERVICE\n\
     answer TGS_REP send\n\
     shows FRAMED_AP_REQ\n\
     hear FRAMED_AP_REP established";

/// A service's subkey of type 18 has 16 octets: the answer is refused, and changes nothing.
const SHORT_SUBKEY: &str = "\
     start - ask\n\
     answer AS_REP_WITH_SALT ask\n\
     answer TGS_REP send\n\
     hear AP_REP_WITH_A_SHORT_SUBKEY InvalidParameter KeyLength\n\
     shows FRAMED_AP_REQ\n\
     hear FRAMED_AP_REP established";

/// Rules that are set while an answer is awaited count from the next start on.
const RULES_SET_LATE: &str = "\
     answer AS_REP_WITH_SALT InvalidToken EarlyAsRep\n\
     start - ask\n\
     answer AS_REP_WITH_SALT ask\n\
     asks tcp://kdc.example:88 HOSTNAME_ASKS_FOR_SERVICE";

fn is_sequence(fault: Result<usize, Fault>) -> bool {
    match fault {
        Err(Fault::Refused(error)) => error == Error::from(Cause::Sequence),
        _ => false,
    }
}

/// Whether it tells the service, and no KDC is asked.
fn tells_service(dialogue: &Dialogue) -> bool {
    let mut room = [0; 64];
    let tells = match dialogue.peer(&mut room) {
        Ok(length) => room.get(..length) == Some("host/server.example.com".as_bytes()),
        Err(_) => false,
    };
    tells && is_sequence(dialogue.request(&mut room))
}

#[test]
fn a_conversation_goes_through(rt: HostRuntime) -> Result<(), Fail> {
    let alloc = rt.alloc();
    let mut dialogue = of_alice(alloc)?;
    assert_eq!(rt; first_wrong(alloc, &mut dialogue, WHOLE)?, "");
    assert!(rt; tells_service(&dialogue));
    Ok(())
}

/// Whether its session seals a text, and it has ended.
fn has_session(alloc: Global, dialogue: Box<Dialogue>) -> bool {
    match Dialogue::into_session(dialogue) {
        Ok(session) => {
            let mut session = session;
            let mut room = [0; 128];
            session.wrap(alloc, b"some plain message", [0; 16], &mut room) == Ok(78)
        }
        Err(_) => false,
    }
}

#[test]
fn an_established_context_seals(rt: HostRuntime) -> Result<(), Fail> {
    let alloc = rt.alloc();
    let mut dialogue = of_alice(alloc)?;
    assert_eq!(rt; first_wrong(alloc, &mut dialogue, WHOLE)?, "");
    assert!(rt; has_session(alloc, dialogue));
    Ok(())
}

#[test]
fn a_refusal_ends_the_exchange(rt: HostRuntime) -> Result<(), Fail> {
    let alloc = rt.alloc();
    let mut dialogue = of_alice(alloc)?;
    dialogue.set_rules(Rules::none());
    assert_eq!(rt; first_wrong(alloc, &mut dialogue, REFUSED)?, "");
    assert!(rt; Dialogue::into_session(dialogue).is_err());
    Ok(())
}

#[test]
fn a_dialogue_goes_by_the_rfcs(rt: HostRuntime) -> Result<(), Fail> {
    let alloc = rt.alloc();
    let mut dialogue = of_alice(alloc)?;
    assert_eq!(rt; first_wrong(alloc, &mut dialogue, BY_RFC)?, "");
    Ok(())
}

#[test]
fn a_short_subkey_is_refused(rt: HostRuntime) -> Result<(), Fail> {
    let alloc = rt.alloc();
    let mut dialogue = of_alice(alloc)?;
    assert_eq!(rt; first_wrong(alloc, &mut dialogue, SHORT_SUBKEY)?, "");
    Ok(())
}

#[test]
fn somebody_has_to_ask(rt: HostRuntime) -> Result<(), Fail> {
    let alloc = rt.alloc();
    let mut dialogue = with_host(alloc)?;
    assert_eq!(rt; first_wrong(alloc, &mut dialogue, NOBODY)?, "");
    Ok(())
}

/// The first line that does not hold where alice asks, and no KDC is known.
fn wrong_without_kdc(alloc: Global, dialogue: &mut Dialogue) -> Result<&'static str, Fail> {
    tell_alice(alloc, dialogue)?;
    first_wrong(alloc, dialogue, NO_KDC)
}

#[test]
fn a_kdc_has_to_be_known(rt: HostRuntime) -> Result<(), Fail> {
    let alloc = rt.alloc();
    let mut dialogue = with_host(alloc)?;
    assert_eq!(rt; wrong_without_kdc(alloc, &mut dialogue)?, "");
    Ok(())
}

/// The first line that does not hold where a file names the KDC.
fn wrong_with_file(alloc: Global, dialogue: &mut Dialogue) -> Result<&'static str, Fail> {
    tell_alice(alloc, dialogue)?;
    dialogue.add_variable(alloc, "KRB5_CONFIG", "/krb5.conf")?;
    let text = "[realms]\nEXAMPLE.COM = {\nkdc = kdc.example:88\n}\n";
    dialogue.add_file(alloc, "/krb5.conf", text)?;
    first_wrong(alloc, dialogue, ASKS)
}

#[test]
fn a_file_may_name_the_kdc(rt: HostRuntime) -> Result<(), Fail> {
    let alloc = rt.alloc();
    let mut dialogue = with_host(alloc)?;
    assert_eq!(rt; wrong_with_file(alloc, &mut dialogue)?, "");
    Ok(())
}

/// The first line that does not hold where a rule takes a first reply that is an AS-REP, and is set while one is awaited.
fn wrong_where_set_late(alloc: Global, dialogue: &mut Dialogue) -> Result<&'static str, Fail> {
    dialogue.set_rules(Rules::none());
    let _asks = dialogue.start(alloc, &draw_at(0))?;
    dialogue.set_rules(Rules::NO_PREAUTHENTICATION);
    first_wrong(alloc, dialogue, RULES_SET_LATE)
}

#[test]
fn rules_may_be_set_late(rt: HostRuntime) -> Result<(), Fail> {
    let alloc = rt.alloc();
    let mut dialogue = of_alice(alloc)?;
    assert_eq!(rt; wrong_where_set_late(alloc, &mut dialogue)?, "");
    Ok(())
}

/// Whether it refuses a key of another type, and one of a name with both signs.
fn refuses_keys(alloc: Global, dialogue: &mut Dialogue) -> bool {
    let key = [0; 32];
    dialogue.set_key(alloc, "EXAMPLE.COM\\alice", 16, &key) == Err(Error::from(Cause::Etype))
        && dialogue.set_key(alloc, "E\\a@b", 18, &key) == Err(Error::from(Cause::BadUser))
}

/// Whether it asks with a key, which at most eleven requests follow.
fn asks_with_key(alloc: Global, dialogue: &mut Dialogue) -> bool {
    dialogue.set_kdc(alloc, "tcp://kdc.example:88").is_ok()
        && dialogue
            .set_key(alloc, "EXAMPLE.COM\\alice", 18, &[0; 32])
            .is_ok()
        && dialogue.start(alloc, &draw_at(0)) == Ok(Next::AskKdc)
        && dialogue.requests_left() == 11
}

#[test]
fn a_key_may_ask(rt: HostRuntime) -> Result<(), Fail> {
    let alloc = rt.alloc();
    let mut dialogue = with_host(alloc)?;
    assert!(rt; refuses_keys(alloc, &mut dialogue));
    assert!(rt; asks_with_key(alloc, &mut dialogue));
    Ok(())
}

/// Whether a step past the last moment is refused.
fn is_late(alloc: Global, dialogue: &mut Dialogue) -> bool {
    let late = draw_at(MAX_MOMENT + 1);
    let refused = Err(Error::from(Cause::Moment));
    dialogue.start(alloc, &late) == refused
        && dialogue.hear(alloc, &[], &late) == refused
        && dialogue.answer(alloc, &[], &late) == refused
        && dialogue.fault(0, &late) == refused
}

#[test]
fn a_moment_may_be_too_late(rt: HostRuntime) -> Result<(), Fail> {
    let alloc = rt.alloc();
    let mut dialogue = of_alice(alloc)?;
    assert!(rt; is_late(alloc, &mut dialogue));
    Ok(())
}

/// The first line that does not hold where bindings are set, and then others.
fn wrong_where_bound(alloc: Global, dialogue: &mut Dialogue) -> Result<&'static str, Fail> {
    dialogue.set_bindings(alloc, &[0; 32])?;
    dialogue.bind_to(alloc, b"tls-server-end-point:")?;
    first_wrong(alloc, dialogue, ASKS)
}

#[test]
fn bindings_are_read(rt: HostRuntime) -> Result<(), Fail> {
    let alloc = rt.alloc();
    let mut dialogue = of_alice(alloc)?;
    assert!(rt; dialogue.set_bindings(alloc, &[0; 31]) == Err(Error::from(Cause::Bindings)));
    assert_eq!(rt; wrong_where_bound(alloc, &mut dialogue)?, "");
    Ok(())
}
