//! An initiator, over a log-in at a KDC and a service that was recorded.

use menolavuri::{Cause, Error, Flags, Initiator, Next, Rules, Session, Step};
use std::time::{Duration, SystemTime, UNIX_EPOCH};

/// The input of an initiator, up to its first message, and its requests and tokens.
const TOLD: &str = include_str!("../../../crates/example_initiator/stdin");
const ANSWERED: &str = include_str!("../../../crates/example_initiator/stdout");

fn octets(hex: &str) -> Vec<u8> {
    (0..hex.len() / 2)
        .map(|i| u8::from_str_radix(&hex[2 * i..2 * i + 2], 16).unwrap())
        .collect()
}

/// The lines of a text that begin with a word, in words.
fn lines(text: &'static str, word: &str) -> Vec<Vec<&'static str>> {
    text.lines()
        .map(|line| line.split(' ').collect())
        .filter(|words: &Vec<&str>| words[0] == word)
        .collect()
}

fn only(text: &'static str, word: &str) -> Vec<&'static str> {
    lines(text, word).swap_remove(0)
}

/// An initiator of the user, at its KDC.
fn initiator() -> Initiator {
    let user = only(TOLD, "user");
    let number = octets(user[6]).try_into().unwrap();
    let target = only(TOLD, "login")[1];
    let mut initiator = Initiator::with_number(target, user[3], Flags::USUAL, number).unwrap();
    initiator.kdc(user[4]).unwrap();
    initiator.password(user[1], user[2], user[5]).unwrap();
    initiator
}

/// A step with what the recorded one of this number drew.
fn step(initiator: &mut Initiator, step: Step, number: usize) -> Result<Next, Error> {
    let words = &lines(TOLD, "step")[number];
    let moment = UNIX_EPOCH + Duration::from_micros(words[1].parse().unwrap());
    initiator.step_at(step, moment, octets(words[2]).try_into().unwrap())
}

/// Asks KDCs until there is a token for the service.
fn show(initiator: &mut Initiator) -> Vec<u8> {
    let (asked, replies) = (lines(ANSWERED, "ask"), lines(TOLD, "reply"));
    let mut next = step(initiator, Step::Start, 0).unwrap();
    for i in 0..3 {
        assert_eq!(next, Next::AskKdc);
        assert_eq!(initiator.url().unwrap(), asked[i][1]);
        assert_eq!(initiator.request().unwrap(), octets(asked[i][2]));
        next = step(initiator, Step::Answer(&octets(replies[i][1])), i + 1).unwrap();
    }
    assert_eq!(next, Next::SendToken);
    initiator.token().unwrap()
}

fn log_in() -> Session {
    let mut initiator = initiator();
    assert_eq!(show(&mut initiator), octets(only(ANSWERED, "token")[1]));
    let answer = octets(only(TOLD, "answer")[2]);
    let next = step(&mut initiator, Step::Hear(&answer), 13).unwrap();
    assert_eq!(next, Next::Established);
    initiator.into_session().unwrap()
}

#[test]
fn a_service_is_reached() {
    let mut session = log_in();
    assert_eq!(session.peer(), "host/server.example.com");
    assert!(session.answer().is_empty());
    assert_eq!(session.client(), None);
    assert_eq!(session.ends(), None);
    assert_eq!(session.key().unwrap().len(), 32);
    assert_eq!(session.wrap(b"A").unwrap().len(), 61);
    session.set_rules(Rules::NONE).unwrap();
}

#[test]
fn one_way_is_settled() {
    let user = only(TOLD, "user");
    let number = octets(user[6]).try_into().unwrap();
    let flags = Flags::USUAL.without(Flags::MUTUAL_AUTH);
    let mut initiator =
        Initiator::with_number("host/server.example.com", user[3], flags, number).unwrap();
    initiator.kdc(user[4]).unwrap();
    initiator.password(user[1], user[2], user[5]).unwrap();
    let mut next = step(&mut initiator, Step::Start, 0).unwrap();
    for (i, reply) in lines(TOLD, "reply").iter().take(3).enumerate() {
        assert_eq!(next, Next::AskKdc);
        next = step(&mut initiator, Step::Answer(&octets(reply[1])), i + 1).unwrap();
    }
    assert_eq!(next, Next::Established);
    let token = initiator.token().unwrap();
    let session = initiator.into_session().unwrap();
    assert!(!token.is_empty());
    assert_eq!(session.answer(), token);
}

/// A step an hour after the log-in, with other octets than were drawn then.
fn later(initiator: &mut Initiator, step: Step) -> Result<Next, Error> {
    let recorded = Duration::from_micros(only(TOLD, "step")[1].parse().unwrap());
    initiator.step_at(
        step,
        UNIX_EPOCH + recorded + Duration::from_secs(3600),
        [7; 64],
    )
}

/// Plays the recorded replies and the recorded answer back to an initiator with these rules, or with its own.
fn play_back(rules: Option<Rules>) -> Result<Session, Error> {
    let mut initiator = initiator();
    if let Some(rules) = rules {
        initiator.set_rules(rules)?;
    }
    let mut next = later(&mut initiator, Step::Start)?;
    for reply in lines(TOLD, "reply").iter().take(3) {
        assert_eq!(next, Next::AskKdc);
        next = later(&mut initiator, Step::Answer(&octets(reply[1])))?;
    }
    assert_eq!(next, Next::SendToken);
    let answer = octets(only(TOLD, "answer")[2]);
    assert_eq!(
        later(&mut initiator, Step::Hear(&answer))?,
        Next::Established
    );
    initiator.into_session()
}

#[test]
fn a_recorded_log_in_is_not_played_back() {
    let error = play_back(None).err().unwrap();
    assert!(
        error
            .to_string()
            .starts_with("refused: InvalidToken Nonce: ")
    );
    assert_eq!(error.cause(), Some(Cause::Nonce));
    // The AP-REP alone, to another authenticator.
    let fresh = Rules::RFC.without(Rules::FRESH_REPLIES);
    let error = play_back(Some(fresh)).err().unwrap();
    assert_eq!(error.cause(), Some(Cause::ReplyTime));
    // Without the checks the initiator is fooled.
    let session = play_back(Some(Rules::NONE)).unwrap();
    assert_eq!(session.peer(), "host/server.example.com");
}

#[test]
fn a_session_is_not_there_before() {
    let mut early = initiator();
    show(&mut early);
    assert_eq!(early.peer().unwrap_err().cause(), Some(Cause::Sequence));
    let error = early.into_session().err().unwrap();
    assert!(
        error
            .to_string()
            .starts_with("refused: OutOfSequence Sequence: ")
    );
}

#[test]
fn a_fault_ends_an_exchange() {
    let mut initiator = initiator();
    for _ in 0..2 {
        assert_eq!(initiator.start().unwrap(), Next::AskKdc);
        let error = initiator.start().unwrap_err();
        assert_eq!(error.cause(), Some(Cause::Sequence));
        let error = initiator.hear(b"").unwrap_err();
        assert_eq!(error.cause(), Some(Cause::Sequence));
        let error = initiator.fault(7).unwrap_err();
        assert_eq!(error.cause(), Some(Cause::Network(7)));
        assert!(
            error
                .to_string()
                .starts_with("refused: NoAuthenticatingAuthority Network 7: ")
        );
        let error = initiator.answer(b"").unwrap_err();
        assert_eq!(error.cause(), Some(Cause::Sequence));
    }
}

#[test]
fn a_file_names_the_kdc() {
    let mut initiator = Initiator::new("host/server.example.com", "desk", Flags::USUAL).unwrap();
    initiator
        .key("alice", "EXAMPLE.COM", 17, &[7; 16])
        .expect("a key of AES-128");
    initiator.variable("KRB5_CONFIG", "/krb5.conf").unwrap();
    let text = "[realms]\nEXAMPLE.COM = {\nkdc = kdc.example.com:88\n}\n";
    initiator.file("/krb5.conf", text).unwrap();
    initiator.bind(b"tls-server-end-point:").unwrap();
    initiator.set_rules(Rules::AS_REP_TAGGED_26).unwrap();
    assert_eq!(initiator.start().unwrap(), Next::AskKdc);
    assert_eq!(initiator.url().unwrap(), "tcp://kdc.example.com:88");
}

#[test]
fn bad_settings_are_told() {
    let mut initiator = initiator();
    let error = initiator.key("alice", "EXAMPLE.COM", 16, &[]).unwrap_err();
    assert!(
        error
            .to_string()
            .starts_with("refused: InvalidParameter Etype: ")
    );
    assert!(initiator.key("a@b", "E", 18, &[7; 32]).is_err());
    let past = SystemTime::UNIX_EPOCH - Duration::from_secs(1);
    let refused = initiator.step_at(Step::Start, past, [7; 64]);
    assert!(matches!(refused, Err(Error::Argument)));
    // Nobody filled these.
    let refused = initiator.step_at(Step::Start, SystemTime::now(), [0; 64]);
    assert!(matches!(refused, Err(Error::Argument)));
    let error = Initiator::new("host/\u{e4}", "desk", Flags::USUAL);
    assert!(matches!(error, Err(Error::Refused(_))));
    assert_eq!(initiator.start().unwrap(), Next::AskKdc);
}

#[test]
fn another_thread_goes_on() {
    let mut initiator = initiator();
    assert_eq!(initiator.start().unwrap(), Next::AskKdc);
    let url = std::thread::spawn(move || initiator.url().unwrap())
        .join()
        .unwrap();
    assert_eq!(url, only(TOLD, "user")[4]);
}

#[test]
fn sets_have_their_bits() {
    let rules = Rules::AS_REP_TAGGED_26 | Rules::FIRST_NUMBER_AS_SHOWN;
    assert!(rules.contains(Rules::AS_REP_TAGGED_26));
    assert!(!rules.contains(Rules::RFC));
    assert!(Rules::RFC.contains(rules) && Rules::RFC.contains(Rules::FRESH_REPLIES));
    assert_eq!(
        rules.without(Rules::AS_REP_TAGGED_26),
        Rules::FIRST_NUMBER_AS_SHOWN
    );
    assert_eq!(
        Rules::named("ONE_WAY_IS_SETTLED"),
        Some(Rules::ONE_WAY_IS_SETTLED)
    );
    assert_eq!(Rules::named("one_way_is_settled"), None);
    assert_eq!(Flags::named("MUTUAL_AUTH"), Some(Flags::MUTUAL_AUTH));
    assert!(Flags::USUAL.contains(Flags::MUTUAL_AUTH));
}
