//! Calls through the whole library, over a conversation with a client of MIT's that was recorded.

use menolavuri::{Acceptor, Cause, Error, GssFlags, Judged, Session, Told, version};
use std::time::{Duration, SystemTime, UNIX_EPOCH};

/// The conversation of `crates/example_acceptor/stdin`.
const CONVERSATION: &str = include_str!("../../../crates/example_acceptor/stdin");

fn octets(hex: &str) -> Vec<u8> {
    (0..hex.len() / 2)
        .map(|i| u8::from_str_radix(&hex[2 * i..2 * i + 2], 16).unwrap())
        .collect()
}

fn lines(word: &str) -> Vec<Vec<&'static str>> {
    CONVERSATION
        .lines()
        .map(|line| line.split(' ').collect())
        .filter(|words: &Vec<&str>| words[0] == word)
        .collect()
}

fn acceptor() -> Acceptor {
    let service = &lines("service")[0];
    Acceptor::new(service[1], &octets(service[2]), Duration::from_secs(300)).unwrap()
}

/// The time of the conversation.
fn now() -> SystemTime {
    UNIX_EPOCH + Duration::from_micros(lines("client")[0][1].parse().unwrap())
}

fn accept(acceptor: &Acceptor) -> Result<Session, Error> {
    let client = &lines("client")[0];
    acceptor.accept_at(
        &octets(client[3]),
        now(),
        octets(client[2]).try_into().unwrap(),
    )
}

#[test]
fn a_client_is_admitted_once() {
    let acceptor = acceptor();
    let session = accept(&acceptor).unwrap();
    assert_eq!(session.peer(), "alice@example.com");
    assert_eq!(session.client(), Some("alice@EXAMPLE.COM"));
    assert_eq!(session.local_name(), Some("alice@example.com"));
    assert_eq!(session.user_of("EXAMPLE.COM"), Some("alice"));
    // as libkrb5 decrypts them: REPLAY, SEQUENCE, CONF, INTEG, TRANS; PRE-AUTHENT, TRANSITED-POLICY-CHECKED, ENC-PA-REP
    assert_eq!(session.flags().map(GssFlags::bits), Some(0x13c));
    assert_eq!(session.ticket_flags(), Some(0x0029_0000));
    assert!(session.answer().is_empty());
    assert_eq!(acceptor.kept(), 1);
    let error = accept(&acceptor).err().unwrap();
    assert_eq!(
        error.to_string(),
        "refused: InvalidToken Replayed: this token was admitted before: the client makes another one"
    );
    assert_eq!(error.cause(), Some(Cause::Replayed));
}

fn judge(acceptor: &Acceptor) -> Judged {
    let client = &lines("client")[0];
    acceptor
        .judge_at(
            &octets(client[3]),
            now(),
            octets(client[2]).try_into().unwrap(),
        )
        .unwrap()
}

#[test]
fn a_store_is_asked_in_the_place_of_a_book() {
    let acceptor = acceptor();
    let (mut judged, mut again) = (judge(&acceptor), judge(&acceptor));
    assert_eq!(judged.client().unwrap(), "alice@EXAMPLE.COM");
    assert_eq!(
        judged.service().unwrap(),
        "host/server.example.com@EXAMPLE.COM"
    );
    assert_eq!(judged.record().unwrap(), again.record().unwrap());
    assert_eq!(judged.flags().unwrap().map(GssFlags::bits), Some(0x13c));
    assert_eq!(
        judged.tag().unwrap()[..],
        octets("aca40ddcbe932faaba16f9dc")
    );
    assert!(judged.delegation().unwrap().is_empty());
    let mut session = acceptor.admit_told(judged, now(), false).unwrap();
    assert_eq!(session.client(), Some("alice@EXAMPLE.COM"));
    assert_eq!(session.key().unwrap().len(), 32);
    assert!(session.delegation().unwrap().is_empty());
    let error = acceptor.admit_told(again, now(), true).err().unwrap();
    assert_eq!(error.cause(), Some(Cause::Replayed));
    assert_eq!(acceptor.kept(), 0);
}

#[test]
fn a_store_is_asked_in_one_call() {
    let acceptor = acceptor();
    assert_eq!(acceptor.skew(), Duration::from_secs(300));
    let record = judge(&acceptor).record().unwrap();
    let mut kept: Vec<Vec<u8>> = Vec::new();
    let mut admit = |now| {
        acceptor.admit_by_store(judge(&acceptor), |asked, keep| {
            assert_eq!(asked, record);
            assert!(keep > 2 * Duration::from_secs(300));
            let seen = kept.iter().any(|it| it == asked);
            kept.push(asked.to_vec());
            Ok::<_, Error>(Told { now, seen })
        })
    };
    let session = admit(now()).unwrap();
    assert_eq!(session.client(), Some("alice@EXAMPLE.COM"));
    let error = admit(now()).err().unwrap();
    assert_eq!(error.cause(), Some(Cause::Replayed));
    let late = Told {
        now: now() + Duration::from_secs(3600),
        seen: false,
    };
    let error = acceptor.admit_by_store(judge(&acceptor), |_, _| Ok::<_, Error>(late));
    assert_eq!(error.err().unwrap().cause(), Some(Cause::Skew));
    assert_eq!(acceptor.kept(), 0);
}

#[test]
fn a_store_that_does_not_reply_admits_nobody() {
    let acceptor = acceptor();
    let away = || Err::<Told, Box<dyn std::error::Error>>("the store is away".into());
    let error = acceptor.admit_by_store(judge(&acceptor), |_, _| away());
    assert_eq!(error.err().unwrap().to_string(), "the store is away");
}

/// RFC 4121, section 4.1: the mechanism's name and 03 00 before the message. RFC 4120, section 5.9.1: `error-code [6]`, `stime [4]`.
#[test]
fn a_refusal_has_a_token() {
    let acceptor = acceptor();
    accept(&acceptor).unwrap();
    let Error::Refused(refusal) = accept(&acceptor).err().unwrap() else {
        panic!("no refusal");
    };
    let moment = UNIX_EPOCH + Duration::from_micros(1_700_000_000_123_456); // 2023-11-14 22:13:20
    let token = refusal
        .error_token_at("host/server.example.com", "EXAMPLE.COM", moment)
        .unwrap();
    let has = |part: &[u8]| token.windows(part.len()).any(|it| it == part);
    assert!(has(&octets("06092a864886f71201020203007e")));
    assert!(has(&octets("a603020122"))); // KRB_AP_ERR_REPEAT, 34
    assert!(has(b"20231114221320Z"));
    assert!(has(b"EXAMPLE.COM"));
    let error = refusal.error_token("host/\u{e4}", "EXAMPLE.COM");
    assert!(
        error
            .unwrap_err()
            .to_string()
            .starts_with("refused: InternalError NotAscii: ")
    );
}

/// A keytab with one entry of host/server.example.com.
fn keytab(realm: &str, key: &[u8]) -> Vec<u8> {
    let mut entry = vec![0, 2];
    for part in [realm, "host", "server.example.com"] {
        entry.extend((part.len() as u16).to_be_bytes());
        entry.extend(part.bytes());
    }
    entry.extend([0, 0, 0, 3, 0, 0, 0, 1, 2, 0, 18, 0, key.len() as u8]);
    entry.extend(key);
    [
        &[5, 2][..],
        &(entry.len() as u32).to_be_bytes(),
        entry.as_slice(),
    ]
    .concat()
}

#[test]
fn a_keytab_has_the_keys_of_a_realm() {
    let file = keytab("EXAMPLE.COM", &octets(lines("service")[0][2]));
    let skew = Duration::from_secs(300);
    let acceptor = Acceptor::with_keytab(&file, "EXAMPLE.COM", skew).unwrap();
    assert_eq!(accept(&acceptor).unwrap().peer(), "alice@example.com");
    let other = Acceptor::with_keytab(&file, "B.COM", skew).err().unwrap();
    assert_eq!(other.cause(), Some(Cause::NoServiceKey));
    let broken = Acceptor::with_keytab(&file[1..], "EXAMPLE.COM", skew);
    assert!(
        broken
            .err()
            .unwrap()
            .to_string()
            .starts_with("refused: InvalidToken Shape: ")
    );
}

#[test]
fn older_keys_open_what_the_newest_does_not() {
    let skew = Duration::from_secs(300);
    let newest = || Acceptor::new("host/server.example.com", &[1; 32], skew).unwrap();
    let error = accept(&newest()).err().unwrap();
    assert_eq!(error.cause(), Some(Cause::Altered));
    let both = newest().with_older(acceptor());
    assert_eq!(accept(&both).unwrap().peer(), "alice@example.com");
    assert_eq!(accept(&both).err().unwrap().cause(), Some(Cause::Replayed));
    assert_eq!(both.kept(), 1);
    let neither = newest().with_older(newest());
    let error = accept(&neither).err().unwrap();
    assert_eq!(error.cause(), Some(Cause::Altered));
}

#[test]
fn messages_are_opened_once() {
    let mut session = accept(&acceptor()).unwrap();
    let messages: Vec<_> = lines("message")
        .iter()
        .map(|words| octets(words[1]))
        .collect();
    let opened = session.unwrap(&messages[1]).unwrap();
    assert!(opened.sealed);
    assert_eq!(opened.text, [0x22]);
    assert_eq!(
        session.unwrap(&messages[1]).unwrap_err().cause(),
        Some(Cause::Repeated)
    );
    let mut altered = messages[2].clone();
    *altered.last_mut().unwrap() ^= 1;
    assert_eq!(
        session.unwrap(&altered).unwrap_err().cause(),
        Some(Cause::Altered)
    );
    assert_eq!(session.unwrap(&messages[2]).unwrap().text.len(), 15);
}

/// The client's messages have the numbers 0fcc9195, 0fcc9197 and 0fcc9199: its MICs are between them.
#[test]
fn messages_are_taken_in_order() {
    let mut session = accept(&acceptor()).unwrap();
    let second = octets(lines("message")[1][1]);
    session.set_in_order(true).unwrap();
    assert_eq!(
        session.unwrap(&second).unwrap_err().cause(),
        Some(Cause::Number)
    );
    session.set_in_order(false).unwrap();
    assert_eq!(session.unwrap(&second).unwrap().text, [0x22]);
}

#[test]
fn tokens_have_their_lengths() {
    let mut session = accept(&acceptor()).unwrap();
    assert_eq!(session.wrap(b"text").unwrap().len(), 64);
    assert_eq!(session.wrap_in_clear(b"text").unwrap().len(), 32);
    assert_eq!(session.mic(b"text").unwrap().len(), 28);
    let mic = session.mic(b"text").unwrap();
    assert_eq!(
        session.verify(&mic, b"text").unwrap_err().to_string(),
        "refused: InvalidToken Direction: this end sent the message itself: it was reflected, or changed"
    );
}

#[test]
fn bad_arguments_are_told() {
    assert!(matches!(
        Acceptor::new("host/a", &[0; 24], Duration::from_secs(300)),
        Err(Error::Argument)
    ));
    let error = Acceptor::new("host/\u{e4}", &[0; 32], Duration::from_secs(300))
        .err()
        .unwrap();
    assert!(
        error
            .to_string()
            .starts_with("refused: InternalError NotAscii: ")
    );
    assert_eq!(version(), env!("CARGO_PKG_VERSION"));
}

#[test]
fn threads_share_one_acceptor() {
    let acceptor = acceptor();
    let admitted: usize = std::thread::scope(|scope| {
        let threads: Vec<_> = (0..4)
            .map(|_| scope.spawn(|| accept(&acceptor).is_ok() as usize))
            .collect();
        threads
            .into_iter()
            .map(|thread| thread.join().unwrap())
            .sum()
    });
    assert_eq!(admitted, 1);
    let session = accept(&crate::acceptor()).unwrap();
    let peer = std::thread::spawn(move || session.peer().to_owned())
        .join()
        .unwrap();
    assert_eq!(peer, "alice@example.com");
}
