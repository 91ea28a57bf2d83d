//! The words of errors, which a person can act on, and values that show no key.

mod client;

use client::{Client, NOW};
use menolavuri::{
    Acceptor, Cause, Error, Flags, Initiator, Keyring, Kind, LayerRefusal, Layers, SaslServer,
};
use std::time::{Duration, SystemTime, UNIX_EPOCH};

const KEY: [u8; 32] = *b"a key of AES that nobody prints.";
const SKEW: Duration = Duration::from_secs(300);

fn acceptor() -> Acceptor {
    Acceptor::new("host/server.example.com", &KEY, SKEW).unwrap()
}

fn initiator() -> Initiator {
    Initiator::new("host/server.example.com", "desk", Flags::USUAL).unwrap()
}

fn now() -> SystemTime {
    UNIX_EPOCH + Duration::from_secs(NOW)
}

fn words(error: Option<Error>) -> String {
    error.unwrap().to_string()
}

#[test]
fn a_person_can_act_on_an_error() {
    let token = Client::new(&KEY, "alice").token("alice", 1);
    let late = acceptor().accept_at(&token, now() + 2 * SKEW, [1; 64]);
    assert_eq!(
        words(late.err()),
        "refused: TimeSkew Skew: the clocks of the two ends differ by more than the skew: check NTP on both ends"
    );
    let other = Acceptor::new("host/other.example.com", &KEY, SKEW).unwrap();
    let told = words(other.accept_at(&token, now(), [1; 64]).err());
    assert!(
        told.ends_with("the ticket names: compare `klist` at the client with `klist -k` here"),
        "{told}"
    );
    let short = Acceptor::new("host/a", b"short", SKEW);
    assert!(words(short.err()).contains("a key has 16 or 32 bytes"));
    let mut initiator = initiator();
    initiator.kdc("tcp://kdc.example.com:88").unwrap();
    initiator
        .password("alice", "EXAMPLE.COM", "secret")
        .unwrap();
    initiator.start().unwrap();
    assert_eq!(
        words(initiator.fault(7).err()),
        "refused: NoAuthenticatingAuthority Network 7: no KDC answered: check its address, and that it runs"
    );
}

/// The library prints a kind and a cause as the crate names them.
#[test]
fn each_number_has_its_name_and_words() {
    let mut named = 0;
    for number in 1..100 {
        let kind = Kind::from_number(number, 0);
        let cause = Cause::from_number(number, 7);
        assert_eq!((kind.number(), cause.number()), (number, number));
        match kind {
            Kind::Other(_) => assert_eq!(kind.to_string(), number.to_string()),
            kind => assert_eq!(kind.to_string(), format!("{kind:?}")),
        }
        if let Cause::Other(_) = cause {
            assert_eq!(cause.to_string(), number.to_string());
            continue;
        }
        let name = format!("{cause:?}");
        assert_eq!(cause.to_string(), name.trim_end_matches("(7)"));
        assert_eq!(cause.code(), name.ends_with("(7)").then_some(7));
        assert!(!cause.words().contains("another version"), "{name}");
        assert!(!cause.words().contains('\n'), "{name}");
        named += 1;
    }
    assert_eq!(named, 63);
    let words = Cause::Kdc(24).words();
    assert_eq!(words, "the password or the key is not the user's");
    assert_eq!(LayerRefusal::from_number(2, 0), LayerRefusal::State);
}

/// True if a text has a key, as a list of numbers, as text, or in hex.
fn shows(text: &str, key: &[u8]) -> bool {
    let list = format!("{key:?}");
    let hex: String = key.iter().map(|it| format!("{it:02x}")).collect();
    text.contains(list.trim_matches(['[', ']']))
        || text.contains(&*String::from_utf8_lossy(key))
        || text.to_lowercase().contains(&hex)
}

#[test]
fn no_key_is_shown() {
    assert!(shows("[97, 98, 1]", &[98, 1]) && shows("0x6201", &[98, 1]));
    let acceptor = acceptor().with_older(self::acceptor());
    let token = Client::new(&KEY, "alice").token("alice", 1);
    let judged = acceptor.judge_at(&token, now(), [1; 64]).unwrap();
    let mut told = vec![format!("{acceptor:?}"), format!("{judged:?}")];
    assert!(told[0].starts_with("Acceptor { skew: 300s, kept: 0, older: Some(Acceptor {"));
    assert_eq!(told[1], "Judged(mk_judged { .. })");
    let mut session = acceptor.admit(judged).unwrap();
    let key = session.key().unwrap();
    told.push(format!("{session:?}"));
    let peer = "Session { peer: \"alice@example.com\", client: Some(\"alice@EXAMPLE.COM\")";
    assert!(told[2].starts_with(peer), "{}", told[2]);
    let server = SaslServer::new(session, Layers::ALL, 65536).unwrap();
    told.push(format!("{server:?}"));
    let mut initiator = initiator();
    initiator.key("alice", "EXAMPLE.COM", 18, &KEY).unwrap();
    let ring = Keyring::new().unwrap();
    told.extend([format!("{initiator:?}"), format!("{ring:?}")]);
    for text in told {
        assert!(!shows(&text, &KEY) && !shows(&text, &key), "{text}");
    }
}
