//! Keyrings: which keys open a ticket, who admits what they judged, and what a ticket's authorization data are. The clients make their
//! tokens apart from the library, and the keytabs are put together here (format 0502).

mod client;

use client::{Asked, Client, NOW, Ticket, USER, authorization, checksum};
use menolavuri::{Acceptor, Authorization, Cause, Error, Judged, Keyring};
use std::time::{Duration, SystemTime, UNIX_EPOCH};

const OLD: [u8; 32] = [0x73; 32];
const NEW: [u8; 32] = [0x74; 32];
const SKEW: Duration = Duration::from_secs(300);

/// Data of a channel, and the MD5 of its bindings as in `acceptor.rs`.
const CHANNEL: &[u8] = b"tls-server-end-point:0123456789abcdef0123456789abcdef";
const CHANNEL_HASH: [u8; 16] = [
    0x5e, 0xda, 0x53, 0x94, 0xc9, 0x65, 0xf2, 0x66, 0x97, 0xe7, 0x3d, 0xa2, 0x82, 0x8a, 0x7a, 0xd0,
];

/// A keytab with these entries of host/server.example.com: realm, version and key.
fn keytab(entries: &[(&str, u8, &[u8; 32])]) -> Vec<u8> {
    let mut file = vec![5, 2];
    for (realm, version, key) in entries {
        let mut entry = vec![0, 2];
        for part in [realm, "host", "server.example.com"] {
            entry.extend((part.len() as u16).to_be_bytes());
            entry.extend(part.bytes());
        }
        entry.extend([0, 0, 0, 3, 0, 0, 0, 1, *version, 0, 18, 0, 32]);
        entry.extend(*key);
        file.extend((entry.len() as u32).to_be_bytes());
        file.extend(entry);
    }
    file
}

fn ring(entries: &[(&str, u8, &[u8; 32])]) -> Keyring {
    let mut ring = Keyring::new().unwrap();
    assert_eq!(ring.add_keytab(&keytab(entries)).unwrap(), entries.len());
    ring
}

fn judge(ring: &mut Keyring, token: &[u8]) -> Result<Judged, Error> {
    ring.judge_at(token, now(), [1; 64])
}

fn now() -> SystemTime {
    UNIX_EPOCH + Duration::from_secs(NOW)
}

/// A token of alice, whose ticket is under this key and names this version.
fn token(key: &[u8; 32], version: Option<u32>, microsecond: u32) -> Vec<u8> {
    Client::of(key, &Ticket { version, ..USER }).token("alice", microsecond)
}

#[test]
fn tickets_under_the_old_key_and_the_new_one_are_admitted_once() {
    let mut ring = ring(&[("EXAMPLE.COM", 2, &OLD), ("EXAMPLE.COM", 3, &NEW)]);
    assert_eq!(ring.count(), 2);
    let book = Acceptor::keyless(SKEW).unwrap();
    let rows = [
        token(&OLD, Some(2), 1),
        token(&NEW, Some(3), 2),
        token(&OLD, None, 3),
        token(&NEW, None, 4),
        token(&OLD, Some(9), 5),
    ];
    for token in &rows {
        let mut judged = judge(&mut ring, token).unwrap();
        assert_eq!(judged.client().unwrap(), "alice@EXAMPLE.COM");
        let session = book.admit(judged).unwrap();
        assert_eq!(session.client(), Some("alice@EXAMPLE.COM"));
        let again = judge(&mut ring, token).unwrap();
        let error = book.admit(again).err().unwrap();
        assert_eq!(error.cause(), Some(Cause::Replayed));
    }
    assert_eq!(book.kept(), 5);
}

#[test]
fn a_ring_refuses_what_its_keys_do_not_open() {
    let entries = [("EXAMPLE.COM", 2, &OLD), ("EXAMPLE.COM", 3, &NEW)];
    let rows: [(&[(&str, u8, &[u8; 32])], Option<u32>, Cause); 4] = [
        (&[], Some(2), Cause::NoServiceKey),
        (&[("B.COM", 2, &OLD)], Some(2), Cause::NoServiceKey),
        (&entries, Some(3), Cause::Altered), // the key of version 3 alone is tried
        (&entries[1..], None, Cause::Altered),
    ];
    for (entries, version, cause) in rows {
        let error = judge(&mut ring(entries), &token(&OLD, version, 1)).err();
        assert_eq!(error.unwrap().cause(), Some(cause));
    }
    let error = judge(&mut ring(&entries), b"none").err().unwrap();
    assert!(
        error
            .to_string()
            .starts_with("refused: InvalidToken Shape: ")
    );
}

#[test]
fn a_file_that_is_no_keytab_changes_nothing() {
    let mut ring = ring(&[("EXAMPLE.COM", 2, &OLD)]);
    let more = keytab(&[("EXAMPLE.COM", 3, &NEW), ("B.COM", 3, &NEW)]);
    for file in [&more[1..], &more[..more.len() - 1], b"\x05\x01"] {
        let error = ring.add_keytab(file).err().unwrap();
        assert!(
            error
                .to_string()
                .starts_with("refused: InvalidToken Shape: ")
        );
        assert_eq!(ring.count(), 1);
    }
    judge(&mut ring, &token(&OLD, Some(3), 1)).unwrap();
    assert_eq!(ring.add_keytab(&more).unwrap(), 2);
    assert_eq!(ring.count(), 3);
    let error = judge(&mut ring, &token(&OLD, Some(3), 1)).err().unwrap();
    assert_eq!(error.cause(), Some(Cause::Altered));
}

#[test]
fn a_ring_has_a_limit_and_holds_clients_to_their_channel() {
    let mut ring = ring(&[("EXAMPLE.COM", 2, &OLD)]);
    let client = Client::of(&OLD, &USER);
    let asked = |microsecond, bindings| Asked {
        microsecond,
        name_type: 1,
        name: &["alice"],
        checksum: checksum(bindings, 0x3c),
        confounder: 0xc2,
    };
    let (bound, free) = (
        client.ask(&asked(1, CHANNEL_HASH)),
        client.ask(&asked(2, [0; 16])),
    );
    let mut judge_bound =
        |token: &[u8], data: &[u8]| ring.judge_bound_at(token, data, now(), [1; 64]);
    judge_bound(&bound, CHANNEL).unwrap();
    for (token, data) in [(&bound, &b"other"[..]), (&bound, b""), (&free, CHANNEL)] {
        let error = judge_bound(token, data).err().unwrap();
        assert_eq!(error.cause(), Some(Cause::Bindings));
    }
    judge(&mut ring, &bound).unwrap();
    ring.set_token_limit(bound.len() - 1).unwrap();
    let error = judge(&mut ring, &bound).err().unwrap();
    assert!(
        error
            .to_string()
            .starts_with("refused: InvalidToken Shape: ")
    );
    ring.set_token_limit(bound.len()).unwrap();
    judge(&mut ring, &bound).unwrap();
}

#[test]
fn a_book_without_a_key_judges_nothing() {
    let book = Acceptor::keyless(SKEW).unwrap();
    let error = book.accept_at(&token(&OLD, None, 1), now(), [1; 64]).err();
    assert_eq!(error.unwrap().cause(), Some(Cause::NoServiceKey));
}

/// RFC 4120, section 5.2.6: AD-IF-RELEVANT is type 1, and each counts as the elements inside it, one level deep.
#[test]
fn authorization_data_are_returned_an_element_at_a_time() {
    let inner = authorization(&[(128, b"a PAC"), (1, b"in another")]);
    let told = [(1, &inner[..]), (4, b""), (1, b"no data of elements")];
    let elements = [
        (128, &b"a PAC"[..]),
        (1, b"in another"),
        (4, b""),
        (1, b"no data of elements"),
    ];
    let ticket = Ticket {
        authorization: &told,
        ..USER
    };
    let token = Client::of(&OLD, &ticket).token("alice", 1);
    let mut judged = judge(&mut ring(&[("EXAMPLE.COM", 2, &OLD)]), &token).unwrap();
    for (place, (kind, data)) in elements.iter().enumerate() {
        let element = Authorization {
            kind: *kind,
            data: data.to_vec(),
        };
        assert_eq!(judged.authorization(place).unwrap(), Some(element));
    }
    assert_eq!(judged.authorization(4).unwrap(), None);
    assert_eq!(judged.authorization(usize::MAX).unwrap(), None);
    let tag = judged.tag().unwrap();
    assert_eq!(tag, token[token.len() - 12..]);
    let mut session = Acceptor::keyless(SKEW).unwrap().admit(judged).unwrap();
    assert_eq!(session.tag().unwrap(), Some(tag));
    assert_eq!(session.authorization(0).unwrap().unwrap().data, b"a PAC");
    assert_eq!(session.authorization(4).unwrap(), None);
}

#[test]
fn a_ticket_without_authorization_data_has_no_element() {
    let mut ring = ring(&[("EXAMPLE.COM", 2, &OLD)]);
    let mut judged = judge(&mut ring, &token(&OLD, None, 1)).unwrap();
    assert_eq!(judged.authorization(0).unwrap(), None);
}
