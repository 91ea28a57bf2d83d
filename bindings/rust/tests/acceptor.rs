//! Whom an acceptor admits, what it holds its clients to, and what it learns of them. The clients make their tokens apart from the library.

mod client;

use client::{Asked, Client, NOW, Ticket, USER, checksum};
use menolavuri::{Acceptor, Cause, Error, GssFlags, Session};
use std::time::{Duration, SystemTime, UNIX_EPOCH};

const KEY: [u8; 32] = [0x73; 32];
const SKEW: Duration = Duration::from_secs(300);

/// Data of a channel, and the MD5 of its bindings (RFC 4121, section 4.1.1.2) as Python's hashlib makes it of 16 octets 0, the length of the
/// data in four octets, the lowest first, and the data.
const CHANNEL: &[u8] = b"tls-server-end-point:0123456789abcdef0123456789abcdef";
const CHANNEL_HASH: [u8; 16] = [
    0x5e, 0xda, 0x53, 0x94, 0xc9, 0x65, 0xf2, 0x66, 0x97, 0xe7, 0x3d, 0xa2, 0x82, 0x8a, 0x7a, 0xd0,
];

fn acceptor() -> Acceptor {
    Acceptor::new("host/server.example.com", &KEY, SKEW).unwrap()
}

fn now() -> SystemTime {
    UNIX_EPOCH + Duration::from_secs(NOW)
}

fn accept(acceptor: &Acceptor, token: &[u8]) -> Result<Session, Error> {
    acceptor.accept_at(token, now(), [1; 64])
}

fn accept_bound(acceptor: &Acceptor, token: &[u8], data: &[u8]) -> Result<Session, Error> {
    acceptor.admit(acceptor.judge_bound_at(token, data, now(), [1; 64])?)
}

/// The request of alice by default: no bindings; replay, sequence, confidentiality and integrity.
fn asked() -> Asked<'static> {
    Asked {
        microsecond: 7,
        name_type: 1,
        name: &["alice"],
        checksum: checksum([0; 16], 0x3c),
        confounder: 0xc2,
    }
}

fn cause_of(result: Result<Session, Error>) -> Option<Cause> {
    result.err().and_then(|error| error.cause())
}

#[test]
fn clients_of_any_name_are_admitted_and_known_whole() {
    let rows: [(u32, &[&str], &str, Option<&str>); 6] = [
        (
            1,
            &["alice"],
            "alice@EXAMPLE.COM",
            Some("alice@example.com"),
        ),
        (1, &["alice", "admin"], "alice/admin@EXAMPLE.COM", None),
        (
            3,
            &["host", "client.example.com"],
            "host/client.example.com@EXAMPLE.COM",
            None,
        ),
        (2, &["krbtgt", "B.COM"], "krbtgt/B.COM@EXAMPLE.COM", None),
        (10, &["alice@B.COM"], r"alice\@B.COM@EXAMPLE.COM", None),
        (0, &["alice"], "alice@EXAMPLE.COM", None),
    ];
    for (name_type, name, whole, short) in rows {
        let ticket = Ticket {
            name_type,
            name,
            ..USER
        };
        let token = Client::of(&KEY, &ticket).ask(&Asked {
            name_type,
            name,
            ..asked()
        });
        let session = accept(&acceptor(), &token).unwrap();
        assert_eq!(session.client(), Some(whole));
        assert_eq!(session.local_name(), short, "{whole}");
        assert_eq!(session.peer(), short.unwrap_or(whole));
    }
}

/// A GeneralString has ASCII alone (RFC 4120, section 5.2.1): no other letters take the place of other bytes.
#[test]
fn a_name_that_is_not_ascii_is_refused() {
    let odd: &[&str] = &["al\u{ff}ice"]; // the byte ff
    for name in [odd, &["al\u{e4}ice"]] {
        let ticket = Ticket { name, ..USER };
        let token = Client::of(&KEY, &ticket).ask(&Asked { name, ..asked() });
        let session = accept(&acceptor(), &token);
        assert_eq!(cause_of(session), Some(Cause::Inner), "{name:?}");
    }
}

#[test]
fn the_type_of_a_name_is_a_hint() {
    let token = Client::of(&KEY, &USER).ask(&Asked {
        name_type: 0,
        ..asked()
    });
    let session = accept(&acceptor(), &token).unwrap();
    assert_eq!(session.client(), Some("alice@EXAMPLE.COM"));
    let other = Client::of(&KEY, &USER).ask(&Asked {
        name: &["alice", "admin"],
        ..asked()
    });
    let error = accept(&acceptor(), &other).err().unwrap();
    assert!(
        error
            .to_string()
            .starts_with("refused: InvalidToken Names: ")
    );
}

#[test]
fn flags_of_tickets_are_looked_at() {
    let rows: [([u8; 4], &[u8], Option<Cause>); 5] = [
        ([0x40, 0x80, 0, 0], b"", None),
        ([0x41, 0x80, 0, 0], b"", Some(Cause::NotYet)), // INVALID
        ([0x40, 0x80, 0, 0], b"B.COM", Some(Cause::Transited)),
        ([0x40, 0x88, 0, 0], b"B.COM", None), // TRANSITED-POLICY-CHECKED
        ([0x41, 0x88, 0, 0], b"B.COM", Some(Cause::NotYet)),
    ];
    for (flags, transited, cause) in rows {
        let ticket = Ticket {
            flags,
            transited,
            ..USER
        };
        let session = accept(&acceptor(), &Client::of(&KEY, &ticket).ask(&asked()));
        if let Ok(session) = &session {
            assert_eq!(session.ticket_flags(), Some(u32::from_be_bytes(flags)));
        }
        assert_eq!(cause_of(session), cause, "{flags:x?}");
    }
}

#[test]
fn clients_are_held_to_their_channel() {
    let client = Client::of(&KEY, &USER);
    let with = |checksum| {
        client.ask(&Asked {
            checksum,
            ..asked()
        })
    };
    let bound = with(checksum(CHANNEL_HASH, 0x3e));
    let unbound = with(checksum([0; 16], 0x3e));
    let plain = with(Some((0x8003, CHANNEL_HASH.to_vec())));
    let rows = [
        (&bound, CHANNEL, None),
        (&bound, &CHANNEL[1..], Some(Cause::Bindings)),
        (&bound, b"", Some(Cause::Bindings)),
        (&unbound, CHANNEL, Some(Cause::Bindings)),
        (&unbound, b"", Some(Cause::Bindings)),
        (&plain, CHANNEL, Some(Cause::Checksum)),
        (&with(None), CHANNEL, Some(Cause::Checksum)),
        (
            &with(Some((7, vec![0; 24]))),
            CHANNEL,
            Some(Cause::Checksum),
        ),
    ];
    for (number, (token, data, cause)) in rows.into_iter().enumerate() {
        let session = accept_bound(&acceptor(), token, data);
        assert_eq!(cause_of(session), cause, "row {number}");
        // who is not held to a channel is admitted whatever it gave
        assert!(accept(&acceptor(), token).is_ok(), "row {number}");
    }
}

#[test]
fn what_a_client_asked_for_is_told() {
    let usual = GssFlags::GSS_C_REPLAY_FLAG
        | GssFlags::GSS_C_SEQUENCE_FLAG
        | GssFlags::GSS_C_CONF_FLAG
        | GssFlags::GSS_C_INTEG_FLAG;
    let client = Client::of(&KEY, &USER);
    let rows = [
        (checksum([0; 16], 0x3c), Some(usual)),
        (
            checksum([9; 16], 0x103e),
            Some(usual | GssFlags::GSS_C_MUTUAL_FLAG | GssFlags::GSS_C_DCE_STYLE),
        ),
        (Some((0x8003, vec![16, 0, 0, 0])), None),
        (Some((0x8003, [vec![15], vec![0; 23]].concat())), None),
        (None, None),
    ];
    for (checksum, flags) in rows {
        let token = client.ask(&Asked {
            checksum,
            ..asked()
        });
        let acceptor = acceptor();
        let mut judged = acceptor.judge_at(&token, now(), [1; 64]).unwrap();
        assert_eq!(judged.flags().unwrap(), flags);
        assert_eq!(judged.tag().unwrap(), token[token.len() - 12..]);
        assert_eq!(acceptor.admit(judged).unwrap().flags(), flags);
    }
    let token = client.ask(&Asked {
        checksum: checksum([0; 16], 0x8000_0001),
        ..asked()
    });
    let session = accept(&acceptor(), &token).unwrap();
    assert_eq!(session.flags().map(GssFlags::bits), Some(0x8000_0001));
}

#[test]
fn two_log_ins_of_one_microsecond_are_two() {
    let client = Client::of(&KEY, &USER);
    let acceptor = acceptor();
    let first = client.ask(&asked());
    let second = client.ask(&Asked {
        confounder: 0xc3,
        ..asked()
    });
    accept(&acceptor, &first).unwrap();
    accept(&acceptor, &second).unwrap();
    for token in [first, second] {
        assert_eq!(cause_of(accept(&acceptor, &token)), Some(Cause::Replayed));
    }
    assert_eq!(acceptor.kept(), 2);
}

#[test]
fn tokens_have_a_limit() {
    let token = Client::of(&KEY, &USER).ask(&asked());
    let acceptor = acceptor();
    let error = accept(&acceptor, &vec![0x60; 65_537]).err().unwrap();
    assert!(
        error
            .to_string()
            .starts_with("refused: InvalidToken Shape: ")
    );
    acceptor.set_token_limit(token.len() - 1).unwrap();
    let error = accept(&acceptor, &token).err().unwrap();
    assert!(
        error
            .to_string()
            .starts_with("refused: InvalidToken Shape: ")
    );
    acceptor.set_token_limit(token.len()).unwrap();
    accept(&acceptor, &token).unwrap();
}

#[test]
fn a_new_book_ends_what_a_wrong_clock_did() {
    let client = Client::of(&KEY, &USER);
    let acceptor = acceptor();
    let tokens = [7, 8].map(|microsecond| {
        client.ask(&Asked {
            microsecond,
            ..asked()
        })
    });
    let late = now() + Duration::from_secs(3600);
    let judged = acceptor.accept_at(&tokens[0], late, [1; 64]);
    assert_eq!(cause_of(judged), Some(Cause::Skew));
    let error = accept(&acceptor, &tokens[1]);
    assert_eq!(cause_of(error), Some(Cause::Skew));
    acceptor.new_book(SKEW).unwrap();
    for token in &tokens {
        accept(&acceptor, token).unwrap();
        assert_eq!(cause_of(accept(&acceptor, token)), Some(Cause::Replayed));
    }
    acceptor.new_book(SKEW).unwrap();
    accept(&acceptor, &tokens[0]).unwrap();
}
