//! Why lines are bad, in words.

use krb_reasons::{BadLine, KeepingSource, Kept, Reason, Wanted, first_bad_line, reason_of};
use krb_text::{Source, SureSource};
use std::alloc::{AllocError, Global};
use std::test::Fail;

/// Five lines that come before each line of the table.
static BEFORE: &str =
    "skew 300\nacceptor 1 100 server host/s\ninitiator 2 0 client -\nkdc 1 tcp://k\npassword 2 u - 61\n";

/// A sixth line, and why it is bad. A `~` is 128 zeros.
static LINES: [(&str, &str); 38] = [
    (
        "key 1 host/s 00f",
        "field 4, <hex>, needs an even number of hex digits, at least two",
    ),
    (
        "key 1 host/s 0g",
        "field 4, <hex>, needs an even number of hex digits, at least two",
    ),
    (
        "key 1 host/s ",
        "field 4 is empty: a line has one space between two fields, and none at either end",
    ),
    (
        " key 1 host/s 00",
        "field 1 is empty: a line has one space between two fields, and none at either end",
    ),
    (
        "key 1  host/s 00",
        "field 3 is empty: a line has one space between two fields, and none at either end",
    ),
    ("key\t1 host/s 00", "field 1 has a tab"),
    ("key 1 host/s 00\r", "field 4 has a carriage return"),
    (
        "key 1 host/\u{e4} 00",
        "field 3 has an octet below 21 or above 7E",
    ),
    (
        "keys 1 host/s 00",
        "field 1, the word, needs skew, acceptor, initiator, key, password, keytab, kdc, env, file or event",
    ),
    (
        "key 4294967296 host/s 00",
        "field 2, <id>, needs a decimal number of at most 32 bits, without sign and leading zero",
    ),
    (
        "acceptor 3 -1 server host/s",
        "field 3, <number>, needs a decimal number of at most 32 bits, without sign and leading zero",
    ),
    (
        "key 1 host/s",
        "field 4, <hex>, is missing: an even number of hex digits, at least two",
    ),
    ("key 1 host/s 00 11", "field 5 is one too many"),
    ("key 3 host/s 00", "no earlier line declares connection 3"),
    (
        "key 2 host/s 00",
        "connection 2 is an initiator, and a key is an acceptor's",
    ),
    (
        "initiator 1 0 client -",
        "an earlier line declares connection 1",
    ),
    (
        "keytab 2 u 18 00",
        "an earlier line is the password or keytab line of connection 2",
    ),
    (
        "kdc 1 tcp://k",
        "an earlier line is the kdc line of connection 1",
    ),
    (
        "keytab 1 a\\b@c 18 00",
        "field 3, <principal>, needs a name with at most one \\, and with none if it has an @",
    ),
    (
        "keytab 1 a\\b\\c 18 00",
        "field 3, <principal>, needs a name with at most one \\, and with none if it has an @",
    ),
    ("keytab 1 u 23 00", "field 4, <type>, needs 17 or 18"),
    (
        "kdc 2 http://",
        "field 3, <url>, needs a URL, or an address that is a URL after tcp://",
    ),
    (
        "env a ff",
        "field 3, <hex>, needs the hex digits of a text in UTF-8, at least two, or -",
    ),
    ("skew 300", "an earlier line sets the skew"),
    (
        "skew 86401",
        "field 2, <seconds>, needs a decimal number up to 86400, without sign and leading zero",
    ),
    (
        "event 1 0 00 - start",
        "field 4, <random>, needs 128 hex digits",
    ),
    (
        "event 1 18446744073709551616 ~ - start",
        "field 3, <moment>, needs a decimal number of at most 64 bits, without sign and leading zero",
    ),
    (
        "event 1 0 ~ MM start",
        "field 5, <flags>, needs letters of DMRSCKEIN, each once, or -",
    ),
    (
        "event 1 0 ~ - begin",
        "field 6, <input>, needs token, start, reply, fault, wrap, unwrap, mic or verify",
    ),
    (
        "event 1 0 ~ - token 0",
        "field 7, <hex>, needs an even number of hex digits, at least two, or -",
    ),
    (
        "event 1 0 ~ - wrap",
        "field 7, <buffers>, is missing: T, D, R or S, its octets in hex, and a limit from their number to 1048576, with a colon between each two",
    ),
    (
        "event 1 0 ~ - unwrap T::0 D:00:0",
        "field 8, <buffers>, needs T, D, R or S, its octets in hex, and a limit from their number to 1048576, with a colon between each two",
    ),
    (
        "event 1 0 ~ - wrap D::0 D::0",
        "a message has at most one buffer T, one D and one S",
    ),
    (
        "event 1 0 ~ - wrap R::0 R::0 R::0 R::0 R::0 R::0 R::0 R::0 R::0 R::0 R::0 R::0 R::0 R::0 R::0 R::0 R::0",
        "field 23 is one too many",
    ),
    ("event 1 0 ~ - start 00", "field 7 is one too many"),
    (
        "event 1 0 ~ - verify -",
        "field 8, <hex>, is missing: an even number of hex digits, at least two, or -",
    ),
    (
        "event 1 0 ~ - fault 01",
        "field 7, <number>, needs a decimal number of at most 32 bits, without sign and leading zero",
    ),
    ("event 1 0", "field 4, <random>, is missing: 128 hex digits"),
];

/// Inputs, the number of their bad line, and why it is bad.
static INPUTS: [(&str, u64, &str); 9] = [
    ("", 1, "no line skew <seconds> comes before it"),
    (
        "# none\nacceptor 1 100 server host/s\nskew 300\n",
        2,
        "no line skew <seconds> comes before it",
    ),
    (
        "event 1 0 ~ - start\n",
        1,
        "no line skew <seconds> comes before it",
    ),
    (
        "skew 300\nevent 1 0 ~ - start\n#\nevent 1 0 ~ - start\n\nskew 300",
        6,
        "after the first event come only events",
    ),
    ("# none\n\n#", 4, "no line skew <seconds> comes before it"),
    (
        "#\n\n# a\nskew 300\n\n#\nacceptor 1 100 server host/s\n# key 2 host/s 00\nkey 2 host/s 00",
        9,
        "no earlier line declares connection 2",
    ),
    (
        "\n#\nskew 300\n# event 1\nskew 300\n#\n",
        5,
        "an earlier line sets the skew",
    ),
    (
        "#\nskew 300\n\nevent 1 0 ~ - start\n#\n\nevent 1 0 ~ MM start",
        7,
        "field 5, <flags>, needs letters of DMRSCKEIN, each once, or -",
    ),
    ("# a\r\nskew 300\n\r\n", 3, "field 1 has a carriage return"),
];

/// The octets of a text, with 128 zeros for each `~`.
fn octets_of(alloc: Global, before: &str, text: &str) -> Result<Vec<u8>, AllocError> {
    let mut octets = Vec::from_slice(alloc, before.as_bytes())?;
    for octet in text.as_bytes() {
        if *octet == b'~' {
            octets.extend_from_slice(&[b'0'; 128])?;
        } else {
            octets.push(*octet)?;
        }
    }
    Ok(octets)
}

/// The bad line of an input that was read in pieces of this many octets.
fn bad_line_of(alloc: Global, octets: &[u8], count: usize) -> Result<Option<BadLine>, Fail> {
    let mut kept = Kept::new(alloc);
    for piece in octets.chunks(count.max(1)) {
        kept.keep(piece);
    }
    Ok(first_bad_line(alloc, &kept)?)
}

/// Whether the bad line is that one, in whatever pieces the input comes.
fn tells(alloc: Global, octets: &[u8], number: u64, words: &str) -> Result<bool, Fail> {
    for count in [1, 7, 1000] {
        let Some(bad) = bad_line_of(alloc, octets, count)? else {
            return Ok(false);
        };
        if bad.number != number || bad.reason.text(alloc)?.as_str() != words {
            return Ok(false);
        }
    }
    Ok(true)
}

#[test]
fn each_bad_line_has_its_first_reason(rt: HostRuntime) -> Result<(), Fail> {
    for (line, words) in &LINES {
        let octets = octets_of(rt.alloc(), BEFORE, *line)?;
        assert!(rt; tells(rt.alloc(), &octets, 6, *words)?, "{line}");
    }
    Ok(())
}

#[test]
fn what_stands_before_a_line_makes_it_bad(rt: HostRuntime) -> Result<(), Fail> {
    for (input, number, words) in &INPUTS {
        let octets = octets_of(rt.alloc(), "", *input)?;
        assert!(rt; tells(rt.alloc(), &octets, *number, *words)?, "{input}");
    }
    Ok(())
}

#[test]
fn a_source_keeps_what_it_read(rt: HostRuntime) -> Result<(), Fail> {
    let mut source = KeepingSource::new(
        rt.alloc(),
        SureSource::new(b"skew 300\nkey 1 host/s 00\n"),
    );
    let mut piece = [0; 64];
    assert_eq!(rt; source.read(&mut piece), Ok(25));
    let bad = first_bad_line(rt.alloc(), source.kept())?;
    let reason = Reason::NotDeclared { id: 1 };
    assert_eq!(rt; bad, Some(BadLine { number: 2, reason }));
    let text = BadLine { number: 2, reason }.text(rt.alloc())?;
    assert_eq!(rt;
        text.as_str(),
        "krb_run: bad line 2: no earlier line declares connection 1\n"
    );
    Ok(())
}

#[test]
fn comments_are_counted_and_not_kept(rt: HostRuntime) -> Result<(), Fail> {
    let mut kept = Kept::new(rt.alloc());
    for piece in [
        b"#\n\n# a comment\n".as_slice(),
        b"skew 300\n#",
        b" b\n\n#\n",
        b"#",
    ] {
        kept.keep(piece);
    }
    assert_eq!(rt; kept.head().octets(), b"skew 300\n".as_slice());
    assert_eq!(rt; kept.head().numbers(), [4].as_slice());
    assert_eq!(rt; kept.head().lines(), 7);
    assert_eq!(rt; kept.tail(), b"#".as_slice());
    Ok(())
}

#[test]
fn a_good_line_has_no_reason(rt: HostRuntime) -> Result<(), Fail> {
    assert!(rt; reason_of(rt.alloc(), b"skew 300")?.is_none());
    let reason = Reason::Missing {
        place: 2,
        wanted: Wanted::Seconds,
    };
    assert_eq!(rt; reason_of(rt.alloc(), b"skew")?, Some(reason));
    assert!(rt; bad_line_of(rt.alloc(), BEFORE.as_bytes(), 3)?.is_none());
    Ok(())
}
