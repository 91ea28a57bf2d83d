#!/usr/bin/env python3
"""seeds.py FOLDER: writes the inputs that the harnesses begin with, of what the repository has recorded, of messages as an honest peer makes
them, and of corpus. FOLDER/NAME has those of the harness NAME."""

import hashlib
import os
import pathlib
import re
import sys

TOP = pathlib.Path(__file__).resolve().parent.parent.parent
NOW, LATER = "20231114221320Z", "20231115081320Z"


def record(tag, octets):
    return bytes([tag]) + len(octets).to_bytes(3, "big") + octets


def tlv(tag, contents):
    n = len(contents)
    octets = (n.bit_length() + 7) // 8
    return bytes([tag]) + (bytes([n]) if n < 128 else bytes([0x80 | octets]) + n.to_bytes(octets, "big")) + contents


def fields(*them):
    return tlv(0x30, b"".join(tlv(0xA0 + number, value) for number, value in them))


def integer(value):
    return tlv(2, value.to_bytes(value.bit_length() // 8 + 1, "big"))


def text(words):
    return tlv(0x1B, words.encode())


def time(words):
    return tlv(0x18, words.encode())


def names(kind, *parts):
    return fields((0, integer(kind)), (1, tlv(0x30, b"".join(text(it) for it in parts))))


def key(etype, octet):
    return fields((0, integer(etype)), (1, tlv(4, bytes([octet]) * (32 if etype == 18 else 16))))


FLAGS = tlv(3, bytes.fromhex("0040a10000"))


def ticket_part(etype, *more):
    transited = fields((0, integer(1)), (1, tlv(4, b"")))
    return tlv(0x63, fields((0, FLAGS), (1, key(etype, 0x55)), (2, text("EXAMPLE.COM")), (3, names(1, "alice")), (4, transited), (5, time(NOW)),
                            (7, time(LATER)), *more))


NOT_BOUND, CHANNEL = bytes(16), bytes.fromhex("078762388d7cb673539ca3ed0e38dc5c")  # the second is the MD5 of the bindings "tls-unique:7" (RFC 4121, 4.1.1.2)


def authenticator(microseconds, *more, bindings=NOT_BOUND):
    checksum = fields((0, integer(0x8003)), (1, tlv(4, b"\x10" + bytes(3) + bindings + bytes(4))))
    return tlv(0x62, fields((0, integer(5)), (1, text("EXAMPLE.COM")), (2, names(1, "alice")), (3, checksum), (4, integer(microseconds)),
                            (5, time(NOW)), *more))


def reply_part(tag, octet, *service):
    last = tlv(0x30, fields((0, integer(0)), (1, time(NOW))))
    return tlv(tag, fields((0, key(18, octet)), (1, last), (2, tlv(2, b"NONC")), (4, FLAGS), (5, time(NOW)), (6, time(NOW)), (7, time(LATER)),
                           (8, time(LATER)), (9, text("EXAMPLE.COM")), (10, names(2, *service))))


def krb_error(code, *more):
    return tlv(0x7E, fields((0, integer(5)), (1, integer(30)), (4, time(NOW)), (5, integer(1)), (6, integer(code)), (9, text("EXAMPLE.COM")),
                            (10, names(2, "krbtgt", "EXAMPLE.COM")), *more))


def header(flags, extra, rotated, number):
    return bytes([5, 4, flags, 0xFF]) + extra.to_bytes(2, "big") + rotated.to_bytes(2, "big") + number.to_bytes(8, "big")


def lines_of(*folders):
    """The words of the lines of each case."""
    for folder in folders:
        for path in sorted((TOP / "tests/cases" / folder).iterdir()):
            if path.suffix != ".stdout":
                lines = path.read_bytes().decode("latin-1").splitlines()
                yield path.name, [it.split(" ") for it in lines if it and it[0] != "#"]
    yield "both-ends", [it.split(" ") for it in (TOP / "examples/both-ends").read_text().splitlines() if it and it[0] != "#"]
    yield "real-client", [it.split(" ") for it in (TOP / "examples/real-client").read_text().splitlines() if it and it[0] != "#"]


def octets(word):
    try:
        return bytes.fromhex(word)
    except ValueError:
        return b""


def recorded_tokens(lines):
    """The first service's key, the first moment, and the first tokens."""
    keys = [record(6, it[2].encode() + b"\0" + octets(it[3])) for it in lines if it[0] == "key" and len(it) == 4]
    events = [it for it in lines if it[0] == "event" and len(it) >= 2 and it[-2] == "token" and it[2].isdigit()]
    moments = [record(7, int(it[2]).to_bytes(8, "big")) for it in events if int(it[2]) < 2**64]
    return b"".join(keys[:1] + moments[:1] + [record(3, octets(it[-1])) for it in events][:3]) if events else b""


def recorded_answers(lines):
    tags = {"reply": 1, "token": 4}
    whose = {it[1] for it in lines if it[0] == "initiator" and len(it) > 1}
    events = [it for it in lines if it[0] == "event" and len(it) > 3 and it[1] in whose and it[-2] in tags]
    return b"".join(record(tags[it[-2]], octets(it[-1])) for it in events[:6])


def accept():
    for name, lines in lines_of("acceptor", "clients"):
        yield name, recorded_tokens(lines)
    for etype in (17, 18):
        for options in (0, 0x20000000, 0x40000000):
            yield f"sealed-{etype}-{options}", (record(1, ticket_part(etype)) + record(2, authenticator(etype, (7, integer(9)))) +
                                                record(4, options.to_bytes(4, "big")))
    yield "bound", record(1, ticket_part(18)) + record(2, authenticator(2, (7, integer(9)), bindings=CHANNEL))
    data = tlv(0x30, fields((0, integer(1)), (1, tlv(4, tlv(0x30, fields((0, integer(128)), (1, tlv(4, b"p" * 64))))))))
    yield "authorization", record(1, ticket_part(18, (10, data))) + record(2, authenticator(1, (6, key(18, 0x33)), (8, data)))


def initiator():
    for name, lines in lines_of("initiator", "kdcs"):
        yield name, recorded_answers(lines)
    granting, service = reply_part(0x79, 0x11, "krbtgt", "EXAMPLE.COM"), reply_part(0x7A, 0x22, "host", "server.example.com")
    answer = tlv(0x7B, fields((0, time(NOW)), (1, integer(0)), (2, key(18, 0x33)), (3, integer(77))))
    referral = reply_part(0x7A, 0x22, "krbtgt", "B.COM")
    kinds = fields((1, integer(19)), (2, tlv(4, tlv(0x30, fields((0, integer(18)), (1, text("EXAMPLE.COMalice")))))))
    ask = record(9, krb_error(25, (12, tlv(4, tlv(0x30, kinds)))))
    for flags in (0x1001E, 0x1001C, 0x1021E, 0x1003E):
        for rules in (0x1F0FFF, 0, 0xFFF):
            told = record(6, flags.to_bytes(4, "big")) + record(7, rules.to_bytes(4, "big"))
            yield f"honest-{flags:x}-{rules:x}", told + record(2, granting) + record(3, service) + record(5, answer)
        yield f"asked-{flags:x}", told + ask + record(2, granting) + record(3, service) + record(5, answer)
    yield "referral", record(2, granting) + record(8, names(2, "krbtgt", "B.COM")) + record(3, referral) + record(3, service) + record(5, answer)
    short = tlv(0x7B, fields((0, time(NOW)), (1, integer(0)), (2, fields((0, integer(18)), (1, tlv(4, b"\x33" * 16)))), (3, integer(77))))
    yield "short-subkey", record(2, granting) + record(3, service) + record(5, short) + record(5, answer)
    yield "password", record(12, b"") + ask + record(2, granting) + record(10, b"")
    yield "refused", record(9, krb_error(6)) + record(11, bytes.fromhex("65540000")) + record(2, granting)
    yield "refused-by-service", record(2, granting) + record(3, service) + record(4, tlv(0x60, bytes.fromhex("06092a864886f7120102020300") + krb_error(37)))


def messages():
    for end in (b"", record(0, b"")):
        flags, name = (7, "client") if end else (6, "server")
        yield f"sealed-{name}", end + record(2, header(flags, 0, 28, 9) + b"hello") + record(2, header(flags, 0, 0, 10)) + record(2, header(flags, 16, 44, 9))
        yield f"clear-{name}", end + record(4, header(flags - 2, 12, 0, 9) + b"hello") + record(4, header(flags - 2, 12, 12, 80) + b"hello") + record(1, b"")
        yield f"mic-{name}", end + record(5, bytes([flags - 2]) + b"payload") + record(3, bytes([28]) + header(4, 0, 0, 1) + b"m" * 12 + b"payload")
        yield f"rules-{name}", end + record(9, bytes(4)) + record(2, header(flags, 0, 28, 9) + b"hello") + record(9, bytes([0, 0x1F, 0xF, 0xFF]))
    yield "recorded", b"".join(record(1, octets(it.split()[1])) for it in (TOP / "crates/example_acceptor/stdin").read_text().splitlines()
                               if it.startswith("message "))


def settings():
    conf = b"[libdefaults]\n default_realm = EXAMPLE.COM\n[realms]\n EXAMPLE.COM = {\n  kdc = kdc.example.com:88\n  kdc = tcp/other\n }\n" \
        b"[domain_realm]\n .example.com = EXAMPLE.COM\n"
    yield "file", record(1, conf)
    yield "another-file", record(1, b"include /b\n") + record(2, conf) + record(3, b"/b:/etc/krb5.conf")
    yield "address", record(4, b"tcp://kdc.example.com:88") + record(5, b"alice@EXAMPLE.COM") + record(6, b"")
    yield "url", record(8, b"https://kdc/path") + record(10, b"EXAMPLE.COM\\alice") + record(12, b"tls-exporter:" + bytes(32))
    yield "flags", record(4, b"http://k:1/KdcProxy") + record(9, bytes([0, 1, 2, 0x3F])) + record(7, b"HTTP/www") + record(11, b"pc")


def caches():
    """Caches that MIT krb5, Heimdal and Java wrote, and a second within which their tickets are valid."""
    told = (TOP / "tests/library/ccache/krb_ccache_tests/files.rs").read_text()
    moment = record(9, (1796097000 * 10**6).to_bytes(8, "big"))
    yield "kinit", moment, bytes.fromhex((TOP / "bindings/c/ccache.hex").read_text())
    for name, digits in re.findall(r'const (\w+): &str =\s*"([0-9a-f]+)"', told):
        yield name.lower(), moment, bytes.fromhex(digits)


def counted(words):
    return len(words).to_bytes(4, "big") + words


def principal(realm, *parts):
    return b"\0\0\0\1" + len(parts).to_bytes(4, "big") + counted(realm) + b"".join(counted(it) for it in parts)


ALICE, HOST, GRANTING = principal(b"EXAMPLE.COM", b"alice"), (b"host", b"server.example.com"), principal(b"EXAMPLE.COM", b"krbtgt", b"EXAMPLE.COM")


def ticket(octet):
    sealed = fields((0, integer(18)), (2, tlv(4, bytes([octet]) * 60)))
    return record(2, tlv(0x61, fields((0, integer(5)), (1, text("EXAMPLE.COM")), (2, names(2, "host", "server.example.com")), (3, sealed))))


def facts(start=1700000000, end=1700036000, is_skey=0, flags=0x40A10000):
    times = b"".join(it.to_bytes(4, "big") for it in (1700000000, start, end, 0))
    return record(6, times + bytes([is_skey]) + flags.to_bytes(4, "big"))


def chosen():
    """Records before the second of two tickets for the service: they decide which of both is found."""
    yield "equal", b""
    yield "no-start", facts(start=0)
    yield "not-yet", facts(start=1700000001, end=1800000000)
    yield "over", facts(end=1700000000)
    yield "longer", facts(end=1800000000)
    yield "invalid", facts(flags=0x41A10000)
    yield "skey", facts(is_skey=8)
    yield "option", record(4, principal(b"X-CACHECONF:", *HOST))
    yield "other-realm", record(4, principal(b"OTHER.COM", *HOST))
    yield "other-client", record(3, principal(b"EXAMPLE.COM", b"bob"))
    yield "other-type", record(5, b"\0\x17" + bytes(16))
    yield "other-length", record(5, b"\0\x12" + bytes(31))


def ccache():
    for name, more in chosen():
        yield name, record(1, b"\5\4\0\0" + ALICE) + ticket(1) + more + ticket(2)
        yield f"{name}-alone", record(1, b"\5\3" + ALICE) + more + ticket(2)
    for name, moment, file in caches():
        yield name, moment + record(1, file)
        yield f"{name}-imap", moment + record(10, b"imap/server.example.com") + record(1, file)
        yield f"{name}-cut", moment + record(1, file[:-1])
        yield f"{name}-late", record(9, b"\xff" * 8) + record(1, file)
        yield f"{name}-types", moment + record(1, file.replace(b"\0\x12\0\x12", b"\0\x12\0\x11"))
    largest = b"\xff" * 4
    for version, front in (("three", b"\5\3"), ("four", b"\5\4\0\0")):
        head = record(1, front + ALICE)
        yield f"head-{version}", head
        yield f"both-{version}", head + ticket(1) + record(4, GRANTING) + ticket(2) + record(8, b"\2\0")
        yield f"granting-{version}", head + record(4, GRANTING) + ticket(2)
        yield f"aes128-{version}", head + record(5, b"\0\x11" + bytes(16)) + ticket(1) + record(13, b"\x11")
        yield f"components-{version}", record(1, front + ALICE[:4] + largest + ALICE[8:])
        yield f"lists-{version}", head + record(7, largest + bytes(6 * 100)) + ticket(1)
        yield f"empty-{version}", head + record(3, bytes(12)) + record(4, bytes(12)) + record(2, b"") + record(8, b"\x10\0")
    yield "header", record(1, b"\5\4\xff\xff" + bytes(8000))
    yield "marks", ticket(1) + record(11, b"A@B") + record(12, b"a\\b\xff")


def keytab():
    file = (TOP / "examples/keytab/service.keytab").read_bytes()
    entry = file[2:2 + 4 + int.from_bytes(file[2:6], "big")]
    hole = (2**32 - 8).to_bytes(4, "big") + bytes(8)
    yield "service", record(1, file) + record(2, b"EXAMPLE.COM")
    yield "hole", record(1, file[:2] + hole + entry + hole + entry) + record(2, b"EXAMPLE.COM")
    yield "other-realm", record(1, file) + record(2, b"OTHER.COM")
    yield "other-version", record(1, b"\5\1" + file[2:])


def sasl():
    for end in (b"", record(0, b"")):
        for layer in (1, 2, 4):
            most = bytes([1, 0, 0]) if layer > 1 else bytes(3)
            told = end + record(9, bytes([layer if end else layer | (6 if layer > 1 else 0)]) + most) + record(10, b"alice")
            frames = record(4, b"sealed") + record(5, b"in clear") + record(3, b"\0\0\0\5hello")
            name = "client" if end else "server"
            yield f"{name}-{layer}", told + record(2, bytes([7 if end else layer]) + most + (b"" if end else b"alice")) + frames
            yield f"{name}-{layer}-raw", told + record(1, header(4, 12, 0, 9) + bytes(16)) + frames


def kept(name):
    """The inputs in the file of corpus, each after four octets of its length."""
    path = pathlib.Path(__file__).parent / "corpus" / name
    left = path.read_bytes() if path.is_file() else b""
    while left:
        end = 4 + int.from_bytes(left[:4], "big")
        yield f"kept-{hashlib.sha1(left[4:end]).hexdigest()[:16]}", left[4:end]
        left = left[end:]


def main(folder):
    for it in (accept, initiator, messages, settings, ccache, keytab, sasl):
        os.makedirs(f"{folder}/{it.__name__}", exist_ok=True)
        for name, seed in (*it(), *kept(it.__name__)):
            if 0 < len(seed) < 20000:
                pathlib.Path(folder, it.__name__, name).write_bytes(seed)


main(sys.argv[1])
