# Requests to a KDC, written by hand, and what is answered to them:
#   python3 kdc.py ask USER PROTOCOL URL    the line that krb_run writes for an AS-REQ of this user, without pre-authentication
#   python3 kdc.py told                     what a line `reply HEX` says: `error CODE` of a KRB-ERROR, or `as-rep`
#   python3 kdc.py silent PORT              a KDC that takes every connection and datagram, and answers nothing
#   python3 kdc.py small PORT TO_PORT       says over UDP that each answer is too long, and carries what comes over TCP to another KDC
#   python3 kdc.py proxy PORT               a proxy of MS-KKDCP, by python3-kdcproxy, whose settings KDCPROXY_CONFIG names
import socket, struct, sys, threading, time


def der(tag, *parts):
    body = b"".join(parts)
    length = bytes([len(body)]) if len(body) < 128 else b"\x82" + struct.pack(">H", len(body))
    return bytes([tag]) + length + body


def integer(value):
    return der(2, value.to_bytes(value.bit_length() // 8 + 1, "big"))


def text(words):
    return der(0x1B, words.encode())


def name(kind, *parts):
    return der(0x30, der(0xA0, integer(kind)), der(0xA1, der(0x30, *map(text, parts))))


def as_req(user, realm="EXAMPLE.COM"):
    """RFC 4120, section 5.4.1."""
    body = der(
        0x30,
        der(0xA0, der(3, bytes(5))),
        der(0xA1, name(1, user)),
        der(0xA2, text(realm)),
        der(0xA3, name(2, "krbtgt", realm)),
        der(0xA5, der(0x18, b"20370101000000Z")),
        der(0xA7, integer(12345)),
        der(0xA8, der(0x30, integer(18))),
    )
    return der(0x6A, der(0x30, der(0xA1, integer(5)), der(0xA2, integer(10)), der(0xA4, body)))


def framed(protocol, message):
    """A message as a protocol carries it."""
    behind_length = struct.pack(">I", len(message)) + message
    if protocol == "udp":
        return message
    if protocol == "tcp":
        return behind_length
    return der(0x30, der(0xA0, der(4, behind_length)), der(0xA1, text("EXAMPLE.COM")))


def told(reply):
    """The answer is after four octets, and those after a head of DER where a proxy brought it."""
    octets = bytes.fromhex(reply)
    if octets[0] == 0x30:
        octets = octets[octets.index(4) + 1 :]
        octets = octets[1 + max(0, octets[0] - 0x80) :]
    message = octets[4:]
    if message[0] == 0x6B:
        return "as-rep"
    code = message.index(b"\xa6\x03\x02\x01") if message[0] == 0x7E else -1
    return f"error {message[code + 4]}" if code >= 0 else "no answer of a KDC"


def silent(port):
    tcp = socket.create_server(("127.0.0.1", port))
    udp = socket.socket(socket.AF_INET, socket.SOCK_DGRAM)
    udp.bind(("127.0.0.1", port))
    kept = []
    while True:
        kept.append(tcp.accept())


def krb_error(code):
    """RFC 4120, section 5.9.1."""
    return der(
        0x7E,
        der(
            0x30,
            der(0xA0, integer(5)),
            der(0xA1, integer(30)),
            der(0xA4, der(0x18, time.strftime("%Y%m%d%H%M%SZ", time.gmtime()).encode())),
            der(0xA5, integer(0)),
            der(0xA6, integer(code)),
            der(0xA9, text("EXAMPLE.COM")),
            der(0xAA, name(2, "krbtgt", "EXAMPLE.COM")),
        ),
    )


def refuse_datagrams(port):
    udp = socket.socket(socket.AF_INET, socket.SOCK_DGRAM)
    udp.bind(("127.0.0.1", port))
    while True:
        _, client = udp.recvfrom(65536)
        udp.sendto(krb_error(52), client)


def small(port, to_port):
    tcp = socket.create_server(("127.0.0.1", port))
    threading.Thread(target=refuse_datagrams, args=(port,), daemon=True).start()
    while True:
        client, _ = tcp.accept()
        with client, socket.create_connection(("127.0.0.1", to_port)) as kdc:
            kdc.sendall(client.recv(65536))
            kdc.shutdown(socket.SHUT_WR)
            while octets := kdc.recv(65536):
                client.sendall(octets)


def proxy(port):
    from wsgiref.simple_server import make_server
    import kdcproxy

    make_server("127.0.0.1", port, kdcproxy.application).serve_forever()


if sys.argv[1] == "ask":
    _, _, user, protocol, url = sys.argv
    print("ask", protocol, url, framed(protocol, as_req(user)).hex())
elif sys.argv[1] == "told":
    for line in sys.stdin:
        words = line.split()
        print(told(words[1]) if words[0] == "reply" else line.strip())
elif sys.argv[1] == "silent":
    silent(int(sys.argv[2]))
elif sys.argv[1] == "small":
    small(int(sys.argv[2]), int(sys.argv[3]))
else:
    proxy(int(sys.argv[2]))
