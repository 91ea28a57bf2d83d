# A client over python3-gssapi of server.py:
#   client.py PORT SERVICE [mech=spnego|iakerb|old|wrong] [nomutual] [noorder] [dce] [deleg] [twice] [lost] [altered] [bind=DATA] [fuzz=COUNT]
# It logs in, and sends an encrypted message, one in the clear and a MIC. Its last line is `done` if all was answered. It asks for messages
# in order, unless there is `noorder`.
import random, socket, sys

import gssapi
from gssapi import RequirementFlag as Flag
from gssapi.raw import ChannelBindings

from framing import receive, send

port, service = int(sys.argv[1]), sys.argv[2]
words = dict((word.split("=", 1) + [""])[:2] for word in sys.argv[3:])
MECHS = {"krb5": "1.2.840.113554.1.2.2", "spnego": "1.3.6.1.5.5.2", "iakerb": "1.3.6.1.5.2.5", "old": "1.3.5.1.5.2", "wrong": "1.2.840.48018.1.2.2"}


def connection():
    return socket.create_connection(("127.0.0.1", port), timeout=20)


def context():
    flags = [Flag.integrity, Flag.confidentiality, Flag.replay_detection]
    if "noorder" not in words:
        flags.append(Flag.out_of_sequence_detection)
    if "deleg" in words:
        flags.append(Flag.delegate_to_peer)
    if "nomutual" not in words:
        flags.append(Flag.mutual_authentication)
    if "dce" in words:
        flags.append(Flag.dce_style)
    mech = gssapi.OID.from_int_seq(MECHS[words.get("mech", "krb5")])
    bindings = ChannelBindings(application_data=words["bind"].encode()) if "bind" in words else None
    if words.get("bind") == "address":
        bindings = ChannelBindings(initiator_address_type=2, initiator_address=b"\x7f\0\0\1")
    name = gssapi.Name(service, gssapi.NameType.hostbased_service)
    return gssapi.SecurityContext(name=name, usage="initiate", flags=flags, mech=mech, channel_bindings=bindings)


def log_in(server, stream):
    it, answer = context(), None
    while not it.complete:
        token = it.step(answer)
        if token:
            send(server, token)
            answer = receive(stream)
    return it


def ask(server, stream, message, mic=b""):
    send(server, message)
    send(server, mic)
    return receive(stream)


def speak(server, stream):
    it = log_in(server, stream)
    for sealed in [True, False]:
        opened = it.unwrap(ask(server, stream, it.wrap(b"words", sealed).message))
        assert opened.message == b"words" and opened.encrypted == sealed
    it.verify_signature(b"signed", ask(server, stream, b"signed", it.get_signature(b"signed")))
    message = it.wrap(b"once more", True).message
    assert it.unwrap(ask(server, stream, message)).message == b"once more"
    if "twice" in words:
        assert ask(server, stream, message) == b""
    if "lost" in words:
        it.wrap(b"lost", True)
        assert ask(server, stream, it.wrap(b"the next", True).message) == b""
    if "altered" in words:
        message = bytearray(it.wrap(b"altered", True).message)
        message[-1] ^= 1
        assert ask(server, stream, bytes(message)) == b""


def changed(token):
    """The token with one to three octets changed, left out or put in."""
    octets = bytearray(token)
    for _ in range(random.randint(1, 3)):
        at, kind = random.randrange(len(octets)), random.randrange(3)
        if kind == 0:
            octets[at] ^= 1 << random.randrange(8)
        elif kind == 1:
            del octets[at : at + random.randint(1, 40)]
        else:
            octets[at:at] = random.randbytes(random.randint(1, 40))
        octets = octets or bytearray(b"\x60")
    return bytes(octets)


def is_refusal(octets):
    """Nothing, or a frame with a KRB-ERROR (RFC 4121, section 4.1)."""
    return not octets or 8 <= octets.find(bytes.fromhex("2a864886f7120102020300")) <= 10


def fuzz(count):
    """Altered tokens: each ends its connection, and the server stays. One that is the same in all that is protected was admitted before."""
    random.seed(1)
    token = context().step()
    with connection() as server, server.makefile("rb") as stream:
        send(server, token)
        assert receive(stream)
    for _ in range(count):
        with connection() as server, server.makefile("rb") as stream:
            send(server, changed(token))
            assert is_refusal(stream.read()), "an altered token was answered"


if "fuzz" in words:
    fuzz(int(words["fuzz"]))
    words.clear()
with connection() as server, server.makefile("rb") as stream:
    speak(server, stream)
print("done")
