# An initiator that logs in with a password, shows its ticket to a server of MIT's sample protocol, and sends it a sealed message:
#   python3 log_in.py KRB_RUN CARRY KDC_URL SERVER_PORT PASSWORD [OTHER_KDC ..]
# krb_run is the initiator, and carry brings its requests to KDCs.
import os, socket, subprocess, sys, time

krb_run, carry, url, port, password, *others = sys.argv[1:]
MUTUAL, SEALED_WITH_ANSWER = "MRSCI", 0x04 | 0x20 | 0x40 | 0x80


def program(*words):
    return subprocess.Popen(words, stdin=subprocess.PIPE, stdout=subprocess.PIPE, text=True)


run, carrier = program(krb_run, "serve"), program(carry, *others)


def tell(to, *words):
    print(*words, file=to.stdin, flush=True)


def event(*words):
    """The reply to an event, in words."""
    tell(run, "event", 1, time.time_ns() // 1000, os.urandom(64).hex(), *words)
    reply = run.stdout.readline().split()
    print(words[1], "->", *[word[:40] for word in reply], flush=True)
    return reply


def ask(reply):
    """The rest of the event that answers what a KDC is asked."""
    tell(carrier, *reply)
    return carrier.stdout.readline().split()


def token():
    """The AP-REQ for the service."""
    reply = event(MUTUAL, "start")
    while reply[0] == "ask":
        reply = event(MUTUAL, *ask(reply))
    if reply[0] != "continue":
        sys.exit(1)
    return bytes.fromhex(reply[1])


def frame(says, octets=b""):
    return bytes([says]) + len(octets).to_bytes(4, "big") + octets


def read_frame(server):
    head = server.read(5)
    if len(head) < 5:
        sys.exit("the server is gone")
    return server.read(int.from_bytes(head[1:], "big"))


def message(text):
    """A text as krb_run seals it, as one octet string."""
    _, head, data = event("-", "wrap", "T::60", f"D:{text.hex()}:{len(text)}")
    return b"".join(bytes.fromhex(buffer.split(":")[1]) for buffer in (head, data))


tell(run, "skew 300")
tell(run, "initiator 1 1234 desk host/server.example.com")
tell(run, "password 1 alice EXAMPLE.COM", password.encode().hex())
tell(run, "kdc 1", url)
first = token()
with socket.create_connection(("127.0.0.1", int(port)), timeout=10) as server, server.makefile("rb") as frames:
    server.sendall(frame(0x11) + frame(0x02, first))
    if event(MUTUAL, "token", read_frame(frames).hex())[0] != "ok":
        sys.exit(1)
    server.sendall(frame(SEALED_WITH_ANSWER, message(b"hello")))
    mic = read_frame(frames)
    server.sendall(frame(0x01))
    if event("-", "verify", mic.hex(), b"hello".hex()) != ["verified"]:
        sys.exit(1)
