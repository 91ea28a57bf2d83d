# An initiator that asks a KDC at 127.0.0.1:10188, and an acceptor that admits it, both krb_run: python3 ends.py PROGRAM KEY (in hex).
import os, socket, struct, subprocess, sys, time

program, key = sys.argv[1:]
run = subprocess.Popen([program, "serve"], stdin=subprocess.PIPE, stdout=subprocess.PIPE, text=True)


def tell(*fields):
    print(*fields, file=run.stdin, flush=True)


def event(end, flags, *fields):
    """The words of the reply to an event."""
    tell("event", end, time.time_ns() // 1000, os.urandom(64).hex(), flags, *fields)
    reply = run.stdout.readline().split()
    print(end, fields[0], "->", *[word[:32] for word in reply])
    return reply


def ask(protocol, url, request):
    """The reply of a KDC over TCP: four bytes of length, and the message."""
    host, port = url.split("//")[1].strip("/").split(":")
    with socket.create_connection((host, int(port))) as kdc, kdc.makefile("rb") as answer:
        kdc.sendall(bytes.fromhex(request))
        length = answer.read(4)
        return (length + answer.read(struct.unpack(">I", length)[0])).hex()


tell("skew 300")
tell("acceptor 1 100 server.example.com host/server.example.com")
tell("key 1 host/server.example.com", key)
tell("initiator 10 1234 client.example.com host/server.example.com")
tell("kdc 10 tcp://127.0.0.1:10188")
tell("password 10 alice EXAMPLE.COM", b"secret".hex())
reply = event(10, "MRSCI", "start")
while reply[0] == "ask":
    reply = event(10, "MRSCI", "reply", ask(*reply[1:]))
reply = event(1, "-", "token", reply[1])
event(10, "MRSCI", "token", reply[1])
_, token, data = event(10, "-", "wrap", "T::60", "D:" + b"hello".hex() + ":5")
event(1, "-", "unwrap", token, data)
run.stdin.close()
print(run.stdout.read(), end="")
