# Octets after their length, in four octets, over a connection.


def send(to, octets):
    to.sendall(len(octets).to_bytes(4, "big") + octets)


def receive(stream):
    head = stream.read(4)
    if len(head) < 4:
        raise EOFError("the other end is gone")
    return stream.read(int.from_bytes(head, "big"))
