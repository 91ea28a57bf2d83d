# A relay over TCP for one connection that keeps what the client sends:  relay.py PORT TO_PORT FILE
# what sends that again, and says how it was answered:                   relay.py again TO_PORT FILE
# and what sends it this many times, with another octet changed each time: relay.py altered TO_PORT FILE COUNT
import socket, sys, threading


def carry(source, target, keep):
    """Carries octets until the source ends."""
    while octets := source.recv(65536):
        keep.extend(octets)
        target.sendall(octets)
    target.shutdown(socket.SHUT_WR)


def relay(port, to_port, file):
    with socket.create_server(("127.0.0.1", port)) as listener:
        print("listens", flush=True)
        client, _ = listener.accept()
    server = socket.create_connection(("127.0.0.1", to_port))
    back = threading.Thread(target=carry, args=(server, client, bytearray()))
    back.start()
    kept = bytearray()
    carry(client, server, kept)
    back.join()
    with open(file, "wb") as to:
        to.write(kept)


def read(file):
    with open(file, "rb") as kept:
        return kept.read()


def answer(to_port, octets):
    """Returns the answer to these octets before the connection ends."""
    answer = bytearray()
    with socket.create_connection(("127.0.0.1", to_port), timeout=10) as server:
        try:
            server.sendall(octets)
            server.shutdown(socket.SHUT_WR)
            while part := server.recv(65536):
                answer.extend(part)
        except OSError:
            pass
    return answer


def altered(to_port, octets, count):
    """The token comes after a greeting of five octets and its own head."""
    length = int.from_bytes(octets[6:10], "big")
    answered = 0
    for number in range(count):
        changed = bytearray(octets)
        changed[10 + number * length // count] ^= 1 << number % 8
        answered += len(answer(to_port, changed)) > 0
    return answered


if sys.argv[1] == "again":
    print("answered by", len(answer(int(sys.argv[2]), read(sys.argv[3]))), "octets")
elif sys.argv[1] == "altered":
    print("answered", altered(int(sys.argv[2]), read(sys.argv[3]), int(sys.argv[4])), "times")
else:
    relay(int(sys.argv[1]), int(sys.argv[2]), sys.argv[3])
