# A log-in of an initiator over TCP that is recorded, and played back when the KDC and the service are gone:
#   playback.py record KDC_PORT TO_KDC_PORT SERVICE_PORT TO_SERVICE_PORT FILE   carries one log-in, and keeps what is answered
#   playback.py play KDC_PORT SERVICE_PORT FILE                                 answers whatever is asked by what was kept, in its order
# The service speaks the protocol of MIT's sample programs. `play` prints a line for each answer that it gives.
import json, socket, sys, threading

CONTEXT, DATA = 0x02, 0x04


def read(stream, length):
    octets = stream.read(length)
    if len(octets) < length:
        raise EOFError
    return octets


def read_message(stream):
    """A message of a KDC or for it, with its length before it."""
    head = read(stream, 4)
    return head + read(stream, int.from_bytes(head, "big"))


def read_frame(stream):
    head = read(stream, 5)
    return head + read(stream, int.from_bytes(head[1:], "big"))


def each_client(port, serve):
    with socket.create_server(("127.0.0.1", int(port))) as listener:
        while True:
            client, _ = listener.accept()
            with client, client.makefile("rb") as stream:
                try:
                    serve(client, stream)
                except (EOFError, OSError):
                    pass


def in_background(function, *arguments):
    thread = threading.Thread(target=function, args=arguments, daemon=True)
    thread.start()
    return thread


def carry(source, target):
    while octets := source.recv(65536):
        target.sendall(octets)
    target.shutdown(socket.SHUT_WR)


def record(kdc_port, to_kdc, service_port, to_service, file):
    kept = {"replies": [], "frames": []}

    def ask_kdc(client, stream):
        with socket.create_connection(("127.0.0.1", int(to_kdc))) as kdc, kdc.makefile("rb") as answers:
            kdc.sendall(read_message(stream))
            reply = read_message(answers)
        kept["replies"].append(reply.hex())
        client.sendall(reply)

    def show_service(client, _):
        with socket.create_connection(("127.0.0.1", int(to_service))) as service, service.makefile("rb") as answers:
            in_background(carry, client, service)
            try:
                while frame := read_frame(answers):
                    kept["frames"].append(frame.hex())
                    client.sendall(frame)
            except EOFError:
                pass
        with open(file, "w", encoding="ascii") as to:
            json.dump(kept, to)
        print("kept", len(kept["replies"]), "replies and", len(kept["frames"]), "frames", flush=True)

    in_background(each_client, kdc_port, ask_kdc)
    each_client(service_port, show_service)


def play(kdc_port, service_port, file):
    with open(file, encoding="ascii") as kept:
        kept = json.load(kept)

    def answer_for_kdc(client, stream):
        read_message(stream)
        replies.append(kept["replies"][len(replies)])
        client.sendall(bytes.fromhex(replies[-1]))
        print("reply", len(replies), flush=True)

    def answer_for_service(client, stream):
        frames = iter(kept["frames"])
        while frame := read_frame(stream):
            if frame[0] & (CONTEXT | DATA) and len(frame) > 5:
                client.sendall(bytes.fromhex(next(frames)))
                print("frame", flush=True)

    replies = []
    in_background(each_client, kdc_port, answer_for_kdc)
    each_client(service_port, answer_for_service)


{"record": record, "play": play}[sys.argv[1]](*sys.argv[2:])
