# A server over python3-gssapi:  server.py PORT [DATA]
# It holds its clients to the channel bindings of DATA. It prints what a context tells of a client, answers each message by the same text
# sealed, or by a MIC where the message is one, and ends the connection with what is refused.
import socket, sys

import gssapi
from gssapi.raw import ChannelBindings, inquire_sec_context_by_oid

from framing import receive, send

FLAGS = {2: "mutual", 4: "replay", 8: "sequence", 16: "conf", 32: "integ", 128: "ready", 2048: "bound"}
SESSION_KEY = gssapi.OID.from_int_seq("1.2.840.113554.1.2.2.5.5")
bindings = ChannelBindings(application_data=sys.argv[2].encode()) if len(sys.argv) > 2 else None


def accept(client, stream):
    context = gssapi.SecurityContext(usage="accept", channel_bindings=bindings)
    while not context.complete:
        answer = context.step(receive(stream))
        send(client, answer or b"")
    flags = int(context.actual_flags)
    names = " ".join(name for bit, name in FLAGS.items() if flags & bit)
    key = inquire_sec_context_by_oid(context, SESSION_KEY)
    print(f"{context.initiator_name} to {context.target_name}: {names}, life {context.lifetime}", flush=True)
    print(f"key of {len(key[0])} octets, type {key[1][-1]}", flush=True)
    if context.delegated_creds is not None:
        print(f"delegated by {context.delegated_creds.name}", flush=True)
    return context


def answer(context, message, mic):
    if mic:
        context.verify_signature(message, mic)
        return context.get_signature(message)
    opened = context.unwrap(message)
    return context.wrap(opened.message, opened.encrypted).message


def serve(client, stream):
    context = accept(client, stream)
    while True:
        message, mic = receive(stream), receive(stream)
        try:
            send(client, answer(context, message, mic))
        except gssapi.exceptions.GSSError as error:
            print(error, flush=True)
            send(client, b"")


with socket.create_server(("127.0.0.1", int(sys.argv[1]))) as listener:
    while True:
        client, _ = listener.accept()
        client.settimeout(20)
        with client, client.makefile("rb") as stream:
            try:
                serve(client, stream)
            except EOFError:
                pass
            except (gssapi.exceptions.GSSError, OSError) as error:
                print(error, flush=True)
