# An end of the protocol of MIT's sample programs over a library of GSS-API, as MIT's libgssapi_krb5.so.2 or Heimdal's libgssapi.so.3:
#   python3 gss.py serve LIBRARY PORT whole|parts mic|wrapped
#                                                           answers each message by a MIC over its text, or by the text itself, wrapped
#   python3 gss.py speak LIBRARY PORT SERVICE FLAGS COUNT [as=NAME] [channel=DATA]
#                                                           sends this many sealed messages, and verifies the MICs that come back
#   python3 gss.py crowd LIBRARY PORT SERVICE FLAGS PROCESSES EACH
#                                                           makes this many first tokens in this many processes at once, logs in with each
#                                                           and tells with how many it was admitted
# NAME is a service, as host@client.example.com, whose key the library finds by KRB5_CLIENT_KTNAME. DATA are those of the bindings of a
# channel. FLAGS are the sum of GSS-API's own, as 62: mutual 2, replay 4, sequence 8, sealed 16, whole 32. Messages are opened by gss_unwrap, as
# a whole, or in parts by gss_unwrap_iov, as RPC opens those of DCE style. A status that says more than that a call is done, as that a
# message was left out, ends the connection.
import ctypes as c, os, socket, sys, time

role, library, port, *rest = sys.argv[1:]
gss = c.CDLL(library)
NO_OPERATION, CONTEXT, DATA, MIC, CONTEXT_NEXT, WRAPPED, SEALED, WANTS_MIC = (1 << bit for bit in range(8))
CONTINUE = 1
TEXT, HEAD, HEAD_LENGTH = 1, 2, 76


class Octets(c.Structure):
    _fields_ = [("length", c.c_size_t), ("at", c.c_char_p)]


class Room(c.Structure):
    _fields_ = [("length", c.c_size_t), ("at", c.c_void_p)]

    def octets(self):
        return c.string_at(self.at, self.length) if self.length else b""


class Part(c.Structure):
    _fields_ = [("kind", c.c_uint32), ("room", Room)]


class Oid(c.Structure):
    _fields_ = [("length", c.c_uint32), ("at", c.c_char_p)]


class Oids(c.Structure):
    _fields_ = [("count", c.c_size_t), ("at", c.POINTER(Oid))]


class Channel(c.Structure):
    _fields_ = [("initiator_type", c.c_uint32), ("initiator", Octets), ("acceptor_type", c.c_uint32), ("acceptor", Octets), ("data", Octets)]


KERBEROS = Oid(9, bytes.fromhex("2a864886f712010202"))
SERVICE_NAME = Oid(10, bytes.fromhex("2a864886f71201020104"))


class Refused(Exception):
    pass


def words(status, kind, mechanism):
    out, minor, more = Room(), c.c_uint32(), c.c_uint32()
    gss.gss_display_status(c.byref(minor), c.c_uint32(status), kind, mechanism, c.byref(more), c.byref(out))
    return out.octets().decode()


def call(name, *arguments):
    """A call that answers that it is done, or that it goes on."""
    minor = c.c_uint32()
    status = getattr(gss, name)(c.byref(minor), *arguments) & 0xFFFFFFFF
    if status not in (0, CONTINUE):
        raise Refused(f"{name}: {status:#x}: {words(status, 1, None)}: {words(minor.value, 2, c.byref(KERBEROS))}")
    return status


def octets(text):
    return c.byref(Octets(len(text), text))


def read_frame(stream):
    head = stream.read(5)
    if len(head) < 5:
        raise Refused("the other end is gone")
    return head[0], stream.read(int.from_bytes(head[1:], "big"))


def write_frame(to, says, text=b""):
    to.sendall(bytes([says]) + len(text).to_bytes(4, "big") + text)


def wrap(context, text):
    out = Room()
    call("gss_wrap", context, 1, 0, octets(text), None, c.byref(out))
    return out.octets()


def unwrap(context, token):
    out, is_sealed = Room(), c.c_int()
    call("gss_unwrap", context, octets(token), c.byref(out), c.byref(is_sealed), None)
    return out.octets(), is_sealed.value


def unwrap_parts(context, token):
    """The head of a message of DCE style has all that is sealed next to the text."""
    kept = c.create_string_buffer(token, len(token))
    head, text = Room(HEAD_LENGTH, c.addressof(kept)), Room(len(token) - HEAD_LENGTH, c.addressof(kept) + HEAD_LENGTH)
    parts, is_sealed = (Part * 2)(Part(HEAD, head), Part(TEXT, text)), c.c_int()
    call("gss_unwrap_iov", context, c.byref(is_sealed), None, parts, 2)
    return parts[1].room.octets(), is_sealed.value


def mic(context, text):
    out = Room()
    call("gss_get_mic", context, 0, octets(text), c.byref(out))
    return out.octets()


def accept(stream, client):
    """The context of a client, and its name."""
    context, name, status = c.c_void_p(), c.c_void_p(), CONTINUE
    while status == CONTINUE:
        says, token = read_frame(stream)
        if says != CONTEXT:
            raise Refused("the client does not log in")
        out, flags = Room(), c.c_uint32()
        status = call("gss_accept_sec_context", c.byref(context), None, octets(token), None, c.byref(name), None, c.byref(out), c.byref(flags), None, None)
        if out.length:
            write_frame(client, CONTEXT, out.octets())
    shown = Room()
    call("gss_display_name", name, c.byref(shown), None)
    print(f"admitted: {shown.octets().decode()}, flags {flags.value}", flush=True)
    return context


def serve_client(client, stream, opened, answer):
    if read_frame(stream)[0] != NO_OPERATION | CONTEXT_NEXT:
        raise Refused("the client does not log in")
    context = accept(stream, client)
    while True:
        says, token = read_frame(stream)
        if not says & DATA:
            return
        text, is_sealed = unwrap_parts(context, token) if opened == "parts" else unwrap(context, token)
        print(len(text), "octets,", "sealed" if is_sealed else "with a checksum", flush=True)
        if answer == "mic":
            write_frame(client, MIC, mic(context, text))
        else:
            write_frame(client, DATA | WRAPPED | SEALED, wrap(context, text))


def serve(opened, answer):
    with socket.create_server(("127.0.0.1", int(port))) as listener:
        while True:
            client, _ = listener.accept()
            client.settimeout(30)
            with client, client.makefile("rb") as stream:
                try:
                    serve_client(client, stream, opened, answer)
                except (Refused, OSError) as error:
                    print(error, flush=True)


def name_of(service):
    name = c.c_void_p()
    call("gss_import_name", octets(service.encode()), c.byref(SERVICE_NAME), c.byref(name))
    return name


def credential(service):
    """The credential of a service that is a client, by its own keytab."""
    found, forever, to_initiate = c.c_void_p(), c.c_uint32(0xFFFFFFFF), 1
    mechanisms = c.byref(Oids(1, c.pointer(KERBEROS)))
    call("gss_acquire_cred", name_of(service), forever, mechanisms, to_initiate, c.byref(found), None, None)
    return found


class Client:
    def __init__(self, service, flags, own=None, data=None):
        self.name, self.flags, self.context = name_of(service), int(flags), c.c_void_p()
        self.own = credential(own) if own else None
        none = Octets(0, None)
        self.channel = c.byref(Channel(0, none, 0, none, Octets(len(data), data.encode()))) if data else None

    def step(self, token=b""):
        """Returns the token for the service after this token of it, and whether the exchange goes on."""
        out = Room()
        status = call(
            "gss_init_sec_context", self.own, c.byref(self.context), self.name, c.byref(KERBEROS), self.flags, 0, self.channel, octets(token), None,
            c.byref(out), None, None
        )
        return out.octets(), status == CONTINUE

    def log_in(self, server, stream, first=None):
        """Ends the exchange, which may have begun before with this token."""
        write_frame(server, NO_OPERATION | CONTEXT_NEXT)
        token, goes_on = first or self.step()
        while True:
            if token:
                write_frame(server, CONTEXT, token)
            if not goes_on:
                return self.context
            token, goes_on = self.step(read_frame(stream)[1])


def connection():
    return socket.create_connection(("127.0.0.1", int(port)), timeout=10)


def speak(service, flags, count, *further):
    words = dict(word.split("=", 1) for word in further)
    with connection() as server, server.makefile("rb") as stream:
        context = Client(service, flags, words.get("as"), words.get("channel")).log_in(server, stream)
        for number in range(int(count)):
            text = b"message %d" % number
            write_frame(server, DATA | WRAPPED | SEALED | WANTS_MIC, wrap(context, text))
            call("gss_verify_mic", context, octets(text), octets(read_frame(stream)[1]), None)
            print("Signature verified.")
        write_frame(server, NO_OPERATION)


def is_let_in(client, first):
    try:
        with connection() as server, server.makefile("rb") as stream:
            client.log_in(server, stream, first)
            write_frame(server, NO_OPERATION)
            return True
    except (Refused, OSError):
        return False


def member(service, flags, each, begin):
    """One process of a crowd: it makes its tokens from this second on, and ends with the number of those that were refused."""
    Client(service, flags).step()
    while time.time() < begin:
        pass
    made = []
    for _ in range(each):
        client = Client(service, flags)
        made.append((client, client.step()))
    return sum(not is_let_in(client, first) for client, first in made)


def crowd(service, flags, processes, each):
    """Its clients begin at one second, since MIT's library numbers microseconds from the first token of a second on."""
    begin, refused = int(time.time()) + 2, 0
    for _ in range(int(processes)):
        if os.fork() == 0:
            os._exit(min(member(service, flags, int(each), begin), 255))
    for _ in range(int(processes)):
        refused += os.waitstatus_to_exitcode(os.wait()[1])
    print(f"of {int(processes) * int(each)} log-ins {refused} were refused")


if role == "serve":
    serve(*rest)
elif role == "crowd":
    crowd(*rest)
else:
    try:
        speak(*rest)
    except Refused as error:
        sys.exit(str(error))
