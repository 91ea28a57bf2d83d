# A client of POP3 that logs in by Cyrus' library of SASL:  python3 pop.py PORT LEAST MOST AUTHORIZATION_ID|- LONGEST COUNT
# The strength of its layer is between LEAST and MOST: 0 none, 1 integrity, more confidentiality. It says STAT this many times and
# QUIT, and prints what is answered.
import base64, ctypes as c, socket, sys

port, least, most, user, longest, count = sys.argv[1:]
sasl = c.CDLL("libsasl2.so.2")
connection = c.c_void_p()
told_user = b"" if user == "-" else user.encode()


class Callback(c.Structure):
    _fields_ = [("id", c.c_ulong), ("call", c.c_void_p), ("context", c.c_void_p)]


class Security(c.Structure):
    _fields_ = [("least", c.c_uint), ("most", c.c_uint), ("longest", c.c_uint), ("flags", c.c_uint), ("names", c.c_void_p), ("values", c.c_void_p)]


@c.CFUNCTYPE(c.c_int, c.c_void_p, c.c_int, c.POINTER(c.c_char_p), c.POINTER(c.c_uint))
def tell_user(context, asked, answer, length):
    answer[0] = told_user
    if length:
        length[0] = len(told_user)
    return 0


def call(name, *arguments):
    """A call that answers 0 (it is over) or 1 (it goes on)."""
    status = getattr(sasl, name)(*arguments)
    if status not in (0, 1):
        sasl.sasl_errdetail.restype = c.c_char_p
        sys.exit(f"{name}: {status} {sasl.sasl_errdetail(connection).decode()}")


def step(name, *arguments):
    """Returns the result of a call as octets."""
    out, length = c.c_void_p(), c.c_uint()
    call(name, connection, *arguments, c.byref(out), c.byref(length))
    return c.string_at(out, length.value) if out.value else b""


def open_connection():
    callbacks = (Callback * 2)(Callback(0x4001, c.cast(tell_user, c.c_void_p), None), Callback(0, None, None))
    call("sasl_client_init", callbacks)
    call("sasl_client_new", b"pop", b"server.example.com", None, None, callbacks, 0, c.byref(connection))
    call("sasl_setprop", connection, 101, c.byref(Security(int(least), int(most), int(longest), 0, None, None)))
    return callbacks


def first_token():
    out, length, mechanism = c.c_void_p(), c.c_uint(), c.c_char_p()
    call("sasl_client_start", connection, b"GSSAPI", None, c.byref(out), c.byref(length), c.byref(mechanism))
    return c.string_at(out, length.value)


def strength():
    value = c.POINTER(c.c_uint)()
    call("sasl_getprop", connection, 1, c.byref(value))
    return value[0]


def log_in(lines, server):
    token = first_token()
    server.sendall(b"AUTH GSSAPI " + base64.b64encode(token) + b"\r\n")
    line = lines.readline()
    while line.startswith(b"+ "):
        challenge = base64.b64decode(line[2:])
        answer = step("sasl_client_step", challenge, len(challenge), None)
        server.sendall(base64.b64encode(answer) + b"\r\n")
        line = lines.readline()
    print(line.decode().strip(), strength() if line.startswith(b"+OK") else "")
    if not line.startswith(b"+OK"):
        sys.exit(1)


def ask(command, lines, server):
    """The line that answers a command, in the layer."""
    text = command.encode() + b"\r\n"
    server.sendall(step("sasl_encode", text, len(text)))
    opened = b""
    while not opened.endswith(b"\n"):
        octets = lines.read1()
        if not octets:
            sys.exit("the server is gone")
        opened += step("sasl_decode", octets, len(octets))
    return opened.decode().strip()


kept = open_connection()
with socket.create_connection(("127.0.0.1", int(port)), timeout=10) as server, server.makefile("rb") as lines:
    print(lines.readline().decode().strip())
    log_in(lines, server)
    for _ in range(int(count)):
        print(ask("STAT", lines, server))
    print(ask("QUIT", lines, server))
