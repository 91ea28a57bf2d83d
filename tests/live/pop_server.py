# A server of POP3 that admits clients by Cyrus' library of SASL:  python3 pop_server.py PORT LEAST MOST LONGEST
# The strength of its layer is between LEAST and MOST: 0 none, 1 integrity, more confidentiality; it receives messages of LONGEST octets at
# most. It answers STAT and QUIT, one connection after another, and prints who was admitted, with the strength. Its key is in KRB5_KTNAME.
import base64, ctypes as c, socket, sys

port, least, most, longest = map(int, sys.argv[1:])
sasl = c.CDLL("libsasl2.so.2")
sasl.sasl_errdetail.restype = c.c_char_p
USER, STRENGTH, SECURITY = 0, 1, 101


class Security(c.Structure):
    _fields_ = [("least", c.c_uint), ("most", c.c_uint), ("longest", c.c_uint), ("flags", c.c_uint), ("names", c.c_void_p), ("values", c.c_void_p)]


class Refused(Exception):
    pass


class Connection:
    """A client's connection, and its layer once it is admitted."""

    def __init__(self, stream):
        self.stream, self.from_client, self.opened = stream, stream.makefile("rb"), b""
        self.sasl, self.layered = c.c_void_p(), False
        self.call("sasl_server_new", b"pop", b"server.example.com", None, None, None, None, 0, c.byref(self.sasl))
        self.call("sasl_setprop", self.sasl, SECURITY, c.byref(Security(least, most, longest, 0, None, None)))

    def call(self, name, *arguments):
        """A call that answers 0 (it is over) or 1 (it goes on)."""
        status = getattr(sasl, name)(*arguments)
        if status not in (0, 1):
            raise Refused(f"{name}: {status} {sasl.sasl_errdetail(self.sasl).decode()}")
        return status

    def octets(self, name, *arguments):
        """Whether a call is over, and what it gives back."""
        out, length = c.c_void_p(), c.c_uint()
        status = self.call(name, self.sasl, *arguments, c.byref(out), c.byref(length))
        return status, c.string_at(out, length.value) if out.value else b""

    def property(self, number, kind):
        value = c.POINTER(c.c_uint)() if kind is int else c.c_char_p()
        self.call("sasl_getprop", self.sasl, number, c.byref(value))
        return value[0] if kind is int else value.value.decode()

    def line(self):
        while b"\n" not in self.opened:
            octets = self.from_client.read1()
            if not octets:
                raise Refused("the client is gone")
            self.opened += self.octets("sasl_decode", octets, len(octets))[1] if self.layered else octets
        line, _, self.opened = self.opened.partition(b"\n")
        return line.decode().strip()

    def say(self, line):
        text = line.encode() + b"\r\n"
        self.stream.sendall(self.octets("sasl_encode", text, len(text))[1] if self.layered else text)

    def ask(self, token):
        self.say("+ " + base64.b64encode(token).decode())
        return base64.b64decode(self.line(), validate=True)

    def log_in(self, first):
        token = base64.b64decode(first, validate=True) if first else self.ask(b"")
        status, challenge = self.octets("sasl_server_start", b"GSSAPI", token, len(token))
        while status:
            token = self.ask(challenge)
            status, challenge = self.octets("sasl_server_step", token, len(token))
        self.say("+OK")
        strength = self.property(STRENGTH, int)
        print(f"admitted: {self.property(USER, str)}, strength {strength}", flush=True)
        self.layered = strength > 0

    def serve(self):
        self.say("+OK a server of Cyrus' SASL")
        while (command := self.line()) != "QUIT":
            if command == "AUTH GSSAPI" or command.startswith("AUTH GSSAPI "):
                self.log_in(command[12:])
            else:
                self.say("+OK 0 0" if command == "STAT" else "-ERR")
        self.say("+OK")


sasl.sasl_server_init(None, b"pop_server")
with socket.create_server(("127.0.0.1", port)) as server:
    while True:
        stream = server.accept()[0]
        stream.settimeout(10)
        with stream:
            try:
                Connection(stream).serve()
            except (Refused, OSError, ValueError) as error:
                print(error, flush=True)
