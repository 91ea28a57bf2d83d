# Carries requests over TCP to krb_realm: python3 carrier.py PROGRAM LINES PORT
import os, socketserver, subprocess, sys, time

program, lines, port = sys.argv[1:]
realm = subprocess.Popen([program, "answer"], stdin=subprocess.PIPE, stdout=subprocess.PIPE, text=True)
realm.stdin.write(open(lines).read())


class Carrier(socketserver.StreamRequestHandler):
    def handle(self):
        length = self.rfile.read(4)
        request = length + self.rfile.read(int.from_bytes(length, "big"))
        print("request", time.time_ns() // 1000, os.urandom(64).hex(), request.hex(), file=realm.stdin, flush=True)
        self.wfile.write(bytes.fromhex(realm.stdout.readline().split()[1]))


socketserver.TCPServer.allow_reuse_address = True
socketserver.TCPServer(("127.0.0.1", int(port)), Carrier).serve_forever()
