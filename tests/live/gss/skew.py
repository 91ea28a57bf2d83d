# Sets by how many seconds a client's clock is taken to be wrong: skew.py CCACHE SECONDS. MIT's library adds the offset in the head of a
# credential cache (format 0504, tag 1) to its clock, and so its authenticators have another time.
import sys

path, seconds = sys.argv[1], int(sys.argv[2])
with open(path, "rb") as file:
    octets = file.read()
assert octets[:2] == b"\x05\x04", "not of format 0504"
rest = octets[4 + int.from_bytes(octets[2:4], "big"):]
head = b"\x00\x01\x00\x08" + seconds.to_bytes(4, "big", signed=True) + bytes(4)
with open(path, "wb") as file:
    file.write(b"\x05\x04" + len(head).to_bytes(2, "big") + head + rest)
