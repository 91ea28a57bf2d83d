#!/usr/bin/env python3
"""blocks.py PROGRAM ARCHIVE: prints the address of each basic block of the archive's functions, as they are linked in the program.

The proved archive is compiled without the counters of libFuzzer. cover.cc sets a trap at each of these blocks instead."""

import re
import subprocess
import sys

HEAD = re.compile(r"^([0-9a-f]+) <(.*)>:$")
LINE = re.compile(r"^ *([0-9a-f]+):\t([a-z0-9]+) ?(.*)$")
PADDING = ("nop", "nopw", "nopl", "cs", "data16", "xchg", "int3")


def lines(*words):
    return subprocess.run(words, capture_output=True, text=True, check=True).stdout.splitlines()


def functions(archive):
    parts = [it.split(None, 2) for it in lines("nm", "--defined-only", archive)]
    return {it[2] for it in parts if len(it) == 3 and it[1] in "tT"}


def main(program, archive):
    ours, inside, begins, starts, code = functions(archive), False, False, set(), set()
    for line in lines("objdump", "-d", "--no-show-raw-insn", program):
        head = HEAD.match(line)
        if head:
            inside, begins = head[2] in ours, True
            continue
        it = LINE.match(line) if inside else None
        if not it:
            continue
        at, name, rest = int(it[1], 16), it[2], it[3]
        if name not in PADDING:
            code.add(at)
        if begins:
            starts.add(at)
        begins = name.startswith("j") or name == "ret"
        if name.startswith("j") and re.match(r"[0-9a-f]+ <", rest):
            starts.add(int(rest.split()[0], 16))
    print("\n".join(f"{it:x}" for it in sorted(starts & code)))


main(*sys.argv[1:])
