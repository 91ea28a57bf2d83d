"""The folders of tests: what `run` and `prove` share.

A folder NAME has the sources of a crate `krb_tests_NAME`: `lib.rs` and what its `mod` items name, and where a proof needs them
`specs` and `proofs`, whose files end in `.antt.txt`. `libraries.txt` next to this file lists the libraries of each. A crate
`crates/krb_tests_NAME`, which the gate proves, counts as the folder NAME too."""

import os
import re
import shutil
import sys

HERE = os.path.dirname(os.path.realpath(__file__))
TOP = os.path.dirname(os.path.dirname(HERE))
PREFIX = "krb_tests_"
TEST = re.compile(r"^[ \t]*#\[test\]\n(?=(\s*#\[.*\]\n)*\s*(pub )?fn (?P<name>\w+))", re.M)


def stop(why):
    """Ends the program with status 2."""
    print(f"tests: {why}", file=sys.stderr)
    sys.exit(2)


def read_lines(file):
    """The lines of crates.txt or libraries.txt: by name, the words before the colon and the libraries after it."""
    lines = {}
    with open(file, encoding="utf-8") as text:
        for line in text:
            head, colon, libraries = line.partition("#")[0].partition(":")
            if colon:
                name, *flags = head.split()
                lines[name] = (flags, libraries.split())
    return lines


class Folder:
    """A folder of tests, with its libraries and the words of its line."""

    def __init__(self, name, place, flags, libraries):
        self.name, self.place, self.flags, self.libraries = name, place, flags, libraries
        self.crate = PREFIX + name
        # The names of the tests that are asked for, or none where all are.
        self.only = []

    def files(self):
        """Each file of the crate by its place there, `src/lib.rt` or `proofs/Lib.antt`, with its place in the repository."""
        for room, rooms, names in os.walk(self.place):
            rooms[:] = sorted(it for it in rooms if it != "out")
            for name in sorted(names):
                path = os.path.join(room, name)
                yield place_in_crate(os.path.relpath(path, self.place)), path

    def sources(self):
        """The files of `src`, by their place below it, as text with the tests that are asked for."""
        for place, path in self.files():
            if place.startswith("src/"):
                with open(path, encoding="utf-8") as file:
                    yield place[len("src/") :], TEST.sub(self.kept, file.read())

    def kept(self, test):
        """The attribute of a test, with another that skips it where it is not asked for."""
        return test[0] if self.asks_for(test["name"]) else f"{test[0]}#[ignore]\n"

    def asks_for(self, name):
        """Whether the test of this name is to run."""
        return not self.only or name in self.only

    def count(self):
        """How many tests there are that are asked for."""
        if self.only:
            return sum(self.asks_for(test["name"]) for _, text in self.sources() for test in TEST.finditer(text))
        return sum(len(re.findall(r"^\s*#\[test\]", text, re.M)) for _, text in self.sources())


def place_in_crate(place):
    """Where a crate has what a folder of tests has at this place."""
    if place.endswith(".rs"):
        return f"src/{place[:-3]}.rt"
    return place.removesuffix(".txt") if place.endswith(".antt.txt") else place


def all_folders():
    """The folders by name, those of tests/library and those of the crates that the gate proves."""
    found = {}
    for name, line in read_lines(f"{HERE}/libraries.txt").items():
        found[name] = Folder(name, f"{HERE}/{name}", *line)
    for crate, line in read_lines(f"{TOP}/crates.txt").items():
        if crate.startswith(PREFIX):
            name = crate.removeprefix(PREFIX)
            found[name] = Folder(name, f"{TOP}/crates/{crate}", *line)
    return found


def stop_on_unlisted(folders):
    """Stops where a folder next to this file has no line, or a line no folder."""
    there = {it.name for it in os.scandir(HERE) if it.is_dir() and it.name != "__pycache__"}
    listed = {it.name for it in folders.values() if it.place.startswith(f"{HERE}/")}
    for name in sorted(there ^ listed):
        stop(f"tests/library/{name}: a folder needs a line in tests/library/libraries.txt, and a line a folder")


def chosen(names):
    """The folders of these names, or all of them where there is none."""
    folders = all_folders()
    stop_on_unlisted(folders)
    for name in names:
        if name not in folders:
            stop(f"there is no folder {name}. The folders are {' '.join(folders)}")
    return [folders[name] for name in names or folders]


def below(libraries):
    """The crates of the repository below these libraries, with themselves, by their lines in crates.txt."""
    lines, found, rest = read_lines(f"{TOP}/crates.txt"), {}, list(libraries)
    while rest:
        name = rest.pop()
        if name in lines and name not in found:
            found[name] = lines[name]
            rest += lines[name][1]
    return found


def line_of(name, flags, libraries):
    """A line of a crates.txt."""
    return f"{' '.join([name, *flags])}: {' '.join(libraries)}\n"


def copy_crates(names, room):
    """Copies these crates, without what rt made in them, to a repository in a folder."""
    for name in names:
        shutil.copytree(f"{TOP}/crates/{name}", f"{room}/crates/{name}", ignore=shutil.ignore_patterns("out"))
    if os.path.isfile(f"{TOP}/HANDLES"):
        shutil.copy(f"{TOP}/HANDLES", room)
    os.mkdir(f"{room}/.git")
