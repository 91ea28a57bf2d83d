"""Takes what `rt ci` kept of the crates on this machine, for scripts that go on from there. The toolchain is that of the rt on the PATH: this
calls rt's own functions."""

import importlib.machinery
import importlib.util
import os
import shutil
import sys

TOP = os.path.dirname(os.path.dirname(os.path.realpath(__file__)))


def toolchain():
    """The toolchain's rt, as a module."""
    path = os.path.realpath(shutil.which("rt") or sys.exit("there is no rt on the PATH"))
    loader = importlib.machinery.SourceFileLoader("rt_of_the_toolchain", path)
    module = importlib.util.module_from_spec(importlib.util.spec_from_loader(loader.name, loader))
    loader.exec_module(module)
    return module


def copy_crates(rt, folder):
    """Copies the crates to a new folder, and makes it the top of a repository."""
    rt.copy_crates(TOP, folder)
    os.mkdir(f"{folder}/.git")


class Crates:
    """The crates of such a copy, by name, lowest first."""

    def __init__(self, rt, folder):
        rt.Crate.cuts_libraries, rt.Crate.allowed = True, rt.handles_of(folder)
        self.by_name = {it.name: it for it in rt.crates_of(folder)}
        self.kept, self.taken = rt.Kept([*self.by_name.values()]), set()
        self.kept.drop = lambda path: None  # (what other runs kept is not to be removed here)

    def lacking(self, crates):
        """Takes what is kept of these crates and those below them, and returns the name of the first that is not kept as it is, or None."""
        wanted = {below for it in crates for below in [it, *it.below()]}
        for it in self.by_name.values():
            if it in wanted and it.name not in self.taken:
                if not self.kept.give(it, False, self.kept.key(it)):
                    return it.name
                self.kept.is_built(it)
                self.taken.add(it.name)
        return None
