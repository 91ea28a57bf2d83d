"""The wrong bodies of tests/edits/NAME/*.edit as texts: what each changes, in which function, and which can be tried together."""

import glob
import os
import re

LINE = re.compile(r"^(# shows|# refuses|file|old|new): ?(.*)$", re.MULTILINE)
FUNCTION = re.compile(r'( *)(?:pub(?:\([^)]*\))? )?(?:const |unsafe |extern "C" )*fn (\w+)')
TYPE = re.compile(r"(?:pub(?:\([^)]*\))? )?(?:unsafe )?(?:impl|trait)\b")


def text_of(path):
    if not os.path.isfile(path):
        return ""
    with open(path, encoding="utf-8") as it:
        return it.read()


class Edit:
    """A wrong body: its texts, the functions that it changes, and whether it is to be tried alone."""

    def __init__(self, path, crate):
        self.name, self.shows, self.pairs, self.functions, self.is_alone = os.path.basename(path)[: -len(".edit")], "", [], [], False
        file = old = ""
        for word, rest in LINE.findall(text_of(path)):
            if word == "# shows":
                self.shows = rest
            elif word == "# refuses":
                self.functions.append(rest.strip())
            elif word == "new":
                self.pairs.append((file, old, rest))
            else:
                file, old = (rest.strip(), "") if word == "file" else (file, rest)
        self.find_functions(crate, are_named=bool(self.functions))

    @staticmethod
    def is_of_gate(path):
        return "# gate" in text_of(path).split("\n")

    def find_functions(self, crate, are_named):
        for at, (file, old, _) in enumerate(self.pairs):
            text = changed(crate, self.pairs[:at]).get(file) or text_of(f"{crate}/{file}")
            found = function_at(crate, file, text.split("\n"), text.partition(old)[0].count("\n"))
            self.is_alone = self.is_alone or not found
            if found and found not in self.functions and not are_named:
                self.functions.append(found)


def changed(crate, pairs):
    """The files' texts with each pair's first text replaced by its second, or {} if one is not there exactly once."""
    texts = {}
    for file, old, new in pairs:
        text = texts.get(file) or text_of(f"{crate}/{file}")
        if not old or text.count(old) != 1:
            return {}
        texts[file] = text.replace(old, new)
    return texts


def function_at(crate, file, lines, row):
    """The function that contains a line of a file of src/, by the name that a check prints, without the crate's; None outside of one."""
    at = next((at for at in range(row, -1, -1) if FUNCTION.match(lines[at])), None)
    if at is None or not file.startswith("src/"):
        return None
    indent, name = FUNCTION.match(lines[at]).groups()
    types = [type_at(lines, at)] if indent else []
    if f"{indent}}}" in lines[at:row] or None in types:
        return None
    home = home_of(crate, file, *types) if types else file
    modules = [it for it in home[len("src/") : -len(".rt")].split("/") if it not in ("lib", "main")]
    return "::".join([*modules, *types, name])


def home_of(crate, file, name):
    """The file that declares this type, by whose module the type's own methods are named wherever their impl is; otherwise the file."""
    declared = re.compile(rf"^(?:pub(?:\([^)]*\))? )?(?:struct|enum) {re.escape(name)}\b", re.MULTILINE)
    files = [file, *sorted(glob.glob("src/**/*.rt", root_dir=crate, recursive=True))]
    return next((it for it in files if declared.search(text_of(f"{crate}/{it}"))), file)


def type_at(lines, row):
    """The type whose impl contains a line, with the trait's name after it, or the trait itself."""
    at = next((at for at in range(row, -1, -1) if TYPE.match(lines[at])), None)
    if at is None or "}" in lines[at:row]:
        return None
    head = TYPE.sub("", " ".join(lines[at : at + 8]).partition("{")[0].replace("->", ""), count=1)
    while re.search(r"<[^<>]*>", head):
        head = re.sub(r"<[^<>]*>", "", head)
    words = [it.rpartition("::")[2] for it in head.split()]
    return words[2] + words[0] if words[1:2] == ["for"] else words[0].strip(":")


def pairs_of(edits):
    return [pair for edit in edits for pair in edit.pairs]


def groups_of(crate, edits):
    """The edits in groups that can be tried together: no function is edited twice, and what changes more than bodies is alone."""
    groups = []
    for edit in edits:
        for group in groups:
            others = {it for other in group for it in other.functions}
            is_apart = not edit.is_alone and not group[0].is_alone and others.isdisjoint(edit.functions)
            if is_apart and changed(crate, pairs_of([*group, edit])):
                group.append(edit)
                break
        else:
            groups.append([edit])
    return groups
