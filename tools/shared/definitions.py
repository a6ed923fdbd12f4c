"""The definitions in the specs/ of crates: the sentence of each, what it rests on, and which of them contracts of public calls name."""

import os
import re

from shared.program import TOP
from shared.public_calls import HEAD_BEGINS, NAME, files_of, offered, subject_of, text_of

CRATES = os.path.join(TOP, "crates")
HEAD = re.compile(rf"^(  )?(?:unfoldable |abbrev )*pub (record |data )?((?!use ){NAME}|◌[^ ]+◌)(?= |$)")
IMPORT = re.compile(rf"^\s*(?:ghost |unfoldable |pub )*use ((?:{NAME}\.)*{NAME})(?:\.\{{(.*?)\}}| as ({NAME}))\s*;?\s*$", re.M)
# Members of a type that are proofs, or that callers don't see.
PROOFS = r"invariant|inverse|gives|laws|total|coded|\w+_ok|matches_\w+"
WORD = re.compile(rf"\b({NAME})(?:\.({NAME}))?")


class Definition:
    """One definition: its crate, its module below specs/, its name, the sentence above it, and its text."""

    def __init__(self, crate, module, name, sentence, text):
        self.crate, self.module, self.name, self.sentence, self.text = crate, module, name, sentence, text

    @property
    def key(self):
        return self.crate, self.module, self.name


class Specs:
    """A file of definitions: what its first comment says, its imports, and its definitions in their order."""

    def __init__(self, crate, module, text):
        self.crate, self.module, self.imports = crate, module, imports_of(text)
        lines = text.splitlines()
        head = [line[3:] for line in lines[: next(at for at, line in enumerate(lines) if not line.startswith("-- "))]]
        self.heading, self.definitions = " ".join(head), list(self._definitions(lines))
        # The names that stand for a definition here: its own, and the constructors of its data.
        self.names = {it.name: it for it in self.definitions}
        for it in self.definitions:
            if re.match(r"\s*(?:unfoldable |abbrev )*pub data ", it.text):
                self.names.update({name: it for name in re.findall(rf"^\s+({NAME}) : ", it.text, re.M)})

    def _definitions(self, lines):
        in_module, comment, body, found = False, [], [], None
        for line in lines:
            if re.match(r"module ", line):
                in_module = True
            elif line[:1].strip() and not line.startswith("--"):
                in_module = False
            head = HEAD.match(line)
            if line.lstrip().startswith("-- "):
                comment.append(line.lstrip()[3:])
                continue
            if head and bool(head[1]) <= in_module:
                if found:
                    yield Definition(self.crate, self.module, *found, "\n".join(body))
                found, body = (head[3], " ".join(comment)), []
            body.append(line)
            comment = []
        if found:
            yield Definition(self.crate, self.module, *found, "\n".join(body))


def imports_of(text):
    """What each name that a file brings in stands for: a crate, a module and a name; of a module's other name, no name."""
    found = {}
    for path, names, other in IMPORT.findall(text):
        crate, module = place_of(path)
        if other:
            found[other] = (crate, module, None)
        for name in filter(None, (it.strip() for it in names.split(","))):
            own, _, new = name.partition(" as ")
            found[new or own] = (crate, module, own)
    return found


def place_of(path):
    """The crate and the module below its specs/ that a path names; of the toolchain's other definitions no crate."""
    own = re.match(rf"Rattle\.({NAME})\.specs\.(.+)", path)
    return (own[1], own[2]) if own else (None, path)


def library_crates():
    """The crates that offer calls to others, the lowest first, as crates.txt lists them."""
    names = re.findall(r"^(\w+):", text_of(os.path.join(TOP, "crates.txt")), re.M)
    is_library = lambda name: os.path.isfile(os.path.join(CRATES, name, "src", "lib.rt"))
    return [name for name in names if is_library(name) and not name.endswith("_tests") and name != "conformance"]


def specs_of(crate):
    """The files of definitions of a crate."""
    root = os.path.join(CRATES, crate, "specs")
    for folder, _, files in sorted(os.walk(root)):
        for file in sorted(files):
            if file.endswith(".antt") and file not in ("Lib.antt", "inside.antt"):
                path = os.path.join(folder, file)
                yield Specs(crate, os.path.relpath(path, root)[: -len(".antt")].replace(os.sep, "."), text_of(path))


def contracts_of(crate):
    """The contracts of a crate's public calls, and what its public types stand for: a name, the clauses, and the file's imports."""
    root = os.path.join(CRATES, crate, "src")
    public = offered(root)
    for path in files_of(root):
        text = text_of(path)
        imports, is_open = imports_of(text), os.path.splitext(os.path.basename(path))[0] in public
        for name, clauses in _contracts_in(text.splitlines(), lambda it: is_open or it in public):
            yield name, clauses, imports


def _contracts_in(lines, is_public):
    """The contracts of a file's public calls, and the ghost members of its public types and traits but for invariants and proofs."""
    name, clauses, is_open, is_offered, has_no_pub = None, [], False, False, False
    for number, line in enumerate([*lines, "fn"]):
        if is_open:
            clauses.append(line)
            is_open = _is_open(clauses)
            continue
        if HEAD_BEGINS.match(line):
            subject, has_no_pub = subject_of(lines, number)
            is_offered = is_public(subject)
        called = re.match(rf"(\s*)(pub |pub\(crate\) )?(?:const )?fn ({NAME})", line)
        ghost = re.match(rf"\s+ghost (?!(?:use|{PROOFS})\b)({NAME})", line)
        if called or re.match(r"\s+ghost |(?!where\b)[a-z#}]", line):
            if name and clauses:
                yield name, "\n".join(clauses)
            name, clauses = None, []
        if ghost and is_offered and has_no_pub:
            name = f"{subject}.{ghost[1]}"
        elif called and (is_offered and (has_no_pub or called[2] == "pub ") if called[1] else called[2] == "pub " and is_public(called[3])):
            name = called[3]
        if name and (ghost or re.match(r"\s*(requires|ensures)\b", line)):
            clauses.append(line)
            is_open = _is_open(clauses)


def _is_open(clauses):
    """Whether the last clause goes on in the next line."""
    text = "\n".join(clauses)
    return text.count("{") > text.count("}")
