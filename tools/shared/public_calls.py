"""The public calls of crates: of each function, method and trait's method that the root file of a crate offers, its signature."""

import os
import re

NAME = r"[A-Za-z_][A-Za-z0-9_]*"
def text_of(path):
    with open(path, encoding="utf-8") as file:
        return file.read()


def offered(root):
    """The names that the root file in a crate's folder of sources offers."""
    text = text_of(os.path.join(root, "lib.rt"))
    names = set(re.findall(rf"^pub mod ({NAME});", text, re.M))
    for it in re.findall(r"^pub use [^;{]*?(?:\{([^}]*)\}|(\w+));", text, re.M | re.S):
        names.update(re.findall(NAME, " ".join(it)))
    return names


HEAD_BEGINS = re.compile(r"(pub )?(unsafe )?(trait|impl)\b")


def subject_of(lines, first):
    """The type or the trait whose `impl` or own head begins in this line, and whether all its functions are as public as that."""
    head = ""
    for line in lines[first:]:
        head += f"{line.strip()} "
        if line.endswith(("{", "}", ";")):
            break
    plain = re.sub(r"<[^<>]*(?:<[^<>]*(?:<[^<>]*>[^<>]*)*>[^<>]*)*>", "", head)
    words = [it for it in re.findall(NAME, plain.partition(" for ")[2] or plain) if it not in ("pub", "trait", "impl")]
    return (words[0] if words else None), (" for " in plain or "trait " in plain)


def signature(lines, first):
    """A signature in one line, from the line on that its `fn` is in, up to its contract, its body, or a semicolon."""
    parts, depth = [], 0
    for line in lines[first:]:
        line = line.partition("//")[0]
        for at, sign in enumerate(line):
            depth += (sign in "([") - (sign in ")]")
            if depth == 0 and (sign in "{;" or re.match(r"(?:requires|ensures)\b", line[at:])):
                parts.append(line[:at].strip())
                text = re.sub(r"\s+", " ", " ".join(parts)).strip()
                return re.sub(r",? ?\)", ")", re.sub(r"\( ", "(", re.sub(r"^(?:pub )?(?:const )?fn ", "", text)))
        parts.append(line.strip())
    return " ".join(parts)


def files_of(root):
    """The files of sources in a folder and in those below it, but for tests."""
    for folder, _, files in os.walk(root):
        for file in sorted(files):
            if file.endswith(".rt") and file != "tests.rt" and os.path.basename(folder) != "tests":
                yield os.path.join(folder, file)


def calls_of(crate_folder):
    """The signatures of a crate's public calls, methods with the names of their types before them."""
    root = os.path.join(crate_folder, "src")
    public, found = offered(root), []
    for path in files_of(root):
        lines, subject, is_offered, has_no_pub = text_of(path).splitlines(), None, False, False
        is_open = os.path.splitext(os.path.basename(path))[0] in public
        for number, line in enumerate(lines):
            if HEAD_BEGINS.match(line):
                subject, has_no_pub = subject_of(lines, number)
                is_offered = subject in public or is_open
            called = re.match(rf"^(\s*)(pub |pub\(crate\) )?(?:const )?fn ({NAME})", line)
            if called and called[1] and is_offered and (has_no_pub or called[2] == "pub "):
                found.append(f"{subject}::{signature(lines, number)}")
            elif called and not called[1] and called[2] == "pub " and (is_open or called[3] in public):
                found.append(signature(lines, number))
    return found
