"""What another decoder answered to the cases: its calls as texts, or as the objects of dsc-json(1)."""

import csv
import json
import re

from json_lines.reading import call as object_of

from .calls import DIGITS, FIELDS
from .refusals import Unreadable, at

HEADER = "case,call"
REPORTED = "reported"
RESULTS = (REPORTED, "missing", "differ", "outside", "check")
# A case's number, of no more digits than a group's.
CASE = "[0-9]{1,10}"
# Of each field the form of its value.
IDENTITY, SYMBOL = r"[0-9]{9}", r"[0-9]{3}"
VALUES = {
    "from": IDENTITY, "casualty": IDENTITY, "nature": SYMBOL, "then": SYMBOL, "cat": SYMBOL, "first": SYMBOL, "second": SYMBOL, "end": SYMBOL,
    "pos": r"[0-9]{10}", "at": r"[0-9]{10}", "time": r"[0-9]{4}", "f1": r"none|[0-9]{6}|[0-9]{8}", "f2": r"none|[0-9]{6}|[0-9]{8}",
    **{name: rf"none|[0-9]{{{count}}}" for name, count in DIGITS.items()},
}
TO = {"relay": rf"all|area:[0-9]{{10}}|(?:group|one):{IDENTITY}", "area": r"[0-9]{10}"}
TO["relayack"] = TO["relay"]


class Sent:
    """A call that was sent: its texts and its objects, without its expansion and with it."""

    def __init__(self, text):
        words = text.split(" ")
        if first_odd(words) is not None:
            raise ValueError(text)
        self.texts = (text.partition(" exp ")[0], text)
        self.objects = [object_of(it.split(" ")) for it in self.texts]


class Told:
    """A call that was told: its text, or its object. What `dsc` says of a broken expansion is left out."""

    def __init__(self, text="", made=None):
        self.text = text.partition(" broken ")[0]
        self.made = None if made is None else {name: value for name, value in made.items() if name != "broken"}

    def said(self):
        """What was told, as it was."""
        return self.text if self.made is None else self.made

    def is_call(self, sent):
        """Whether it is this call. An expansion needn't be told, but if it is, it is the one that was sent."""
        return self.text in sent.texts if self.made is None else self.made in sent.objects


def names_of(words):
    """The names that the fields of a call with these words have, one after the other."""
    names = FIELDS[words[0]]
    if words[0] == "one" and any(word.startswith("at=") for word in words):
        names = names[: names.index("f1")] + ("at", "end")
    return names


def fits(word, name, form):
    """Whether a word is the field of this name."""
    said, _, value = word.partition("=")
    return said == name and re.fullmatch(TO.get(form, IDENTITY) if name == "to" else VALUES[name], value) is not None


def first_odd(words):
    """The first word at which words are no text of a call any more; None where they are one."""
    if words[0] not in FIELDS:
        return 0
    names = names_of(words)
    for number, name in enumerate(names, 1):
        if number >= len(words) or not fits(words[number], name, words[0]):
            return number
    number, rest = len(names) + 1, words[len(names) + 1 :]
    if not rest or (rest[0] == "broken" and len(rest) == 2 and re.fullmatch("[0-9]+", rest[1])):
        return None
    sets = [name for word in rest[1:] for name in DIGITS if fits(word, name, "")]
    is_expansion = rest[0] == "exp" and sets and len(sets) == len(rest) - 1 and sets == [name for name in DIGITS if name in sets]
    return None if is_expansion else number


def told_text(name, number, column, text):
    """The call of a text that begins at this column."""
    words = text.split(" ")
    odd = first_odd(words)
    if odd is not None:
        # Where the text ends too early, this is one past its end.
        column += min(sum(len(word) + 1 for word in words[:odd]), len(text))
        raise at(name, number, column, "no call's text goes on so")
    return Told(text)


def of_object(name, number, line):
    """The case and the call of a line of JSON."""
    try:
        made = json.loads(line)
    except (ValueError, RecursionError) as cause:
        raise at(name, number, getattr(cause, "colno", 1), "no JSON goes on so") from cause
    kind, call = made.get("class"), made.get("call")
    if kind not in ("answer", "told") or not isinstance(made.get("group"), int) or not isinstance(call, (dict, type(None))):
        raise at(name, number, 1, "the object is neither an answer nor a told call of a group")
    return made["group"], 2, [] if call is None else [Told(made=call)]


def of_answer(name, number, found):
    """The case and the call of a line that `dsc` writes: a told call, or an answer."""
    is_told, case, said = found[1] != "", int(found[2]), found[3]
    column, kind = found.start(3) + 1, said.split(" ")[0]
    if not is_told and kind not in RESULTS:
        raise at(name, number, column, "no answer begins so")
    if not is_told and kind != REPORTED:
        return case, found.start(2) + 1, []
    first = 0 if is_told else min(len(REPORTED) + 1, len(said))
    return case, found.start(2) + 1, [told_text(name, number, column + first, said[first:])]


def text_of_row(name, number, column, text):
    """What stands in the second column of a row, from this column of the line on."""
    try:
        fields = next(csv.reader([text], strict=True), [""])
    except csv.Error as cause:
        raise at(name, number, column, "no row of a CSV file goes on so") from cause
    if len(fields) > 1:
        raise at(name, number, column + len(fields[0]), "a row has a case and a call")
    return fields[0] if fields else ""


def of_line(name, number, line):
    """The case of a line, the column at which it stands, and the calls that are told of it: one or none."""
    if line.startswith("{"):
        return of_object(name, number, line)
    found = re.fullmatch(rf"(told |)g({CASE}) (.+)", line)
    if found:
        return of_answer(name, number, found)
    found = re.fullmatch(rf"({CASE})(?:([ ,])(.*))?", line)
    if not found:
        raise at(name, number, 1, "a line is a case's number and a call, an answer of dsc, or an object of dsc-json")
    text, column = found[3] or "", found.start(3) + 1
    if found[2] == ",":
        text = text_of_row(name, number, column, text)
    return int(found[1]), 1, [told_text(name, number, column, text)] if text else []


def lines_of(name, data):
    """The lines of a file's bytes."""
    try:
        text = data.decode("utf-8")
    except UnicodeDecodeError as cause:
        before = data[: cause.start]
        raise at(name, before.count(b"\n") + 1, cause.start - before.rfind(b"\n"), "bytes are no text") from cause
    return [line.rstrip("\r") for line in text.split("\n")]


def read_answers(path, file, cases, medium):
    """The calls that were told of each case of a medium. A case of which no line speaks has none."""
    try:
        data = file.read()
    except OSError as cause:
        raise Unreadable(f"{path} can't be read: {cause.strerror}") from cause
    told = {case: [] for case in cases}
    for number, line in enumerate(lines_of(path, data), 1):
        if not line or line.startswith("#") or (number == 1 and line == HEADER):
            continue
        case, column, calls = of_line(path, number, line)
        if case not in told:
            raise at(path, number, column, f"{case} is no case of {medium}")
        told[case] += calls
    return told
