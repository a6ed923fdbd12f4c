"""Judges the answers of another decoder: pass, fail and false report, by form and damage."""

import csv
import json
import os

from .answers import Sent
from .making import COLUMNS, EXPECTED
from .premises import MUST, NOT
from .refusals import Unreadable, at

VERSION = 1
MEDIA = ("elements", "mf", "vhf")
PASS, FAIL, FALSE = "pass", "fail", "false"
# What is counted of cases: how they were judged, how many sent a call, of how many of these one came, and of how many one came that dsc can't tell.
COUNTS = ("cases", PASS, FAIL, FALSE, "sent", "came", "beyond")


class Expected:
    """A row of expected.csv: a case, what was sent and what must come."""

    def __init__(self, row, medium):
        self.number, self.form, self.damage, self.strength = int(row["case"]), row["form"], row["damage"], int(row["strength"])
        self.calls = [Sent(text) for text in row["calls"].split(" / ") if text]
        self.has_medium = medium != "mf" or row["mf"] == "yes"
        self.must, self.why = row["must" if medium == "elements" else "sound_must"], row["why"]


class Judged:
    """A case with what was told of it."""

    def __init__(self, case, told):
        self.case, self.told = case, [it.said() for it in told]
        came = [[it.is_call(call) for call in case.calls] for it in told]
        self.is_sent, self.has_come = bool(case.calls), any(map(any, came))
        self.is_beyond = case.must == NOT and self.has_come
        must_come = case.must == MUST and not any(it[0] for it in came)
        is_false = not all(map(any, came))
        self.result = FALSE if is_false else FAIL if must_come else PASS

    def counts(self):
        results = (self.result == PASS, self.result == FAIL, self.result == FALSE)
        return (1, *map(int, (*results, self.is_sent, self.has_come, self.is_beyond)))


def read_expected(folder, medium):
    """The cases of a folder that have this medium."""
    path = os.path.join(folder, EXPECTED)
    try:
        with open(path, encoding="utf-8", newline="") as file:
            rows = csv.DictReader(file)
            if tuple(rows.fieldnames or ()) != COLUMNS:
                raise at(path, 1, 1, "the columns aren't those of dsc-bench")
            cases = []
            for row in rows:
                try:
                    cases.append(Expected(row, medium))
                except (TypeError, ValueError, AttributeError, KeyError) as cause:
                    raise at(path, rows.line_num, 1, "the row isn't one of dsc-bench") from cause
    except (OSError, UnicodeDecodeError, csv.Error) as cause:
        raise Unreadable(f"{path} can't be read: {getattr(cause, 'strerror', None) or 'it is no table'}") from cause
    return [it for it in cases if it.has_medium]


def judged(cases, told):
    """Each case with what was told of it."""
    return [Judged(it, told[it.number]) for it in cases]


def summed(found, key):
    """The counts of cases that are alike by the key, in the order in which they first come."""
    sums = {}
    for it in found:
        name = key(it.case)
        sums[name] = tuple(map(sum, zip(sums.get(name, (0,) * len(COUNTS)), it.counts())))
    return sums


def rows_of(names, sums):
    """The counts as objects, each with its names."""
    return [{**dict(zip(names, key)), **dict(zip(COUNTS, counts))} for key, counts in sums.items()]


def as_json(medium, found):
    """All that was judged as one object, and each case that failed or is a false report."""
    total = summed(found, lambda it: ())
    wrong = [it for it in found if it.result != PASS]
    return json.dumps({
        "class": "judgement", "version": VERSION, "of": medium, "total": dict(zip(COUNTS, total[()])),
        "by_damage": rows_of(("damage", "strength"), summed(found, lambda it: (it.damage, it.strength))),
        "by_form": rows_of(("form",), summed(found, lambda it: (it.form,))),
        "by_form_and_damage": rows_of(("form", "damage", "strength"), summed(found, lambda it: (it.form, it.damage, it.strength))),
        "wrong": [
            {"case": it.case.number, "form": it.case.form, "damage": it.case.damage, "strength": it.case.strength, "result": it.result,
             "must": it.case.must, "why": it.case.why, "sent": [call.texts[-1] for call in it.case.calls], "told": it.told} for it in wrong
        ],
    }, indent=1)


def table(head, rows):
    """The lines of a table, in columns: names to the left, numbers to the right."""
    cells = [list(map(str, row)) for row in [head, *rows]]
    widths = [max(map(len, column)) for column in zip(*cells)]
    count = len(COUNTS)
    for row in cells:
        at_left = [cell.ljust(width) for cell, width in zip(row[:-count], widths)]
        yield "  ".join(at_left + [cell.rjust(width) for cell, width in zip(row[-count:], widths[-count:])])


def as_text(found):
    """The tables: by damage, by form, and the pairs of both of which a case failed or is a false report; what these were; and the sum."""
    by_damage = summed(found, lambda it: (it.damage, it.strength))
    yield from table(("damage", "strength", *COUNTS), [(*key, *counts) for key, counts in by_damage.items()])
    yield ""
    by_form = summed(found, lambda it: (it.form,))
    yield from table(("form", *COUNTS), [(*key, *counts) for key, counts in by_form.items()])
    both = summed(found, lambda it: (it.form, it.damage))
    bad = [(*key, *counts) for key, counts in both.items() if counts[COUNTS.index(PASS)] != counts[0]]
    if bad:
        yield ""
        yield from table(("form", "damage", *COUNTS), bad)
    reports = [it for it in found if it.result == FALSE]
    if reports:
        yield ""
    for it in reports:
        yield f"false report of case {it.case.number}, {it.case.damage} {it.case.strength}: {' / '.join(map(str, it.told))}"
    sums = dict(zip(COUNTS, summed(found, lambda it: ())[()]))
    yield ""
    yield f"{sums['cases']} cases: {sums[PASS]} pass, {sums[FAIL]} fail, {sums[FALSE]} false reports; {sums['came']} of {sums['sent']} calls came"
