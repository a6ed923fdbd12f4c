"""Logs of sentences: what stands in each line, what `dsc` says of it, and when it was written down."""

import datetime
import os
import re
import subprocess

from json_lines.reading import STAMP, sentence

FOUND = re.compile(r"\$CDDS[CE],")
OTHER = re.compile(r"[$!][A-Z]{5},|\$P[A-Z]+,")
# A tag block has its moment, in seconds of 1970 or milliseconds, after `c:`.
TAG = re.compile(r"\\[^\\]*\bc:(\d{10,13})\b[^\\]*\\")
MOST = 60_000


class Failed(Exception):
    """A log can't be read, or `dsc` failed."""


class Heard:
    """A DSC or DSE sentence of a log: its file and line, its stamp, its text, and what was made of it."""

    def __init__(self, log, number, stamp, text):
        self.log, self.number, self.stamp, self.text = log, number, stamp, text
        self.verdict, self.row, self.fields = "", None, None

    def where(self):
        return f"{self.log}:{self.number}"


def stamp_of(front):
    """The stamp in what stands in front of a sentence, as text that sorts by time, or nothing."""
    tag = TAG.search(front)
    if tag:
        seconds = int(tag[1]) / (1000 if len(tag[1]) == 13 else 1)
        return datetime.datetime.fromtimestamp(seconds, datetime.timezone.utc).strftime("%Y-%m-%dT%H:%M:%SZ")
    words = [word.strip("[]:") for word in front.split() if STAMP.fullmatch(word)]
    return "T".join(words[:2]) if len(words) > 1 and "T" not in words[0] else words[0] if words else ""


def read_log(path):
    """The DSC and DSE sentences of a log, and how many other sentences and other lines there are."""
    heard, sentences, lines = [], 0, 0
    name = os.path.basename(path)
    try:
        with open(path, encoding="utf-8", errors="replace", newline="") as file:
            for number, line in enumerate(file, 1):
                line = line.rstrip("\r\n")
                found = FOUND.search(line)
                if found:
                    heard.append(Heard(name, number, stamp_of(line[: found.start()]), line[found.start() :]))
                elif OTHER.search(line):
                    sentences += 1
                elif line and not line.startswith("#"):
                    lines += 1
    except OSError as cause:
        raise Failed(f"{path} can't be read: {cause.strerror}") from None
    return heard, sentences, lines


def run(program, command, lines):
    done = subprocess.run([program, command], input="".join(line + "\n" for line in lines).encode(), capture_output=True, check=False)
    if done.returncode not in (0, 1):
        raise Failed(f"dsc {command} ended with status {done.returncode}")
    return done.stdout.decode().splitlines()


def judge(program, heard):
    """Takes the verdict of `dsc` on each sentence, and of each that is accepted the row of the book, if any, and its fields."""
    for first in range(0, len(heard), MOST):
        part = heard[first : first + MOST]
        for it, verdict in zip(part, run(program, "sentences", [it.text for it in part]), strict=True):
            it.verdict = verdict
    rows = {}
    for it in heard:
        if it.verdict == "accepted":
            it.fields = sentence(it.text)
            if it.text.startswith("$CDDSC") and it.text not in rows:
                made = run(program, "book", [it.text])
                rows[it.text] = made[0] if made else None
            it.row = rows.get(it.text)
