"""The words of `dsc-bench`, and what it ends with."""

import argparse
import contextlib
import os
import shutil
import sys

from .answers import read_answers
from .judging import MEDIA, PASS, as_json, as_text, judged, read_expected
from .making import make
from .on_air import DOTS, LONG_DOTS
from .raw import transmissions
from .refusals import Refused, RefusedWords, Unreadable

NAME, STANDARD_INPUT = "dsc-bench", "the standard input"
OUTPUT_FAILED = 5


def parser_of_words():
    parser = argparse.ArgumentParser(prog=NAME, description="Makes test vectors for decoders of DSC, and judges what a decoder made of them.")
    commands = parser.add_subparsers(dest="command", metavar="COMMAND", required=True)
    making = commands.add_parser(
        "make", help="make the vectors of a seed", description="Makes the vectors of a seed in a folder that is new or empty."
    )
    making.add_argument("--dsc", metavar="PROGRAM", help="the program dsc; the one that was installed with this, or the one on PATH")
    making.add_argument("seed", metavar="SEED", help="a number from 0 to 4294967295")
    making.add_argument("folder", metavar="FOLDER")
    sending = commands.add_parser(
        "raw", help="write the transmissions of lists of symbols",
        description="Writes the transmission of each line of symbols, 0 to 127, as dsc join reads it.",
    )
    sending.add_argument("--dots", type=int, choices=(DOTS, LONG_DOTS), default=DOTS, help="elements of the dot pattern; 20")
    sending.add_argument("file", nargs="?", default="-", metavar="FILE", help="the lists; the standard input if none is named")
    judging = commands.add_parser("judge", help="judge a decoder's answers", description="Judges what a decoder answered to the cases of a folder.")
    judging.add_argument("--json", action="store_true", help="write one JSON object, not tables")
    judging.add_argument("--of", choices=MEDIA, default=MEDIA[0], help="what the decoder was given; elements")
    judging.add_argument("folder", metavar="FOLDER")
    judging.add_argument("answers", metavar="ANSWERS", help="a file, or - for the standard input")
    return parser


def program_at(path, beside):
    """The program: the one that is named, the one that stands beside this one, or the one on PATH."""
    found = path or next((it for it in beside if os.access(it, os.X_OK)), None) or shutil.which("dsc")
    if not found or not os.access(found, os.X_OK) or os.path.isdir(found):
        raise RefusedWords(f"there is no program {path or 'dsc'}")
    return found


@contextlib.contextmanager
def opened(path):
    """The name and the bytes of a file, or of the standard input."""
    if path == "-":
        yield STANDARD_INPUT, sys.stdin.buffer
        return
    try:
        file = open(path, "rb")
    except OSError as cause:
        raise Unreadable(f"{path} can't be read: {cause.strerror}") from cause
    with file:
        yield path, file


def send(options):
    """Writes the transmissions of lists of symbols."""
    with opened(options.file) as (name, file):
        try:
            for line in transmissions(name, (line.decode("utf-8", "replace") for line in file), options.dots):
                print(line)
        except IsADirectoryError as cause:
            raise Unreadable(f"{name} can't be read: {cause.strerror}") from cause
    return 0


def judge(options):
    """Writes how a decoder's answers are judged."""
    cases = read_expected(options.folder, options.of)
    with opened(options.answers) as (name, file):
        found = judged(cases, read_answers(name, file, [it.number for it in cases], options.of))
    print(as_json(options.of, found) if options.json else "\n".join(as_text(found)))
    return int(any(it.result != PASS for it in found))


def run(options, beside):
    """Does what the words ask for, and gives the status."""
    if options.command == "raw":
        return send(options)
    if options.command == "judge":
        return judge(options)
    print(make(program_at(options.dsc, beside), options.seed, options.folder))
    return 0


def main(beside, words=None):
    """Runs these words, or those of the command line. The programs are those `dsc` that may stand beside this one."""
    options = parser_of_words().parse_args(words)
    try:
        status = run(options, beside)
        sys.stdout.flush()
        return status
    except Refused as cause:
        with contextlib.suppress(OSError):
            sys.stdout.flush()
        print(f"{NAME}: {cause}", file=sys.stderr)
        return cause.status
    except OSError as cause:
        print(f"{NAME}: the output failed: {cause.strerror}", file=sys.stderr)
        os.dup2(os.open(os.devnull, os.O_WRONLY), sys.stdout.fileno())
        return OUTPUT_FAILED
