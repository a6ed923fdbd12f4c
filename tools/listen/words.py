"""The words of the command line."""

import argparse
import re

NAME = re.compile(r"[A-Za-z0-9_.-]+")

EPILOG = """A SOURCE is a file or a FIFO, - for the standard input, tcp:HOST:PORT, udp:PORT, or cmd:COMMAND, a demodulator that is started,
and started again. It gives elements, Y, B and -, or bits, 1 for Y and 0 for B, with line feeds or without. dsc-listen(1) has the rest."""


class Refused(Exception):
    """The words are none."""


class Parser(argparse.ArgumentParser):
    def error(self, message):
        raise Refused(message)


def number(least, most):
    """A reader of numbers from this one to that."""

    def read(text):
        value = float(text)
        if not least <= value <= most:
            raise argparse.ArgumentTypeError(f"{text} isn't from {least:g} to {most:g}")
        return value

    read.__name__ = "number"
    return read


def parser():
    made = Parser(prog="dsc-listen", description="Listens to several receivers of DSC at once, and tells each call that they show.", epilog=EPILOG)
    made.add_argument("--baud", type=number(1, 9600), default=100.0, help="elements a second, 100 (MF, HF) or 1200 (VHF); 100")
    made.add_argument("--tick", type=number(0.02, 10), default=0.2, help="seconds between two looks at what came; 0.2")
    made.add_argument("--apart", type=number(0, 30), default=3.0, help="seconds by which receivers' starts of one call differ at most; 3")
    made.add_argument("--forget", type=number(45, 3600), default=60.0, help="seconds of elements and starts that are kept; 60")
    made.add_argument("--invert", action="append", default=[], metavar="NAME", help="a receiver whose tones are exchanged")
    made.add_argument("--json", action="store_true", help="write one JSON object a line")
    made.add_argument("--health", action="store_true", help="write each minute how each receiver is")
    made.add_argument("--dsc", metavar="PROGRAM", help="the program dsc; the one that was installed with this, or the one on PATH")
    made.add_argument("sources", nargs="+", metavar="NAME=SOURCE")
    return made


def read(words):
    """The options that the words are."""
    options = parser().parse_args(words)
    named = {}
    for word in options.sources:
        name, sign, where = word.partition("=")
        if not sign or not NAME.fullmatch(name) or not where:
            raise Refused(f"{word} isn't NAME=SOURCE, with a NAME of letters, digits, _, . and -")
        if name in named:
            raise Refused(f"two sources are named {name}")
        kind, _, rest = where.partition(":")
        if kind == "tcp" and not re.fullmatch(r".+:\d{1,5}", rest) or kind == "udp" and not re.fullmatch(r"\d{1,5}", rest):
            raise Refused(f"{where} isn't tcp:HOST:PORT or udp:PORT")
        named[name] = where
    for name in options.invert:
        if name not in named:
            raise Refused(f"no source is named {name}, which --invert names")
    if sum(where == "-" for where in named.values()) > 1:
        raise Refused("the standard input is one source")
    options.named = named
    return options
