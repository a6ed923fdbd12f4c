"""The transmission of a list of raw symbols, whether it is a call or not."""

import re

from shared.symbols import LAST

from .on_air import DOTS, transmission
from .refusals import at

# A number of no more digits than a symbol has, without a leading zero.
SYMBOL = re.compile("0|[1-9][0-9]{0,2}")
# The places that receptions have: 0 to 63.
MOST_SYMBOLS = 64


def symbols_of(name, number, line):
    """The symbols of a line, which are parted by single blanks; or the refusal of its first word that is none."""
    symbols, column = [], 1
    for word in line.split(" "):
        if not SYMBOL.fullmatch(word) or int(word) > LAST:
            raise at(name, number, column, f"a symbol is a number from 0 to {LAST}, not {word!r}")
        if len(symbols) == MOST_SYMBOLS:
            raise at(name, number, column, f"a list has {MOST_SYMBOLS} symbols at most")
        symbols.append(int(word))
        column += len(word) + 1
    return symbols


def transmissions(name, lines, count=DOTS):
    """Of each list a line that `dsc join` reads, of a group of its own; empty lines and comments give none."""
    group = 0
    for number, line in enumerate(lines, 1):
        line = line.rstrip("\n")
        if line and not line.startswith("#"):
            yield f"r g{group} {transmission(symbols_of(name, number, line), count)}"
            group += 1
