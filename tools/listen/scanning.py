"""The starts of several streams by one run of `capture`, over their newest elements alone.

A start is an origin at which enough of the phasing sequence was heard. Only slots count of which all ten elements were heard, so more
elements can only add starts, and one needs no element past 160 after its origin. So the starts of windows that overlap by 160
elements are those of the whole stream. Between two windows stand more lost elements than a phasing sequence has, so nothing is seen
over both.
"""

# How far after an origin elements say whether it is a start, and how far before a stream's beginning one may be.
REACH, BEFORE = 160, 150
GAP = "-" * 200
# As many elements as decide each start.
END = "-" * 1600
LINE = 4000


def stream_lines(elements):
    """The lines of a stream."""
    return "".join(f"s {elements[at : at + LINE]}\n" for at in range(0, len(elements), LINE))


def scan(program, windows):
    """The origins in each of these windows, counted from its first element."""
    places, parts, length = [], [], 0
    for window in windows:
        places.append(length)
        parts += [window, GAP]
        length += len(window) + len(GAP)
    found = [[] for _ in windows]
    if not any(windows):
        return found
    for line in program.lines("capture", stream_lines("".join(parts) + END)):
        origin = int(line.split(" ", 2)[1])
        number = next(at for at in reversed(range(len(windows))) if places[at] - BEFORE <= origin or at == 0)
        found[number].append(origin - places[number])
    return found
