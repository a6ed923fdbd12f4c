"""Elements as receivers give them, and the stream that they make: where each of them stands, and when it came."""

import collections

SIGNS = b"YB-01"
AS_ELEMENTS = bytes.maketrans(b"10", b"YB")
OTHERS = bytes(set(range(256)) - set(SIGNS))
BLANKS = b" \t\r\n\0"
EXCHANGED = str.maketrans("YB", "BY")


def elements_of(data):
    """The elements in bytes of `Y`, `B` and `-`, or of the bits 1 and 0, and how many bytes were neither these nor blanks."""
    signs = data.translate(AS_ELEMENTS, OTHERS)
    return signs.decode("ascii"), len(data.translate(None, SIGNS + BLANKS))


def exchanged(elements):
    """The elements with both tones exchanged."""
    return elements.translate(EXCHANGED)


class Stream:
    """The last elements of a receiver, which count from 0 at the stream's beginning, so many seconds of them."""

    def __init__(self, baud, seconds, begins=None):
        """A stream whose elements came when they say so, or, where it begins at a moment, one after the other from then on."""
        self.baud, self.most, self.begins = baud, round(baud * seconds), begins
        self.kept, self.first = "", 0
        self.arrivals = collections.deque()

    def __len__(self):
        """How many elements came, also those that aren't kept any more."""
        return self.first + len(self.kept)

    def take(self, elements, now):
        """These elements came, the last of them now."""
        self.kept += elements
        self.arrivals.append((len(self), now))
        if len(self.kept) > 2 * self.most:
            self.first += len(self.kept) - self.most
            self.kept = self.kept[-self.most :]
            while len(self.arrivals) > 1 and self.arrivals[0][0] <= self.first:
                self.arrivals.popleft()

    def cut(self, begin, end):
        """The elements from this one up to that one, those of them that are kept."""
        return self.kept[max(begin - self.first, 0) : max(end - self.first, 0)]

    def moment(self, place):
        """When the element at this place came, also for places before the first one: its chunk's moment, less what came after it."""
        if self.begins is not None:
            return self.begins + place / self.baud
        end, came = next((it for it in self.arrivals if it[0] > place), self.arrivals[-1] if self.arrivals else (0, 0.0))
        return came - (end - 1 - place) / self.baud
