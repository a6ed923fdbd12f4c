"""Transmissions, and what a reception shows of one: dots, phasing symbols, and two copies of each character, by M.493."""

from shared.elements import word
from shared.symbols import LAST

from . import names

DOTS, LONG_DOTS = 20, 200
# Slots with a phasing symbol in front of the first character's copies: DX slots are even ones, and RX slots odd ones.
FIRST_DX, FIRST_RX = 12, 17
# The origin of a reception is no earlier than so many elements before it.
EARLIEST = 150
ELEMENTS = 10
# How many phasing symbols are enough: of DX and of RX.
ENOUGH = ((2, 1), (1, 2), (0, 3))
WORDS = [word(symbol) for symbol in range(LAST + 1)]
DX_WORD, RX_WORDS = WORDS[names.DX], [WORDS[symbol] for symbol in names.RX]


def dots(count):
    return "BY" * (count // 2)


def slot_symbols(symbols):
    """The symbols of all slots of the transmission of a list."""
    made = []
    for slot in range(2 * len(symbols) + FIRST_DX):
        if slot % 2 == 0:
            made.append(names.DX if slot < FIRST_DX else symbols[(slot - FIRST_DX) // 2])
        else:
            made.append(names.RX[slot // 2] if slot < FIRST_RX else symbols[(slot - FIRST_RX) // 2])
    return made


def transmission(symbols, count=DOTS):
    """The elements of the transmission of a list after so many dots."""
    return dots(count) + "".join(WORDS[symbol] for symbol in slot_symbols(symbols))


def slot(elements, origin, number):
    """The elements of a slot, where all ten of them are inside the reception, and else none."""
    first = origin + ELEMENTS * number
    return elements[first : first + ELEMENTS] if 0 <= first <= len(elements) - ELEMENTS else ""


def is_phased(elements, origin):
    """Whether enough phasing symbols are right at this origin."""
    dx = sum(slot(elements, origin, number) == DX_WORD for number in range(0, FIRST_DX, 2))
    rx = sum(slot(elements, origin, 2 * at + 1) == expected for at, expected in enumerate(RX_WORDS))
    return any(dx >= least_dx and rx >= least_rx for least_dx, least_rx in ENOUGH)


def origin_of(elements):
    """The origin of a reception: the least that is phased, or None. One right RX symbol is always needed, so only these are looked for."""
    origins = set()
    for at, expected in enumerate(RX_WORDS):
        first = elements.find(expected)
        while first >= 0:
            origins.add(first - ELEMENTS * (2 * at + 1))
            first = elements.find(expected, first + 1)
    return next((origin for origin in sorted(origins) if origin >= -EARLIEST and is_phased(elements, origin)), None)
