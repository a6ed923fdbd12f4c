"""The symbols that calls are spelled with, by the names that tools/shared/symbols.py has for them."""

from shared.symbols import CATEGORIES, ENDS, FORMATS, MESSAGES, NATURES, PHASING, TELECOMMANDS


def number_of(table, words):
    """The symbol that the table has these words for."""
    return next(number for number, said in table.items() if said == words)


ALERT = number_of(FORMATS, "a distress alert")
ALL_SHIPS = number_of(FORMATS, "a call to all ships")
AREA = number_of(FORMATS, "a call to the ships in a geographical area")
GROUP = number_of(FORMATS, "a call to the ships of a group")
STATION = number_of(FORMATS, "a call to one station")
DISTRESS = number_of(CATEGORIES, "distress")
ROUTINE = number_of(CATEGORIES, "routine")
ACKNOWLEDGED = number_of(TELECOMMANDS, "distress acknowledgement")
RELAYED = number_of(TELECOMMANDS, "distress relay")
TESTED = number_of(TELECOMMANDS, "test")
PLACED = number_of(TELECOMMANDS, "ship position")
POSITION_FOLLOWS = number_of(MESSAGES, "a position follows")
VHF_CHANNEL = number_of(MESSAGES, "a VHF channel follows")
ASKS, ANSWERS, NEITHER = ENDS
DX = number_of(PHASING, "the phasing symbol of each DX slot")
# RX 7 first, down to RX 0.
RX = [number_of(PHASING, f"the phasing symbol of an RX slot, RX {number}") for number in range(7, -1, -1)]
# The telecommands that calls with two of them may have as the first; the others belong to forms of their own.
FIRSTS = [number for number in TELECOMMANDS if number not in (ACKNOWLEDGED, RELAYED, TESTED, PLACED)]
# What may follow a distress call.
SUBSEQUENT = [number for number in FIRSTS if TELECOMMANDS[number] not in ("polling", "unable to comply")]
# Of the table of natures no symbol is left out but the one before the last.
NO_NATURE = max(NATURES) - 1
