"""Whether a call must come, may come, or must not come of receptions: by the premises of what is proved of `dsc join`.

The premises are those that docs/PROOFS.md names at `sent`, as crates/slot_join/specs has them (`IsHeard`, `ArrivesInParts`, `EndCameLate`,
`IsSentOrLostPlace`). They are worked out of what was sent and what came, and of nothing that `dsc` says.
"""

from . import names
from .on_air import ELEMENTS, FIRST_DX, FIRST_RX, WORDS, origin_of, slot, slot_symbols

MUST, MAY, NOT = "must", "may", "not"
# The calls of which both places of the format specifier are needed.
NEEDS_BOTH = (names.ALERT, names.ALL_SHIPS)


class Reception:
    """What one receiver heard, beside the list that was sent."""

    def __init__(self, elements, symbols):
        self.elements, self.symbols, self.origin = elements, symbols, origin_of(elements)
        self.slots = slot_symbols(symbols)

    def first_two_way(self):
        """The first slot in which some `Y` came as `B` and some `B` as `Y` at the origin; None where there is none, or no origin."""
        if self.origin is None:
            return None
        for number, symbol in enumerate(self.slots):
            heard = slot(self.elements, self.origin, number)
            if heard != WORDS[symbol] and len({sent for sent, came in zip(WORDS[symbol], heard) if came not in ("-", sent)}) == 2:
                return number
        return None

    def ends_within(self):
        """Whether the reception ends with the transmission, or before."""
        return self.origin is None or len(self.elements) <= self.origin + ELEMENTS * len(self.slots)

    def shows(self, place):
        """Whether a copy of the list's character at this place came intact. The last two places have a DX copy alone."""
        if self.origin is None:
            return False
        numbers = [FIRST_DX + 2 * place] + ([FIRST_RX + 2 * place] if place + 2 < len(self.symbols) else [])
        return any(slot(self.elements, self.origin, number) == WORDS[self.symbols[place]] for number in numbers)


class Verdict:
    """Whether the call must, may or must not come, and why; whether its expansion must; and the places that came nowhere."""

    def __init__(self, word, why, call=None, heard=()):
        """Of a call whose receptions have errors in one sense alone at most these are given: no other call may come then, and a place that
        is named missing is one that came nowhere."""
        self.word, self.why, self.call, self.is_heard = word, why, call, bool(heard)
        symbols = call.symbols if call and heard else []
        self.lost = {place for place in range(len(symbols)) if not any(it.shows(place) for it in heard)}
        self.has_end = bool(heard) and all(it.ends_within() for it in heard)
        # The second and the third end after an expansion aren't needed.
        behind = set(range(len(call.list), len(symbols) - 2)) if call and call.tail else set()
        self.expansion = MUST if word == MUST and behind and not behind & self.lost else MAY


def fault_of(receptions):
    """Why not each of the receptions is one of the list with errors in one sense alone, or nothing."""
    for number, it in enumerate(receptions):
        wrong = it.first_two_way()
        if wrong is not None:
            where = f" of reception {number}" if len(receptions) > 1 else ""
            return f"errors of both senses in slot {wrong}{where}"
    return ""


def of_call(call, bodies):
    """What must come of receptions of a call."""
    receptions = [Reception(body, call.symbols) for body in bodies]
    fault = fault_of(receptions)
    if fault:
        return Verdict(MAY, fault, call)
    if all(it.origin is None for it in receptions):
        return Verdict(NOT, "no origin is found", call, receptions)
    came = [any(it.shows(place) for it in receptions) for place in range(len(call.list))]
    head = came[:2] if call.list[0] in NEEDS_BOTH else [came[0] or came[1]]
    needed = {**dict(enumerate(head)), **{place: came[place] for place in range(2, call.check_place + 1)}}
    lost = [place for place, is_there in needed.items() if not is_there]
    if not lost:
        return Verdict(MUST, "each place came", call, receptions)
    if lost != [call.end_place]:
        return Verdict(NOT, f"place {next(place for place in lost if place != call.end_place)} came nowhere", call, receptions)
    if not all(it.ends_within() for it in receptions):
        return Verdict(MAY, f"place {lost[0]}, the end, came nowhere, and a reception goes on past the call", call, receptions)
    if came[call.end_place + 2] or came[call.end_place + 3]:
        return Verdict(MUST, "each place came, the end in a later copy", call, receptions)
    return Verdict(NOT, "no copy of the end came", call, receptions)


def of_no_call(no_call, bodies):
    """What must come of receptions of a list with which no call begins: nothing, where they show no other symbols than the list's."""
    receptions = [Reception(body, no_call.symbols) for body in bodies]
    fault = fault_of(receptions)
    if fault:
        return Verdict(MAY, fault)
    if not all(it.ends_within() for it in receptions):
        return Verdict(MAY, "a reception goes on past the list")
    return Verdict(NOT, "no call was sent")


def is_lost(verdict, place):
    """Whether a place that an answer names came nowhere."""
    return place.isdecimal() and int(place) in verdict.lost


def contradiction(verdict, answer):
    """What is wrong with an answer of `dsc` by what is proved of it, or nothing."""
    kind, _, rest = answer.partition(" ")
    text, _, broken = rest.partition(" broken ")
    if kind != "reported":
        if verdict.word == MUST:
            return "the call must come"
        if verdict.is_heard and not (kind == "missing" and is_lost(verdict, rest)):
            return "it names no place that came nowhere"
        return ""
    if verdict.word == NOT:
        return "no call may come"
    if not verdict.is_heard:
        return ""
    call = verdict.call
    if text not in (call.base, call.text):
        return "another call comes"
    if verdict.expansion == MUST and text != call.text:
        return "the expansion must come"
    if broken and call.tail and not is_lost(verdict, broken):
        return f"place {broken} of the expansion came"
    if broken and not call.tail and verdict.has_end:
        return "nothing follows the call"
    return ""
