"""Lists of symbols that are no call, each of one kind, made from the lists of calls."""

from shared.symbols import ENDS

from . import names
from .calls import Call, END_FROM_LAST, ended, text_by_chance

KINDS = ("wrong-check", "outside", "cut", "wrong-end")
# In the list of an alert: the last symbol of its identity, its nature, the first symbol of its position, and its hour.
IDENTITY_END, NATURE, QUADRANT, HOUR = 6, 7, 8, 13
# Symbols from which on no position begins (but for 99, which isn't known) and no hour is (but for 88, the same).
FIRST_NO_QUADRANT, LAST_NO_QUADRANT, FIRST_NO_HOUR, LAST_NO_HOUR = 40, 98, 24, 87
# How many symbols a list that is cut has at least.
LEAST_CUT = 6


class NoCall:
    """A list of symbols with which no call begins: its kind, its symbols and what is wrong."""

    text, tail = "", []

    def __init__(self, form, symbols, what):
        self.form, self.symbols, self.what = form, symbols, what


def checked_anew(symbols, end=None):
    """The list with its end of sequence, or another one, and the check of what stands in front: so the check is right."""
    return ended(symbols[:-END_FROM_LAST], symbols[-1] if end is None else end)


def wrong_check(chance, form):
    """A call whose error check character has one bit or more wrong."""
    call = Call(text_by_chance(chance, form))
    symbols = list(call.list)
    symbols[call.check_place] ^= chance.between(1, 127)
    return NoCall("wrong-check", symbols, f"the check at place {call.check_place} isn't that of {call.text}")


def outside(chance, _form):
    """An alert one of whose symbols no alert has at its place; the check is right."""
    call = Call(text_by_chance(chance, "alert"))
    symbols = list(call.list)
    place = chance.one_of((IDENTITY_END, NATURE, QUADRANT, HOUR))
    symbols[place] = {
        IDENTITY_END: symbols[IDENTITY_END] + chance.between(1, 9), NATURE: names.NO_NATURE,
        QUADRANT: chance.between(FIRST_NO_QUADRANT, LAST_NO_QUADRANT), HOUR: chance.between(FIRST_NO_HOUR, LAST_NO_HOUR),
    }[place]
    return NoCall("outside", checked_anew(symbols), f"no call has symbol {symbols[place]} at place {place}")


def cut(chance, form):
    """A call whose sender stopped before the check: both copies of what it sent are there but for the last two places."""
    call = Call(text_by_chance(chance, form))
    place = chance.between(LEAST_CUT, call.end_place)
    return NoCall("cut", call.list[:place], f"nothing is sent from place {place} on of {call.text}")


def wrong_end(chance, _form):
    """A call three times with an end of sequence that its form never has; the check is right."""
    form = chance.one_of(("alert", "ack", "all", "area", "group", "askpos", "pos"))
    call = Call(text_by_chance(chance, form))
    others = [end for end in ENDS if end != call.list[-1]]
    end = chance.one_of(others)
    return NoCall("wrong-end", checked_anew(call.list, end), f"no call of the form {form} ends with {end}")


def no_calls_by_chance(chance):
    """Two of each kind, of an alert and of another form."""
    makers = (wrong_check, outside, cut, wrong_end)
    return [maker(chance, form) for maker in makers for form in ("alert", chance.one_of(("ack", "relay", "all", "one", "pos")))]
