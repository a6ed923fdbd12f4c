"""Calls: their texts, by chance, and the lists of symbols that they spell.

The lists are worked out here, by the forms of M.493 and the profile of this project. They are compared with what `dsc encode` sends
before vectors are made of them, and no other part of `dsc` is asked.
"""

import functools
import operator

from shared.symbols import CATEGORIES, NATURES, NO_INFORMATION, NOTICES, SPECIFIERS

from . import names

# The first words of calls' texts, each with the names of its fields in their order. A call to one station may have `at` for `f1` and `f2`.
FIELDS = {
    "alert": ("from", "nature", "pos", "time", "then"),
    "ack": ("from", "casualty", "nature", "pos", "time", "then"),
    "relay": ("to", "from", "casualty", "nature", "pos", "time", "then", "end"),
    "relayack": ("to", "from", "casualty", "nature", "pos", "time", "then"),
    "all": ("cat", "from", "first", "second", "f1", "f2"),
    "area": ("to", "cat", "from", "first", "second", "f1", "f2"),
    "group": ("to", "cat", "from", "first", "second", "f1", "f2"),
    "one": ("to", "cat", "from", "first", "second", "f1", "f2", "end"),
    "test": ("to", "cat", "from", "end"),
    "askpos": ("to", "cat", "from"),
    "pos": ("to", "cat", "from", "pos", "time"),
}
UNKNOWN_POSITION, UNKNOWN_TIME = "9" * 10, "8" * 4
# A symbol that stands in place of a field has three characters, and so have the telecommand and the fields of a service call.
FIELD_LENGTH, SERVICE_LENGTH = 3, 7
DIGITS = {"enh": 8, "speed": 4, "course": 4}
LAST_COURSE = 3599
# Places of a list from its end: the first end of sequence, and the check after it.
END_FROM_LAST, CHECK_FROM_LAST = 4, 3


def pairs(digits):
    """The symbols of digits, two of them each."""
    return [int(digits[at : at + 2]) for at in range(0, len(digits), 2)]


def identity(digits):
    """The symbols of an identity, whose nine digits a 0 follows."""
    return pairs(digits + "0")


def frequency(text):
    return [NO_INFORMATION] * FIELD_LENGTH if text == "none" else pairs(text)


def check_of(symbols):
    """The error check character of these symbols: the exclusive or."""
    return functools.reduce(operator.xor, symbols)


def ended(symbols, end, first=1):
    """The symbols with their end of sequence, its check, and the end twice more. The check leaves out what stands before the first."""
    checked = symbols + [end]
    return checked + [check_of(checked[first:]), end, end]


def addressed(to):
    """The format specifier and the address of whom a relay is for."""
    kind, _, said = to.partition(":")
    if kind == "all":
        return names.ALL_SHIPS, []
    if kind == "area":
        return names.AREA, pairs(said)
    return (names.GROUP if kind == "group" else names.STATION), identity(said)


def casualty(field):
    """The symbols of who is in distress: identity, nature, position, time, and how to go on."""
    who = identity(field.get("casualty", field["from"]))
    return who + [int(field["nature"])] + pairs(field["pos"]) + pairs(field["time"]) + [int(field["then"])]


def distress(form, field):
    """The format, the symbols after it and the end of a call of distress."""
    if form == "alert":
        return names.ALERT, casualty(field), names.NEITHER
    told = names.ACKNOWLEDGED if form == "ack" else names.RELAYED
    specifier, address = (names.ALL_SHIPS, []) if form == "ack" else addressed(field["to"])
    end = names.ANSWERS if form == "relayack" else int(field.get("end", names.NEITHER))
    return specifier, address + [names.DISTRESS] + identity(field["from"]) + [told] + casualty(field), end


def service(form, field):
    """The symbols after the sender of a call without two telecommands, and its end."""
    if form == "pos":
        symbols = [names.PLACED, NO_INFORMATION, names.POSITION_FOLLOWS] + pairs(field["pos"]) + pairs(field["time"])
        return symbols, names.ANSWERS
    told = names.TESTED if form == "test" else names.PLACED
    return [told] + [NO_INFORMATION] * SERVICE_LENGTH, int(field.get("end", names.ASKS))


def traffic(form, field):
    """The format, the symbols after it and the end of every other call."""
    kinds = {"all": "all", "area": f"area:{field.get('to')}", "group": f"group:{field.get('to')}"}
    specifier, address = addressed(kinds.get(form, f"one:{field.get('to')}"))
    symbols = address + [int(field["cat"])] + identity(field["from"])
    if "first" not in field:
        more, end = service(form, field)
        return specifier, symbols + more, end
    message = [names.POSITION_FOLLOWS] + pairs(field["at"]) if "at" in field else frequency(field["f1"]) + frequency(field["f2"])
    return specifier, symbols + [int(field["first"]), int(field["second"])] + message, int(field.get("end", names.NEITHER))


def spelled(text):
    """The list of the call of this text: the format specifier twice, its symbols, the end of sequence, the check, the end twice more."""
    form, *words = text.split(" ")
    field = dict(word.split("=") for word in words)
    specifier, symbols, end = (distress if "nature" in field else traffic)(form, field)
    return ended([specifier, specifier] + symbols, end)


def spelled_expansion(sets, end):
    """The list of an expansion of these sets, after a call with this end of sequence."""
    symbols = []
    for name, value in sets:
        symbols += [SPECIFIERS[name]] + ([NO_INFORMATION] if value == "none" else pairs(value))
    return ended(symbols, end, 0)


class Call:
    """A call with or without an expansion: its text, its list, and the list of what follows it."""

    def __init__(self, text, sets=()):
        self.base, self.sets = text, tuple(sets)
        self.form = text.split(" ")[0]
        self.list = spelled(text)
        self.end_place, self.check_place = len(self.list) - END_FROM_LAST, len(self.list) - CHECK_FROM_LAST
        self.tail = spelled_expansion(self.sets, self.list[-1]) if self.sets else []
        self.text = text + "".join([" exp"] + [f" {name}={value}" for name, value in self.sets]) if self.sets else text
        self.symbols = self.list + self.tail


# ---- by chance


def digits(chance, count, most=None):
    """So many digits by chance, of a number up to the most."""
    return f"{chance.below((most or 10**count - 1) + 1):0{count}}"


def position(chance):
    """The ten digits of a position; one in six isn't known."""
    if chance.below(6) == 0:
        return UNKNOWN_POSITION
    return f"{chance.below(4)}{chance.below(90):02}{chance.below(60):02}{chance.below(180):03}{chance.below(60):02}"


def minute(chance):
    """The four digits of an hour and a minute; one in six isn't known."""
    return UNKNOWN_TIME if chance.below(6) == 0 else f"{chance.below(24):02}{chance.below(60):02}"


def area(chance):
    return f"{chance.below(4)}{chance.below(91):02}{chance.below(181):03}{digits(chance, 2)}{digits(chance, 2)}"


def frequency_text(chance):
    """A frequency in hundreds or in tens of hertz, a channel of HF or of VHF, or none."""
    return chance.one_of((
        "none", digits(chance, 6, 299_999), "3" + digits(chance, 5), f"{names.VHF_CHANNEL}{digits(chance, 4)}", "4" + digits(chance, 7),
    ))


def relay_to(chance):
    return chance.one_of(("all", f"area:{area(chance)}", f"group:{digits(chance, 9)}", f"one:{digits(chance, 9)}"))


def end(chance, form):
    """An end of sequence that the form may have."""
    ends = {"relay": (names.ASKS, names.NEITHER), "test": (names.ASKS, names.ANSWERS)}
    return chance.one_of(ends.get(form, (names.ASKS, names.ANSWERS, names.NEITHER)))


# The categories of calls that are none of distress.
TRAFFIC = [number for number in CATEGORIES if number != names.DISTRESS]


def value(chance, form, name):
    """The value of a field by chance."""
    if name in ("from", "casualty"):
        return digits(chance, 9)
    if name == "to":
        return relay_to(chance) if form in ("relay", "relayack") else area(chance) if form == "area" else digits(chance, 9)
    makers = {"pos": position, "at": position, "time": minute, "f1": frequency_text, "f2": frequency_text}
    if name in makers:
        return makers[name](chance)
    if name == "end":
        return str(end(chance, form))
    tables = {
        "nature": list(NATURES), "then": names.SUBSEQUENT + [NO_INFORMATION], "cat": TRAFFIC, "first": names.FIRSTS + [NO_INFORMATION],
        "second": list(NOTICES) + [NO_INFORMATION],
    }
    return str(chance.one_of(tables[name]))


def text_by_chance(chance, form):
    """The text of a call of this form."""
    fields = FIELDS[form]
    if form == "one" and chance.below(3) == 0:
        fields = fields[: fields.index("f1")] + ("at", "end")
    return " ".join([form] + [f"{name}={value(chance, form, name)}" for name in fields])


def sets_by_chance(chance):
    """The sets of an expansion: one, two or all of them, and one value in four says that there is no information."""
    made = []
    for name in chance.some_of(chance.between(1, len(DIGITS)), list(DIGITS)):
        most = LAST_COURSE if name == "course" else None
        made.append((name, "none" if chance.below(4) == 0 else digits(chance, DIGITS[name], most)))
    return made


def calls_by_chance(chance):
    """A call of each form, without an expansion and with one."""
    made = []
    for form in FIELDS:
        made.append(Call(text_by_chance(chance, form)))
        made.append(Call(text_by_chance(chance, form), sets_by_chance(chance)))
    return made
