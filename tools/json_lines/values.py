"""The values of calls, sentences and rows, each in one form wherever it stands. A text that is no such value is a ValueError."""

import re

from shared import symbols
from shared.symbols import CATEGORIES, ENDS, FORMATS, NATURES, NO_INFORMATION, NOTICES, TELECOMMANDS

QUADRANTS = ((1, 1), (1, -1), (-1, 1), (-1, -1))
UNKNOWN_PLACE, UNKNOWN_MINUTE = str(symbols.UNKNOWN_POSITION) * 5, str(symbols.UNKNOWN_TIME) * 2
# The decimal places of degrees: a minute of latitude is 0.0167 degrees, and its ten-thousandth 0.0000017.
PLACES = 7


def checked(text, form):
    """The text, where it has this form."""
    if not re.fullmatch(form, text):
        raise ValueError(text)
    return text


def symbol(table, text):
    """A symbol by its number, of which two digits are the last two, with its word."""
    number = int(checked(text, r"\d{2,3}")) + (100 if len(text) == 2 else 0)
    if number > symbols.LAST:
        raise ValueError(text)
    word = "no information" if number == NO_INFORMATION else table.get(number)
    return {"symbol": number, "word": word}


def nature(text):
    return symbol(NATURES, text)


def telecommand(text):
    return symbol(TELECOMMANDS, text)


def notice(text):
    return symbol(NOTICES, text)


def category(text):
    return symbol(CATEGORIES, text)


def format_specifier(text):
    return symbol(FORMATS, text)


def end(text):
    return {"symbol": int(text), "word": ENDS[int(text)]}


def identity(text):
    """An identity, nine digits; in sentences and rows a 0 comes after it."""
    return checked(text, r"\d{9}0?")[:9]


def position(text, finer=None):
    """A position in degrees, north and east above 0, or nothing where it isn't known. With eight digits of an expansion it is finer."""
    if checked(text, r"[0-3]\d{9}|9{10}") == UNKNOWN_PLACE:
        return None
    north, east = QUADRANTS[int(text[0])]
    more = (int(finer[:4]) / 10_000, int(finer[4:]) / 10_000) if finer else (0, 0)
    latitude = int(text[1:3]) + (int(text[3:5]) + more[0]) / 60
    longitude = int(text[5:8]) + (int(text[8:10]) + more[1]) / 60
    return {"latitude": round(north * latitude, PLACES), "longitude": round(east * longitude, PLACES)}


def minute(text):
    """A time of the day in UTC, as 20:19, or nothing where it isn't known."""
    return None if checked(text, r"([01]\d|2[0-3])[0-5]\d|8888") == UNKNOWN_MINUTE else f"{text[:2]}:{text[2:]}"


def area(text):
    """An area: its corners in degrees, north and east above 0."""
    north, east = QUADRANTS[int(checked(text, r"[0-3]\d{9}")[0])]
    latitude, longitude = north * int(text[1:3]), east * int(text[3:6])
    return {"north": latitude, "west": longitude, "south": latitude - int(text[6:8]), "east": longitude + int(text[8:10])}


def is_area(text):
    """Whether ten digits can only be an area: those of an identity end with a 0."""
    return len(text) == 10 and not text.endswith("0")


def frequency(text):
    """A frequency in hertz or a channel; nothing where none is named."""
    if text in ("none", ""):
        return None
    if len(text) == 8:
        return {"hertz": int(text[1:]) * 10}
    if text.startswith("90"):
        return {"vhf_channel": int(text[2:])}
    if text.startswith("3"):
        return {"hf_channel": int(text[1:])}
    return {"hertz": int(text) * 100}


def expansion(sets):
    """The sets of an expansion, by their names in call texts."""
    made = {}
    for name, value in sets:
        if name == "enh":
            made["finer"] = None if value == "none" else {"latitude_minutes": int(value[:4]) / 10_000, "longitude_minutes": int(value[4:]) / 10_000}
        elif name == "speed":
            made["speed_knots"] = None if value == "none" else int(value) / 10
        else:
            made["course_degrees"] = None if value == "none" else int(value) / 10
    return made
