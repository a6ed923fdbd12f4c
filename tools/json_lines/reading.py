"""What lines say, as objects: their class first, and one name for one thing in answers, sentences and rows."""

import re

from . import values

VERSION = 1
SENTENCE = re.compile(r"\$CDDS[CE],")
# A date, a time of day, or seconds: what stands in front of a line in a log.
STAMP = re.compile(r"\[?(\d{4}-\d\d-\d\d([T ]\d\d:\d\d(:\d\d)?)?|\d\d:\d\d(:\d\d)?|\d+[.]\d+)([.,]\d+)?(Z|[+-]\d\d:?\d\d)?\]?:?")
CODES = {"00": "enh", "02": "speed", "03": "course"}
SENTENCE_ENDS = {"R": "117", "B": "122", "S": "127"}
LINKS = {"s": "ship", "c": "coast"}


class Other(Exception):
    """The words are no line of this kind."""


def fields_of(words):
    return dict(word.split("=", 1) for word in words if "=" in word)


def address(form, text):
    """Whom a call is for: by the text of `to`, or by the form of the call."""
    kind, _, value = text.partition(":")
    if form in ("area", "group", "one", "test", "askpos", "pos"):
        kind, value = {"area": "area", "group": "group"}.get(form, "one"), text
    if kind == "all":
        return {"kind": "all"}
    if kind == "area":
        return {"kind": "area", "area": values.area(value)}
    return {"kind": "group" if kind == "group" else "station", "identity": value}


def call(words):
    """The call of a text, with what follows it."""
    form, made = words[0], {}
    if form not in ("alert", "ack", "relay", "relayack", "all", "area", "group", "one", "test", "askpos", "pos"):
        raise Other
    sets, broken = [], None
    if "exp" in words:
        at = words.index("exp")
        sets, words = [word.split("=", 1) for word in words[at + 1 :]], words[:at]
    elif "broken" in words:
        at = words.index("broken")
        broken, words = int(words[at + 1]), words[:at]
    field = fields_of(words[1:])
    made.update(form=form, **{"from": field["from"]})
    if form == "all":
        made["to"] = {"kind": "all"}
    elif "to" in field:
        made["to"] = address(form, field["to"])
    if "casualty" in field:
        made["casualty"] = field["casualty"]
    if "cat" in field:
        made["category"] = values.category(field["cat"])
    if "nature" in field:
        made["nature"] = values.nature(field["nature"])
    finer = next((value for name, value in sets if name == "enh" and value != "none"), None)
    for name in ("pos", "at"):
        if name in field:
            made["position"] = values.position(field[name], finer)
    if "time" in field:
        made["time"] = values.minute(field["time"])
    if "then" in field:
        made["subsequent"] = values.telecommand(field["then"])
    if "first" in field:
        made["first"], made["second"] = values.telecommand(field["first"]), values.notice(field["second"])
    if "f1" in field:
        made["frequencies"] = [values.frequency(field["f1"]), values.frequency(field["f2"])]
    if "end" in field:
        made["end"] = values.end(field["end"])
    if sets:
        made["expansion"] = values.expansion(sets)
    if broken is not None:
        made["broken"] = broken
    return made


def answer(words):
    """The answer of a group."""
    kind = words[0]
    if kind == "reported":
        return {"result": kind, "call": call(words[1:])}
    if kind not in ("missing", "differ", "outside", "check"):
        raise Other
    numbers = list(map(int, words[1:]))
    names = {"missing": (), "differ": ("least", "greatest"), "outside": ("symbol",), "check": ("want", "got")}[kind]
    return {"result": kind, "place": numbers[0], **dict(zip(names, numbers[1:], strict=True))}


def group_of(word):
    found = re.fullmatch(r"g(\d+)", word)
    if not found:
        raise Other
    return int(found[1])


def act(words):
    """What a station does, or its operator is told."""
    kind = words[0]
    if kind == "send":
        return {"act": kind, "times": int(words[1]), "call": call(words[2:])}
    if kind == "distress":
        field = fields_of(words[1:])
        return {
            "act": kind, "casualty": field["casualty"], "nature": values.nature(field["nature"]), "position": values.position(field["pos"]),
            "time": values.minute(field["time"]), "subsequent": values.telecommand(field["then"]),
        }
    if kind == "refused":
        return {"act": kind, "reason": words[1], "details": words[2:]}
    if kind in ("held", "answered", "gaveup", "nothing"):
        return {"act": kind, "number": int(words[1])}
    if kind == "closed":
        return {"act": kind, "casualty": words[1]}
    if kind in ("shown", "ended") and len(words) == 1:
        return {"act": kind}
    raise Other


def verdict(words):
    if words == ["accepted"]:
        return {"class": "verdict", "accepted": True}
    if words[0] != "refused" or len(words) < 2:
        raise Other
    reason = "too long" if words[1:3] == ["too", "long"] else words[1]
    if reason not in ("too long", "start", "end", "checksum", "fields", "field"):
        raise Other
    return {"class": "verdict", "accepted": False, "reason": reason, "details": words[1 + len(reason.split()) :]}


def row(words):
    if words[0] != "casualty" or len(words) != 8:
        raise Other
    field = {name: None if value == "-" else value for name, value in fields_of(words[3:]).items()}
    made = {"class": "row", "casualty": values.identity(words[1]), "kind": words[2]}
    if values.is_area(field["from"]):
        made["to"] = {"kind": "area", "area": values.area(field["from"])}
    else:
        made["from"] = values.identity(field["from"])
    made["nature"] = field["nature"] and values.nature(field["nature"])
    made["position"] = field["pos"] and values.position(field["pos"])
    made["time"] = field["time"] and values.minute(field["time"])
    made["subsequent"] = field["then"] and values.telecommand(field["then"])
    return made


def fault(words):
    if words[0] != "dsc:" or len(words) < 3:
        raise Other
    if words[1:] == ["words", "refused"]:
        return {"class": "fault", "fault": "words refused"}
    if words[1] != "line":
        raise Other
    if words[3] == "column":
        return {"class": "fault", "fault": "ill-formed", "line": int(words[2]), "column": int(words[4])}
    return {"class": "fault", "fault": " ".join(words[3:]), "line": int(words[2])}


def summary(words):
    if len(words) != 2 or words[0] not in ("groups", "receptions", "reported", "missing"):
        raise Other
    return {"class": "summary", words[0]: int(words[1])}


def started(words):
    if words[0] != "at" or len(words) < 4:
        raise Other
    return {"class": "start", "origin": int(words[1]), "group": group_of(words[2]), **answer(words[3:])}


def told(words):
    if words[0] != "told" or len(words) < 3:
        raise Other
    return {"class": "told", "group": group_of(words[1]), "call": call(words[2:])}


def answered(words):
    return {"class": "answer", "group": group_of(words[0]), **answer(words[1:])}


def acted(words):
    made = {"class": "act"}
    if words[0] in LINKS:
        made["end"], words = LINKS[words[0]], words[1:]
    made["at_ms"] = int(words[0])
    try:
        return {**made, **act(words[1:])}
    except Other:
        return {**made, "act": "heard", "group": group_of(words[1]), **answer(words[2:])}


def called(words):
    return {"class": "call", "call": call(words)}


READERS = (fault, row, started, told, answered, summary, verdict, acted, called)


def said_by(words):
    """What words say, or nothing."""
    for reader in READERS:
        try:
            return reader(words)
        except (Other, ValueError, KeyError, IndexError):
            continue
    return None


def dsc_sentence(fields):
    form, to, category, first, second, place, time, ship, nature, end, more = fields
    made = {"class": "sentence", "name": "DSC", "format": values.format_specifier(form)}
    if form == "02":
        made["to"] = {"kind": "area", "area": values.area(to)}
    else:
        made["address"] = values.identity(to)
    made["category"] = category and values.category(category) or None
    if form == "12":
        made["nature"] = first and values.nature(first) or None
    else:
        made["first"] = first and values.telecommand(first) or None
    is_distress = category == "12"
    made["subsequent" if is_distress else "second"] = second and (values.telecommand if is_distress else values.notice)(second) or None
    if len(place) == 10:
        made["position"] = values.position(place)
    elif place:
        made["frequencies"] = list(map(values.frequency, re.findall(r"4\d{7}|\d{6}", place)))
    made["time"] = time and values.minute(time) or None
    if ship:
        made["casualty"] = values.identity(ship)
    if nature:
        made["nature"] = values.nature(nature)
    made["end"] = values.end(SENTENCE_ENDS[end])
    made["expanded"] = more == "E"
    return made


def dse_sentence(fields):
    sets = [(CODES[code], value or "none") for code, value in zip(fields[4::2], fields[5::2], strict=True)]
    return {"class": "sentence", "name": "DSE", "flag": fields[2], "address": values.identity(fields[3]), "expansion": values.expansion(sets)}


def sentence(text):
    """The fields of a DSC or DSE sentence one by one, or nothing; nothing is judged."""
    name, *fields = text.split("*")[0].split(",")
    try:
        if name == "$CDDSC" and len(fields) == 11:
            return dsc_sentence(fields)
        if name == "$CDDSE" and len(fields) in (6, 8, 10):
            return dse_sentence(fields)
    except (ValueError, KeyError, IndexError):
        pass
    return None


def without_stamp(words):
    """The stamp in front of words, and the words after it."""
    stamp = []
    while words and len(stamp) < 2 and STAMP.fullmatch(words[0]):
        stamp.append(words[0])
        words = words[1:]
    return " ".join(stamp), words


def objects_of(line):
    """The objects of a line: that of its words, and that of the sentence in it."""
    found = SENTENCE.search(line)
    words = line[: found.start() if found else len(line)].split()
    made = [said_by(words)] if words else []
    stamp = ""
    if made == [None]:
        stamp, rest = without_stamp(words)
        if not stamp and found:
            # A verdict may stand in front of the stamp.
            stamp, rest = " ".join(word for word in words if STAMP.fullmatch(word)), [word for word in words if not STAMP.fullmatch(word)]
        made = [said_by(rest)] if rest else []
    if found:
        made.append(sentence(line[found.start() :]))
    made = [it for it in made if it] or [{"class": "other", "text": line}]
    for it in made:
        more = {"stamp": stamp} if stamp and it["class"] != "other" else {}
        yield {"class": it["class"], "version": VERSION, **more, **it}
