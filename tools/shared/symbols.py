"""The words of symbols, table by table, each table with the name of its file in crates/dsc_symbols/src; and the comparison of both."""

import os
import re

NATURES = {
    100: "fire, explosion", 101: "flooding", 102: "collision", 103: "grounding", 104: "listing, in danger of capsizing",
    105: "sinking", 106: "disabled and adrift", 107: "undesignated distress", 108: "abandoning ship",
    109: "piracy or armed robbery attack", 110: "man overboard", 112: "emission of an emergency position-indicating radiobeacon",
}
TELECOMMANDS = {
    100: "F3E or G3E telephony, all modes", 101: "F3E or G3E telephony, duplex", 103: "polling", 104: "unable to comply", 106: "data",
    109: "J3E telephony", 110: "distress acknowledgement", 112: "distress relay", 113: "teletype with forward error correction",
    115: "teletype with automatic requests for repetition", 118: "test", 121: "ship position",
}
NOTICES = {
    100: "no reason given", 101: "congestion at the maritime switching centre", 102: "busy", 103: "queue indication",
    104: "station barred", 105: "no operator available", 106: "operator temporarily unavailable", 107: "equipment disabled",
    108: "unable to use the proposed channel", 109: "unable to use the proposed mode",
    110: "ships and aircraft of States that are not parties to an armed conflict", 111: "medical transports",
    112: "pay-phone, public call office", 113: "facsimile",
}
CATEGORIES = {100: "routine", 108: "safety", 110: "urgency", 112: "distress"}
FORMATS = {
    102: "a call to the ships in a geographical area", 112: "a distress alert", 114: "a call to the ships of a group",
    116: "a call to all ships", 120: "a call to one station",
}
ENDS = {117: "the call asks for an acknowledgement", 122: "the call is the acknowledgement", 127: "neither"}
MESSAGES = {
    126: "no information", 55: "a position follows", 99: "each character of a position that is not known",
    88: "each character of a time that is not known", 90: "a VHF channel follows",
}
PHASING = {125: "the phasing symbol of each DX slot", **{104 + number: f"the phasing symbol of an RX slot, RX {number}" for number in range(8)}}
TABLES = {
    "natures": NATURES, "telecommands": TELECOMMANDS, "notices": NOTICES, "categories": CATEGORIES, "formats": FORMATS, "ends": ENDS,
    "messages": MESSAGES, "phasing": PHASING,
}
NO_INFORMATION, UNKNOWN_POSITION, UNKNOWN_TIME, VHF_CHANNEL = 126, 99, 88, 90
# The sets of an expansion by their names in call texts, each with its specifier, as crates/expansion has them.
SPECIFIERS = {"enh": 100, "speed": 102, "course": 103}
# The last symbol that there is.
LAST = 127
# The documents of some constants begin with a name of the symbol, or go on after what it is.
NAMED = re.compile(r"^(?:Acknowledge [RB]Q|EOS): ")
USED = re.compile(r", in (?:place of a telecommand|a message|a frequency)\b.*$")


def documented(folder):
    """The tables that stand in the folder of the crate: of each file the symbols of its constants with the words of their documents."""
    tables = {}
    for file in sorted(os.listdir(folder)):
        with open(os.path.join(folder, file), encoding="utf-8") as text:
            found = re.findall(r"/// (.*?)\.\npub const [A-Z0-9_]+: u8 = (\d+);", text.read())
        if found:
            tables[file.removesuffix(".rt")] = {int(number): USED.sub("", NAMED.sub("", words)) for words, number in found}
    return tables


def differences(folder):
    """How many words there are, and of each that differs a line."""
    count, lines, theirs = 0, [], documented(folder)
    for name in sorted(set(theirs) | set(TABLES)):
        pinned, own = theirs.get(name, {}), TABLES.get(name, {})
        for number in sorted(set(pinned) | set(own)):
            count += 1
            if pinned.get(number, "").lower() != own.get(number, "").lower():
                lines.append(f"{name} {number}: {pinned.get(number)!r} in crates/dsc_symbols, {own.get(number)!r} here")
    return count, lines
