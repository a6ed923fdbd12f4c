"""The lines of `dsc-listen`, as text or as JSON."""

import datetime
import json

VERSION = 1


def moment(seconds):
    """A moment in UTC, to a tenth of a second."""
    when = datetime.datetime.fromtimestamp(round(seconds, 1), datetime.timezone.utc)
    return when.strftime("%Y-%m-%dT%H:%M:%S.") + f"{when.microsecond // 100000}Z"


def as_text(record):
    """A record as a line of words."""
    kind, now = record["class"], moment(record["now"])
    if kind == "health":
        inverted = " inverted" if record["inverted"] else ""
        return f"health {now} {record['receiver']} elements={record['elements']} doubtful={record['doubtful']:.3f} starts={record['starts']} reported={record['reported']}{inverted}"
    if kind == "source":
        return f"source {now} {record['receiver']} {record['state']}"
    heard = ",".join(f"{name}@{moment(when)}" for name, when in record["receptions"])
    word = "again" if record.get("again") else kind
    return f"{word} {moment(record['start'])} {now} {heard} {record['text']}"


def as_json(record):
    """A record as an object in one line, its class first."""
    made = {"class": record["class"], "version": VERSION}
    for name, value in record.items():
        if name in ("start", "now"):
            made[name] = moment(value)
        elif name == "receptions":
            made[name] = [{"receiver": receiver, "start": moment(when)} for receiver, when in value]
        else:
            made[name] = value
    return json.dumps(made, ensure_ascii=False)
