"""The casualties of logs: their alerts, who acknowledged and relayed them, and who still waits."""

from json_lines.reading import row

KINDS = {"alert": "Alert", "ack": "Acknowledged", "relay": "Relayed", "relayack": "Relay acknowledged"}


class Row:
    """A row of the book, with the sentences that gave it."""

    def __init__(self, text, heard):
        self.text, self.heard = text, heard
        self.said = row(text.split())
        self.finer = None

    def stamps(self):
        return sorted(it.stamp for it in self.heard if it.stamp)

    def key(self):
        """What an acknowledgement has in common with its alert: the nature and the time that the ship gave."""
        nature = self.said["nature"]
        return nature and nature["symbol"], self.said["time"]

    def by(self):
        """By whom it was, or for which area."""
        if "to" not in self.said:
            return f"by {self.said['from']}"
        area = self.said["to"]["area"]
        return "for the area from {north} {west} to {south} {east}".format(
            **{side: f"{abs(area[side])}° {signs[area[side] < 0]}" for side, signs in (("north", "NS"), ("west", "EW"), ("south", "NS"), ("east", "EW"))}
        )


class Casualty:
    """A ship in distress: its rows by kind."""

    def __init__(self, identity, rows):
        self.identity, self.rows = identity, rows

    def of_kind(self, kind):
        return [it for it in self.rows if it.said["kind"] == kind]

    def first(self):
        return min((stamp for it in self.rows for stamp in it.stamps()), default="")

    def answers(self, alert):
        """The acknowledgements that fit an alert: those of its nature and time."""
        return [it for it in self.of_kind("ack") if it.key() == alert.key()]

    def state(self, alert):
        """Whether an alert waits: no acknowledgement fits it, or it was heard again after all that do."""
        fitting = self.answers(alert)
        if not fitting:
            return "waits"
        last, stamps = max((stamp for it in fitting for stamp in it.stamps()), default=""), alert.stamps()
        return "again" if last and stamps and stamps[-1] > last else "acknowledged"

    def waits(self):
        """Whether any of its alerts waits; one of which only relays were heard waits too."""
        alerts = self.of_kind("alert")
        return any(self.state(it) != "acknowledged" for it in alerts) or not alerts and not self.of_kind("ack")


def casualties_of(heard):
    """The casualties by the time at which they were first heard, and the distress calls that the book leaves out."""
    rows, left_out = {}, []
    for it in heard:
        if it.row:
            rows.setdefault(it.row, []).append(it)
        elif it.fields and it.fields["name"] == "DSC" and (it.fields["category"] or {}).get("symbol") == 112:
            left_out.append(it)
    by_ship = {}
    for text, its in sorted(rows.items()):
        made = Row(text, its)
        by_ship.setdefault(made.said["casualty"], []).append(made)
    found = [Casualty(identity, its) for identity, its in by_ship.items()]
    for casualty in found:
        for alert in casualty.of_kind("alert"):
            alert.finer = finer_of(alert, heard)
    return sorted(found, key=lambda it: (it.first() == "", it.first(), it.identity)), left_out


def finer_of(alert, heard):
    """The finer position that a DSE sentence after one of its alerts gives, if any."""
    for it in alert.heard:
        if not it.fields["expanded"]:
            continue
        at = heard.index(it)
        for other in heard[at + 1 : at + 4]:
            if other.log == it.log and other.fields and other.fields["name"] == "DSE" and other.fields["address"] == alert.said["casualty"]:
                return other.fields["expansion"].get("finer")
    return None


def position_of(alert):
    """The position of an alert in degrees, the finer one where it is known."""
    place = alert.said["position"]
    if not place or not alert.finer:
        return place
    sign = lambda value: -1 if value < 0 else 1
    return {
        "latitude": round(place["latitude"] + sign(place["latitude"]) * alert.finer["latitude_minutes"] / 60, 7),
        "longitude": round(place["longitude"] + sign(place["longitude"]) * alert.finer["longitude_minutes"] / 60, 7),
    }
