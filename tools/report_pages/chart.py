"""A chart of positions, drawn as SVG: latitude and longitude with a grid, labels that don't collide, and areas as rectangles."""

import math
from html import escape

from .casualties import position_of

WIDE, HIGH, EDGE = 720, 420, 46
STEPS = (0.05, 0.1, 0.25, 0.5, 1, 2, 5, 10, 20, 30, 45)


def degrees(value, signs, finer=False):
    """Degrees and minutes, finer ones with thousandths of a minute."""
    parts = 1000 if finer else 1
    minutes = round(abs(value) * 60 * parts)
    whole, rest = divmod(minutes, 60 * parts)
    return f"{whole}°{rest / parts:06.3f}' {signs[value < 0]}" if finer else f"{whole}°{rest:02d}' {signs[value < 0]}"


def step_for(span):
    return next((step for step in STEPS if span / step <= 6), STEPS[-1])


class Frame:
    """The part of the world that is drawn: degrees of longitude are narrower by the cosine of the latitude."""

    def __init__(self, points):
        south, north = min(it[0] for it in points), max(it[0] for it in points)
        west, east = min(it[1] for it in points), max(it[1] for it in points)
        middle = math.radians((south + north) / 2)
        narrow = max(math.cos(middle), 0.2)
        high = max(north - south, (east - west) * narrow * (HIGH - 2 * EDGE) / (WIDE - 2 * EDGE), 0.2) * 1.25
        wide = high / narrow * (WIDE - 2 * EDGE) / (HIGH - 2 * EDGE)
        self.south, self.west = (south + north - high) / 2, (west + east - wide) / 2
        self.high, self.wide = high, wide

    def at(self, latitude, longitude):
        x = EDGE + (longitude - self.west) / self.wide * (WIDE - 2 * EDGE)
        y = HIGH - EDGE - (latitude - self.south) / self.high * (HIGH - 2 * EDGE)
        return round(x, 1), round(y, 1)


def grid(frame):
    parts = []
    step = step_for(frame.high)
    for number in range(math.ceil(frame.south / step), math.floor((frame.south + frame.high) / step) + 1):
        x, y = frame.at(number * step, frame.west)
        parts.append(f'<line class="grid" x1="{EDGE}" y1="{y}" x2="{WIDE - EDGE}" y2="{y}"/><text class="tick" x="{EDGE - 4}" y="{y + 4}" text-anchor="end" textLength="40" lengthAdjust="spacingAndGlyphs">{degrees(number * step, "NS")}</text>')
    step = step_for(frame.wide)
    for number in range(math.ceil(frame.west / step), math.floor((frame.west + frame.wide) / step) + 1):
        x, y = frame.at(frame.south, number * step)
        parts.append(f'<line class="grid" x1="{x}" y1="{EDGE}" x2="{x}" y2="{HIGH - EDGE}"/><text class="tick" x="{x}" y="{HIGH - EDGE + 16}" text-anchor="middle">{degrees(number * step, "EW")}</text>')
    return parts


# How long and how high a label is.
LABEL, LINE = 76, 14


def is_free(left, y, taken):
    """Whether a label that begins here would stand on no other label and on no point, and inside the chart."""
    return left > 4 and left + LABEL < WIDE - 4 and all(abs(y - other) >= LINE or left >= right or left + LABEL <= begin for begin, right, other in taken)


def label_places(points):
    """Where the label of each point begins: to its right or its left, or some lines higher or lower, where nothing else stands."""
    taken = [(x - 7, x + 7, y + 4) for x, y in points]
    places = []
    for x, y in points:
        tries = [(left, y + 4 + LINE * lines) for lines in (0, -1, 1, -2, 2, -3, 3) for left in (x + 9, x - 9 - LABEL)]
        left, at = next((it for it in tries if is_free(*it, taken)), tries[0])
        taken.append((left, left + LABEL, at))
        places.append((left, at))
    return places


def chart(casualties):
    """The chart of all positions and areas, or nothing where there is none."""
    marks, areas = [], []
    for casualty in casualties:
        places = [position_of(it) for it in casualty.of_kind("alert") or casualty.rows]
        place = next((it for it in reversed(places) if it), None)
        if place:
            marks.append((casualty, place))
        areas += [it.said["to"]["area"] for it in casualty.rows if "to" in it.said]
    points = [(place["latitude"], place["longitude"]) for _, place in marks]
    points += [point for it in areas for point in ((it["north"], it["west"]), (it["south"], it["east"]))]
    if not points:
        return ""
    frame = Frame(points)
    parts = grid(frame)
    for it in areas:
        (left, top), (right, bottom) = frame.at(it["north"], it["west"]), frame.at(it["south"], it["east"])
        parts.append(f'<rect class="area" x="{left}" y="{top}" width="{right - left:.1f}" height="{bottom - top:.1f}"/>')
    where = [frame.at(place["latitude"], place["longitude"]) for _, place in marks]
    for (casualty, _), (x, y), (label_x, label_y) in zip(marks, where, label_places(where)):
        kind = "waits" if casualty.waits() else "answered"
        parts.append(f'<circle class="{kind}" cx="{x}" cy="{y}" r="6"/><text x="{label_x}" y="{label_y}">{escape(casualty.identity)}</text>')
    return f'<svg viewBox="0 0 {WIDE} {HIGH}" role="img" aria-label="Chart of the positions of the casualties"><rect class="sea" width="{WIDE}" height="{HIGH}"/>{"".join(parts)}</svg>'
