"""The page: HTML with nothing from elsewhere."""

from html import escape

from .casualties import KINDS, position_of
from .chart import chart, degrees

STYLE = """
:root { color-scheme: light dark; --ink: #1b2a38; --paper: #ffffff; --pale: #eef2f6; --line: #b9c4ce; --waits: #b3261e; --done: #1e6b3a; }
@media (prefers-color-scheme: dark) { :root { --ink: #e4eaf0; --paper: #12181e; --pale: #1d2730; --line: #46535f; --waits: #ff8a80; --done: #7fd39b; } }
body { font: 16px/1.45 Helvetica, Arial, sans-serif; color: var(--ink); background: var(--paper); margin: 0 auto; padding: 1rem; max-width: 60rem; }
h1 { font-size: 1.5rem; } h2 { font-size: 1.2rem; margin-top: 2rem; } h3 { margin: 0 0 .3rem; font-size: 1.05rem; }
article { border: 1px solid var(--line); border-left: .4rem solid var(--done); border-radius: .3rem; padding: .7rem .9rem; margin: .8rem 0; break-inside: avoid; }
article.waits { border-left-color: var(--waits); } .waits strong, strong.waits, strong.again { color: var(--waits); }
.answered strong, .waits strong.acknowledged { color: var(--done); }
ul { margin: .2rem 0; padding-left: 1.2rem; } .small, td, th { font-size: .88rem; } .wide { overflow-x: auto; }
table { border-collapse: collapse; width: 100%; } td, th { border-bottom: 1px solid var(--line); padding: .25rem .5rem; text-align: left; vertical-align: top; }
svg { width: 100%; height: auto; } svg text { font: 12px Helvetica, Arial, sans-serif; fill: var(--ink); } svg .tick { font-size: 10px; }
svg .sea { fill: var(--pale); } svg .grid { stroke: var(--line); stroke-width: 1; } svg .area { fill: none; stroke: var(--ink); stroke-dasharray: 5 4; }
svg circle { stroke: var(--paper); stroke-width: 1.5; } svg .waits { fill: var(--waits); } svg .answered { fill: var(--done); }
code { overflow-wrap: anywhere; }
@page { size: A4; margin: 12mm; }
@media print {
  html { font-size: 9pt; } body { font-size: 1rem; line-height: 1.3; max-width: none; padding: 0; } h1 { font-size: 1.3rem; margin: 0; } h2 { margin: .7rem 0 .3rem; break-after: avoid; }
  .casualties { columns: 2; column-gap: 5mm; } article { margin: 0 0 .3rem; padding: .25rem .5rem; } h3 { margin: 0; font-size: 1rem; } ul { margin: 0; }
  svg { max-height: 8cm; break-inside: avoid; }
}
"""
STATES = {"waits": "no acknowledgement fits it", "again": "heard again after its acknowledgement", "acknowledged": "acknowledged"}


def place_text(alert):
    place = position_of(alert)
    if not place:
        return "position not known"
    is_finer = bool(alert.finer)
    return f"{degrees(place['latitude'], 'NS', is_finer)} {degrees(place['longitude'], 'EW', is_finer)}" + (" by its expansion" if is_finer else "")


def word(symbol):
    return symbol["word"] or f"symbol {symbol['symbol']}" if symbol else "not said"


def stamped(row):
    stamps = row.stamps()
    stations = sorted({it.log for it in row.heard})
    times = f"{stamps[0]}" + (f" to {stamps[-1]}" if stamps[-1] != stamps[0] else "") if stamps else "no stamp"
    return f"{escape(times)}, {len(row.heard)} × in {escape(', '.join(stations))}"


def alert_item(casualty, alert):
    said = alert.said
    return (
        f"<li>{escape(word(said['nature']))}, {escape(place_text(alert))}, {escape(said['time'] + ' UTC as sent' if said['time'] else 'time not known')}: "
        f"<strong class=\"{casualty.state(alert)}\">{STATES[casualty.state(alert)]}</strong><br><span class=\"small\">{stamped(alert)}</span></li>"
    )


def other_item(row):
    said = row.said
    return (
        f"<li>{KINDS[said['kind']]} {escape(row.by())}: {escape(word(said['nature']))}, {escape(said['time'] or 'time not known')}"
        f"<br><span class=\"small\">{stamped(row)}</span></li>"
    )


def casualty_part(casualty):
    alerts, waits = casualty.of_kind("alert"), casualty.waits()
    others = [it for kind in ("ack", "relay", "relayack") for it in casualty.of_kind(kind)]
    head = "waits" if waits else "answered"
    items = "".join(alert_item(casualty, it) for it in alerts) or "<li>No alert of its own was heard.</li>"
    return (
        f'<article class="{head}"><h3>{escape(casualty.identity)}: <strong>{"still waits" if waits else "acknowledged"}</strong></h3>'
        f"<ul>{items}{''.join(map(other_item, others))}</ul></article>"
    )


def refused_part(refused):
    rows = "".join(
        f"<tr><td>{escape(it.where())}</td><td>{escape(it.stamp or '-')}</td><td>{escape(it.verdict.removeprefix('refused '))}</td><td><code>{escape(it.text)}</code></td></tr>" for it in refused
    )
    return f'<div class="wide"><table><thead><tr><th scope="col">Where</th><th scope="col">Stamp</th><th scope="col">Cause</th><th scope="col">Sentence</th></tr></thead><tbody>{rows}</tbody></table></div>'


def left_out_part(left_out):
    items = "".join(f"<li>{escape(it.where())} {escape(it.stamp)} <code>{escape(it.text)}</code></li>" for it in left_out)
    return f"<ul>{items}</ul>"


def counted(number, one):
    """A number of things, by the word for one."""
    return f"{number} {one}" + ("" if number == 1 else "s")


def waiting_text(report):
    """How many casualties there are, and how many of them wait."""
    number, waiting = len(report.casualties), sum(it.waits() for it in report.casualties)
    return f"{number} {'casualty' if number == 1 else 'casualties'}, {waiting} {'waits' if waiting == 1 else 'wait'}"


def page(report):
    """The page of a report."""
    refused = [it for it in report.heard if it.verdict != "accepted"]
    counts = (
        f"{waiting_text(report)}; {counted(len(report.heard), 'DSC or DSE sentence')}, {len(refused)} refused; "
        f"{counted(report.sentences, 'other sentence')} and {counted(report.lines, 'other line')} left out."
    )
    casualties = "".join(map(casualty_part, report.casualties)) or "<p>None.</p>"
    parts = [
        "<!DOCTYPE html>", '<html lang="en"><head><meta charset="utf-8"><meta name="viewport" content="width=device-width, initial-scale=1">',
        f"<title>Distress calls in {escape(', '.join(report.logs))}</title><style>{STYLE}</style></head><body>",
        f"<h1>Distress calls in {escape(', '.join(report.logs))}</h1><p>{counts}</p>",
        "<p class=\"small\">Rows are those of <code>dsc book</code>. An acknowledgement fits an alert of the same casualty, nature and time; whether it "
        "answered it is this report's reading. Sentences have an hour and no day: days are those of the stamps.</p>",
        "<main>", "<h2>Casualties</h2>", f'<div class="casualties">{casualties}</div>',
    ]
    drawn = chart(report.casualties)
    parts.append(f"<h2>Positions</h2>{drawn}" if drawn else "<h2>Positions</h2><p>None is known.</p>")
    if report.left_out:
        parts.append(f"<h2>Distress calls without a casualty's identity</h2><p>The book leaves them out.</p>{left_out_part(report.left_out)}")
    if refused:
        parts.append(f"<h2>Refused sentences</h2>{refused_part(refused)}")
    return "\n".join([*parts, "</main></body></html>", ""])
