"""Receptions for tools that share the work of joining: calls of several forms, each heard by three receivers in part."""

import subprocess

CALLS = 1000
DOTS = 20


def call(number):
    """The text of a call, of one of several forms by its number."""
    ship, forms = f"{338000000 + number:09}", (
        "alert from={ship} nature={nature} pos=1423108312 time={hour:02}{minute:02} then=100",
        "test to=002241022 cat=108 from={ship} end=117",
        "pos to=002241022 cat=100 from={ship} pos=1423108312 time={hour:02}{minute:02}",
        "relay to=area:1430840202 from=002241022 casualty={ship} nature={nature} pos=1423108312 time=8888 then=100 end=127",
        "alert from={ship} nature={nature} pos=1423108312 time={hour:02}{minute:02} then=100 exp enh=45894494",
    )
    return forms[number % len(forms)].format(ship=ship, nature=100 + number % 11, hour=number % 24, minute=number % 60)


def damaged(body, at, place):
    """What receiver `at` of three heard: every third slot from 12 on, and no copy of the place, if one is given."""
    signs = list(body)
    for slot in range(12, (len(body) - DOTS) // 10):
        if slot % 3 != at or (place is not None and slot in (12 + 2 * place, 17 + 2 * place)):
            signs[DOTS + 10 * slot : DOTS + 10 * slot + 10] = "-" * 10
    return "".join(signs)


def heard(program, first, count):
    """The lines of three receptions of each call, none alone enough. A tenth of the calls lost a place at all three."""
    given = "".join(call(number) + "\n" for number in range(first, first + count))
    done = subprocess.run([program, "encode"], input=given.encode(), capture_output=True, check=True)
    bodies = [line.split(" ")[2] for line in done.stdout.decode().splitlines()]
    lost = [9 if number % 10 == 7 else None for number in range(first, first + count)]
    return [f"r g{first + at} {damaged(body, turn, lost[at])}\n" for at, body in enumerate(bodies) for turn in range(3)]
