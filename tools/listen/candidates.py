"""Which receptions may be of one call. Candidates, not groups: what is reported of any of them together may be a call."""

import itertools

# So many sets of receptions of one moment are all asked; of more, each alone, pairs, all together, and greedy unions.
FEW = 32
# Receptions of repeats of a call are put together within so many seconds, and where they agree at so many places.
REPEATS, AGREEING = 40.0, 2


class Reception:
    """What a receiver heard from a start on."""

    def __init__(self, receiver, origin, moment):
        self.receiver, self.origin, self.moment = receiver, origin, moment
        self.elements, self.pairs, self.facts = "", "", {}
        # Whether `join` of its elements begins where the start is: else an earlier start shows through.
        self.is_checked = self.is_final = self.is_closed = self.is_reported = False

    def learn(self, line):
        """Takes the line of evidence that `dsc` wrote of it."""
        self.pairs = " ".join(line.split()[2:])
        self.facts = {}
        for pair in self.pairs.split():
            place, symbol = pair.split(":")
            self.facts.setdefault(int(place), set()).add(symbol)


def near(one, others, apart):
    """Those of the others, of other receivers, that began within so many seconds of this one."""
    return [it for it in others if it.receiver != one.receiver and abs(it.moment - one.moment) <= apart]


def by_receiver(receptions):
    groups = {}
    for it in receptions:
        groups.setdefault(it.receiver, []).append(it)
    return list(groups.values())


def is_together(receptions, apart):
    moments = [it.moment for it in receptions]
    return max(moments) - min(moments) <= apart


def sets_with(one, others, apart):
    """Sets of receptions of one moment, this one among them, with at most one of a receiver."""
    return (picked for picked in picks_with(one, by_receiver(near(one, others, apart))) if is_together(picked, apart))


def picks_with(one, rows):
    """This one with at most one of each row: all picks where there are few, and else alone, pairs, and the nearest of each."""
    count = 1
    for row in rows:
        count *= len(row) + 1
    if count <= FEW:
        for picked in itertools.product(*([None, *row] for row in rows)):
            yield [one, *(it for it in picked if it)]
        return
    yield [one]
    yield from ([one, it] for row in rows for it in row)
    yield [one, *(min(row, key=lambda it: abs(it.moment - one.moment)) for row in rows)]


def union(one, others):
    """This reception with those that say the same as all before them at two places at least, and nothing else anywhere, the nearest first."""
    picked, facts = [one], dict(one.facts)
    for it in sorted(others, key=lambda it: abs(it.moment - one.moment)):
        shared = [place for place in it.facts if place in facts]
        does_agree = len(shared) >= AGREEING and all(it.facts[place] == facts[place] for place in shared)
        if does_agree and is_together([*picked, it], REPEATS):
            picked.append(it)
            facts.update(it.facts)
    return picked


def asks(changed, receptions, apart):
    """The sets of receptions to be asked about, where these ones changed: each once, the smaller ones first."""
    found = {}
    for one in changed:
        others = [it for it in receptions if it is not one]
        for picked in itertools.chain(sets_with(one, others, apart), [union(one, others)]):
            found.setdefault(frozenset(map(id, picked)), picked)
    return sorted(found.values(), key=len)


def answers(program, sets):
    """What `join` says of each of these sets, without the group in front."""
    found = []
    for first in range(0, len(sets), 1000):
        part = sets[first : first + 1000]
        lines = "".join(f"e g{number} {it.pairs}".rstrip() + "\n" for number, picked in enumerate(part) for it in picked)
        found += [line.split(" ", 1)[1] for line in program.lines("join", lines)]
    return found
