"""A station of several receivers: what was heard in the last seconds, which starts are in it, and which calls were told."""

import collections

from .candidates import Reception, answers, asks
from .elements import Stream, exchanged
from .scanning import GAP, REACH, scan, stream_lines

# The longest reception, as far as `capture` reads to decide a start.
LONGEST = 1600
# A text is told once in so many seconds.
ONCE = 60.0
# A receiver is silent after so many seconds without elements.
SILENT = 10.0
# How many told texts are remembered, so that one that comes later is told as one that came again.
REMEMBERED = 1000
MINUTE = 60.0


class Receiver:
    """A receiver with its name: its stream, and counts of the last minute."""

    def __init__(self, name, stream):
        self.name, self.stream = name, stream
        self.scanned, self.last_came = 0, None
        self.clear()

    def clear(self):
        """Begins the counts of a minute."""
        self.elements = self.doubtful = self.starts = self.reported = 0

    def take(self, elements, now):
        self.stream.take(elements, now)
        self.elements += len(elements)
        self.doubtful += elements.count("-")
        self.last_came = now

    def window(self):
        """What is to be looked through, and the place of its first element."""
        begin = max(self.scanned - REACH, self.stream.first, 0)
        return begin, self.stream.cut(begin, len(self.stream))


class Call:
    """A call that was told: when it began, when it was told, of which receptions, and which expansions were told of it."""

    def __init__(self, text, receptions, told):
        self.text, self.receptions, self.told = text, receptions, told
        self.begins = min(it.moment for it in receptions)
        self.tails = set()


def parted(answer):
    """The text of a reported call, and what is said of its expansion; None where none is reported."""
    kind, _, text = answer.partition(" ")
    if kind != "reported":
        return None
    for word in (" exp ", " broken "):
        if word in text:
            call, _, rest = text.partition(word)
            return call, word.strip() + " " + rest
    return text, ""


class Station:
    """It is given elements as they come, and asked at each tick what there is to say."""

    def __init__(self, program, baud, apart, forget):
        self.program, self.baud, self.apart, self.forget = program, baud, apart, forget
        self.receivers, self.receptions = {}, []
        self.told = collections.OrderedDict()
        # Receptions that changed and weren't asked about yet, and what is still to be said: a run of `dsc` may fail in between.
        self.unasked, self.unsaid = [], []

    def add(self, name, begins=None):
        """A receiver begins, or begins anew: its stream is another one then."""
        for it in self.receptions:
            if it.receiver == name:
                it.is_final = True
        old = self.receivers.get(name)
        self.receivers[name] = Receiver(name, Stream(self.baud, self.forget, begins))
        if old:
            for count in ("elements", "doubtful", "starts", "reported"):
                setattr(self.receivers[name], count, getattr(old, count))

    def take(self, name, elements, now):
        if elements:
            self.receivers[name].take(elements, now)

    def tick(self, now, is_end=False):
        """What there is to say now, as records with their class first. Where a run of `dsc` fails, the next tick does what this one owed."""
        self._find_starts()
        self._learn()
        self._tell(now)
        self._close(now, is_end)
        self._forget(now)
        records, self.unsaid = self.unsaid, []
        return records

    def end(self, now):
        """A last tick: all streams have ended."""
        return self.tick(now, is_end=True)

    def _forget(self, now):
        oldest = now - self.forget
        self.receptions = [it for it in self.receptions if it.moment > (oldest if it.is_closed else oldest - self.forget)]
        for call in self.told.values():
            if call.told < oldest:
                call.receptions = []

    # ---- starts

    def _find_starts(self):
        """Begins a reception at each start that is new since the last tick."""
        receivers = [it for it in self.receivers.values() if len(it.stream) > it.scanned]
        windows = [it.window() for it in receivers]
        known = {(it.receiver, it.origin) for it in self.receptions}
        found = scan(self.program, [text for _, text in windows])
        starts = []
        for receiver, (begin, _), origins in zip(receivers, windows, found, strict=True):
            starts += [(receiver, begin + origin) for origin in origins if (receiver.name, begin + origin) not in known]
        # Nothing fails after this line.
        for receiver in receivers:
            receiver.scanned = len(receiver.stream)
        for receiver, origin in starts:
            receiver.starts += 1
            self.receptions.append(Reception(receiver.name, origin, receiver.stream.moment(origin)))

    def _learn(self):
        """Cuts each reception anew, and learns what those say that changed."""
        grown = []
        for name, receiver in self.receivers.items():
            own = sorted((it for it in self.receptions if it.receiver == name and not it.is_final), key=lambda it: it.origin)
            every = sorted(it.origin for it in self.receptions if it.receiver == name)
            for it in own:
                following = next((origin for origin in every if origin > it.origin), it.origin + LONGEST)
                end = min(following, it.origin + LONGEST)
                elements = receiver.stream.cut(it.origin, end)
                if it.origin < 0:
                    elements = receiver.stream.cut(0, end)
                if elements != it.elements:
                    grown.append((it, elements))
                elif len(receiver.stream) >= end:
                    it.is_final = True
        if not grown:
            return
        # What is after its head changes no start at or before a reception's beginning.
        young = [(it, elements[:REACH]) for it, elements in grown if len(it.elements) < REACH]
        heads = scan(self.program, [head for _, head in young])
        lines = self.program.lines("evidence", "".join(f"r g{number} {elements}\n" for number, (_, elements) in enumerate(grown)))
        for (it, _), origins in zip(young, heads, strict=True):
            it.is_checked = bool(origins) and origins[0] == min(it.origin, 0)
        for (it, elements), line in zip(grown, lines, strict=True):
            it.elements = elements
            it.learn(line)
        self.unasked += [it for it, _ in grown if it.is_checked and it not in self.unasked]

    # ---- telling

    def _tell(self, now):
        """Asks about what changed, and says which calls it shows."""
        usable = [it for it in self.receptions if it.is_checked]
        sets = asks(self.unasked, usable, self.apart)
        said = answers(self.program, sets)
        self.unasked = []
        for picked, answer in zip(sets, said, strict=True):
            call = parted(answer)
            if call and len(picked) == 1 and not picked[0].is_reported:
                picked[0].is_reported = True
                self.receivers[picked[0].receiver].reported += 1
            if call:
                self._hear(*call, picked, now)

    def _hear(self, text, tail, picked, now):
        """A call was reported of these receptions: says so, unless it was told a short time ago, and says its expansion."""
        call = self.told.get(text)
        if call is None or now - call.told >= ONCE:
            new = Call(text, picked, now)
            self._say("told", new.begins, picked, now, again=call is not None, text=text)
            self.told.pop(text, None)
            self.told[text] = call = new
            while len(self.told) > REMEMBERED:
                self.told.popitem(last=False)
        if tail.startswith("exp ") and tail not in call.tails:
            call.tails.add(tail)
            self._say("expansion", call.begins, picked, now, text=f"{text} {tail}")

    def _say(self, kind, begins, picked, now, **rest):
        heard = [(it.receiver, it.moment) for it in sorted(picked, key=lambda it: (it.moment, it.receiver))]
        self.unsaid.append({"class": kind, "start": begins, "now": now, "receptions": heard, **rest})

    # ---- the ends of candidates

    def _close(self, now, is_end):
        """Says of each candidate that has ended what each receiver's own answer is, and the joined one, and closes it."""
        ended = [it for it in self._candidates() if is_end or self._has_ended(it, now)]
        sets = []
        for candidate in ended:
            usable = [it for it in candidate if it.is_checked]
            sets += [[it] for it in usable] + ([usable] if len(usable) > 1 else [])
        calls = self._calls_without_expansion(ended)
        said = answers(self.program, sets + [call.receptions for call in calls])
        for picked, answer in zip(sets, said):
            self._say("answer", min(it.moment for it in picked), picked, now, text=answer)
        for call, answer in zip(calls, said[len(sets) :], strict=True):
            _, tail = parted(answer) or ("", "")
            if tail:
                call.tails.add(tail)
                self._say("expansion", call.begins, call.receptions, now, text=f"{call.text} {tail}")
        for candidate in ended:
            for it in candidate:
                it.is_closed = True

    def _calls_without_expansion(self, ended):
        """The calls that were told of ended candidates, and of which no expansion was."""
        members = {id(it) for candidate in ended for it in candidate}
        return [call for call in self.told.values() if not call.tails and any(id(it) in members for it in call.receptions)]

    def _candidates(self):
        """Open receptions that began close to each other, one after the other."""
        groups = []
        for it in sorted((it for it in self.receptions if not it.is_closed), key=lambda it: it.moment):
            if groups and it.moment - groups[-1][-1].moment <= self.apart:
                groups[-1].append(it)
            else:
                groups.append([it])
        return groups

    def _has_ended(self, candidate, now):
        """Whether nothing comes to a candidate any more: each reception is whole, or its receiver silent, and no start can join it."""
        last = max(it.moment for it in candidate)
        return now >= last + self.apart + REACH / self.baud and all(it.is_final or self._is_silent(it.receiver, now) for it in candidate)

    def _is_silent(self, name, now):
        came = self.receivers[name].last_came
        return came is None or now - came >= SILENT

    # ---- health

    def health(self, now):
        """A record of each receiver's last minute; the counts begin anew. Inverted is one of whose elements, exchanged, a call is reported."""
        records = []
        for it in self.receivers.values():
            heard = it.stream.cut(len(it.stream) - round(MINUTE * self.baud), len(it.stream))
            lines = self.program.lines("capture", stream_lines(exchanged(heard) + GAP)) if heard else []
            records.append({
                "class": "health", "now": now, "receiver": it.name, "elements": it.elements,
                "doubtful": round(it.doubtful / it.elements, 3) if it.elements else 0.0, "starts": it.starts, "reported": it.reported,
                "inverted": any(line.split(" ")[3] == "reported" for line in lines),
            })
            it.clear()
        return records
