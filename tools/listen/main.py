"""The loop of `dsc-listen`: reads what comes, ticks, writes."""

import contextlib
import os
import select
import shutil
import signal
import sys
import time

from . import words
from .elements import elements_of, exchanged
from .program import Failed, Program
from .sources import source_of
from .station import SILENT, Station
from .writing import as_json, as_text

HEALTH = 60.0
# A run of `dsc` that fails again and again is said so often, in seconds.
SAY_AGAIN = 10.0
# Seconds of a file that are read at once.
OF_A_FILE = 5.0


class Stopped(Exception):
    """A signal asked for the end."""


def say(text):
    with contextlib.suppress(OSError):
        print(f"dsc-listen: {text}", file=sys.stderr, flush=True)


def program_at(path, beside):
    """The program: the one that is named, the one that stands beside this one, or the one on PATH."""
    found = path or next((it for it in beside if os.access(it, os.X_OK)), None) or shutil.which("dsc")
    if not found or not os.access(found, os.X_OK):
        raise words.Refused(f"there is no program {path or 'dsc'}")
    return found


class Listening:
    """A run: its sources, its station, and what it has said of them."""

    def __init__(self, options, program):
        self.options = options
        self.station = Station(Program(program), options.baud, options.apart, options.forget)
        self.sources = [source_of(name, where) for name, where in options.named.items()]
        self.is_live = any(it.is_live for it in self.sources)
        self.begins = time.time()
        self.came = {it.name: None for it in self.sources}
        self.silent, self.odd = set(), set()
        self.health_at, self.said = self.begins + HEALTH, (None, 0.0)
        for it in self.sources:
            if not it.is_live:
                it.piece = round(options.baud * OF_A_FILE)
            self.station.add(it.name, None if it.is_live else self.begins)

    def now(self):
        """The moment: of files alone it is that of their elements."""
        if self.is_live:
            return time.time()
        return self.begins + max(len(it.stream) for it in self.station.receivers.values()) / self.options.baud

    def write(self, record):
        print(as_json(record) if self.options.json else as_text(record))

    def tell_source(self, name, state, now):
        """Says on the standard error how a source is, and in JSON also as a line."""
        say(f"{name}: {state}")
        if self.options.json:
            self.write({"class": "source", "now": now, "receiver": name, "state": state})

    # ---- what comes

    def poll(self, source, now):
        for word, data in source.poll(now):
            if word == "opened":
                self.station.add(source.name, None if source.is_live else self.begins)
                self.came[source.name] = now
                self.silent.discard(source.name)
            elif word == "data":
                self.take(source, data, now)
            else:
                rest = "" if source.is_over else f"; it is tried again in {source.again_at - now:.0f} s"
                self.came[source.name] = None
                self.tell_source(source.name, f"{word}: {data.decode(errors='replace')}{rest}", now)

    def take(self, source, data, now):
        elements, others = elements_of(data)
        if others and source.name not in self.odd:
            self.odd.add(source.name)
            self.tell_source(source.name, "gives bytes that are no elements; they are left out", now)
        if not elements:
            return
        if source.name in self.silent:
            self.silent.discard(source.name)
            self.tell_source(source.name, "elements come again", now)
        self.came[source.name] = now
        self.station.take(source.name, exchanged(elements) if source.name in self.options.invert else elements, now)

    def silent_now(self, now):
        """The receivers that became silent."""
        found = [name for name, came in self.came.items() if came is not None and now - came >= SILENT and name not in self.silent]
        self.silent.update(found)
        return found

    def tell_silence(self, now):
        for name in self.silent_now(now) if self.is_live else ():
            self.tell_source(name, f"silent for {SILENT:.0f} s", now)

    # ---- ticks

    def tick(self, now, is_end=False):
        """One tick. Whether it was done: a run of `dsc` that fails is said, and the next tick does what this one owed."""
        try:
            records = self.station.end(now) if is_end else self.station.tick(now)
            for record in records:
                self.write(record)
            if self.options.health and (now >= self.health_at or is_end):
                self.health_at = now + HEALTH
                for record in self.station.health(now):
                    self.write(record)
        except Failed as cause:
            told, when = self.said
            if str(cause) != told or time.time() - when >= SAY_AGAIN:
                say(f"{cause}; it is tried again")
                self.said = str(cause), time.time()
            return False
        sys.stdout.flush()
        return True

    def is_over(self):
        return all(it.is_over for it in self.sources)

    def wait(self, until):
        """Waits for what comes, up to a moment of the clock that never goes back."""
        left = until - time.monotonic()
        files = [it.fileno() for it in self.sources if it.fileno() is not None]
        if left > 0 and files:
            select.select(files, [], [], left)
        elif left > 0:
            time.sleep(left)

    def run(self):
        next_tick = time.monotonic()
        while not self.is_over():
            for source in self.sources:
                self.poll(source, self.now())
            if self.is_live and time.monotonic() < next_tick:
                self.wait(next_tick)
                continue
            now = self.now()
            self.tell_silence(now)
            self.tick(now)
            next_tick = max(next_tick + self.options.tick, time.monotonic())

    def finish(self):
        """The last tick, tried a few times, and the end of all children."""
        for _ in range(3):
            if self.tick(self.now(), is_end=True):
                return True
        return False

    def close(self):
        for it in self.sources:
            with contextlib.suppress(OSError):
                if it.is_open:
                    it.close()


def stop(_number, _frame):
    raise Stopped


def listen(options, program):
    listening = Listening(options, program)
    try:
        with contextlib.suppress(Stopped):
            listening.run()
        for number in (signal.SIGINT, signal.SIGTERM):
            signal.signal(number, signal.SIG_IGN)
        return 0 if listening.finish() else 1
    finally:
        listening.close()


def main(beside):
    """The run that the words ask for, and its status: 2 where they are refused, 5 where the output fails."""
    try:
        options = words.read(sys.argv[1:])
        program = program_at(options.dsc, beside)
    except words.Refused as cause:
        say(f"{cause} (dsc-listen --help)")
        return 2
    for number in (signal.SIGINT, signal.SIGTERM):
        signal.signal(number, stop)
    try:
        status = listen(options, program)
        sys.stdout.flush()
        return status
    except OSError as cause:
        say(f"the output failed: {cause.strerror}")
        with contextlib.suppress(OSError):
            os.dup2(os.open(os.devnull, os.O_WRONLY), 1)
        return 5
