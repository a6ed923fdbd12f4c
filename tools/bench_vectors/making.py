"""Makes a folder of vectors: its cases, what `dsc` answers to them, and its files."""

import csv
import io
import os
import subprocess

from . import damage, on_air, premises, sound
from .calls import Call, calls_by_chance
from .chance import Chance
from .refusals import Contradicted, RefusedWords, Unwritable
from .wrong import no_calls_by_chance

LAST_SEED = 2**32 - 1
COLUMNS = (
    "case", "form", "expansion", "damage", "strength", "how", "symbols", "calls", "answer", "must", "expansion_must", "why", "sound_must", "mf",
    "sentences",
)
EXPECTED, ELEMENTS, SENTENCES, READ_ME = "expected.csv", "elements.txt", "sentences.txt", "README.txt"
# Damage over MF that has sound at each strength; of the others the middle one has, since 100 elements a second make long sounds.
FULL_OVER_MF, MIDDLE = (damage.CLEAN, damage.NOISY), 2
# Over MF and HF a call has 200 dots: what is more than the elements have stands in front of each transmission whose dots came.
MORE_DOTS = on_air.LONG_DOTS - on_air.DOTS


class Case:
    """One thing to decode: what was sent, what came of it, what must be told of it, and what `dsc` answers."""

    def __init__(self, number, subject, name, strength, heard):
        self.number, self.subject, self.damage, self.strength, self.heard = number, subject, name, strength, heard
        first = heard.sent[0]
        of = premises.of_call if isinstance(first, Call) else premises.of_no_call
        self.verdict = of(first, heard.receptions)
        self.calls = [it for it in heard.sent if isinstance(it, Call)]
        self.answer, self.sentences = "", []

    def has_mf(self):
        return self.damage in FULL_OVER_MF or self.strength == MIDDLE

    def sound_word(self):
        """What must come of the sound: the premises speak of its elements, but what noise makes of them is the demodulator's."""
        return premises.MAY if self.damage == damage.NOISY else self.verdict.word

    def how(self):
        """What was done, and what is wrong with a list that is no call."""
        return "; ".join(it for it in (getattr(self.subject, "what", ""), self.heard.how) if it)

    def row(self):
        sets = " ".join(name for name, _ in getattr(self.subject, "sets", ()))
        symbols = " / ".join(" ".join(map(str, it.symbols)) for it in self.heard.sent)
        has_expansion = isinstance(self.subject, Call) and self.subject.tail
        return (
            self.number, self.subject.form, sets, self.damage, self.strength, self.how(), symbols, " / ".join(it.text for it in self.calls),
            self.answer, self.verdict.word, self.verdict.expansion if has_expansion else "", self.verdict.why, self.sound_word(),
            "yes" if self.has_mf() else "no", " ".join(self.sentences),
        )


def cases_of(chance, calls):
    """All cases, those of one subject after the other: the calls, and lists that are none."""
    made = []
    for subject in calls + no_calls_by_chance(chance):
        for name, strength in [(damage.CLEAN, 0)] + [(name, strength) for name in damage.DAMAGES for strength in damage.STRENGTHS]:
            made.append(Case(len(made), subject, name, strength, damage.heard_by_chance(chance, subject, name, strength, calls)))
    return made


# ---- what dsc says


def said(program, words, text):
    """The lines that `dsc` writes, where it read all of its input."""
    try:
        done = subprocess.run([program, *words], input=text.encode(), capture_output=True, check=False)
    except OSError as cause:
        raise RefusedWords(f"{program} doesn't run: {cause.strerror}") from cause
    if done.returncode not in (0, 1):
        raise Contradicted(f"{program} {' '.join(words)} ended with status {done.returncode}")
    return done.stdout.decode("ascii", "replace").replace("\r", "").splitlines()


def spell_alike(program, calls):
    """Compares the transmissions of calls with those that `dsc encode` writes."""
    lines = said(program, ("encode",), "".join(f"{it.text}\n" for it in calls))
    wanted = [f"r g{at} {on_air.transmission(it.symbols)}" for at, it in enumerate(calls)]
    for line, want, call in zip(lines + [""] * len(calls), wanted, calls):
        if line != want:
            raise Contradicted(f"dsc encode sends other symbols of {call.text}")


def sentences_of(program, calls):
    """The sentences of each call. An expanded call has two of them."""
    lines = iter(said(program, ("sentences",), "".join(f"{it.text}\n" for it in calls)))
    made = [[next(lines, "") for _ in range(2 if it.tail else 1)] for it in calls]
    for call, sentences in zip(calls, made):
        if not all(line.startswith("$CDDS") for line in sentences):
            raise Contradicted(f"dsc sentences writes no sentence of {call.text}")
    return made


def element_lines(cases):
    return [f"r g{it.number} {body}\n" for it in cases for body in it.heard.receptions]


def add_answers(program, cases):
    """Adds the answer of `dsc join` to each case, and compares it with what must come."""
    answers = dict(line.partition(" ")[::2] for line in said(program, ("join",), "".join(element_lines(cases))))
    for it in cases:
        it.answer = answers.get(f"g{it.number}", "")
        wrong = premises.contradiction(it.verdict, it.answer) if it.answer else "it has no answer"
        if wrong:
            raise Contradicted(f"case {it.number}: dsc join answers {it.answer!r}, but {wrong} ({it.verdict.why})")


# ---- files


def with_more_dots(elements):
    """Elements over MF: more dots in front, in turn with those that are there; none where no dots came."""
    begin = elements[: on_air.DOTS]
    dots = on_air.dots(on_air.DOTS)
    return {dots: "BY", dots[::-1]: "YB"}.get(begin, "") * (MORE_DOTS // 2) + elements


def sound_of(tones, noise, case, band):
    """The WAV file of a case: its transmissions one after the other."""
    samples = tones.samples("".join(with_more_dots(it) if band == "MF" else it for it in case.heard.keyed))
    return sound.wav(noise.over(samples, damage.NOISE[band][case.strength - 1]) if case.damage == damage.NOISY else samples)


def table_of(cases):
    """The text of expected.csv."""
    text = io.StringIO()
    writer = csv.writer(text, lineterminator="\n")
    writer.writerow(COLUMNS)
    writer.writerows(it.row() for it in cases)
    return text.getvalue()


def read_me(seed, cases):
    return f"""Vectors of maritime digital selective calling, made by dsc-bench with the seed {seed}: {len(cases)} cases.

{EXPECTED}   of each case what was sent, what was done to it, what dsc join answers, and whether the call must, may or must not come
{ELEMENTS}   the receptions of case N as lines `r gN BODY`: Y, B, or - where an element was lost
mf/N.wav, vhf/N.wav   the sound of case N, 16 bits and 8,000 samples a second
{SENTENCES}   the sentences of clean calls, in the order of the cases

The page dsc-bench(1) says what the columns and the damages are.
"""


def files_of(seed, chance, cases):
    """The name and the bytes of each file."""
    yield READ_ME, read_me(seed, cases).encode()
    yield EXPECTED, table_of(cases).encode()
    yield ELEMENTS, "".join(element_lines(cases)).encode()
    yield SENTENCES, "".join(f"{line}\r\n" for it in cases for line in it.sentences).encode()
    noise = sound.Noise(chance)
    for band in sound.BANDS:
        tones = sound.Tones(band)
        for it in cases:
            if band != "MF" or it.has_mf():
                yield f"{band.lower()}/{it.number}.wav", sound_of(tones, noise, it, band)


def seed_of(text):
    """The seed that a word names."""
    if not text.isascii() or not text.isdigit() or len(text) > len(str(LAST_SEED)) or int(text) > LAST_SEED:
        raise RefusedWords(f"a seed is a number from 0 to {LAST_SEED}, not {text}")
    return int(text)


def refuse_full(folder):
    """Refuses a folder that has something in it, so that nothing is lost and nothing is mixed."""
    try:
        is_full = os.path.isdir(folder) and os.listdir(folder)
    except OSError as cause:
        raise Unwritable(f"{folder} can't be looked into: {cause.strerror}") from cause
    if is_full:
        raise RefusedWords(f"{folder} isn't empty")


def write_files(folder, files):
    """Writes the files, and says how many they are and how many bytes they have."""
    count = size = 0
    path = folder
    try:
        for name, data in files:
            path = os.path.join(folder, *name.split("/"))
            os.makedirs(os.path.dirname(path), exist_ok=True)
            with open(path, "wb") as file:
                file.write(data)
            count, size = count + 1, size + len(data)
    except OSError as cause:
        raise Unwritable(f"{path} can't be written: {cause.strerror}") from cause
    return count, size


def make(program, seed, folder):
    """Makes the vectors of a seed, and says how many cases and files there are. Nothing is written of what `dsc` contradicts."""
    chance = Chance(seed_of(seed))
    refuse_full(folder)
    calls = calls_by_chance(chance)
    spell_alike(program, calls)
    sentences = sentences_of(program, calls)
    cases = cases_of(chance, calls)
    clean = [it for it in cases if it.damage == damage.CLEAN]
    for it, lines in zip(clean, sentences):
        it.sentences = lines
    add_answers(program, cases)
    count, size = write_files(folder, files_of(seed, chance, cases))
    return f"{len(cases)} cases in {count} files, {size / 1e6:.0f} MB: {os.path.join(folder, EXPECTED)}"
