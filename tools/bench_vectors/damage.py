"""The named damages: what receivers hear of a transmission, at three strengths, the first of them the slightest."""

import math

from . import on_air

STRENGTHS = (1, 2, 3)
EXCHANGED = str.maketrans("YB", "BY")
# By strength: elements that come by chance, in a row; wrong elements; lost ones, in a row.
BURSTS, ERRORS, LOST = (5, 30, 100), (3, 12, 40), (40, 100, 250)
# By strength: the least and the most elements from the end of the dots on that a reception misses at its beginning.
LATE = ((40, 70), (100, 120), (160, 220))
# By strength: from which part of the transmission on it is inverted, and from which part of the first call on a second one is heard.
INVERTED, SECOND = (0.75, 0.5, 0.0), (1.0, 0.75, 0.5)
# By strength: how many stretches of how many elements each of five repeats loses.
REPEATS, STRETCHES, STRETCH = 5, (1, 3, 6), 100
# By strength: the signal above white noise in 3 kHz, in decibels; the elements are those of MF.
NOISE = {"MF": (0, -4, -6), "VHF": (15, 12, 9)}
NOISE_BAND, NOISE_BAUD = 3000, 100
# Noise alone is heard in front of a transmission in noise and after it, for so many elements.
NOISE_AROUND = 40
# An element is in doubt where both tones differ by less than this part of their mean difference, as tools/soft_bits has it.
DOUBT = 0.2


class Heard:
    """What came of a transmission: the receptions of its group, what is keyed as sound, the lists that were sent, and what was done."""

    def __init__(self, receptions, sent, how="", keyed=None):
        self.receptions, self.sent, self.how, self.keyed = receptions, sent, how, keyed or receptions


def stretch(chance, elements, count):
    """Where a stretch of so many elements after the dots begins, and how many it has: fewer where there are fewer."""
    count = min(count, len(elements) - on_air.DOTS)
    return on_air.DOTS + chance.below(len(elements) - on_air.DOTS - count + 1), count


def replaced(elements, at, piece):
    return elements[:at] + piece + elements[at + len(piece) :]


def with_burst(chance, subject, elements, strength):
    """So many elements in a row are `Y` or `B` by chance."""
    at, count = stretch(chance, elements, BURSTS[strength - 1])
    piece = "".join("YB"[chance.below(2)] for _ in range(count))
    return Heard([replaced(elements, at, piece)], [subject], f"{count} elements by chance from {at} on")


def with_errors(chance, elements, strength, wrong):
    """The elements with so many single ones of these signs exchanged, and how many these are."""
    places = [at for at in range(on_air.DOTS, len(elements)) if elements[at] in wrong]
    turned = chance.some_of(ERRORS[strength - 1], places)
    signs = list(elements)
    for at in turned:
        signs[at] = signs[at].translate(EXCHANGED)
    return "".join(signs), len(turned)


def with_one_sense(chance, subject, elements, strength):
    """So many single `B` come as `Y`."""
    body, count = with_errors(chance, elements, strength, "B")
    return Heard([body], [subject], f"{count} single B as Y")


def with_both_senses(chance, subject, elements, strength):
    """So many single elements come wrong, of both senses."""
    body, count = with_errors(chance, elements, strength, "YB")
    return Heard([body], [subject], f"{count} single elements exchanged")


def with_loss(chance, subject, elements, strength):
    """A stretch of so many elements is lost."""
    at, count = stretch(chance, elements, LOST[strength - 1])
    return Heard([replaced(elements, at, "-" * count)], [subject], f"{count} elements lost from {at} on")


def tone_strengths(chance, amplitude):
    """How strong a tone is that is sent with this amplitude, in noise, and how strong the other one: noise has the power 1 in each."""
    part = math.sqrt(0.5)
    sent = math.hypot(amplitude + part * chance.normal(), part * chance.normal())
    return sent, math.hypot(part * chance.normal(), part * chance.normal())


def with_noise(chance, subject, elements, strength):
    """Noise at a level, heard by a demodulator that writes `-` where both tones are about equally strong."""
    level = NOISE["MF"][strength - 1]
    amplitude = math.sqrt(10 ** (level / 10) * NOISE_BAND / NOISE_BAUD)
    around = " " * NOISE_AROUND
    differences = []
    for sign in around + elements + around:
        sent, other = tone_strengths(chance, 0 if sign == " " else amplitude)
        differences.append(other - sent if sign == "B" else sent - other)
    least = DOUBT * sum(map(abs, differences)) / len(differences)
    body = "".join("-" if abs(it) < least else "Y" if it > 0 else "B" for it in differences)
    return Heard([body], [subject], f"{level} dB above the noise in 3 kHz", [elements])


def with_late_start(chance, subject, elements, strength):
    """The reception begins late."""
    count = chance.between(*LATE[strength - 1])
    return Heard([elements[on_air.DOTS + count :]], [subject], f"begins {count} elements after the dots")


def inverted(_chance, subject, elements, strength):
    """Both tones are exchanged, from a part of the transmission on."""
    at = int(INVERTED[strength - 1] * len(elements))
    return Heard([elements[:at] + elements[at:].translate(EXCHANGED)], [subject], f"inverted from {at} on")


def with_second(chance, subject, elements, strength, others):
    """A second call comes, after the first or over its end."""
    other = chance.one_of([it for it in others if it is not subject])
    at = int(SECOND[strength - 1] * len(elements))
    return Heard([elements[:at] + on_air.transmission(other.symbols)], [subject, other], f"a second call begins at {at}")


def repeated(chance, subject, elements, strength):
    """The same call comes five times, each time with lost stretches of its own."""
    bodies = []
    for _ in range(REPEATS):
        body = elements
        for _ in range(STRETCHES[strength - 1]):
            at, count = stretch(chance, body, STRETCH)
            body = replaced(body, at, "-" * count)
        bodies.append(body)
    return Heard(bodies, [subject], f"{REPEATS} times, each without {STRETCHES[strength - 1]} stretches of {STRETCH} elements")


CLEAN, TWO, NOISY = "clean", "two", "noise"
DAMAGES = {
    "burst": with_burst, "one-sense": with_one_sense, "both-senses": with_both_senses, "lost": with_loss, NOISY: with_noise,
    "late": with_late_start, "inverted": inverted, TWO: with_second, "repeats": repeated,
}


def heard_by_chance(chance, subject, name, strength, others):
    """What comes of the transmission of a subject with this damage. The others are those of which a second one is taken."""
    elements = on_air.transmission(subject.symbols)
    if name == CLEAN:
        return Heard([elements], [subject])
    more = (others,) if name == TWO else ()
    return DAMAGES[name](chance, subject, elements, strength, *more)
