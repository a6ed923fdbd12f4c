"""Sound of elements: two tones, one phase that goes on, silence where an element was lost, and white noise where it is asked for.

The phase is a whole number, and samples are rounded, so that a seed gives the same bytes on each machine. Pre-emphasis, fading and a
receiver's filters aren't modelled.
"""

import array
import itertools
import math
import operator
import sys

RATE = 8000
# Of each band: elements a second, and the tones of Y and of B in hertz.
BANDS = {"MF": (100, 1615, 1785), "VHF": (1200, 1300, 2100)}
LOUDNESS, LOUDEST = 3276, 32767
# Silence in front of the sound and after it, in elements: demodulators that take 50 at once lose no end of a call.
SILENCE = 60
# The phase counts the parts of a turn, so that a tone goes on by its hertz at each sample.
SINE = [round(LOUDNESS * math.sin(2 * math.pi * phase / RATE)) for phase in range(RATE)]
NOISE_BAND = 3000
# Samples of noise that all sounds are given parts of, from a place by chance on: more than the longest sound has.
NOISE_LENGTH = 2**17
BYTES, HEAD = 2, 44


class Tones:
    """Makes samples of elements; the pieces of an element are kept, since few phases come."""

    def __init__(self, band):
        self.baud, tone_y, tone_b = BANDS[band]
        self.hertz = {"Y": tone_y, "B": tone_b, "-": 0}
        # An element begins at the first sample that isn't before it, so that some have a sample more, in turn.
        begins = [-(-at * RATE // self.baud) for at in range(self.baud // math.gcd(RATE, self.baud) + 1)]
        self.counts = [after - first for first, after in zip(begins, begins[1:])]
        self.pieces = {}

    def piece(self, sign, phase, count):
        """So many samples of an element from this phase on, and the phase after them."""
        hertz = self.hertz[sign]
        samples = array.array("h", [SINE[(phase + at * hertz) % RATE] if hertz else 0 for at in range(count)])
        return samples.tobytes(), (phase + count * hertz) % RATE

    def samples(self, elements):
        """The samples of elements, with silence on both sides."""
        silence, made, phase = bytes(BYTES * (SILENCE * RATE // self.baud)), [], 0
        for sign, count in zip(elements, itertools.cycle(self.counts)):
            key = sign, phase, count
            if key not in self.pieces:
                self.pieces[key] = self.piece(*key)
            piece, phase = self.pieces[key]
            made.append(piece)
        return array.array("h", silence + b"".join(made) + silence)


class Noise:
    """White noise from one long piece of it, which is much quicker than noise of its own for each sound."""

    def __init__(self, chance):
        self.chance = chance
        self.normal = [chance.normal() for _ in range(NOISE_LENGTH)]
        self.scaled = {}

    def over(self, samples, level):
        """The samples in noise: the level is that of the signal above the noise in 3 kHz, in decibels."""
        if level not in self.scaled:
            power = LOUDNESS**2 / 2 / 10 ** (level / 10) * (RATE / 2) / NOISE_BAND
            self.scaled[level] = [round(math.sqrt(power) * it) for it in self.normal]
        first = self.chance.below(NOISE_LENGTH - len(samples))
        noise = self.scaled[level][first : first + len(samples)]
        try:
            return array.array("h", map(operator.add, samples, noise))
        except OverflowError:
            return array.array("h", [max(-LOUDEST, min(LOUDEST, both)) for both in map(operator.add, samples, noise)])


def wav(samples):
    """The bytes of a WAV file of 16 bits and one channel: its head has neither a date nor a name."""
    data = array.array("h", samples)
    if sys.byteorder == "big":
        data.byteswap()
    body = data.tobytes()
    numbers = ((1, 2), (1, 2), (RATE, 4), (BYTES * RATE, 4), (BYTES, 2), (8 * BYTES, 2))
    form = b"".join(number.to_bytes(size, "little") for number, size in numbers)
    head = b"RIFF" + (HEAD - 8 + len(body)).to_bytes(4, "little") + b"WAVEfmt " + len(form).to_bytes(4, "little") + form
    return head + b"data" + len(body).to_bytes(4, "little") + body
