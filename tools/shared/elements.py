"""The ten elements of each symbol."""


def word(symbol):
    """The ten elements of a symbol: its seven bits, the lowest first, Y for 1, and the number of its B's, the highest bit first."""
    bits = [symbol >> at & 1 for at in range(7)]
    zeros = bits.count(0)
    return "".join("BY"[bit] for bit in bits + [zeros >> at & 1 for at in (2, 1, 0)])


SYMBOLS = {word(symbol): symbol for symbol in range(128)}
