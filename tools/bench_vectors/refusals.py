"""What `dsc-bench` refuses, each with the status that it ends with."""


class Refused(Exception):
    """Words that are refused, or input that is ill-formed: the text says where."""

    status = 3


class RefusedWords(Refused):
    """The words are none of the program's, or name what there isn't."""

    status = 2


class Unreadable(Refused):
    """A file can't be read."""

    status = 4


class Unwritable(Refused):
    """A file can't be written."""

    status = 5


class Contradicted(Refused):
    """`dsc` wrote what its premises exclude, or didn't run: no vectors are made of it."""

    status = 1


def at(name, line, column, why):
    """The refusal of a place in a file."""
    return Refused(f"{name}: line {line} column {column}: {why}")
