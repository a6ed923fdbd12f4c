"""The folder of the repository, and the program's place."""

import os
import sys

TOP = os.path.dirname(os.path.dirname(os.path.dirname(os.path.realpath(__file__))))
BUILT = os.path.join(TOP, "crates", "dsc", "out", "dsc")


def program_at(path=None):
    """The full path of the program: the built one where none is named. A tool ends with status 1 where there is none that runs."""
    program = os.path.abspath(path or BUILT)
    if not os.access(program, os.X_OK):
        sys.exit(f"{os.path.basename(sys.argv[0])}: there is no program {program}: build it by ./dsc")
    return program
