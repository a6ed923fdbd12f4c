"""Short runs of `dsc`."""

import subprocess


class Failed(Exception):
    """A run failed, or didn't end in time."""


class Program:
    """The program `dsc` at a path. A run that doesn't end in time is ended."""

    def __init__(self, path, seconds=2.0):
        self.path, self.seconds = path, seconds

    def lines(self, command, given):
        """The lines that a command writes of this text."""
        try:
            done = subprocess.run([self.path, command], input=given.encode(), capture_output=True, timeout=self.seconds, check=False)
        except subprocess.TimeoutExpired:
            raise Failed(f"dsc {command} didn't end in {self.seconds:g} s") from None
        except OSError as cause:
            raise Failed(f"dsc {command} didn't run: {cause.strerror}") from None
        if done.returncode not in (0, 1):
            told = done.stderr.decode(errors="replace").partition("\n")[0]
            raise Failed(f"dsc {command} ended with status {done.returncode}: {told}")
        return done.stdout.decode().splitlines()
