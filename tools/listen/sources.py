"""Where elements come from. Each source is asked again and again, never waits, and is opened again after its end, as its kind allows."""

import contextlib
import os
import signal
import socket
import stat
import subprocess
import threading

# As many bytes are taken at once.
PIECE = 65_536
# Waits before a source is tried again, in seconds: each twice the one before, up to the longest.
FIRST_WAIT, LONGEST_WAIT = 1.0, 60.0
CONNECTING = 10.0


class Source:
    """A source: what `poll` gives is a word of `opened`, `data`, `failed`, `ended`, with the bytes or the cause."""

    # Whether it is opened again after its end.
    comes_again = True
    # Whether its elements come when they are sent; else they are counted from its beginning.
    is_live = True

    def __init__(self, name, where):
        self.name, self.where = name, where
        self.is_open = self.is_over = False
        self.again_at, self.wait = 0.0, FIRST_WAIT

    def poll(self, now):
        if self.is_over or not self.is_open and now < self.again_at:
            return
        try:
            if not self.is_open:
                self.is_open = self.open()
                if self.is_open:
                    yield "opened", b""
            while self.is_open:
                data = self.read()
                if data is None:
                    return
                if not data:
                    yield self._ends(now, "ended", self.cause())
                    return
                self.wait = FIRST_WAIT
                yield "data", data
                if not self.is_live:
                    return
        except OSError as cause:
            yield self._ends(now, "failed", cause.strerror or str(cause))

    def _ends(self, now, word, cause):
        if self.is_open:
            with contextlib.suppress(OSError):
                self.close()
        self.is_open = False
        self.is_over = not self.comes_again
        self.again_at, self.wait = now + self.wait, min(2 * self.wait, LONGEST_WAIT)
        return word, cause.encode()

    def cause(self):
        """Why it ended, once it did."""
        return "the end"

    def fileno(self):
        """What to wait for, or None."""
        return None


class FileSource(Source):
    """A file, a FIFO or the standard input."""

    def __init__(self, name, where):
        super().__init__(name, where)
        self.file, self.has_come = None, False
        with contextlib.suppress(OSError):
            mode = os.fstat(0).st_mode if where == "-" else os.stat(where).st_mode
            self.is_live = not stat.S_ISREG(mode)
            self.comes_again = where != "-" and self.is_live
        self.piece = PIECE

    def open(self):
        self.file = os.dup(0) if self.where == "-" else os.open(self.where, os.O_RDONLY | os.O_NONBLOCK)
        os.set_blocking(self.file, False)
        self.has_come = False
        return True

    def read(self):
        try:
            data = os.read(self.file, self.piece)
        except BlockingIOError:
            return None
        # A FIFO that nobody has opened yet has no end.
        if not data and self.comes_again and not self.has_come:
            return None
        self.has_come = True
        return data

    def close(self):
        os.close(self.file)

    def fileno(self):
        return self.file if self.is_open and self.is_live and self.has_come else None


class CommandSource(Source):
    """What a command writes. It is started, and started again."""

    def open(self):
        self.child = subprocess.Popen(
            ["/bin/sh", "-c", self.where], stdin=subprocess.DEVNULL, stdout=subprocess.PIPE, start_new_session=True, bufsize=0
        )
        os.set_blocking(self.child.stdout.fileno(), False)
        return True

    def read(self):
        return self.child.stdout.read(PIECE)

    def cause(self):
        with contextlib.suppress(subprocess.TimeoutExpired):
            self.child.wait(0.2)
        return f"the command ended with status {self.child.poll()}"

    def close(self):
        """Ends the command with all that it started."""
        for number in (signal.SIGTERM, signal.SIGKILL):
            with contextlib.suppress(ProcessLookupError):
                os.killpg(self.child.pid, number)
            with contextlib.suppress(subprocess.TimeoutExpired):
                self.child.wait(1)
        self.child.stdout.close()

    def fileno(self):
        return self.child.stdout.fileno() if self.is_open else None


class SocketSource(Source):
    """Bytes of a socket."""

    socket = None

    def read(self):
        try:
            return self.socket.recv(PIECE)
        except BlockingIOError:
            return None

    def close(self):
        if self.socket:
            self.socket.close()

    def fileno(self):
        return self.socket.fileno() if self.is_open else None


class TcpSource(SocketSource):
    """A connection to HOST:PORT. It is made by a thread, so that a name that isn't found holds nobody up."""

    def __init__(self, name, where):
        super().__init__(name, where)
        self.attempt = None

    def _connect(self, made):
        host, _, port = self.where.rpartition(":")
        try:
            made["socket"] = socket.create_connection((host.strip("[]"), int(port)), CONNECTING)
        except OSError as cause:
            made["cause"] = cause

    def open(self):
        if self.attempt is None:
            made = {}
            thread = threading.Thread(target=self._connect, args=(made,), daemon=True)
            thread.start()
            self.attempt = thread, made
        thread, made = self.attempt
        if thread.is_alive():
            return False
        self.attempt = None
        if "cause" in made:
            raise made["cause"]
        self.socket = made["socket"]
        self.socket.setblocking(False)
        return True


class UdpSource(SocketSource):
    """The datagrams that come to a port."""

    def open(self):
        self.socket = socket.socket(socket.AF_INET, socket.SOCK_DGRAM)
        self.socket.setblocking(False)
        self.socket.bind(("", int(self.where)))
        return True

    def read(self):
        data = super().read()
        # An empty datagram is no end.
        return b" " if data == b"" else data


KINDS = {"tcp": TcpSource, "udp": UdpSource, "cmd": CommandSource}


def source_of(name, text):
    """The source that a word of the command line names."""
    kind, _, where = text.partition(":")
    return KINDS[kind](name, where) if kind in KINDS else FileSource(name, text)
