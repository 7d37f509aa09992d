"""Processes of the program behind pipes that never block: many lines are written ahead while replies are read."""
from __future__ import annotations

import os
import selectors
import shutil
import signal
import subprocess
import time
from collections.abc import Iterable, Sequence
from pathlib import Path

from .errors import NotALine, ProgramMissing

PIECE = 1 << 16
LONGEST_REPLY = 1 << 15


def find_program(program: str | os.PathLike[str] | None = None) -> str:
    """The program to start: this one, else that of the variable DAGGRE, else bin/daggre of the repository around this package, else
    daggre on the path."""
    named = program or os.environ.get("DAGGRE")
    if named is None:
        script = Path(__file__).resolve().parents[3] / "bin/daggre"
        named = script if script.is_file() else "daggre"
    found = shutil.which(named)
    if found is None:
        raise ProgramMissing(f"{os.fspath(named)} cannot be started: there is no such program; the variable DAGGRE names another")
    return os.path.abspath(found)


def checked_line(line: str) -> bytes:
    """The bytes of a line with its end. A blank line gets no reply, and a text with a line end is more than one line."""
    if "\n" in line:
        raise NotALine(f"{line!r} is more than one line")
    if not line.removesuffix("\r").strip(" "):
        raise NotALine("a blank line gets no reply")
    return line.encode("utf-8", "surrogateescape") + b"\n"


def memory_file(text: bytes) -> int:
    """A file in memory that holds the text, for a program that is to read it by /proc/self/fd."""
    number = os.memfd_create("market")
    view = memoryview(text)
    while view:
        view = view[os.write(number, view):]
    os.lseek(number, 0, os.SEEK_SET)
    return number


class Channel:
    """A process, what is still to be written to it, and what it has written."""

    def __init__(self, words: Sequence[str], kept: Sequence[int] = ()) -> None:
        try:
            self.process = subprocess.Popen(words, stdin=subprocess.PIPE, stdout=subprocess.PIPE, bufsize=0, pass_fds=kept)
        except OSError as fault:
            raise ProgramMissing(f"{words[0]} cannot be started: {fault.strerror}") from None
        assert self.process.stdin is not None and self.process.stdout is not None
        self.sink, self.source = self.process.stdin, self.process.stdout
        os.set_blocking(self.sink.fileno(), False)
        os.set_blocking(self.source.fileno(), False)
        self.out = memoryview(b"")
        self.rest = b""
        self.lines: list[str] = []
        self.wanted = 0
        self.has_ended = False
        self.is_silent = False

    def begin(self, out: bytes, wanted: int) -> None:
        self.out, self.lines, self.wanted, self.is_silent = memoryview(out), [], wanted, False

    def stray(self) -> str:
        """What has come though nothing was asked, or nothing."""
        self.lines = []
        self.read()
        return "\n".join([*self.lines, self.rest.decode("utf-8", "replace")]).strip("\n")

    @property
    def is_done(self) -> bool:
        return len(self.lines) >= self.wanted or self.has_ended or self.is_silent

    def write(self) -> None:
        try:
            self.out = self.out[os.write(self.sink.fileno(), self.out[:PIECE]):]
        except BlockingIOError:
            pass
        except BrokenPipeError:
            # It reads no more; what it said before is still to be read.
            self.out = memoryview(b"")

    def read(self) -> None:
        try:
            piece = os.read(self.source.fileno(), PIECE)
        except BlockingIOError:
            return
        self.has_ended = not piece
        *whole, self.rest = (self.rest + piece).split(b"\n")
        self.lines += [line.decode("utf-8", "replace") for line in whole]

    def end(self, seconds: float | None) -> int:
        """Ends its input, waits for its end and gives its status; kills it where it is still there after so many seconds."""
        self.sink.close()
        try:
            return self.process.wait(seconds)
        except subprocess.TimeoutExpired:
            return self.kill()
        finally:
            self.source.close()

    def kill(self) -> int:
        self.process.send_signal(signal.SIGKILL)
        self.sink.close()
        self.source.close()
        return self.process.wait()


def drive(channels: Iterable[Channel], seconds: float | None) -> None:
    """Writes and reads, side by side, until each channel has the lines that it wants, has ended, or was silent for so many seconds."""
    with selectors.DefaultSelector() as ready:
        last = {}
        for channel in channels:
            if not channel.is_done:
                ready.register(channel.source, selectors.EVENT_READ, channel)
                last[channel] = time.monotonic()
                if channel.out:
                    ready.register(channel.sink, selectors.EVENT_WRITE, channel)
        while last:
            wait = None if seconds is None else max(0.0, min(last.values()) + seconds - time.monotonic())
            for key, _ in ready.select(wait):
                channel = key.data
                if channel not in last:
                    continue
                last[channel] = time.monotonic()
                if key.fileobj is channel.sink:
                    channel.write()
                    if not channel.out:
                        ready.unregister(channel.sink)
                else:
                    channel.read()
            now = time.monotonic()
            for channel in list(last):
                channel.is_silent = seconds is not None and now - last[channel] >= seconds
                if channel.is_done:
                    del last[channel]
                    ready.unregister(channel.source)
                    if channel.sink in ready.get_map():
                        ready.unregister(channel.sink)
