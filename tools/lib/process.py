"""The program as a process: lines go in, and each that is not blank has one reply.

The variable DAGGRE names another program, with its first words; without it bin/daggre is taken, which builds the program where
that is not done. What it says on the error stream is shown as it comes.
"""
import os
import shlex
import subprocess
import threading
from pathlib import Path

ROOT = Path(__file__).resolve().parent.parent.parent
ENDS = {3: "something could not be read", 4: "its output could not be written", 5: "memory was wanting", 6: "there are too many lines",
        7: "the store could not be opened, or a call of its disk failed; what was told is kept", 70: "the program could not be built"}


class Ended(Exception):
    """The program is not there, refused the market file, or ended before all was answered."""


def is_blank(line):
    return not line.removesuffix("\r").strip(" ")


class Process:
    """A market that runs, or is kept in a store. `greeting` is its first line, and `resumed` that of a store. One that is apart does not get
    the signals of a terminal."""

    def __init__(self, file, is_apart=False, store=None):
        words = shlex.split(os.environ.get("DAGGRE", "")) or [str(ROOT / "bin/daggre")]
        call = ["run", str(file)] if store is None else ["keep", str(file), str(store)]
        try:
            self.child = subprocess.Popen([*words, *call], stdin=subprocess.PIPE, stdout=subprocess.PIPE, encoding="utf-8",
                                          errors="surrogateescape", start_new_session=is_apart)
        except OSError as error:
            raise Ended(f"the program {words[0]} cannot be started: {error.strerror}")
        self.greeting = self.read()
        if not self.greeting.startswith("ready "):
            self.close()
            raise Ended(f"the program answers to {file}: {self.greeting}")
        self.resumed = None if store is None else self.read()

    def read(self):
        line = self.child.stdout.readline()
        if not line.endswith("\n"):
            status = self.close()
            raise Ended(f"the program ended too early with status {status}" + (f": {ENDS[status]}" if status in ENDS else ""))
        return line[:-1]

    def ask(self, line):
        """The reply to one line that is not blank."""
        self.write([line])
        return self.read()

    def write(self, lines):
        try:
            self.child.stdin.write("".join(f"{line}\n" for line in lines))
            self.child.stdin.flush()
        except (BrokenPipeError, ValueError):
            pass  # the reader of replies finds the end, and its status

    def ask_all(self, lines, tell=lambda done: None):
        """The replies to many lines, written ahead while replies are read. A blank line has none, and is left out."""
        lines = [line for line in lines if not is_blank(line)]
        pieces = [lines[at:at + 1000] for at in range(0, len(lines), 1000)]
        writer = threading.Thread(target=lambda: [self.write(piece) for piece in pieces], daemon=True)
        writer.start()
        replies = []
        for _ in lines:
            replies.append(self.read())
            tell(len(replies))
        writer.join()
        return replies

    def close(self):
        try:
            self.child.stdin.close()
        except BrokenPipeError:
            pass
        self.child.stdout.close()
        return self.child.wait()
