"""What may go wrong, one class each. Each says in one sentence what happened."""
from __future__ import annotations

import re
from dataclasses import dataclass

from .refusals import Refusal

STATUSES = {
    0: "its input ended",
    1: "it was started with other words",
    2: "the market file is refused",
    3: "the market file or the commands could not be read",
    4: "its replies could not be written",
    5: "memory was wanting",
    6: "the stream has too many lines or bytes",
    7: "the store could not be opened, or a call of its disk failed; what was told is kept",
    8: "the store is refused",
    70: "the program could not be built",
}


class MarketError(Exception):
    """Anything that this package raises."""


class ProgramMissing(MarketError):
    """The program cannot be started."""


class NotALine(MarketError, ValueError):
    """This text cannot be sent as one line that gets one reply."""


@dataclass(frozen=True, slots=True)
class FileFault:
    """What is wrong with a market file: `kind` as in the reference, the key where one is named, and the numbers behind it."""

    kind: str
    key: str | None
    numbers: tuple[int, ...]

    @classmethod
    def read(cls, line: str) -> FileFault:
        """The fault that has this line; ValueError where there is none."""
        found = re.fullmatch(r"refused market ([a-z]+)(?: ([a-z_]+))?((?: -?[0-9]+)*)", line)
        if found is None:
            raise ValueError(f"no fault of a file: {line!r}")
        return cls(found[1], found[2], tuple(map(int, found[3].split())))

    def __str__(self) -> str:
        return " ".join(["refused market", self.kind, *([self.key] if self.key else []), *map(str, self.numbers)])


class FileRefused(MarketError):
    """The program refuses the market file."""

    def __init__(self, fault: FileFault) -> None:
        super().__init__(str(fault))
        self.fault = fault


class StoreRefused(MarketError):
    """The store is not this market's, from a byte on (`kind` is foreign), or has a record that this market never wrote (`kind` is record)."""

    def __init__(self, kind: str, number: int) -> None:
        super().__init__(f"refused store {kind} {number}")
        self.kind = kind
        self.number = number


class Refused(MarketError):
    """The program refuses a command; nothing changed. `cause` is one of `daggre.refusals`."""

    def __init__(self, line: str, cause: Refusal) -> None:
        super().__init__(f"{line}: {cause}")
        self.line = line
        self.cause = cause


class UnknownLine(MarketError):
    """The program answered with a line that is no reply to this one: another program, or a later one."""

    def __init__(self, line: str, reply: str) -> None:
        super().__init__(f"{line!r} was answered by {reply!r}, which is no reply to it")
        self.line = line
        self.reply = reply


class Ended(MarketError):
    """The program ended before it had answered everything. `replies` are those that came; whether the line behind them was
    taken in cannot be known. What a market without a store was told is gone with the process."""

    def __init__(self, status: int, replies: tuple[str, ...] = ()) -> None:
        meaning = f"signal {-status}" if status < 0 else STATUSES.get(status, "which it never gives")
        super().__init__(f"the market ended with status {status} ({meaning})")
        self.status = status
        self.replies = replies


class Silent(MarketError):
    """No reply came in time. The process was ended, since later replies could not be told apart."""

    def __init__(self, seconds: float, replies: tuple[str, ...] = ()) -> None:
        super().__init__(f"the market gave no reply for {seconds:g} seconds, and was ended")
        self.seconds = seconds
        self.replies = replies
