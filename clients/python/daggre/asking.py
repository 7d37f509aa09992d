"""What a market comes to behind the lines that it was told: chances across its cliques, likeliest outcomes, and what a user may expect.

Each call runs the market anew in a process of its own, from its file and its lines, and asks once. A market that runs elsewhere is not touched.
"""
from __future__ import annotations

import os
import re
import subprocess
from collections.abc import Iterable, Sequence
from dataclasses import dataclass
from decimal import Decimal

from .amounts import PRICE, read_price
from .errors import Ended, FileFault, FileRefused, MarketError, Refused, Silent, UnknownLine
from .process import find_program
from .questions import NAME, Pair
from .refusals import Refusal, UnknownName, UnknownUser

MOST_PAIRS = 64
_PAIR = f"{NAME}={NAME}"
_WHOLE = "(0|-?[1-9][0-9]{0,18})"
_CHANCE = re.compile(rf"chance {PRICE}\.\.{PRICE}")
_BEST = re.compile(rf"best {PRICE}\.\.{PRICE} at most ([0-9]+\.[0-9]{{10}})((?: {_PAIR})+)")
_EXPECTATION = re.compile(rf"expect {_WHOLE}\.\.{_WHOLE}")
_NO_NAME = re.compile(f"refused name ({_PAIR})")
_NO_USER = re.compile(f"refused user ({NAME})")


@dataclass(frozen=True, slots=True)
class Contradiction(Refusal):
    """No outcome that is left has all the given pairs."""

    def __str__(self) -> str:
        return "refused given"


@dataclass(frozen=True, slots=True)
class Chance:
    """The exact chance lies between both ends, which are at least as near as those of a price."""

    low: Decimal
    high: Decimal

    @classmethod
    def read(cls, line: str) -> Chance | None:
        """The chance that has this line, or None where it is none."""
        found = _CHANCE.fullmatch(line)
        return cls(read_price(found[1]), read_price(found[2])) if found else None

    def __str__(self) -> str:
        return f"chance {self.low:.10f}..{self.high:.10f}"


@dataclass(frozen=True, slots=True)
class Best:
    """A likeliest outcome, a pair for each variable in the file's order, those that were added last. Its chance lies between `low` and `high`, and that of none
    is above `most`."""

    low: Decimal
    high: Decimal
    most: Decimal
    outcome: tuple[Pair, ...]

    @classmethod
    def read(cls, line: str) -> Best | None:
        """The outcome that has this line, or None where it is none."""
        found = _BEST.fullmatch(line)
        if found is None:
            return None
        return cls(read_price(found[1]), read_price(found[2]), Decimal(found[3]), tuple(map(Pair.read, found[4].split())))

    def __str__(self) -> str:
        return f"best {self.low:.10f}..{self.high:.10f} at most {self.most:.10f} {' '.join(map(str, self.outcome))}"


@dataclass(frozen=True, slots=True)
class Expectation:
    """What a user may expect to have by the market's own prices lies between both ends, in points. Rounding may take the low end below 0."""

    low: int
    high: int

    @classmethod
    def read(cls, line: str) -> Expectation | None:
        """The expectation that has this line, or None where it is none."""
        found = _EXPECTATION.fullmatch(line)
        return cls(int(found[1]), int(found[2])) if found else None

    def __str__(self) -> str:
        return f"expect {self.low}..{self.high}"


def _words(pairs: Iterable[Pair | str], least: int) -> list[str]:
    words = [str(Pair.read(str(pair))) for pair in pairs]
    if not least <= len(words) <= MOST_PAIRS:
        raise ValueError(f"{least} to {MOST_PAIRS} pairs are taken, and not {len(words)}")
    return words


def _refusal(line: str) -> Refusal | None:
    if line == str(Contradiction()):
        return Contradiction()
    if found := _NO_NAME.fullmatch(line):
        return UnknownName(Pair.read(found[1]))
    if found := _NO_USER.fullmatch(line):
        return UnknownUser(found[1])
    return None


def _last_line(words: Sequence[str], lines: Iterable[str], program: str | os.PathLike[str] | None, timeout: float | None) -> str:
    """What these words say behind these lines; raises where it is a refusal, or where there is no last line."""
    told = "".join(f"{line}\n" for line in lines).encode("utf-8", "surrogateescape")
    try:
        done = subprocess.run([find_program(program), *words], input=told, stdout=subprocess.PIPE, timeout=timeout, check=False)
    except subprocess.TimeoutExpired:
        raise Silent(timeout or 0.0) from None
    replies = done.stdout.decode("utf-8", "replace").splitlines()
    if done.returncode == 2 and replies:
        raise FileRefused(FileFault.read(replies[0]))
    if done.returncode or not replies:
        raise Ended(done.returncode, tuple(replies[1:]))
    if refusal := _refusal(replies[-1]):
        raise Refused(" ".join(words), refusal)
    return replies[-1]


def _strange(words: Sequence[str], line: str) -> MarketError:
    return UnknownLine(" ".join(words), line)


def chance(file: str | os.PathLike[str], wanted: Iterable[Pair | str], given: Iterable[Pair | str] = (), lines: Iterable[str] = (), *,
           program: str | os.PathLike[str] | None = None, timeout: float | None = None) -> Chance:
    """The chance that all wanted pairs come where the given ones do, in the market of a file that was told these lines."""
    known = _words(given, 0)
    words = ["chance", os.fspath(file), *_words(wanted, 1), *(["given", *known] if known else [])]
    line = _last_line(words, lines, program, timeout)
    found = Chance.read(line)
    if found is None:
        raise _strange(words, line)
    return found


def best(file: str | os.PathLike[str], given: Iterable[Pair | str] = (), lines: Iterable[str] = (), *, program: str | os.PathLike[str] | None = None,
         timeout: float | None = None) -> Best:
    """A likeliest outcome of those that have the given pairs, in the market of a file that was told these lines."""
    words = ["best", os.fspath(file), *_words(given, 0)]
    line = _last_line(words, lines, program, timeout)
    found = Best.read(line)
    if found is None:
        raise _strange(words, line)
    return found


def expect(file: str | os.PathLike[str], user: str, lines: Iterable[str] = (), *, program: str | os.PathLike[str] | None = None,
           timeout: float | None = None) -> Expectation:
    """The points that a user may expect to have, by the prices of the market of a file that was told these lines."""
    if re.fullmatch(NAME, user) is None:
        raise ValueError(f"no name: {user!r}")
    words = ["expect", os.fspath(file), user]
    line = _last_line(words, lines, program, timeout)
    found = Expectation.read(line)
    if found is None:
        raise _strange(words, line)
    return found
