"""What commands and replies speak of: pairs, questions, and questions about every value of a variable."""
from __future__ import annotations

import re
from collections.abc import Iterable
from dataclasses import dataclass

NAME = r"[a-z][a-z0-9_]{0,31}"
_PAIR = re.compile(f"({NAME})=({NAME})")
_NAME = re.compile(NAME)
MOST_GIVEN = 8


@dataclass(frozen=True, slots=True)
class Pair:
    """A variable and one of its values, `storm=yes`."""

    variable: str
    value: str

    @classmethod
    def read(cls, text: str) -> Pair:
        """The pair that has this text; ValueError where there is none."""
        found = _PAIR.fullmatch(text)
        if found is None:
            raise ValueError(f"no pair: {text!r}")
        return cls(found[1], found[2])

    def __str__(self) -> str:
        return f"{self.variable}={self.value}"


def _read_given(text: str, bar: str) -> tuple[Pair, ...]:
    if not bar:
        return ()
    given = tuple(Pair.read(part) for part in text.split(", "))
    if len(given) > MOST_GIVEN:
        raise ValueError(f"a condition has at most {MOST_GIVEN} pairs: {text!r}")
    return given


def _given_text(given: Iterable[Pair]) -> str:
    text = ", ".join(map(str, given))
    return f" | {text}" if text else ""


@dataclass(frozen=True, slots=True)
class Question:
    """A pair that is asked for, and the pairs of its condition in order: `ferry=sails | storm=yes`."""

    target: Pair
    given: tuple[Pair, ...] = ()

    @classmethod
    def read(cls, text: str) -> Question:
        """The question that has this text; ValueError where there is none."""
        target, bar, given = text.partition(" | ")
        return cls(Pair.read(target), _read_given(given, bar))

    def __str__(self) -> str:
        return f"{self.target}{_given_text(self.given)}"


@dataclass(frozen=True, slots=True)
class Distribution:
    """A variable of which every value is asked for, and the pairs of a condition: `ferry | storm=yes`."""

    variable: str
    given: tuple[Pair, ...] = ()

    @classmethod
    def read(cls, text: str) -> Distribution:
        """The question that has this text; ValueError where there is none."""
        variable, bar, given = text.partition(" | ")
        if _NAME.fullmatch(variable) is None:
            raise ValueError(f"no variable: {variable!r}")
        return cls(variable, _read_given(given, bar))

    def __str__(self) -> str:
        return f"{self.variable}{_given_text(self.given)}"
