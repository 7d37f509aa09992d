"""The commands: a function for each, which makes the line and knows what kind of reply it may get.

A question is a text, such as `ferry=sails | storm=yes`, or a `Question`; one about every value of a variable a text, such as
`ferry | storm=yes`, or a `Distribution`. Whether a text is a command is for the program to say.
"""
from __future__ import annotations

from collections.abc import Sequence
from dataclasses import dataclass
from typing import Generic, TypeVar

from . import replies
from .errors import UnknownLine
from .questions import Distribution, Pair, Question
from .refusals import Refusal
from .replies import read_reply

R = TypeVar("R", bound=replies.Reply, covariant=True)


@dataclass(frozen=True, slots=True)
class Command(Generic[R]):
    """One line for the program, and the class of its reply where it is not refused; several where it may be one of them."""

    line: str
    kind: type[R] | tuple[type[R], ...]

    def read(self, text: str) -> R | Refusal:
        """What this reply says; UnknownLine where it is none that this command may get."""
        try:
            reply = read_reply(text)
        except ValueError:
            raise UnknownLine(self.line, text) from None
        if isinstance(reply, Refusal):
            return reply
        if isinstance(reply, self.kind):
            return reply
        raise UnknownLine(self.line, text)


def _at(revision: int | None) -> str:
    return "" if revision is None else f" at {revision}"


def user(name: str) -> Command[replies.Joined]:
    return Command(f"user {name}", replies.Joined)


def deposit(user: str, bits: int) -> Command[replies.Deposited]:
    return Command(f"deposit {user} {bits}", replies.Deposited)


def withdraw(user: str, bits: int) -> Command[replies.Withdrawn]:
    return Command(f"withdraw {user} {bits}", replies.Withdrawn)


def price(question: Question | str) -> Command[replies.Price]:
    return Command(f"price {question}", replies.Price)


def limits(user: str, question: Question | str) -> Command[replies.Limits]:
    return Command(f"limits {user} {question}", replies.Limits)


def edit(user: str, question: Question | str, to: int, at: int | None = None) -> Command[replies.Traded]:
    return Command(f"edit {user} {question} to {to}{_at(at)}", replies.Traded)


def bounds(user: str, question: Distribution | str) -> Command[replies.Bounds]:
    return Command(f"bounds {user} {question}", replies.Bounds)


def spread(user: str, question: Distribution | str, to: Sequence[int], at: int | None = None) -> Command[replies.Spread]:
    return Command(f"spread {user} {question} to {' '.join(map(str, to))}{_at(at)}", replies.Spread)


def worst(user: str) -> Command[replies.Worst]:
    return Command(f"worst {user}", replies.Worst)


def prices(question: Distribution | str) -> Command[replies.Prices]:
    return Command(f"prices {question}", replies.Prices)


def position(user: str, question: Distribution | str) -> Command[replies.Position]:
    return Command(f"position {user} {question}", replies.Position)


def status() -> Command[replies.Status]:
    return Command("status", replies.Status)


def resolve(pair: Pair | str) -> Command[replies.Resolved]:
    return Command(f"resolve {pair}", replies.Resolved)


def add(name: str, values: Sequence[str], parents: Sequence[str], rows: Sequence[Sequence[int]], clique: Sequence[str], link: int) -> Command[replies.Added]:
    """`clique` holds the new question and its parents, and is linked to the one that has the number `link`, from 1."""
    bar = f" | {','.join(parents)}" if parents else ""
    shares = ", ".join(" ".join(map(str, row)) for row in rows)
    return Command(f"add {name}={','.join(values)}{bar} : {shares} in {','.join(clique)} to {link}", replies.Added)


def settle() -> Command[replies.Settlement | replies.SettledAll]:
    return Command("settle", (replies.Settlement, replies.SettledAll))


def paid(user: str) -> Command[replies.Paid]:
    return Command(f"paid {user}", replies.Paid)


def bound() -> Command[replies.Bound]:
    return Command("bound", replies.Bound)
