"""What the program answers: a class for each kind of reply. `str` of a reply is the line that it was read from.

Prices are exact decimals of ten digits, shares are parts per million, points and bits whole numbers, and ratios whole numbers in
units of 2^-40. `at` is the revision after the reply.
"""
from __future__ import annotations

import re
from collections.abc import Callable
from dataclasses import dataclass
from decimal import Decimal

from . import refusals
from .amounts import (BOX, COUNT, INTERVAL, MOST_COUNTED, POINTS_LIST, PRICE, PRICE_LIST, PRICE_UNITS, Interval, Points, box_text, interval_text,
                      read_box, read_count, read_interval, read_points, read_price, read_ratio)
from .questions import NAME, Pair
from .refusals import Refusal


class Reply:
    """Any of the replies below that is no refusal."""

    __slots__ = ()


@dataclass(frozen=True, slots=True)
class Joined(Reply):
    """`user`: the user joined, and owns nothing."""

    user: str
    at: int

    def __str__(self) -> str:
        return f"user {self.user} at {self.at}"


@dataclass(frozen=True, slots=True)
class Deposited(Reply):
    """`deposit`: so many bits were paid in."""

    user: str
    bits: int
    at: int

    def __str__(self) -> str:
        return f"deposit {self.user} {self.bits} at {self.at}"


@dataclass(frozen=True, slots=True)
class Withdrawn(Reply):
    """`withdraw`: so many bits were taken out."""

    user: str
    bits: int
    at: int

    def __str__(self) -> str:
        return f"withdraw {self.user} {self.bits} at {self.at}"


@dataclass(frozen=True, slots=True)
class Price(Reply):
    """`price`: the exact price lies between both ends. They are its floor and ceiling in units of 10^-10; an end may be a unit off
    where the price is within one part in 2^42 of a unit, or in 2^39 where the market's file asks for more than 65,536 trades."""

    low: Decimal
    high: Decimal

    @property
    def units(self) -> tuple[int, int]:
        """Both ends as whole numbers of 10^-10."""
        return int(self.low * PRICE_UNITS), int(self.high * PRICE_UNITS)

    def __str__(self) -> str:
        return f"price {self.low:.10f}..{self.high:.10f}"


@dataclass(frozen=True, slots=True)
class Limits(Reply):
    """`limits`: the shares to which the user can take the price now; None where there is no such share."""

    interval: Interval | None
    at: int

    def __str__(self) -> str:
        return f"limits {interval_text(self.interval)} at {self.at}"


@dataclass(frozen=True, slots=True)
class Traded(Reply):
    """`edit`: what weights of states with the target, and with another value, were multiplied by."""

    hit: int
    miss: int
    at: int

    def __str__(self) -> str:
        return f"trade {self.hit} {self.miss} at {self.at}"


@dataclass(frozen=True, slots=True)
class Bounds(Reply):
    """`bounds`: an interval of shares for each value in the question's order; None where the user can take no whole distribution."""

    intervals: tuple[Interval, ...] | None
    at: int

    def __str__(self) -> str:
        return f"bounds {box_text(self.intervals)} at {self.at}"


@dataclass(frozen=True, slots=True)
class Spread(Reply):
    """`spread`: what weights of states with each value were multiplied by."""

    ratios: tuple[int, ...]
    at: int

    def __str__(self) -> str:
        return f"spread {' '.join(map(str, self.ratios))} at {self.at}"


@dataclass(frozen=True, slots=True)
class Worst(Reply):
    """`worst`: what the user is paid at least, in points; the two are at most one apart, and equal for a user who holds no trade."""

    low: int
    high: int

    def __str__(self) -> str:
        return f"worst {self.low}..{self.high}"


@dataclass(frozen=True, slots=True)
class Prices(Reply):
    """`prices`: for each value in the question's order an interval of its price, as near as that of `price`."""

    intervals: tuple[Price, ...]

    def __str__(self) -> str:
        return f"prices {' '.join(f'{price.low:.10f}..{price.high:.10f}' for price in self.intervals)}"


@dataclass(frozen=True, slots=True)
class Position(Reply):
    """`position`: for each value in the question's order what the user is paid at least where it comes; None for a value that cannot come."""

    intervals: tuple[Points | None, ...]

    def __str__(self) -> str:
        return f"position {' '.join('none' if points is None else str(points) for points in self.intervals)}"


@dataclass(frozen=True, slots=True)
class Status(Reply):
    """`status`: the revision, and how many users, trades, transfers and open questions there are, with the most that there may be."""

    at: int
    users: int
    trades: int
    most_trades: int
    transfers: int
    most_transfers: int
    open: int
    questions: int

    def __str__(self) -> str:
        return (f"status at {self.at} users {self.users} trades {self.trades} of {self.most_trades} "
                f"transfers {self.transfers} of {self.most_transfers} open {self.open} of {self.questions}")


@dataclass(frozen=True, slots=True)
class Resolved(Reply):
    """`resolve`: the variable has the value."""

    pair: Pair
    at: int

    def __str__(self) -> str:
        return f"resolve {self.pair} at {self.at}"


@dataclass(frozen=True, slots=True)
class Added(Reply):
    """`add`: the variable is a question of the market from now on."""

    variable: str
    at: int

    def __str__(self) -> str:
        return f"add {self.variable} at {self.at}"


@dataclass(frozen=True, slots=True)
class Payment:
    """What one user is paid: the low end of an interval that covers the cash of the user's factor, in points."""

    user: str
    low: int
    high: int

    @property
    def paid(self) -> int:
        return self.low

    def __str__(self) -> str:
        return f"{self.user} {self.low}..{self.high} paid {self.low}"


@dataclass(frozen=True, slots=True)
class Settlement(Reply):
    """`settle`: a payment for each user, in the order of joining."""

    at: int
    payments: tuple[Payment, ...]

    @property
    def total(self) -> int:
        """What all users are paid together."""
        return sum(payment.paid for payment in self.payments)

    def __str__(self) -> str:
        return ", ".join([f"settle at {self.at}", *map(str, self.payments)])


@dataclass(frozen=True, slots=True)
class SettledAll(Reply):
    """`settle` where more than 256 users joined: how many are paid, and how much together. `paid` tells what each is paid."""

    at: int
    users: int
    total: int

    def __str__(self) -> str:
        return f"settle at {self.at} users {self.users} paid {self.total}"


@dataclass(frozen=True, slots=True)
class Paid(Reply):
    """`paid`: what the settlement paid this user."""

    payment: Payment

    def __str__(self) -> str:
        return f"paid {self.payment}"


@dataclass(frozen=True, slots=True)
class Bound(Reply):
    """`bound`: the most points that the operator can lose in the outcomes that are left; the two are at most one apart."""

    low: int
    high: int

    def __str__(self) -> str:
        return f"bound {self.low}..{self.high}"


_PAYMENT = re.compile(rf"({NAME}) {COUNT}\.\.{COUNT} paid {COUNT}")
MOST_PAYMENTS = 256
MOST_USERS = 65536


def _payment(text: str) -> Payment:
    found = _PAYMENT.fullmatch(text)
    if found is None or found[4] != found[2]:
        raise ValueError(f"no payment: {text!r}")
    return Payment(found[1], read_count(found[2]), read_count(found[3]))


def _settlement(at: str, rest: str) -> Settlement:
    payments = tuple(map(_payment, rest.split(", ")[1:]))
    if len(payments) > MOST_PAYMENTS:
        raise ValueError(f"{len(payments)} payments")
    return Settlement(read_count(at), payments)


def _settled_all(at: str, users: str, total: str) -> SettledAll:
    settled = SettledAll(read_count(at), read_count(users, MOST_USERS), read_count(total))
    if settled.users <= MOST_PAYMENTS:
        raise ValueError(f"{users} users, whose payments are listed")
    return settled


def _prices(text: str, *_: str) -> Prices:
    ends = [part.split("..") for part in text.split(" ")]
    return Prices(tuple(Price(read_price(low), read_price(high)) for low, high in ends))


def _status(at: str, *rest: str) -> Status:
    return Status(read_count(at), *(read_count(number, MOST_COUNTED) for number in rest))


_TEXTS: list[tuple[str, Callable[..., Reply]]] = [
    (rf"price {PRICE}\.\.{PRICE}", lambda a, b: Price(read_price(a), read_price(b))),
    (f"trade {COUNT} {COUNT} at {COUNT}", lambda hit, miss, at: Traded(read_ratio(hit), read_ratio(miss), read_count(at))),
    (f"limits {INTERVAL} at {COUNT}", lambda text, at: Limits(read_interval(text), read_count(at))),
    (rf"worst {COUNT}\.\.{COUNT}", lambda a, b: Worst(read_count(a), read_count(b))),
    (f"prices {PRICE_LIST}", _prices),
    (f"position {POINTS_LIST}", lambda text, *_: Position(tuple(map(read_points, text.split(" "))))),
    (f"status at {COUNT} users {COUNT} trades {COUNT} of {COUNT} transfers {COUNT} of {COUNT} open {COUNT} of {COUNT}", _status),
    (f"bounds {BOX} at {COUNT}", lambda text, at: Bounds(read_box(text), read_count(at))),
    (f"spread ({COUNT}(?: {COUNT}){{1,15}}) at {COUNT}",
     lambda text, *rest: Spread(tuple(map(read_ratio, text.split(" "))), read_count(rest[-1]))),
    (f"user ({NAME}) at {COUNT}", lambda user, at: Joined(user, read_count(at))),
    (f"deposit ({NAME}) {COUNT} at {COUNT}", lambda user, bits, at: Deposited(user, read_count(bits), read_count(at))),
    (f"withdraw ({NAME}) {COUNT} at {COUNT}", lambda user, bits, at: Withdrawn(user, read_count(bits), read_count(at))),
    (f"resolve ({NAME}={NAME}) at {COUNT}", lambda text, at: Resolved(Pair.read(text), read_count(at))),
    (f"add ({NAME}) at {COUNT}", lambda variable, at: Added(variable, read_count(at))),
    (f"settle at {COUNT}((?:, [^,]*)*)", _settlement),
    (f"settle at {COUNT} users {COUNT} paid {COUNT}", _settled_all),
    ("paid ([^,]*)", lambda text: Paid(_payment(text))),
    (rf"bound {COUNT}\.\.{COUNT}", lambda a, b: Bound(read_count(a), read_count(b))),
]
_BY_WORD: dict[str, list[tuple[re.Pattern[str], Callable[..., Reply | Refusal]]]] = {"refused": list(refusals.TEXTS)}
for _text, _make in _TEXTS:
    _BY_WORD.setdefault(_text.split(" ", 1)[0], []).append((re.compile(_text), _make))


def read_reply(line: str) -> Reply | Refusal:
    """The reply or refusal that has this text; ValueError where there is none."""
    for pattern, make in _BY_WORD.get(line.split(" ", 1)[0], ()):
        found = pattern.fullmatch(line)
        if found is not None:
            return make(*found.groups())
    raise ValueError(f"no reply: {line!r}")
