"""The numbers of replies: whole numbers below 2^63, prices of ten digits, intervals of shares."""
from __future__ import annotations

from dataclasses import dataclass
from decimal import Decimal

COUNT = r"(0|[1-9][0-9]{0,18})"
PRICE = r"([01]\.[0-9]{10})"
_RANGE = r"(?:0|[1-9][0-9]{0,5})\.\.(?:0|[1-9][0-9]{0,5})"
INTERVAL = rf"(none|{_RANGE})"
BOX = rf"(none|{_RANGE}(?: {_RANGE}){{1,15}})"
_PRICES = rf"{PRICE}\.\.{PRICE}"
PRICE_LIST = rf"({_PRICES}(?: {_PRICES}){{1,15}})"
_POINTS = rf"(?:none|{COUNT}\.\.{COUNT})"
POINTS_LIST = rf"({_POINTS}(?: {_POINTS}){{1,15}})"

PRICE_UNITS = 10**10
RATIO_UNIT = 2**40
MILLION = 10**6
MOST_COUNTED = 2**32 - 1


def read_count(text: str, most: int = 2**63 - 1) -> int:
    number = int(text)
    if number > most:
        raise ValueError(f"{number} is above {most}")
    return number


def read_ratio(text: str) -> int:
    ratio = read_count(text)
    if ratio == 0:
        raise ValueError("a ratio is at least 1")
    return ratio


def read_price(text: str) -> Decimal:
    price = Decimal(text)
    if price > 1:
        raise ValueError(f"a price is at most 1: {text}")
    return price


@dataclass(frozen=True, slots=True)
class Points:
    """Whole points, of which one of the two ends, or a number between them, is the exact one."""

    low: int
    high: int

    def __str__(self) -> str:
        return f"{self.low}..{self.high}"


def read_points(text: str) -> Points | None:
    if text == "none":
        return None
    low, high = text.split("..")
    return Points(read_count(low), read_count(high))


@dataclass(frozen=True, slots=True)
class Interval:
    """Shares in parts per million, both ends included. In bounds it is 0..0 for a value that cannot come."""

    low: int
    high: int

    @property
    def can_come(self) -> bool:
        return self.high > 0

    def __contains__(self, share: object) -> bool:
        return isinstance(share, int) and self.low <= share <= self.high

    def __str__(self) -> str:
        return f"{self.low}..{self.high}"


def _read_range(text: str) -> Interval:
    low, high = map(int, text.split(".."))
    if not 1 <= low <= high < MILLION:
        raise ValueError(f"no interval of shares: {text}")
    return Interval(low, high)


def read_interval(text: str) -> Interval | None:
    return None if text == "none" else _read_range(text)


def read_box(text: str) -> tuple[Interval, ...] | None:
    if text == "none":
        return None
    return tuple(Interval(0, 0) if part == "0..0" else _read_range(part) for part in text.split(" "))


def interval_text(interval: Interval | None) -> str:
    return "none" if interval is None else str(interval)


def box_text(box: tuple[Interval, ...] | None) -> str:
    return "none" if box is None else " ".join(map(str, box))
