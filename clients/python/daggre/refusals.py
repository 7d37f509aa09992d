"""Why a command was refused: a class for each cause, with what its text tells. A refusal changes nothing in the market.

Classes are in the order in which the program tries the causes. `str` of a cause is the reply's text.
"""
from __future__ import annotations

import re
from collections.abc import Callable
from dataclasses import dataclass

from .amounts import BOX, COUNT, INTERVAL, MOST_COUNTED, Interval, box_text, interval_text, read_box, read_count, read_interval
from .questions import NAME, Pair


class Refusal:
    """Any of the causes below."""

    __slots__ = ()


@dataclass(frozen=True, slots=True)
class Syntax(Refusal):
    """The line is the text of no command."""

    def __str__(self) -> str:
        return "refused syntax"


@dataclass(frozen=True, slots=True)
class Long(Refusal):
    """The line has more than 1,024 bytes."""

    def __str__(self) -> str:
        return "refused long"


@dataclass(frozen=True, slots=True)
class Settled(Refusal):
    """The market is settled. Only `paid` is not refused for it."""

    def __str__(self) -> str:
        return "refused settled"


@dataclass(frozen=True, slots=True)
class Unsettled(Refusal):
    """The market is not settled yet, so nothing was paid."""

    def __str__(self) -> str:
        return "refused unsettled"


@dataclass(frozen=True, slots=True)
class UnknownUser(Refusal):
    """The user has not joined."""

    user: str

    def __str__(self) -> str:
        return f"refused user {self.user}"


@dataclass(frozen=True, slots=True)
class Exists(Refusal):
    """The user has joined before."""

    user: str

    def __str__(self) -> str:
        return f"refused exists {self.user}"


@dataclass(frozen=True, slots=True)
class TooManyUsers(Refusal):
    """As many users have joined as the market takes."""

    held: int

    def __str__(self) -> str:
        return f"refused users {self.held}"


@dataclass(frozen=True, slots=True)
class VariablesFull(Refusal):
    """The market has as many variables as it takes."""

    held: int

    def __str__(self) -> str:
        return f"refused variables {self.held}"


@dataclass(frozen=True, slots=True)
class Taken(Refusal):
    """A variable has the name of the one that is to be added."""

    variable: str

    def __str__(self) -> str:
        return f"refused taken {self.variable}"


@dataclass(frozen=True, slots=True)
class ValueTwice(Refusal):
    """The first value that stands a second time among those of the variable that is to be added."""

    value: str

    def __str__(self) -> str:
        return f"refused value {self.value}"


@dataclass(frozen=True, slots=True)
class UnknownVariable(Refusal):
    """The variable of a whole distribution is unknown; of an addition it is the first such parent, else the first such name of the clique."""

    variable: str

    def __str__(self) -> str:
        return f"refused variable {self.variable}"


@dataclass(frozen=True, slots=True)
class UnknownName(Refusal):
    """The first pair, the target first, whose variable or value is unknown."""

    pair: Pair

    def __str__(self) -> str:
        return f"refused name {self.pair}"


@dataclass(frozen=True, slots=True)
class Twice(Refusal):
    """The first variable that occurs a second time in target and condition; of an addition among the parents, else in the clique."""

    variable: str

    def __str__(self) -> str:
        return f"refused twice {self.variable}"


@dataclass(frozen=True, slots=True)
class UnknownClique(Refusal):
    """No clique has the number to which that of an addition is to be linked."""

    number: int

    def __str__(self) -> str:
        return f"refused link {self.number}"


@dataclass(frozen=True, slots=True)
class Uncovered(Refusal):
    """The first of the added variable and its parents that the clique does not hold."""

    variable: str

    def __str__(self) -> str:
        return f"refused cover {self.variable}"


@dataclass(frozen=True, slots=True)
class NotRunning(Refusal):
    """The first other name of the clique that does not lie in the one to which it is to be linked."""

    variable: str

    def __str__(self) -> str:
        return f"refused running {self.variable}"


@dataclass(frozen=True, slots=True)
class RowCount(Refusal):
    """There are so many rows, and not one for each list of the parents' values."""

    count: int

    def __str__(self) -> str:
        return f"refused rows {self.count}"


@dataclass(frozen=True, slots=True)
class RowWidth(Refusal):
    """The first row, from 1, that has another number of shares than there are values, and how many it has."""

    row: int
    count: int

    def __str__(self) -> str:
        return f"refused width {self.row} {self.count}"


@dataclass(frozen=True, slots=True)
class Stale(Refusal):
    """The revision that was named is not the present one: somebody else was faster."""

    named: int
    now: int

    def __str__(self) -> str:
        return f"refused stale {self.named} {self.now}"


@dataclass(frozen=True, slots=True)
class AlreadyResolved(Refusal):
    """The variable of the target is resolved."""

    variable: str

    def __str__(self) -> str:
        return f"refused resolved {self.variable}"


@dataclass(frozen=True, slots=True)
class Impossible(Refusal):
    """The first pair that cannot come: a resolution contradicts it, or no outcome has it."""

    pair: Pair

    def __str__(self) -> str:
        return f"refused impossible {self.pair}"


@dataclass(frozen=True, slots=True)
class Wide(Refusal):
    """No clique of the market holds all variables of target and condition."""

    def __str__(self) -> str:
        return "refused wide"


@dataclass(frozen=True, slots=True)
class Numbers(Refusal):
    """So many shares were given, and the variable has another number of values."""

    count: int

    def __str__(self) -> str:
        return f"refused numbers {self.count}"


@dataclass(frozen=True, slots=True)
class OutOfRange(Refusal):
    """The number is none that the command takes."""

    number: int

    def __str__(self) -> str:
        return f"refused range {self.number}"


@dataclass(frozen=True, slots=True)
class Sum(Refusal):
    """The shares make this together, and not a million; of an addition those of the first such row."""

    sum: int

    def __str__(self) -> str:
        return f"refused sum {self.sum}"


@dataclass(frozen=True, slots=True)
class TooManyCells(Refusal):
    """With the clique of an addition all cliques have so many cells, or it alone has more than one may."""

    total: int

    def __str__(self) -> str:
        return f"refused cells {self.total}"


@dataclass(frozen=True, slots=True)
class Full(Refusal):
    """The market has taken as many transfers, or trades, as it takes."""

    held: int

    def __str__(self) -> str:
        return f"refused full {self.held}"


@dataclass(frozen=True, slots=True)
class Sure(Refusal):
    """No other value of the variable can come, so there is nothing to trade."""

    pair: Pair

    def __str__(self) -> str:
        return f"refused sure {self.pair}"


@dataclass(frozen=True, slots=True)
class Beyond(Refusal):
    """The share is outside these limits, which now are the user's last quote; None where no share is inside."""

    limits: Interval | None

    def __str__(self) -> str:
        return f"refused beyond {interval_text(self.limits)}"


@dataclass(frozen=True, slots=True)
class Outside(Refusal):
    """Some share is outside its interval of these bounds, which now are the user's last quote; None where there are none."""

    bounds: tuple[Interval, ...] | None

    def __str__(self) -> str:
        return f"refused outside {box_text(self.bounds)}"


@dataclass(frozen=True, slots=True)
class Short(Refusal):
    """So many bits can be taken out, and no more."""

    bits: int

    def __str__(self) -> str:
        return f"refused short {self.bits}"


@dataclass(frozen=True, slots=True)
class StillOpen(Refusal):
    """The first variable that is not resolved."""

    variable: str

    def __str__(self) -> str:
        return f"refused open {self.variable}"


@dataclass(frozen=True, slots=True)
class Memory(Refusal):
    """Memory is wanting; nothing changed, and another run of the same commands may not meet it."""

    def __str__(self) -> str:
        return "refused memory"


_PAIR_TEXT = f"{NAME}={NAME}"
_TEXTS: list[tuple[str, Callable[..., Refusal]]] = [
    ("syntax", Syntax),
    ("long", Long),
    ("settled", Settled),
    ("unsettled", Unsettled),
    (f"user ({NAME})", UnknownUser),
    (f"exists ({NAME})", Exists),
    (f"users {COUNT}", lambda n: TooManyUsers(read_count(n, 65536))),
    (f"variables {COUNT}", lambda n: VariablesFull(read_count(n, 256))),
    (f"taken ({NAME})", Taken),
    (f"value ({NAME})", ValueTwice),
    (f"variable ({NAME})", UnknownVariable),
    (f"name ({_PAIR_TEXT})", lambda p: UnknownName(Pair.read(p))),
    (f"twice ({NAME})", Twice),
    (f"link {COUNT}", lambda n: UnknownClique(read_count(n, MOST_COUNTED))),
    (f"cover ({NAME})", Uncovered),
    (f"running ({NAME})", NotRunning),
    (f"rows {COUNT}", lambda n: RowCount(read_count(n, MOST_COUNTED))),
    (f"width {COUNT} {COUNT}", lambda row, n: RowWidth(read_count(row, MOST_COUNTED), read_count(n, MOST_COUNTED))),
    (f"stale {COUNT} {COUNT}", lambda r, n: Stale(read_count(r), read_count(n))),
    (f"resolved ({NAME})", AlreadyResolved),
    (f"impossible ({_PAIR_TEXT})", lambda p: Impossible(Pair.read(p))),
    ("wide", Wide),
    (f"numbers {COUNT}", lambda n: Numbers(read_count(n))),
    (f"range {COUNT}", lambda n: OutOfRange(read_count(n))),
    (f"sum {COUNT}", lambda n: Sum(read_count(n))),
    (f"cells {COUNT}", lambda n: TooManyCells(read_count(n, MOST_COUNTED))),
    (f"full {COUNT}", lambda n: Full(read_count(n))),
    (f"sure ({_PAIR_TEXT})", lambda p: Sure(Pair.read(p))),
    (f"beyond {INTERVAL}", lambda text: Beyond(read_interval(text))),
    (f"outside {BOX}", lambda text: Outside(read_box(text))),
    (f"short {COUNT}", lambda n: Short(read_count(n))),
    (f"open ({NAME})", StillOpen),
    ("memory", Memory),
]
TEXTS = [(re.compile("refused " + text), make) for text, make in _TEXTS]
