"""A market that another process runs, driven line by line or many lines at once."""
from __future__ import annotations

import os
import re
import threading
from collections.abc import Iterable, Mapping, Sequence
from contextlib import ExitStack
from dataclasses import dataclass
from types import TracebackType
from typing import TypeVar

from . import commands, replies
from .commands import Command
from .errors import Ended, FileFault, FileRefused, MarketError, Refused, Silent, StoreRefused, UnknownLine
from .process import Channel, checked_line, drive, find_program, memory_file
from .questions import Distribution, Pair, Question
from .refusals import Refusal

R = TypeVar("R", bound=replies.Reply)
SECONDS_TO_END = 10.0


@dataclass(frozen=True, slots=True)
class Ready:
    """The greeting of a market: how many variables its file has, and how many points a bit has."""

    variables: int
    points_per_bit: int

    @classmethod
    def read(cls, line: str) -> Ready:
        """What this first line says; FileRefused where it is a refusal of the file."""
        words = line.split(" ")
        if len(words) == 3 and words[0] == "ready" and words[1].isdecimal() and words[2].isdecimal():
            return cls(int(words[1]), int(words[2]))
        if found := re.fullmatch(r"refused store (foreign|record) ([0-9]+)", line):
            raise StoreRefused(found[1], int(found[2]))
        try:
            fault = FileFault.read(line)
        except ValueError:
            raise UnknownLine("", line) from None
        raise FileRefused(fault)


def words_of(program: str, file: str | os.PathLike[str], store: str | os.PathLike[str] | None) -> list[str]:
    """The words of a call that runs a market, or keeps it in a store."""
    return [program, "run", os.fspath(file)] if store is None else [program, "keep", os.fspath(file), os.fspath(store)]


def read_resumed(line: str) -> int:
    """How many changes a store had, as this line says."""
    found = re.fullmatch(r"resumed ([0-9]+)", line)
    if found is None:
        raise UnknownLine("", line)
    return int(found[1])


class Market:
    """A market of a file, in a process of its own; a context manager, at whose end the process is ended.

    Each method of a command sends its line and gives its reply, or raises Refused. Several threads may share a market. Nothing is
    started again: where the process ends each call raises Ended, and what a market without a store was told is gone.
    """

    def __init__(self, file: str | os.PathLike[str], *, store: str | os.PathLike[str] | None = None, program: str | os.PathLike[str] | None = None,
                 timeout: float | None = None) -> None:
        """Starts the program and waits for its greeting. `store`: a file in which each change is kept before its reply comes, and from
        which the market goes on; `resumed` is then how many changes it had. `timeout`: after how many seconds without a reply the
        process is ended and Silent raised; None waits for ever."""
        self._start(words_of(find_program(program), file, store), (), timeout, store is not None)

    @classmethod
    def of_text(cls, text: str, *, program: str | os.PathLike[str] | None = None, timeout: float | None = None) -> Market:
        """The market of a file that has this text."""
        market = cls.__new__(cls)
        number = memory_file(text.encode())
        try:
            market._start([find_program(program), "run", f"/proc/self/fd/{number}"], (number,), timeout)
        finally:
            os.close(number)
        return market

    def _start(self, words: Sequence[str], kept: Sequence[int], timeout: float | None, has_store: bool = False) -> None:
        self._turn = threading.Lock()
        self._timeout = timeout
        self._status: int | None = None
        self._channel = Channel(words, kept)
        try:
            self._begin(b"", 2 if has_store else 1)
            drive([self._channel], timeout)
            # a refusal comes alone
            for line in self._channel.lines[:1]:
                self.ready = Ready.read(line)
            lines = self._lines(timeout)
            self.resumed = read_resumed(lines[1]) if has_store else None
        except BaseException:
            self.close()
            raise

    @property
    def pid(self) -> int:
        """The number of the process."""
        return self._channel.process.pid

    @property
    def status(self) -> int | None:
        """The status of the process where it has ended, as far as this client has seen."""
        return self._status

    def __enter__(self) -> Market:
        return self

    def __exit__(self, kind: type[BaseException] | None, value: BaseException | None, trace: TracebackType | None) -> None:
        self.close()

    def close(self) -> int:
        """Ends the market's input and gives the status with which it ends. It may be called again."""
        with self._turn:
            if self._status is None:
                self._status = self._channel.end(SECONDS_TO_END)
            return self._status

    def kill(self) -> int:
        """Ends the process at once, without waiting for what it does, and gives its status."""
        if self._status is None:
            self._status = self._channel.kill()
        return self._status

    # Lines as they are.

    def _begin(self, out: bytes, wanted: int) -> None:
        if self._status is not None:
            raise Ended(self._status)
        if out and (stray := self._channel.stray()):
            self._status = self._channel.kill()
            raise UnknownLine("", stray)
        self._channel.begin(out, wanted)

    def _lines(self, seconds: float | None) -> list[str]:
        """The lines that were wanted; `seconds` is how long they were waited for."""
        channel = self._channel
        lines = channel.lines
        if channel.is_silent and seconds is not None and len(lines) < channel.wanted:
            self._status = channel.kill()
            raise Silent(seconds, tuple(lines))
        if len(lines) < channel.wanted:
            self._status = channel.end(SECONDS_TO_END)
            raise Ended(self._status, tuple(lines))
        if len(lines) > channel.wanted:
            self._status = channel.kill()
            raise UnknownLine("", lines[channel.wanted])
        return lines

    def lines(self, texts: Sequence[str]) -> list[str]:
        """Sends these lines, as they are and without waiting between them, and gives the line of each reply."""
        return exchange({self: texts}, self._timeout)[self].lines()

    def line(self, text: str) -> str:
        """Sends one line, as it is, and gives the line of its reply."""
        return self.lines([text])[0]

    # Commands.

    def ask(self, command: Command[R]) -> R:
        """Sends a command and gives its reply; raises Refused where it is refused."""
        reply = command.read(self.line(command.line))
        if isinstance(reply, Refusal):
            raise Refused(command.line, reply)
        return reply

    def many(self, batch: Iterable[Command[R]]) -> list[R | Refusal]:
        """Sends all commands without waiting between them, and gives what each was answered: a reply or a refusal."""
        sent = list(batch)
        return [command.read(line) for command, line in zip(sent, self.lines([command.line for command in sent]), strict=True)]

    def user(self, name: str) -> replies.Joined:
        """A user joins, and owns nothing."""
        return self.ask(commands.user(name))

    def deposit(self, user: str, bits: int) -> replies.Deposited:
        """The user pays in 1 to 1,000 bits."""
        return self.ask(commands.deposit(user, bits))

    def withdraw(self, user: str, bits: int) -> replies.Withdrawn:
        """The user takes out 1 to 1,000 bits, as far as the least factor allows."""
        return self.ask(commands.withdraw(user, bits))

    def price(self, question: Question | str) -> replies.Price:
        """The price of the target where the condition holds."""
        return self.ask(commands.price(question))

    def limits(self, user: str, question: Question | str) -> replies.Limits:
        """The shares to which the user can take the price now; they are the user's last quote."""
        return self.ask(commands.limits(user, question))

    def edit(self, user: str, question: Question | str, to: int, at: int | None = None) -> replies.Traded:
        """Takes the price to a share in parts per million; `at` is the revision that the market must have, where it is given."""
        return self.ask(commands.edit(user, question, to, at))

    def bounds(self, user: str, question: Distribution | str) -> replies.Bounds:
        """The shares to which the user can take the prices of all values now; they are the user's last quote."""
        return self.ask(commands.bounds(user, question))

    def spread(self, user: str, question: Distribution | str, to: Sequence[int], at: int | None = None) -> replies.Spread:
        """Takes the price of each value to its share in parts per million, a million together."""
        return self.ask(commands.spread(user, question, to, at))

    def worst(self, user: str) -> replies.Worst:
        """What the user is paid at least, whatever comes, in points."""
        return self.ask(commands.worst(user))

    def prices(self, question: Distribution | str) -> replies.Prices:
        """The price of each value where the condition holds."""
        return self.ask(commands.prices(question))

    def position(self, user: str, question: Distribution | str) -> replies.Position:
        """For each value what the user is paid at least where it comes and the condition holds, in points."""
        return self.ask(commands.position(user, question))

    def read_status(self) -> replies.Status:
        """The command `status`: the revision, and how full the market is. `status` without a call is that of the process."""
        return self.ask(commands.status())

    def resolve(self, pair: Pair | str) -> replies.Resolved:
        """The variable has the value, for good."""
        return self.ask(commands.resolve(pair))

    def add(self, name: str, values: Sequence[str], parents: Sequence[str], rows: Sequence[Sequence[int]], clique: Sequence[str],
            link: int) -> replies.Added:
        """Puts one question more into the market. `rows` has a row of shares for each list of the parents' values; `clique` holds the question and
        its parents, and is linked to the clique with the number `link`."""
        return self.ask(commands.add(name, values, parents, rows, clique, link))

    def settle(self) -> replies.Settlement | replies.SettledAll:
        """Pays every user, once all variables are resolved. Of more than 256 users it tells the sum, and `paid` each one's part."""
        return self.ask(commands.settle())

    def paid(self, user: str) -> replies.Paid:
        """What the settlement paid the user; it is the one command that is served behind a settlement."""
        return self.ask(commands.paid(user))

    def bound(self) -> replies.Bound:
        """The most points that the operator can lose in the outcomes that are left."""
        return self.ask(commands.bound())


@dataclass(frozen=True, slots=True)
class Exchanged:
    """What came of the lines of one market: their replies, or why they were not all answered."""

    got: tuple[str, ...]
    fault: MarketError | None = None

    def lines(self) -> list[str]:
        """The replies; raises the fault where there is one."""
        if self.fault is not None:
            raise self.fault
        return list(self.got)


def exchange(work: Mapping[Market, Sequence[str]], timeout: float | None = None) -> dict[Market, Exchanged]:
    """Sends lines to many markets side by side and gives what came of each. A market that fails leaves the others as they are."""
    sent = {market: b"".join(map(checked_line, texts)) for market, texts in work.items()}
    done: dict[Market, Exchanged] = {}
    with ExitStack() as turns:
        for market in sorted(work, key=id):
            turns.enter_context(market._turn)
        begun = []
        for market, texts in work.items():
            try:
                market._begin(sent[market], len(texts))
                begun.append(market)
            except MarketError as fault:
                done[market] = Exchanged((), fault)
        try:
            drive([market._channel for market in begun], timeout)
        except BaseException:
            # Which replies are still to come can no longer be told.
            for market in begun:
                market.kill()
            raise
        for market in begun:
            try:
                done[market] = Exchanged(tuple(market._lines(timeout)))
            except (Ended, Silent) as fault:
                done[market] = Exchanged(fault.replies, fault)
            except MarketError as fault:
                done[market] = Exchanged((), fault)
    return done
