"""The same market for asyncio: many tasks may ask at once, and each gets its own reply."""
from __future__ import annotations

import asyncio
import os
from collections import deque
from collections.abc import Iterable, Sequence
from types import TracebackType
from typing import TypeVar

from . import commands, replies
from .commands import Command
from .errors import Ended, ProgramMissing, Refused
from .market import SECONDS_TO_END, Ready, read_resumed, words_of
from .process import LONGEST_REPLY, checked_line, find_program
from .questions import Distribution, Pair, Question
from .refusals import Refusal

R = TypeVar("R", bound=replies.Reply)


class _Waiting:
    """Lines that were sent together, and what has come of them."""

    def __init__(self, wanted: int) -> None:
        self.wanted = wanted
        self.lines: list[str] = []
        self.done: asyncio.Future[list[str]] = asyncio.get_running_loop().create_future()

    def take(self, line: str) -> bool:
        """Whether this was the last. Whoever gave up waiting still gets the place in the order, and nobody else's replies."""
        self.lines.append(line)
        if len(self.lines) < self.wanted:
            return False
        if not self.done.done():
            self.done.set_result(self.lines)
        return True

    def fail(self, status: int) -> None:
        if not self.done.done():
            self.done.set_exception(Ended(status, tuple(self.lines)))


class AsyncMarket:
    """A market of a file, in a process of its own: `async with AsyncMarket("ferry.toml") as market:`.

    Commands are sent in the order in which they are called. Giving up on one, as `asyncio.timeout` does, leaves it sent; its reply is
    read and dropped. Nothing is started again. With a `store` each change is kept in that file before its reply comes, and `resumed` is
    how many changes it had.
    """

    ready: Ready
    resumed: int | None

    def __init__(self, file: str | os.PathLike[str], *, store: str | os.PathLike[str] | None = None,
                 program: str | os.PathLike[str] | None = None) -> None:
        self._words = words_of(find_program(program), file, store)
        self._has_store = store is not None
        self._waiting: deque[_Waiting] = deque()
        self._status: int | None = None

    async def __aenter__(self) -> AsyncMarket:
        try:
            self._process = await asyncio.create_subprocess_exec(*self._words, stdin=asyncio.subprocess.PIPE, stdout=asyncio.subprocess.PIPE,
                                                                 limit=2 * LONGEST_REPLY)
        except OSError as fault:
            raise ProgramMissing(f"{self._words[0]} cannot be started: {fault.strerror}") from None
        assert self._process.stdin is not None and self._process.stdout is not None
        self._sink, self._source = self._process.stdin, self._process.stdout
        greeting = _Waiting(2 if self._has_store else 1)
        self._waiting.append(greeting)
        self._reader = asyncio.create_task(self._read())
        try:
            try:
                lines = await greeting.done
            except Ended as fault:
                # a refusal comes alone
                for line in fault.replies[:1]:
                    Ready.read(line)
                raise
            self.ready = Ready.read(lines[0])
            self.resumed = read_resumed(lines[1]) if self._has_store else None
        except BaseException:
            await self.close()
            raise
        return self

    async def __aexit__(self, kind: type[BaseException] | None, value: BaseException | None, trace: TracebackType | None) -> None:
        await self.close()

    async def _read(self) -> None:
        try:
            while line := await self._source.readline():
                if not line.endswith(b"\n") or not self._waiting:
                    break
                if self._waiting[0].take(line[:-1].decode("utf-8", "replace")):
                    self._waiting.popleft()
        except ValueError:
            pass  # a line longer than any reply: the program is another one
        finally:
            self._sink.close()
            try:
                self._status = await asyncio.wait_for(self._process.wait(), SECONDS_TO_END)
            except (TimeoutError, asyncio.CancelledError):
                if self._process.returncode is None:
                    self._process.kill()
                self._status = await self._process.wait()
            while self._waiting:
                self._waiting.popleft().fail(self._status)

    @property
    def pid(self) -> int:
        """The number of the process."""
        return self._process.pid

    @property
    def status(self) -> int | None:
        """The status of the process where it has ended."""
        return self._status

    async def close(self) -> int:
        """Ends the market's input, lets all that was sent be answered, and gives the status. It may be called again."""
        self._sink.close()
        await self._reader
        assert self._status is not None
        return self._status

    async def lines(self, texts: Sequence[str]) -> list[str]:
        """Sends these lines, as they are and without waiting between them, and gives the line of each reply."""
        out = b"".join(map(checked_line, texts))
        if not texts:
            return []
        if self._status is not None or self._sink.is_closing():
            raise Ended(self._status if self._status is not None else await self.close())
        waiting = _Waiting(len(texts))
        self._waiting.append(waiting)
        self._sink.write(out)
        try:
            await self._sink.drain()
        except (BrokenPipeError, ConnectionResetError):
            pass
        return await waiting.done

    async def line(self, text: str) -> str:
        """Sends one line, as it is, and gives the line of its reply."""
        return (await self.lines([text]))[0]

    async def ask(self, command: Command[R]) -> R:
        """Sends a command and gives its reply; raises Refused where it is refused."""
        reply = command.read(await self.line(command.line))
        if isinstance(reply, Refusal):
            raise Refused(command.line, reply)
        return reply

    async def many(self, batch: Iterable[Command[R]]) -> list[R | Refusal]:
        """Sends all commands without waiting between them, and gives what each was answered: a reply or a refusal."""
        sent = list(batch)
        lines = await self.lines([command.line for command in sent])
        return [command.read(line) for command, line in zip(sent, lines, strict=True)]

    async def user(self, name: str) -> replies.Joined:
        """A user joins, and owns nothing."""
        return await self.ask(commands.user(name))

    async def deposit(self, user: str, bits: int) -> replies.Deposited:
        """The user pays in 1 to 1,000 bits."""
        return await self.ask(commands.deposit(user, bits))

    async def withdraw(self, user: str, bits: int) -> replies.Withdrawn:
        """The user takes out 1 to 1,000 bits, as far as the least factor allows."""
        return await self.ask(commands.withdraw(user, bits))

    async def price(self, question: Question | str) -> replies.Price:
        """The price of the target where the condition holds."""
        return await self.ask(commands.price(question))

    async def limits(self, user: str, question: Question | str) -> replies.Limits:
        """The shares to which the user can take the price now; they are the user's last quote."""
        return await self.ask(commands.limits(user, question))

    async def edit(self, user: str, question: Question | str, to: int, at: int | None = None) -> replies.Traded:
        """Takes the price to a share in parts per million; `at` is the revision that the market must have, where it is given."""
        return await self.ask(commands.edit(user, question, to, at))

    async def bounds(self, user: str, question: Distribution | str) -> replies.Bounds:
        """The shares to which the user can take the prices of all values now; they are the user's last quote."""
        return await self.ask(commands.bounds(user, question))

    async def spread(self, user: str, question: Distribution | str, to: Sequence[int], at: int | None = None) -> replies.Spread:
        """Takes the price of each value to its share in parts per million, a million together."""
        return await self.ask(commands.spread(user, question, to, at))

    async def worst(self, user: str) -> replies.Worst:
        """What the user is paid at least, whatever comes, in points."""
        return await self.ask(commands.worst(user))

    async def prices(self, question: Distribution | str) -> replies.Prices:
        """The price of each value where the condition holds."""
        return await self.ask(commands.prices(question))

    async def position(self, user: str, question: Distribution | str) -> replies.Position:
        """For each value what the user is paid at least where it comes and the condition holds, in points."""
        return await self.ask(commands.position(user, question))

    async def read_status(self) -> replies.Status:
        """The command `status`: the revision, and how full the market is. `status` without a call is that of the process."""
        return await self.ask(commands.status())

    async def resolve(self, pair: Pair | str) -> replies.Resolved:
        """The variable has the value, for good."""
        return await self.ask(commands.resolve(pair))

    async def add(self, name: str, values: Sequence[str], parents: Sequence[str], rows: Sequence[Sequence[int]], clique: Sequence[str],
                  link: int) -> replies.Added:
        """Puts one question more into the market. `rows` has a row of shares for each list of the parents' values; `clique` holds the question and
        its parents, and is linked to the clique with the number `link`."""
        return await self.ask(commands.add(name, values, parents, rows, clique, link))

    async def settle(self) -> replies.Settlement | replies.SettledAll:
        """Pays every user, once all variables are resolved. Of more than 256 users it tells the sum, and `paid` each one's part."""
        return await self.ask(commands.settle())

    async def paid(self, user: str) -> replies.Paid:
        """What the settlement paid the user; it is the one command that is served behind a settlement."""
        return await self.ask(commands.paid(user))

    async def bound(self) -> replies.Bound:
        """The most points that the operator can lose in the outcomes that are left."""
        return await self.ask(commands.bound())
