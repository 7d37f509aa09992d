"""A typed client of daggre: a market is a context manager over a process, with one method a command.

    import daggre

    with daggre.Market("examples/ferry.toml") as market:
        market.user("alice")
        market.deposit("alice", 2)
        print(market.price("ferry=sails | storm=yes").low)

Replies are dataclasses (`daggre.replies`), a refusal raises `daggre.Refused`, whose `cause` is one of `daggre.refusals`.
`Market(file, store=name)` keeps each change in a file, and goes on from there. `daggre.AsyncMarket` is the same for asyncio, and `daggre.exchange` drives many markets side by side. `daggre.chance`, `daggre.best` and
`daggre.expect` ask what a market comes to behind lines that were kept, and `daggre.audit` says whether the replies to them are allowed.
"""
from . import commands, refusals, replies
from .aio import AsyncMarket
from .amounts import MILLION, PRICE_UNITS, RATIO_UNIT, Interval, Points
from .asking import Best, Chance, Contradiction, Expectation, best, chance, expect
from .auditing import Finding, Verdict, audit
from .commands import Command
from .errors import Ended, FileFault, FileRefused, MarketError, NotALine, ProgramMissing, Refused, Silent, StoreRefused, UnknownLine
from .market import Exchanged, Market, Ready, exchange
from .questions import Distribution, Pair, Question
from .refusals import Refusal
from .replies import Reply, read_reply

__all__ = [
    "MILLION", "PRICE_UNITS", "RATIO_UNIT", "AsyncMarket", "Best", "Chance", "Command", "Contradiction", "Distribution", "Ended", "Exchanged", "Expectation",
    "FileFault", "FileRefused", "Finding", "Interval", "Market", "MarketError", "NotALine", "Pair", "Points", "ProgramMissing", "Question", "Ready", "Refusal", "Refused",
    "Reply", "Silent", "StoreRefused", "UnknownLine", "Verdict", "audit", "best", "chance", "commands", "exchange", "expect", "read_reply", "refusals", "replies",
]
