"""Drives a market from another process, with the client in clients/python: a command is a call, and its reply a value."""
import os
import sys

# The client stands on the path in place of this folder, whose operator.py would be taken for a module of Python's own.
ROOT = os.path.dirname(os.path.dirname(os.path.abspath(__file__)))
sys.path[0] = os.path.join(ROOT, "clients/python")

from daggre import FileRefused, Market, MarketError, Refused, commands, refusals


def trade(market):
    print(market.user("alice"))
    print(market.deposit("alice", 1))

    # What a trader sees, and an edit of exactly that: had another trade come between, it would be refused as stale.
    limits = market.limits("alice", "coin=heads")
    print("up to", limits.interval.high, "at", limits.at)
    print(market.edit("alice", "coin=heads", limits.interval.high, at=limits.at))
    try:
        market.edit("alice", "coin=heads", 500000, at=limits.at)
    except Refused as refused:
        match refused.cause:
            case refusals.Stale(named, now):
                print("somebody traded between", named, "and", now)
            case cause:
                print("refused:", cause)

    # Many commands on their way at once, each with its own reply or refusal.
    for answer in market.many([commands.price("coin=heads"), commands.price("coin=edge"), commands.worst("alice")]):
        print(answer)

    price = market.price("coin=heads")
    print("between", price.low, "and", price.high)


try:
    with Market(os.path.join(ROOT, "examples/coin.toml")) as market:
        trade(market)
except FileRefused as refused:
    sys.exit(f"the market file is refused: {refused.fault}")
except MarketError as fault:
    sys.exit(str(fault))
print("status", market.status)
