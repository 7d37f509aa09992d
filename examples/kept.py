"""Keeps one market through restarts: each command is on disk before it is sent, and all of them are sent again at the next start.

  python3 examples/kept.py FILE LOG        commands come on standard input, replies go to standard output
"""
import os
import sys

# The client stands on the path in place of this folder, whose operator.py would be taken for a module of Python's own.
sys.path[0] = os.path.join(os.path.dirname(os.path.dirname(os.path.abspath(__file__))), "clients/python")

import fcntl

from daggre import Market, MarketError


def open_log(name):
    """The log, which no other process may have open, and the lines in it. A line that was cut by a crash was never sent, and goes."""
    log = open(name, "a+b", buffering=0)
    try:
        fcntl.flock(log, fcntl.LOCK_EX | fcntl.LOCK_NB)
    except BlockingIOError:
        sys.exit(f"{name} is kept by another process")
    log.seek(0)
    text = log.read()
    whole = text[:text.rfind(b"\n") + 1]
    log.truncate(len(whole))
    return log, whole.decode("utf-8", "surrogateescape").split("\n")[:-1]


def keep(market, log):
    for text in sys.stdin.buffer:
        line = text.decode("utf-8", "surrogateescape").rstrip("\r\n")
        if not line.strip(" "):
            continue  # a blank line gets no reply
        log.write(line.encode("utf-8", "surrogateescape") + b"\n")
        os.fsync(log.fileno())
        reply = market.line(line)
        if reply == "refused memory":
            # Another run may have the memory, so this reply cannot be kept: it counts as a crash, and the line is run at the next start.
            sys.exit("memory was wanting: start again with more")
        print(reply, flush=True)


def main(name, log_name):
    with Market(name) as market:
        log, lines = open_log(log_name)
        with log:
            if "refused memory" in market.lines(lines):
                sys.exit("memory was wanting: start again with more")
            keep(market, log)


if len(sys.argv) != 3:
    sys.exit("usage: kept.py FILE LOG")
try:
    main(*sys.argv[1:])
except (MarketError, OSError) as fault:
    sys.exit(str(fault))
