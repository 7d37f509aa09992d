"""Takes commands in from users and hands replies out. What is a user's to send is decided here: the program itself asks nobody.

  gateway.py NAME       the database is that of the variable FLEET

A line of standard input is `MARKET ACCOUNT NUMBER LINE`. Who checked that the sender is the account stands before this program. For each comes one
line: `MARKET ACCOUNT NUMBER PLACE REPLY`, or `MARKET ACCOUNT NUMBER - REASON` where there is none. The number is the sender's own: whoever got
no reply sends the same line under the same number again, through any gateway, and it stands once. It ends when its input has ended and
everything is answered.
"""
import argparse
import os
import queue
import re
import sys
import threading
import time

from log import Log, NoDatabase
from parts import fail

NAME = re.compile(r"[a-z][a-z0-9_]{0,31}")
MARKET = re.compile(r"[!-~]{1,64}")
OPERATOR = "operator"
OF_A_USER = {"user", "deposit", "withdraw", "limits", "edit", "bounds", "spread", "position", "worst", "paid"}
OF_ALL = {"price", "prices", "status", "bound"}
OF_THE_OPERATOR = {"resolve", "settle", "add"}
# What uses up the limits of the whole market: trades, and transfers.
THAT_COUNT = {"deposit", "withdraw", "edit", "spread"}
LONGEST = 1024
BATCH = 1000
NUMBER = re.compile(r"[0-9]{1,15}")
VERDICTS = {
    "other": "this number stands for another line",
    "busy": "the market is far behind: send it again later",
    "spent": "the account has used up its changes of this market",
    "over": "the market has had 1,000,000 lines and takes no more",
    "unknown": "no such market",
}


def objection(account, line):
    """Why this account may not send this line, or None."""
    if not line.strip(" \r"):
        return "a blank line has no reply"
    if not line.isascii() or not line.isprintable():
        return "a command has letters, digits and signs alone"
    if len(line) > LONGEST:
        return f"a line has at most {LONGEST} bytes"
    word, _, rest = line.partition(" ")
    if word in OF_ALL:
        return None
    if word in OF_THE_OPERATOR:
        return None if account == OPERATOR else f"{word} is the operator's"
    if word in OF_A_USER:
        return None if rest.partition(" ")[0] == account else f"{word} of another user"
    return "no such command"


class Waiting:
    """Who waits for the reply at a place, and until when."""

    def __init__(self, until):
        self.until, self.senders = until, []


class Gateway:
    def __init__(self, target, depth, allowance, patience):
        self.log = Log(target, "replies")
        self.depth, self.allowance, self.patience = depth, allowance, patience
        self.waiting = {}       # by market and place

    def read(self, text):
        """What is to be submitted for a line of the input, or None; and what is written at once, or None."""
        parts = text.split(" ", 3)
        if len(parts) < 4 or not MARKET.fullmatch(parts[0]) or not NAME.fullmatch(parts[1]) or not NUMBER.fullmatch(parts[2]):
            return None, "- - - - a line is MARKET ACCOUNT NUMBER LINE"
        market, account, number, line = parts
        why = objection(account, line)
        if why:
            return None, f"{market} {account} {number} - {why}"
        counts = line.partition(" ")[0] in THAT_COUNT
        return (market, account, int(number), line, int(counts)), None

    def submit(self, commands):
        """Puts commands into the log; lines to write at once, for what was not taken in."""
        out, until = [], time.monotonic() + self.patience
        for command, (verdict, place) in zip(commands, self.log.submit(commands, self.depth, self.allowance), strict=True):
            market, account, number = command[:3]
            if verdict == "in":
                self.waiting.setdefault((market, place), Waiting(until)).senders.append((account, number))
            else:
                out.append(f"{market} {account} {number} - {VERDICTS[verdict]}")
        return out

    def collect(self):
        """Lines to write for replies that have come."""
        if not self.waiting:
            return []
        out = []
        for market, place, reply in self.log.replies(list(self.waiting)):
            out += [f"{market} {account} {number} {place} {reply}" for account, number in self.waiting.pop((market, place)).senders]
        return out

    def give_up(self):
        """Lines to write for what was waited for too long. It stands, and is answered when its market runs again."""
        out, now = [], time.monotonic()
        for market, place in [key for key, waiting in self.waiting.items() if waiting.until < now]:
            out += [f"{market} {account} {number} - no reply in {self.patience:g} seconds; it stands in the log, and its number brings the reply later"
                    for account, number in self.waiting.pop((market, place)).senders]
        return out

    def turn(self, texts):
        """Takes these lines of the input in; lines to write."""
        out, commands = [], []
        for command, refusal in map(self.read, texts):
            if command:
                commands.append(command)
            else:
                out.append(refusal)
        if commands:
            out += self.submit(commands)
        return out + self.collect() + self.give_up()

    def run(self, source):
        """Serves a queue of lines, behind whose last comes None, until everything is answered."""
        is_open = True
        while is_open or self.waiting:
            came = take(source, 0 if self.waiting else 0.2) if is_open else []
            if came and came[-1] is None:
                is_open = False
                came.pop()
            out = self.turn(came)
            if out:
                sys.stdout.write("\n".join(out) + "\n")
                sys.stdout.flush()
            elif self.waiting and not came:
                self.log.wait(0.02)


def take(source, seconds):
    """What has come, at most a batch: waits so long for the first."""
    found = []
    try:
        found.append(source.get(timeout=seconds) if seconds else source.get_nowait())
        while len(found) < BATCH and found[-1] is not None:
            found.append(source.get_nowait())
    except queue.Empty:
        pass
    return found


def main():
    words = argparse.ArgumentParser()
    words.add_argument("name")
    words.add_argument("--depth", type=int, default=5000)
    words.add_argument("--allowance", type=int, default=2000)
    words.add_argument("--patience", type=float, default=60.0)
    given = words.parse_args()
    source = queue.SimpleQueue()

    def follow():
        sys.stdin.reconfigure(errors="replace")
        for line in sys.stdin:
            source.put(line.rstrip("\n"))
        source.put(None)

    threading.Thread(target=follow, daemon=True).start()
    Gateway(os.environ["FLEET"], given.depth, given.allowance, given.patience).run(source)


if __name__ == "__main__":
    try:
        main()
    except NoDatabase as fault:
        fail(str(fault))
    except BrokenPipeError:
        os._exit(1)
