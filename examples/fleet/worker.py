"""A machine of the fleet: takes its share of the markets, runs a process for each, and lays down the replies.

  worker.py NAME --program FILE ..       the database is that of the variable FLEET

A market is restored by running all its commands again; what was answered before must come out again, byte for byte. Events are written as lines of
JSON. It ends with its standard input, or by TERM, and gives back what it holds.
"""
import argparse
import json
import os
import queue
import signal
import sys
import threading
import time
from concurrent.futures import ThreadPoolExecutor

from log import Log, NoDatabase
from parts import build_of, fail

from daggre import Market, MarketError, exchange

MOST_AT_ONCE = 500
MOST_REPLAYED = 5000
ROOM = 32
STARTED_AT_ONCE = 8
SECONDS_FOR_REPLY = 30
MOST_DEATHS = 3


class Held:
    """A market that this worker holds: its process, the term under which it was taken, the link to the database by which its replies go, and the
    place of its last command so far."""

    def __init__(self, market, term, link):
        self.market, self.term, self.link, self.place = market, term, link, 0


class Worker:
    def __init__(self, target, name, programs, span):
        self.name, self.span = name, span
        self.programs = {build_of(program): program for program in programs}
        self.log = Log(target, f"worker_{name}", waits_for_standby=False)
        self.target = target
        self.held = {}
        self.deaths = {}
        self.told = queue.SimpleQueue()
        self.is_over = threading.Event()
        self.no_database = None

    def say(self, event, **more):
        print(json.dumps({"at": time.time(), "worker": self.name, "event": event, **more}), flush=True)

    # The lease is renewed by a thread with a link of its own: a slow turn must not cost a market its place.

    def keep_beating(self):
        beats = Log(self.target)
        try:
            while not self.is_over.is_set():
                asked = time.monotonic()
                shunned = [market for market, count in list(self.deaths.items()) if count >= MOST_DEATHS]
                rows = beats.beat(self.name, self.span, list(self.programs), ROOM, list(self.held), shunned)
                self.told.put((asked, rows))
                is_filling = sum(row[4] is not None for row in rows) >= ROOM
                self.is_over.wait(0.05 if is_filling else self.span / 4)
        except NoDatabase as fault:
            self.no_database = str(fault)
            self.is_over.set()
        finally:
            beats.close()

    # Markets come and go.

    def drop(self, name, why):
        held = self.held.pop(name)
        held.market.kill()
        self.say("dropped", market=name, why=why)

    def died(self, name, why):
        """A process that ended, fell silent or wanted memory counts as crashed: its market is given back and starts anew somewhere."""
        self.deaths[name] = self.deaths.get(name, 0) + 1
        self.drop(name, why)
        self.log.give_back(self.name, name)

    def heed(self):
        """Does what the last beats told: drops what was lost, starts what is new."""
        while not self.told.empty():
            asked, rows = self.told.get()
            terms = {row[0]: row[1] for row in rows}
            for name, held in list(self.held.items()):
                if terms.get(name) != held.term and held.since < asked:
                    self.drop(name, "given back, or taken by another")
            fresh = [row for row in rows if row[0] not in self.held and row[4] is not None and self.deaths.get(row[0], 0) < MOST_DEATHS]
            if fresh:
                self.take(fresh)

    def start(self, row):
        """A process for a market that this worker was told to hold, or why there is none."""
        _, term, _, build, text = row
        try:
            return Held(Market.of_text(text, program=self.programs[build], timeout=SECONDS_FOR_REPLY), term, self.log.links)
        except MarketError as fault:
            return str(fault)

    def take(self, rows):
        begun = time.monotonic()
        self.log.check()
        with ThreadPoolExecutor(STARTED_AT_ONCE) as pool:
            started = list(pool.map(self.start, rows))
        answered = {}
        for (name, _, stands, _, _), held in zip(rows, started, strict=True):
            if isinstance(held, Held):
                held.since = time.monotonic()
                self.held[name] = held
                answered[name] = stands
            else:
                self.deaths[name] = self.deaths.get(name, 0) + 1
                self.say("not started", market=name, why=held)
                self.log.give_back(self.name, name)
        replayed = self.replay(answered)
        self.say("took", markets=len(answered), replayed=replayed, seconds=round(time.monotonic() - begun, 3))

    def replay(self, answered):
        """Says everything again that was answered before. Where something else comes out, the market is not served here."""
        replayed = 0
        while behind := {name: self.held[name].place for name in answered if name in self.held and self.held[name].place < answered[name]}:
            work = {name: [] for name in behind}
            for name, place, line in self.log.commands(behind, MOST_REPLAYED):
                if place <= answered[name]:
                    work[name].append(line)
            done = exchange({self.held[name].market: lines for name, lines in work.items()}, SECONDS_FOR_REPLY)
            for name, lines in work.items():
                held = self.held[name]
                came = done[held.market]
                stood = self.log.answered(name, held.place, len(lines))
                if came.fault is not None:
                    self.died(name, str(came.fault))
                elif list(came.got[:len(stood)]) != stood:
                    self.deaths[name] = MOST_DEATHS
                    self.died(name, "it answers otherwise than before")
                elif len(stood) < len(lines) or not lines:
                    self.drop(name, "some of its replies are gone from the log")
                else:
                    held.place += len(lines)
                    replayed += len(lines)
        return replayed

    # Commands are answered.

    def turn(self):
        """Answers what has come. False if nothing has."""
        rows = self.log.commands({name: held.place for name, held in self.held.items()}, MOST_AT_ONCE) if self.held else []
        if not rows:
            return False
        work, first = {}, {}
        for name, place, line in rows:
            work.setdefault(name, []).append(line)
            first.setdefault(name, place)
        for name in list(work):
            if first[name] != self.held[name].place + 1:
                raise RuntimeError(f"{name}: the command behind {self.held[name].place} is at {first[name]}")
        done = exchange({self.held[name].market: lines for name, lines in work.items()}, SECONDS_FOR_REPLY)
        out, dead = [], {}
        for name in work:
            held = self.held[name]
            came = done[held.market]
            good = came.got
            if came.fault is not None:
                dead[name] = str(came.fault)
            if "refused memory" in good:
                good = good[:good.index("refused memory")]
                dead[name] = "memory was wanting"
            out += [(name, held.term, held.place + 1 + k, line) for k, line in enumerate(good)]
        kept = self.log.answer(out) if out else set()
        for name in work:
            if name in dead:
                self.died(name, dead[name])
            elif name in kept:
                self.held[name].place += len(work[name])
            else:
                self.drop(name, "another has it")
        return True

    def drop_behind_lost_links(self):
        """Where the link was lost, replies may be lost with it: these markets begin anew from what stands in the log."""
        for name in [name for name, held in self.held.items() if held.link != self.log.links or self.log.link.closed]:
            self.drop(name, "the link to the database was lost")

    def run(self):
        self.log.wait(0)
        self.say("up", pid=os.getpid(), builds=list(self.programs))
        beater = threading.Thread(target=self.keep_beating, daemon=True)
        beater.start()
        try:
            while not self.is_over.is_set():
                self.drop_behind_lost_links()
                self.heed()
                if not self.turn():
                    self.log.wait(0.05)
        finally:
            self.is_over.set()
            for name in list(self.held):
                self.drop(name, "end")
        beater.join(5)
        if self.no_database:
            raise NoDatabase(self.no_database)
        self.log.leave(self.name)


def main():
    words = argparse.ArgumentParser()
    words.add_argument("name")
    words.add_argument("--program", action="append", required=True)
    words.add_argument("--lease", type=float, default=2.0)
    given = words.parse_args()
    try:
        worker = Worker(os.environ["FLEET"], given.name, given.program, given.lease)
    except OSError as fault:
        fail(f"the program cannot be read: {fault}")
    signal.signal(signal.SIGTERM, lambda *_: worker.is_over.set())

    def follow():
        sys.stdin.buffer.read()
        worker.is_over.set()

    threading.Thread(target=follow, daemon=True).start()
    try:
        worker.run()
    except NoDatabase as fault:
        fail(str(fault))


if __name__ == "__main__":
    main()
