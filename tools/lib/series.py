"""What the pictures of a market plot, as numbers: prices and sure points that the program tells, and the operator's losses.

The commands are run twice: as they are, and then with questions behind each change, which change nothing. Losses are reckoned here,
from the ratios of the trades.
"""
import hashlib
import json
import math
import sys
import time

from .lines import payments_of, read_transcript
from .process import Process, is_blank
from .tree import Flow, floor_log2, least_weight

MOST_LINES = 1_000_000
MOST_REVISIONS = 2_000
UNIT = 2 ** 40


class NoPicture(Exception):
    """What is to be drawn is not there, or the program answers otherwise."""


class NoTool(Exception):
    """What draws is not installed."""


class Progress:
    """Says on the error stream how far a long run is, every few seconds."""

    def __init__(self, what, total):
        self.what, self.total, self.next = what, total, time.monotonic() + 3

    def tell(self, done):
        if done % 256 == 0 and time.monotonic() > self.next:
            self.next = time.monotonic() + 3
            print(f"tools/plot: {self.what}: {done:,} of {self.total:,}", file=sys.stderr)


def run(market, lines, what):
    process = Process(market.path)
    try:
        return [process.greeting, *process.ask_all(lines, Progress(what, len(lines)).tell)]
    finally:
        process.close()


def first_run(market, lines, wanted=None):
    """The entries of the commands as they are. Where replies are given, those of the program have to be the same."""
    replies = run(market, lines, "commands")
    if wanted is not None and wanted != replies:
        at = next((at for at, (mine, its) in enumerate(zip(wanted, replies)) if mine != its), min(len(wanted), len(replies)))
        if at >= len(wanted):
            raise NoPicture(f"the replies end behind {len(wanted):,} lines, and the commands have {len(replies):,}")
        if at >= len(replies):
            raise NoPicture(f"the replies have {len(wanted):,} lines, and the commands {len(replies):,}")
        to = f"to `{lines[at - 1]}` " if at else ""
        raise NoPicture(f"the program answers otherwise than line {at + 1:,} of the replies {to}has it: {replies[at]}")
    return read_transcript(lines, replies)


def markets_of(market, entries):
    """The market of the file and those with the questions that these lines add, each with its revision."""
    found = [(0, market)]
    for revision, entry in numbered(entries):
        if entry.command.kind == "add":
            found.append((revision, found[-1][1].grown(entry.command.name, entry.command.addition)))
    return found


def sampled(changes, cost, free):
    """The revisions at which is asked: all of them, or so many that questions fit into a stream and pictures stay small."""
    count = len(changes) + 1
    most = max(2, min(MOST_REVISIONS, free // max(1, cost)))
    if count <= most:
        return set(range(count))
    step = -(-count // most)
    return {*range(0, count, step), count - 1}


def is_kept(entry):
    """Whether a line has a part in what later lines do: changes, and what sets a user's last quote."""
    return entry.is_change() or entry.text.startswith(("limits", "bounds", "refused beyond", "refused outside"))


class Probe:
    """The second run: the lines that count, and questions behind each sampled change. The market is that behind all lines; `first` are the
    questions of its file."""

    def __init__(self, market, entries, questions, users, first):
        self.market, self.questions, self.users, self.known = market, questions, users, set(first)
        kept = [entry for entry in entries if is_kept(entry)]
        cost = sum(len(market.values(name)) for name in questions) + len(users)
        self.samples = sampled([entry for entry in kept if entry.is_change()], cost, MOST_LINES - len(kept))
        self.lines, self.owners = [], []
        self.joined, self.resolved, self.is_settled, self.revision = set(), {}, False, 0
        self.ask()
        for entry in kept:
            self.lines.append(entry.line)
            self.owners.append(entry)
            if entry.is_change():
                self.follow(entry.command)
                self.ask()

    def follow(self, command):
        self.revision += 1
        if command.kind == "user":
            self.joined.add(command.user)
        elif command.kind == "resolve":
            self.resolved[command.name] = (self.revision, command.value)
        elif command.kind == "add":
            self.known.add(command.name)
        elif command.kind == "settle":
            self.is_settled = True

    def ask(self):
        if self.is_settled or self.revision not in self.samples:
            return
        for name in self.questions:
            if name in self.known and name not in self.resolved:
                for value in self.market.values(name):
                    self.lines.append(f"price {name}={value}")
                    self.owners.append(("price", name, value, self.revision))
        for user in self.users:
            if user in self.joined:
                self.lines.append(f"worst {user}")
                self.owners.append(("worst", user, None, self.revision))

    def run(self):
        """Prices by question and value, and sure points by user, each as pairs of a revision and a number."""
        found = {}
        for owner, line, reply in zip(self.owners, self.lines, run(self.market, self.lines, "questions between the commands")[1:]):
            if not isinstance(owner, tuple):
                # another reading before a line may change its last digit, and nothing else
                if reply.split(" ")[0] != owner.text.split(" ")[0]:
                    raise NoPicture(f"with questions between the commands, `{line}` is answered otherwise: {reply}")
                continue
            kind, name, value, revision = owner
            if not reply.startswith(f"{kind} "):
                raise NoPicture(f"the program answers `{line}` by: {reply}")
            low, high = reply.removeprefix(f"{kind} ").split("..")
            number = round((float(low) + float(high)) / 2, 8) if kind == "price" else int(low)
            found.setdefault((kind, name, value), []).append([revision, number])
        return found


# What each picture plots.


def numbered(entries):
    """The accepted changes, each with the revision behind it."""
    return list(enumerate((entry for entry in entries if entry.is_change()), 1))


def price_series(market, entries, probe, found):
    series = {}
    for name in probe.questions:
        trades = [{"revision": revision, "value": entry.command.value, "conditional": bool(entry.command.condition)}
                  for revision, entry in numbered(entries) if entry.command.kind in ("edit", "spread") and entry.command.name == name]
        resolved = probe.resolved.get(name)
        series[name] = {"prices": {value: found.get(("price", name, value), []) for value in market.values(name)}, "trades": trades,
                        "resolved": {"revision": resolved[0], "value": resolved[1]} if resolved else None}
    return series


def points_paid(entries, settlement, user):
    """What a settlement paid a user, as it lists it or as `paid` told it behind it; None where neither does."""
    told = [settlement, *(entry for entry in entries if entry.command is not None and entry.command.kind == "paid" and not entry.is_refused())]
    return next((paid for entry in told for name, _, _, paid in payments_of(entry.reply) if name == user), None)


def user_series(market, entries, probe, found):
    series = {}
    for user in probe.users:
        paid_in, bits, paid = [], 0, None
        for revision, entry in numbered(entries):
            kind = entry.command.kind
            if entry.command.user == user and kind in ("user", "deposit", "withdraw"):
                bits += entry.command.numbers[0] * (1 if kind == "deposit" else -1) if kind != "user" else 0
                paid_in.append([revision, bits * market.points])
            elif kind == "settle":
                points = points_paid(entries, entry, user)
                paid = None if points is None else [revision, points]
        trades = [revision for revision, entry in numbered(entries) if entry.command.kind in ("edit", "spread") and entry.command.user == user]
        series[user] = {"sure": found.get(("worst", user, None), []), "paid_in": paid_in, "trades": trades, "paid": paid}
    return series


def trade_table(market, entry):
    """The binary logarithms of a trade's ratios, over its target and the questions of its condition."""
    command = entry.command
    ratios = [math.log2(int(ratio) / UNIT) if int(ratio) else None for ratio in entry.reply["ratios"].split(" ")]
    names = [command.name] + [name for name, _ in command.condition]
    table = [0.0] * market.size(names)
    place = 0
    for name, value in command.condition:
        place = place * len(market.values(name)) + market.values(name).index(value)
    stride = market.size(names[1:])
    for at, value in enumerate(market.values(command.name)):
        table[at * stride + place] = ratios[at] if command.kind == "spread" else ratios[value != command.value]
    return names, table


def support_of(flow):
    """Leaves out the states that cannot come, where the file has zeros."""
    if flow.market.has_zeros:
        for question in flow.market.questions.values():
            flow.place([*question.parents, question.name], [0.0 if entry else None for row in question.rows for entry in row])


def bound_of(market):
    """The most that the operator can lose in points, whatever comes and whoever trades."""
    return floor_log2(10 ** (6 * len(market.questions)), least_weight(market), market.points)


def operator_series(markets, entries, samples):
    """What the trades so far can have cost at most and at least, over the states that are still possible, in points. A question that is added
    makes no state of the others impossible, so all trades are reckoned over the market behind them."""
    market, bounds = markets[-1][1], [[revision, bound_of(it)] for revision, it in markets]
    most, least = (Flow(market, lambda a, b: a + b, plus, 0.0) for plus in (max, min))
    support_of(most)
    support_of(least)
    series = {"bound": bounds[0][1], "most": [[0, 0.0]], "least": [[0, 0.0]], "resolutions": [], **({"bounds": bounds} if len(bounds) > 1 else {})}
    changes = numbered(entries)
    progress = Progress("losses", len(changes))
    for revision, entry in changes:
        command = entry.command
        if command.kind in ("edit", "spread"):
            factor = trade_table(market, entry)
        elif command.kind == "resolve":
            factor = [command.name], [0.0 if value == command.value else None for value in market.values(command.name)]
            series["resolutions"].append([revision, command.question()])
        if command.kind in ("edit", "spread", "resolve"):
            most.place(*factor)
            least.place(*factor)
        if revision in samples:
            for key, flow in (("most", most), ("least", least)):
                total = flow.total()
                if total is None:
                    raise NoPicture(f"behind revision {revision} no state is possible, which the program never leaves")
                series[key].append([revision, round(market.points * total, 4)])
        progress.tell(revision)
    return series


def tree_series(market):
    cliques = []
    for at, clique in enumerate(market.cliques):
        up = market.links[at - 1] if at else None
        cliques.append({"questions": clique, "cells": market.size(clique), "linked_to": up,
                        "shared": [name for name in clique if name in market.cliques[up - 1]] if up else []})
    return {"questions": len(market.questions), "states": market.size(market.questions), "cliques": cliques}


def most_traded(market, entries, most=6):
    """The questions that trades name most, in the market's order; all where there are few."""
    counts = dict.fromkeys(market.questions, 0)
    for entry in entries:
        if entry.command is not None and entry.command.name in counts:
            weight = 1000 if entry.is_change() and entry.command.kind in ("edit", "spread") else 1
            for name in [entry.command.name] + [name for name, _ in entry.command.condition]:
                counts[name] = counts.get(name, 0) + weight
    chosen = sorted(market.questions, key=lambda name: -counts[name])[:most]
    return [name for name in market.questions if name in chosen]


def busiest(entries, most=8):
    """The users who trade most, in the order in which they joined."""
    changes = [entry.command for entry in entries if entry.is_change()]
    joined = [command.user for command in changes if command.kind == "user"]
    counts = {user: 0 for user in joined}
    for command in changes:
        if command.kind in ("edit", "spread"):
            counts[command.user] += 1
    chosen = set(sorted(joined, key=lambda user: -counts[user])[:most])
    return [user for user in joined if user in chosen]


def check_names(market, entries, questions, users):
    joined = {entry.command.user for entry in entries if entry.is_change() and entry.command.kind == "user"}
    for name in questions:
        if name not in market.questions:
            raise NoPicture(f"there is no question {name}")
    for user in users:
        if user not in joined:
            raise NoPicture(f"no user {user} has joined")


def gather(market, lines, pictures, questions=None, users=None, wanted=None):
    """All that the pictures plot; only the tree needs no program, where no line adds a question to it."""
    data = {"market": market.title, "points_per_bit": market.points}
    lines = [line for line in lines if not is_blank(line)]
    if set(pictures) & {"prices", "users", "operator"} or wanted is not None or any(line.startswith("add ") for line in lines):
        entries = first_run(market, lines, wanted)
        markets = markets_of(market, entries)
        first, market = market.questions, markets[-1][1]
        check_names(market, entries, questions or [], users or [])
        names = questions or (most_traded(market, entries) if "prices" in pictures else [])
        people = (users or busiest(entries)) if "users" in pictures else []
        probe = Probe(market, entries, names if "prices" in pictures else [], people, first)
        data["last"] = probe.revision
        data["resolutions"] = {name: list(of) for name, of in probe.resolved.items()}
        found = probe.run() if {"prices", "users"} & set(pictures) else {}
        if "prices" in pictures:
            data["prices"] = price_series(market, entries, probe, found)
        if "users" in pictures:
            data["users"] = user_series(market, entries, probe, found)
        if "operator" in pictures:
            data["operator"] = operator_series(markets, entries, probe.samples)
        if len(probe.samples) <= probe.revision:
            data["sampled"] = len(probe.samples)
    if "tree" in pictures:
        data["tree"] = tree_series(market)
    return data


def digest(data):
    """Tells whether a picture was drawn from just these numbers."""
    return hashlib.sha256(json.dumps(data, sort_keys=True).encode()).hexdigest()


def differences(old, new, at="the data"):
    """Where two such data differ by more than last digits."""
    if isinstance(old, (int, float)) and isinstance(new, (int, float)) and not isinstance(old, bool):
        whole = isinstance(old, int) and isinstance(new, int)
        if abs(old - new) > (0 if whole else 1e-7 * max(1, abs(old))):
            yield f"{at}: {old} and {new}"
    elif isinstance(old, dict) and isinstance(new, dict):
        for key in {**old, **new}:
            if key not in old or key not in new:
                yield f"{at}: {key} is on one side alone"
            else:
                yield from differences(old[key], new[key], f"{at}, {key}")
    elif isinstance(old, list) and isinstance(new, list) and len(old) == len(new):
        for number, (one, other) in enumerate(zip(old, new)):
            yield from differences(one, other, f"{at}, place {number}")
    elif old != new:
        yield f"{at}: {old!r} and {new!r}"
