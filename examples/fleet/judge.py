"""Judges a fleet: each market's log is run through the program alone, and every reply that stands or that a user got is compared with that."""
from collections import Counter

from daggre import Market, exchange

AT_ONCE = 8
SECONDS_FOR_REPLY = 60

# What may not be, and how it is told.
FAULTS = {
    "lost": "commands that a user has a reply to and that the log does not have",
    "doubled": "commands that stand twice in the log",
    "gaps": "places of the log that are left out",
    "different": "replies that a user got and the program alone does not give at that place to that line",
    "unlike": "stored replies that the program alone does not give",
    "unanswered": "commands of the log without a reply",
}


def alone(program, files, logs):
    """For each market the replies of the program alone to the lines of its log."""
    found, names = {}, list(files)
    for at in range(0, len(names), AT_ONCE):
        part = names[at:at + AT_ONCE]
        markets = {name: Market.of_text(files[name], program=program, timeout=SECONDS_FOR_REPLY) for name in part}
        done = exchange({markets[name]: [row[3] for row in logs[name]] for name in part}, SECONDS_FOR_REPLY)
        for name in part:
            found[name] = done[markets[name]].lines()
            markets[name].close()
    return found


def judge_market(rows, bare, got):
    """`rows`: place, account, number, line and reply, by place; `bare`: the program's replies; `got`: place, line and reply by account and number."""
    faults = Counter(dict.fromkeys(FAULTS, 0))
    stands = {}
    for at, ((place, account, number, line, reply), right) in enumerate(zip(rows, bare, strict=True), 1):
        faults["gaps"] += place != at
        faults["doubled"] += (account, number) in stands
        faults["unanswered"] += reply is None
        faults["unlike"] += reply is not None and reply != right
        stands[account, number] = (place, line, right)
    for key, mine in got.items():
        if key not in stands:
            faults["lost"] += 1
        else:
            faults["different"] += stands[key] != mine
    return faults


def judge(program, files, logs, got):
    """What is wrong with a fleet, counted; `got`: place, line and reply by market, account and number."""
    bare = alone(program, files, logs)
    mine = {name: {} for name in files}
    for (name, account, number), answer in got.items():
        mine[name][account, number] = answer
    faults = Counter(dict.fromkeys(FAULTS, 0))
    for name in files:
        faults.update(judge_market(logs[name], bare[name], mine[name]))
    return faults


def blind_eyes(rows, got):
    """The faults that the judge does not see when they are put into this sound log: none, or the judge is worth nothing."""
    bare = [row[4] for row in rows]
    key = next(iter(got))
    at = next(k for k, row in enumerate(rows) if (row[1], row[2]) == key)
    other = {**got, key: (got[key][0], got[key][1], got[key][2] + "0")}
    spoiled = {
        "lost": (rows[:at] + rows[at + 1:], bare[:at] + bare[at + 1:], got),
        "gaps": (rows[:at] + rows[at + 1:], bare[:at] + bare[at + 1:], {}),
        "doubled": (rows + [(len(rows) + 1, *rows[at][1:])], bare + [bare[at]], got),
        "different": (rows, bare, other),
        "unlike": (rows[:at] + [(*rows[at][:4], "refused memory")] + rows[at + 1:], bare, got),
        "unanswered": (rows[:at] + [(*rows[at][:4], None)] + rows[at + 1:], bare, got),
    }
    return [fault for fault, words in spoiled.items() if not judge_market(*words)[fault]]
