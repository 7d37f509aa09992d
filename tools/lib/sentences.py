"""What a reply of the program means for a person: a sentence for each refusal, and where the text of no command goes wrong."""
import re

from .lines import COMMANDS, NUMBER, N, read_command
from .market_file import MOST_CELLS, MOST_CELLS_TOGETHER, SYNTAX_OF_NAMES, meant

FORMS = {
    "user": ("user U", "U joins, and owns nothing"),
    "deposit": ("deposit U K", "U pays in K bits, 1 to 1,000"),
    "withdraw": ("withdraw U K", "U takes out K bits, as far as the least factor allows"),
    "price": ("price V=v | W=w, ..", "the price of an answer, under a condition if one is named"),
    "limits": ("limits U V=v | W=w, ..", "the shares to which U can take that price now"),
    "edit": ("edit U V=v | W=w, .. to X at R", "U takes the price to X parts per million; with `at R` only at that revision"),
    "bounds": ("bounds U V | W=w, ..", "the shares to which U can take the prices of all answers of V now"),
    "spread": ("spread U V | W=w, .. to X X .. at R", "U takes the price of each answer of V to its share; together they make 1000000"),
    "prices": ("prices V | W=w, ..", "the prices of all answers of V"),
    "position": ("position U V | W=w, ..", "for each answer of V what U is paid at least where it comes, in points"),
    "worst": ("worst U", "what U is paid at least, whatever comes, in points"),
    "paid": ("paid U", "what the settlement paid U, in points"),
    "status": ("status", "the revision, and how many users, trades, deposits and withdrawals, and open questions there are"),
    "resolve": ("resolve V=v", "V has the answer v, for ever"),
    "settle": ("settle", "pays every user, once each question is resolved; behind it `paid` alone is answered"),
    "bound": ("bound", "the most that the operator can lose, in points"),
    "add": ("add V=v,w | P,.. : X X, .. in C,.. to K", "V is a question from now on; P are its parents, C the names of its group, which is linked to group K"),
}
# forms of a call that are no commands, with their words behind the market file
CALLS = {"chance": "V=v .. given W=w ..", "best": "V=v ..", "expect": "U"}
GIVEN = ("given", "if", "when", "where", "while", "under", "||", "/")
JOINED = ("and", "&", "&&", ";", "+")


class Wrong(Exception):
    """Where a line goes wrong: a place counted from 0, and why."""

    def __init__(self, place, text):
        super().__init__(f"column {place + 1}: {text}")


class Words:
    """The words of a line, each with its place."""

    def __init__(self, line):
        self.line, self.found, place = line, [], 0
        for word in line.split(" "):
            self.found.append((word, place))
            place += len(word) + 1
        self.next = 1

    def peek(self):
        return self.found[self.next][0] if self.next < len(self.found) else None

    def place(self):
        return self.found[self.next][1] if self.next < len(self.found) else len(self.line) + 1

    def take(self):
        self.next += 1
        return self.found[self.next - 1][0]

    def end(self, text):
        if self.peek() is not None:
            raise Wrong(self.place(), f"{text}; `{self.peek()}` is too much")


def check_bytes(line):
    """What stands in no command at all: other bytes than plain ones, and spaces that separate nothing."""
    for place, letter in enumerate(line):
        if letter == "\t":
            raise Wrong(place, "a tab; words are separated by one space")
        if not " " <= letter <= "~":
            raise Wrong(place, "a byte that stands in no command; they have small letters, digits, _ and the signs = | , : alone")
    if line.startswith(" "):
        raise Wrong(0, "a space at the beginning")
    if line.endswith(" "):
        raise Wrong(len(line) - 1, "a space at the end")
    if "  " in line:
        raise Wrong(line.index("  "), "two spaces; words are separated by exactly one")


def check_first(word):
    if word in COMMANDS:
        return
    if word.lower() in COMMANDS:
        raise Wrong(0, f"commands are in small letters: {word.lower()}")
    if word in CALLS:
        raise Wrong(0, f"{word} is no command; `daggre {word} FILE {CALLS[word]}` tells it over the lines so far")
    raise Wrong(0, f"there is no command {word}{meant(word.lower(), COMMANDS) or '; `help` lists them'}")


def check_name(word, place, what):
    if re.fullmatch(N, word):
        return
    if word.lower() != word and re.fullmatch(N, word.lower()):
        raise Wrong(place, f"names are in small letters: {word.lower()}")
    raise Wrong(place, f"`{word}` is no name of {what}: {SYNTAX_OF_NAMES}" if word else f"the name of {what} is missing")


def answers_of(name, market):
    if name not in market.questions:
        return f"an answer is named with its question, as in {name}=yes"
    answers = market.values(name)
    return f"which answer of {name}? {', '.join(f'{name}={answer}' for answer in answers[:-1])} or {name}={answers[-1]}"


def check_pair(word, place, market):
    """A word V=v."""
    if "|" in word:
        raise Wrong(place + word.index("|"), "` | ` has a space on each side")
    if "," in word:
        raise Wrong(place + word.index(","), "pairs are separated by a comma and one space behind it")
    if "=" not in word:
        check_name(word, place, "a question")
        raise Wrong(place + len(word), answers_of(word, market))
    name, _, value = word.partition("=")
    if not name or not value:
        raise Wrong(place + word.index("="), "a question and its answer stand on both sides of =, without spaces")
    if "=" in value:
        raise Wrong(place + len(name) + 1 + value.index("="), "there is one = between a question and its answer")
    check_name(name, place, "a question")
    check_name(value, place + len(name) + 1, "an answer")


def in_millionths(word):
    """What a share written in another way is in parts per million, or None."""
    found = re.fullmatch(r"(\d{0,3})[.,]?(\d{0,12})(%?)", word)
    if not found or not found[1] + found[2]:
        return None
    if re.fullmatch(r"\d+%", word) or "." in word or "," in word:
        parts = float(f"{found[1] or 0}.{found[2] or 0}") * (10_000 if found[3] else 1_000_000)
        return round(parts) if 0 < parts < 1_000_000 else None
    return None


def check_number(word, place, what):
    """A number of bits, a share, a revision, or a group's."""
    if re.fullmatch(NUMBER, word):
        return
    if what == "share":
        parts = in_millionths(word.rstrip(","))
        if parts is not None and not re.fullmatch(r"\d{1,3},\d{3}", word):
            raise Wrong(place, f"shares are whole parts per million: {word.rstrip(',')} is {parts}")
    if what == "share" and re.fullmatch(r"\d+,", word):
        raise Wrong(place + len(word) - 1, "shares are separated by one space, without a comma")
    if re.fullmatch(r"\d[\d,_']*\d", word) and re.search(r"[,_']", word):
        raise Wrong(place, f"a number has digits alone: {re.sub('[^0-9]', '', word)}")
    if re.fullmatch(r"0\d+", word):
        raise Wrong(place, f"a number has no zeros in front: {word.lstrip('0') or '0'}")
    if re.fullmatch(r"\d{10,}", word):
        raise Wrong(place, "a number has at most nine digits")
    if re.match(r"[+-]", word):
        raise Wrong(place, "a number has no sign")
    kinds = {"bits": "bits are whole: a number from 1 to 1000", "share": "a share is a whole number of parts per million, 1 to 999999",
             "revision": "a revision is a whole number", "group": "a group is told by its number, counted from 1"}
    raise Wrong(place, f"{kinds[what]}; `{word}` is none")


def read_user(words, market):
    kind = words.found[0][0]
    if words.peek() is None:
        raise Wrong(words.place(), "the name of a user is missing")
    behind = words.found[words.next + 1][0] if words.next + 1 < len(words.found) else None
    if "=" in words.peek() or (words.peek() in market.questions and (behind is None or behind in ("|", "to")) and len(words.found) > 1 and kind in
                               ("limits", "edit", "bounds", "spread", "position")):
        raise Wrong(words.place(), f"the user comes first: {kind} USER {words.peek()}")
    check_name(words.peek(), words.place(), "a user")
    words.take()


def check_loose_equals(words):
    """`storm = yes`, `storm= yes` and `storm =yes`."""
    here = words.peek()
    behind = words.found[words.next + 1][0] if words.next + 1 < len(words.found) else ""
    if here and (behind.startswith("=") or here.endswith("=") and behind):
        raise Wrong(words.place() + len(here) - here.endswith("="), "no space stands beside =")


def read_condition(words, market, stops):
    """The pairs behind ` | `."""
    count = 0
    while True:
        if words.peek() is None or words.peek() in stops and (count or words.peek() != "to"):
            raise Wrong(words.place(), "a pair W=w is missing" + (" behind the comma" if count else " behind |"))
        check_loose_equals(words)
        place, word = words.place(), words.take()
        if word == "|":
            raise Wrong(place, "one ` | ` stands in front of all pairs of a condition; further pairs follow a comma")
        check_pair(word.removesuffix(","), place, market)
        count += 1
        if count > 8:
            raise Wrong(place, f"a condition has at most 8 pairs; this is pair {count}")
        if not word.endswith(","):
            break
    if words.peek() == "|":
        raise Wrong(words.place(), "one ` | ` stands in front of all pairs of a condition; further pairs follow a comma")
    if words.peek() in JOINED or words.peek() is not None and "=" in words.peek():
        raise Wrong(words.place() - 1, "pairs of a condition are separated by a comma and a space")
    if words.peek() == ",":
        raise Wrong(words.place() - 1, "a comma stands right behind its pair")


def read_target(words, market, is_all, stops):
    """V=v, or V where all answers are meant."""
    if words.peek() is None:
        raise Wrong(words.place(), "the question is missing")
    check_loose_equals(words)
    place, word = words.place(), words.peek()
    if "|" in word:
        raise Wrong(place + word.index("|"), "` | ` has a space on each side" if word != "|" else "the question is missing in front of ` | `")
    if "," in word:
        raise Wrong(place + word.index(","), "a question has one target; what is taken as given stands behind ` | `")
    if is_all:
        kind = words.found[0][0]
        if "=" in word:
            one = {"bounds": "limits", "spread": "edit", "prices": "price"}.get(kind)
            raise Wrong(place + word.index("="), f"{kind} is about all answers of {word.partition('=')[0]}, and names none"
                        + (f"; {one} is about one" if one else ""))
        check_name(word, place, "a question")
    else:
        check_pair(word, place, market)
    words.take()


def read_question(words, market, is_all=False, stops=()):
    read_target(words, market, is_all, stops)
    here, place = words.peek(), words.place()
    if here is None or here in stops:
        return
    if here == "|":
        words.take()
        read_condition(words, market, stops)
        return
    if "|" in here:
        raise Wrong(place + here.index("|"), "` | ` has a space on each side")
    if here.lower() in GIVEN:
        raise Wrong(place, f"what is taken as given stands behind ` | `, and not behind `{here}`")
    if "=" in here or here in JOINED:
        second = "a second target" if here in JOINED else f"`{here}` is a second target"
        raise Wrong(place, f"a question has one target, and {second}; what is taken as given stands behind ` | `")


def read_to(words):
    kind = words.found[0][0]
    if words.peek() != "to":
        here = words.peek()
        behind = f"; `{here}` stands there" if here is not None else ""
        raise Wrong(words.place(), f"` to ` and {'a share' if kind == 'edit' else 'the shares'} are expected behind the question{behind}")
    words.take()


def read_shares(words, market):
    kind, count, first = words.found[0][0], 0, words.place()
    while words.peek() is not None and words.peek() != "at":
        if words.peek() == "%":
            raise Wrong(words.place(), "shares are whole parts per million, without %")
        check_number(words.peek(), words.place(), "share")
        count += 1
        if kind == "edit" and count > 1:
            raise Wrong(words.place(), "an edit has one share; spread sets all answers at once")
        words.take()
    if count == 0:
        raise Wrong(first, "a share in parts per million is missing behind to")
    if kind == "spread" and count == 1:
        raise Wrong(words.place(), "a spread has a share for each answer of the question; edit sets one answer")
    if count > 16:
        raise Wrong(first, f"a spread has at most 16 shares; here are {count}")
    if words.peek() == "at":
        words.take()
        if words.peek() is None:
            raise Wrong(words.place(), "the revision is missing behind at")
        check_number(words.peek(), words.place(), "revision")
        words.take()


def read_bits(words, market):
    if words.peek() is None:
        raise Wrong(words.place(), "how many bits? A whole number from 1 to 1000")
    check_number(words.peek(), words.place(), "bits")
    words.take()


# What is added.


def check_marks(word, place, what):
    """` | ` and ` : ` stand apart."""
    for mark in "|:":
        if word == mark:
            raise Wrong(place, f"{what} missing in front of ` {mark} `")
        if mark in word:
            raise Wrong(place + word.index(mark), f"` {mark} ` has a space on each side")


def check_list(word, place, what, most):
    """Names with a comma between each two."""
    names = word.split(",")
    for number, name in enumerate(names, 1):
        if not name and len(names) > 1:
            raise Wrong(max(place - 1, 0), "the names of a list have a comma between them, and no space")
        check_name(name, place, what)
        if number > most:
            raise Wrong(place, f"here are at most {most} names; this is one more")
        place += len(name) + 1


def read_list(words, what, most, missing):
    if words.peek() is None:
        raise Wrong(words.place(), f"{missing} missing")
    place, word = words.place(), words.take()
    check_marks(word, place, missing)
    if "=" in word:
        raise Wrong(place + word.index("="), "names of questions stand here, without their answers")
    check_list(word, place, what, most)


def read_added(words):
    """V=v,w.."""
    if words.peek() is None:
        raise Wrong(words.place(), "the question is missing")
    check_loose_equals(words)
    place, word = words.place(), words.take()
    check_marks(word, place, "the question is")
    name, sign, answers = word.partition("=")
    check_name(name, place, "a question")
    place += len(name) + 1
    if not sign:
        raise Wrong(place - 1, f"its answers stand right behind it, as in {name}=yes,no")
    if "=" in answers:
        raise Wrong(place + answers.index("="), "there is one = between a question and its answers")
    check_list(answers, place, "an answer", 16)
    if "," not in answers:
        raise Wrong(place + len(answers), "a question has 2 to 16 answers, with a comma between each two")


def read_rows(words):
    """Rows of shares, up to ` in `."""
    count = width = 0
    while words.peek() is not None and words.peek() != "in":
        place, word = words.place(), words.take()
        share = word.removesuffix(",")
        if not share:
            raise Wrong(place, "a comma stands right behind a row")
        if share == "to":
            raise Wrong(place, "` in ` and the names of the group are expected behind the rows")
        if re.fullmatch(r"\d+,[\d,]*", share):
            raise Wrong(place + share.index(","), "the shares of a row are separated by one space, and rows by a comma and a space")
        check_number(share, place, "share")
        width += 1
        if count == 64 or width > 16:
            raise Wrong(place, f"there are at most {'64 rows' if count == 64 else '16 shares in a row'}; here is one more")
        if word.endswith(","):
            count, width = count + 1, 0
    if width == 0:
        raise Wrong(words.place(), f"a row of shares is missing behind {'the comma' if count else ':'}")


def read_place(words):
    """The new group, and the number of the one that it is linked to."""
    if words.peek() is None:
        raise Wrong(words.place(), "` in ` and the names of the group are expected behind the rows")
    words.take()
    read_list(words, "a question", 13, "the names of the group are")
    if words.peek() != "to":
        raise Wrong(words.place(), "` to ` and the number of a group are expected behind the names of the new one")
    words.take()
    if words.peek() is None:
        raise Wrong(words.place(), "the number of the group that the new one is linked to is missing")
    check_number(words.peek(), words.place(), "group")
    words.take()


def read_addition(words):
    read_added(words)
    if words.peek() == "|":
        words.take()
        read_list(words, "a parent", 8, "the parents are")
    if words.peek() != ":":
        here, place = words.peek(), words.place()
        if here is not None:
            check_marks(here, place, "")
        raise Wrong(place, "` : ` and the rows of shares are expected behind the question and its parents" + (f"; `{here}` stands there" if here else ""))
    words.take()
    read_rows(words)
    read_place(words)


def read_line(line, market):
    """Passes over a line, or raises where it goes wrong."""
    check_bytes(line)
    words = Words(line)
    kind = words.found[0][0]
    check_first(kind)
    if kind not in ("price", "prices", "resolve", "settle", "bound", "status", "add"):
        read_user(words, market)
    if kind in ("deposit", "withdraw"):
        read_bits(words, market)
    elif kind in ("price", "limits"):
        read_question(words, market)
    elif kind in ("bounds", "prices", "position"):
        read_question(words, market, is_all=True)
    elif kind in ("edit", "spread"):
        read_question(words, market, is_all=kind == "spread", stops=("to",))
        read_to(words)
        read_shares(words, market)
    elif kind == "add":
        read_addition(words)
    elif kind == "resolve":
        read_target(words, market, False, ())
        if words.peek() == "|":
            raise Wrong(words.place(), "a resolution has no condition")
    words.end(f"the form is `{FORMS[kind][0]}`")


def syntax(line, market):
    """Why a line is the text of no command."""
    try:
        read_line(line.removesuffix("\r"), market)
    except Wrong as wrong:
        return str(wrong)
    return "the line is the text of no command that this program knows; `help` lists the forms"


# Refusals.


def groups_text(market, name):
    homes = market.homes([name])
    listed = ", ".join(f"{at + 1} ({', '.join(market.cliques[at])})" for at in homes[:4])
    more = f" and {len(homes) - 4} more" if len(homes) > 4 else ""
    return f"{name} is in {'group' if len(homes) == 1 else 'groups'} {listed}{more}"


def wide(line, market):
    command = read_command(line)
    names = [command.name, *(name for name, _ in command.condition)] if command else []
    held = "; ".join(groups_text(market, name) for name in names if name in market.questions)
    more = f". `daggre chance FILE {command.question()} given {command.given().replace(', ', ' ')}` tells it over the lines so far" if command and command.kind == "price" else ""
    return f"no group holds all questions that are named{': ' if held else ''}{held}{more}"


def unknown_pair(pair, market):
    name, _, value = pair.partition("=")
    if name not in market.questions:
        return f"there is no question {name}{meant(name, market.questions)}"
    return f"{name} has no answer {value}; it has {', '.join(market.values(name))}"


def shares_text(intervals):
    if intervals == "none":
        return "no share at all"
    return ", ".join(interval.replace("..", " to ") for interval in intervals.split(" "))


def full(count, line):
    what = "trades" if line.startswith(("edit", "spread")) else "deposits and withdrawals"
    return f"the market has taken {count:,} {what}, and takes no more"


def not_running(name, line, market):
    """Whether another group will do for a question that is added."""
    command = read_command(line)
    if command is None or command.addition is None:
        return f"{name} is not in the group that the new one is to be linked to"
    added = command.addition
    told = f"{name} is not in group {added.link}, which the new one is to be linked to"
    for names, what in (([it for it in added.clique if it != command.name], "all the other names"), (added.parents, "all the parents")):
        homes = market.homes(names)
        if homes:
            return f"{told}; group {homes[0] + 1} holds {what}"
    return f"{told}; no group holds all the parents, so the question would join two parts of the tree, which only a new market can"


def row_count(count, line, market):
    command = read_command(line)
    lists = market.size(command.addition.parents) if command and command.addition else "another number of"
    told = "there is 1 row" if count == "1" else f"there are {count} rows"
    return f"{told}, and {lists} {'list' if lists == 1 else 'lists'} of the parents' answers, each of which has one"


def in_range(number, line):
    if line.startswith("add "):
        return f"{number} is outside: shares of a row are 1 to 999,999, and in a market with zeros 0 to 1,000,000"
    return f"{number} is outside: bits are 1 to 1,000, shares 1 to 999,999 (in a spread 0 for what cannot come)"


def twice(name, line):
    return f"{name} is named twice among the parents, or in the group" if line.startswith("add ") else f"{name} is named twice in the question"


REFUSALS = {
    "long": lambda rest, line, market: "a line has at most 1,024 bytes",
    "settled": lambda rest, line, market: "the market is settled, and takes nothing more; `paid U` tells what U was paid",
    "unsettled": lambda rest, line, market: "the market is not settled yet, so nobody was paid",
    "user": lambda rest, line, market: f"nobody called {rest} has joined; `user {rest}` lets {rest} join",
    "exists": lambda rest, line, market: f"{rest} has joined already",
    "users": lambda rest, line, market: f"{rest} users have joined, and the market takes no more",
    "variables": lambda rest, line, market: f"there are {rest} questions, and a market takes no more",
    "taken": lambda rest, line, market: f"there is a question {rest} already",
    "value": lambda rest, line, market: f"the answer {rest} stands twice",
    "variable": lambda rest, line, market: f"there is no question {rest}{meant(rest, market.questions)}",
    "name": lambda rest, line, market: unknown_pair(rest, market),
    "twice": lambda rest, line, market: twice(rest, line),
    "link": lambda rest, line, market: f"there is no group {rest}: groups are counted from 1, and the last is {len(market.cliques)}",
    "cover": lambda rest, line, market: f"the group has to hold the question and all its parents, and {rest} is not in it",
    "running": lambda rest, line, market: not_running(rest, line, market),
    "rows": lambda rest, line, market: row_count(rest, line, market),
    "width": lambda rest, line, market: "row {} has {} shares, and the question another number of answers".format(*rest.split(" ")),
    "stale": lambda rest, line, market: "revision {} was named, and {} is the present one: something has changed since".format(*rest.split(" ")),
    "resolved": lambda rest, line, market: f"{rest} is resolved already",
    "impossible": lambda rest, line, market: f"{rest} can no longer come, by what is known or by what is named with it",
    "sure": lambda rest, line, market: f"{rest} is certain under this condition: no other answer can come, so there is nothing to trade",
    "wide": lambda rest, line, market: wide(line, market),
    "numbers": lambda rest, line, market: f"there are {rest} shares, and the question has another number of answers",
    "range": lambda rest, line, market: in_range(rest, line),
    "sum": lambda rest, line, market: f"the shares{' of a row' if line.startswith('add ') else ''} make {int(rest):,} together, and not 1,000,000",
    "cells": lambda rest, line, market: (f"with this group all have {int(rest):,} cells, and a market takes {MOST_CELLS_TOGETHER:,}, "
                                         f"{MOST_CELLS:,} of them in one group"),
    "full": lambda rest, line, market: full(int(rest), line),
    "beyond": lambda rest, line, market: f"the price can be taken to {shares_text(rest)} until the next change: beyond, a factor would fall below one",
    "outside": lambda rest, line, market: f"each share has to be inside its bounds, in the order of the file: {shares_text(rest)}",
    "short": lambda rest, line, market: f"{rest} {'bit' if rest == '1' else 'bits'} can be taken out now: the rest is at stake",
    "open": lambda rest, line, market: f"{rest} is not resolved yet, and a settlement needs an answer to each question",
    "memory": lambda rest, line, market: (f"the machine has too little memory for one {'question' if line.startswith('add ') else 'user'} more; "
                                          "nothing has changed"),
}


def position_text(line, intervals, market):
    """What a user is sure of, answer by answer."""
    command = read_command(line)
    if command is None or command.name not in market.questions:
        return None
    pairs = [f"{command.name}={answer}" for answer in market.values(command.name)]
    told = [f"{pair} cannot come" if interval == "none" else f"{int(interval.partition('..')[0]):,} where {pair} comes"
            for pair, interval in zip(pairs, intervals)]
    return f"{command.user} is paid at least, in points: {', '.join(told)}"


def explain(line, reply, market):
    """One sentence on a reply, or None where it speaks for itself."""
    if reply.startswith("position "):
        return position_text(line, reply.split(" ")[1:], market)
    if reply.startswith("bound "):
        low, _, high = reply.removeprefix("bound ").partition("..")
        return f"whatever comes and whoever trades, the operator loses at most {high} points over the whole market, by what is resolved so far"
    if found := re.fullmatch(r"settle at [0-9]+ users ([0-9]+) paid ([0-9]+)", reply):
        return f"{int(found[1]):,} users are paid {int(found[2]):,} points together; `paid U` tells what U is paid"
    if not reply.startswith("refused "):
        return None
    cause, _, rest = reply.removeprefix("refused ").partition(" ")
    if cause == "syntax":
        return syntax(line, market)
    return REFUSALS[cause](rest, line, market) if cause in REFUSALS else None
