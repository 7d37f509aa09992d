"""Commands and replies as the tools beside the program read them."""
import re
from dataclasses import dataclass, field

N = r"[a-z][a-z0-9_]{0,31}"
NUMBER = r"(?:0|[1-9][0-9]{0,8})"
PAIR = rf"{N}={N}"
CONDITION = rf"(?: \| (?P<condition>{PAIR}(?:, {PAIR}){{0,7}}))?"
QUESTION = rf"(?P<name>{N})=(?P<value>{N}){CONDITION}"
ALL_OF = rf"(?P<name>{N}){CONDITION}"
ROW = rf"{NUMBER}(?: {NUMBER}){{0,15}}"
AT = rf"(?: at (?P<at>{NUMBER}))?"
COMMANDS = {kind: re.compile(form) for kind, form in {
    "user": rf"user (?P<user>{N})",
    "deposit": rf"deposit (?P<user>{N}) (?P<numbers>{NUMBER})",
    "withdraw": rf"withdraw (?P<user>{N}) (?P<numbers>{NUMBER})",
    "price": rf"price {QUESTION}",
    "limits": rf"limits (?P<user>{N}) {QUESTION}",
    "edit": rf"edit (?P<user>{N}) {QUESTION} to (?P<numbers>{NUMBER}){AT}",
    "bounds": rf"bounds (?P<user>{N}) {ALL_OF}",
    "spread": rf"spread (?P<user>{N}) {ALL_OF} to (?P<numbers>{NUMBER}(?: {NUMBER}){{1,15}}){AT}",
    "prices": rf"prices {ALL_OF}",
    "position": rf"position (?P<user>{N}) {ALL_OF}",
    "worst": rf"worst (?P<user>{N})",
    "paid": rf"paid (?P<user>{N})",
    "status": r"status",
    "resolve": rf"resolve (?P<name>{N})=(?P<value>{N})",
    "settle": r"settle",
    "bound": r"bound",
    "add": (rf"add (?P<name>{N})=(?P<values>{N}(?:,{N}){{1,15}})(?: \| (?P<parents>{N}(?:,{N}){{0,7}}))? : (?P<rows>{ROW}(?:, {ROW}){{0,63}})"
            rf" in (?P<clique>{N}(?:,{N}){{0,12}}) to (?P<link>{NUMBER})"),
}.items()}
CHANGES = ("user", "deposit", "withdraw", "edit", "spread", "resolve", "settle", "add")
INTERVAL = r"[0-9]+\.\.[0-9]+"
PRICES = r"[01]\.[0-9]{10}\.\.[01]\.[0-9]{10}"
SURE = rf"(?:none|{INTERVAL})"
REPLIES = {kind: re.compile(form) for kind, form in {
    "user": r"user \S+ at (?P<at>[0-9]+)",
    "deposit": r"deposit \S+ [0-9]+ at (?P<at>[0-9]+)",
    "withdraw": r"withdraw \S+ [0-9]+ at (?P<at>[0-9]+)",
    "price": rf"price (?P<ends>{PRICES})",
    "limits": rf"limits (?P<ends>none|{INTERVAL}) at (?P<at>[0-9]+)",
    "edit": r"trade (?P<ratios>[0-9]+ [0-9]+) at (?P<at>[0-9]+)",
    "bounds": rf"bounds (?P<ends>none|{INTERVAL}(?: {INTERVAL}){{1,15}}) at (?P<at>[0-9]+)",
    "spread": r"spread (?P<ratios>[0-9]+(?: [0-9]+){1,15}) at (?P<at>[0-9]+)",
    "prices": rf"prices (?P<ends>{PRICES}(?: {PRICES}){{1,15}})",
    "position": rf"position (?P<ends>{SURE}(?: {SURE}){{1,15}})",
    "worst": rf"worst (?P<ends>{INTERVAL})",
    "paid": rf"paid (?P<payments>{N} {INTERVAL} paid [0-9]+)",
    "status": (r"status at (?P<at>[0-9]+) users (?P<users>[0-9]+) trades (?P<trades>[0-9]+ of [0-9]+) transfers (?P<transfers>[0-9]+ of [0-9]+)"
               r" open (?P<open>[0-9]+ of [0-9]+)"),
    "resolve": r"resolve \S+ at (?P<at>[0-9]+)",
    "settle": rf"settle at (?P<at>[0-9]+)(?:(?P<payments>(?:, {N} {INTERVAL} paid [0-9]+)*)| users (?P<users>[0-9]+) paid (?P<total>[0-9]+))",
    "bound": rf"bound (?P<ends>{INTERVAL})",
    "add": rf"add (?P<name>{N}) at (?P<at>[0-9]+)",
}.items()}
# What `chance`, `best` and `expect` write behind the last reply of a run.
LAST_LINE = re.compile(rf"chance {PRICES}|best {PRICES} at most [0-9]+\.[0-9]{{10}}(?: {PAIR})+|expect -?[0-9]+\.\.-?[0-9]+"
                       rf"|refused (?:name {PAIR}|user {N}|given)")
PAYMENT = re.compile(rf"({N}) ([0-9]+)\.\.([0-9]+) paid ([0-9]+)")


def payments_of(reply):
    """What a settlement or `paid` lists: user, both ends and what is paid. A settlement of many users lists nothing."""
    return [(user, int(low), int(high), int(paid)) for user, low, high, paid in PAYMENT.findall(reply["payments"] or "")]


class NoTranscript(Exception):
    """These replies are not those of these commands."""


@dataclass
class Addition:
    """What an `add` says of its question beside the name. The number of the clique that its own is linked to counts from 1."""
    values: list
    parents: list
    rows: list
    clique: list
    link: int


@dataclass
class Command:
    kind: str
    user: str | None = None
    name: str | None = None
    value: str | None = None
    condition: list = field(default_factory=list)
    numbers: list = field(default_factory=list)
    at: int | None = None
    addition: Addition | None = None

    def question(self):
        return "" if self.name is None else self.name if self.value is None else f"{self.name}={self.value}"

    def given(self):
        return ", ".join(f"{name}={value}" for name, value in self.condition)


def read_addition(parts):
    names = {key: parts[key].split(",") if parts[key] else [] for key in ("values", "parents", "clique")}
    rows = [[int(word) for word in row.split(" ")] for row in parts["rows"].split(", ")]
    return Addition(names["values"], names["parents"], rows, names["clique"], int(parts["link"]))


def read_command(line):
    """The command of a line, or None where it is the text of none."""
    kind = line.split(" ", 1)[0]
    found = COMMANDS[kind].fullmatch(line.removesuffix("\r")) if kind in COMMANDS else None
    if found is None:
        return None
    parts = found.groupdict()
    condition = [tuple(pair.split("=")) for pair in parts["condition"].split(", ")] if parts.get("condition") else []
    numbers = [int(word) for word in parts["numbers"].split(" ")] if parts.get("numbers") else []
    return Command(kind, parts.get("user"), parts.get("name"), parts.get("value"), condition, numbers, int(parts["at"]) if parts.get("at") else None,
                   read_addition(parts) if kind == "add" else None)


@dataclass
class Entry:
    """A line with its reply. `reply` has the parts of one that is no refusal."""
    line: str
    text: str
    command: Command | None
    reply: dict

    def is_refused(self):
        return self.text.startswith("refused ")

    def is_change(self):
        return not self.is_refused() and self.command is not None and self.command.kind in CHANGES


def read_entry(line, text):
    """A line with its reply, or None where that is no reply to it."""
    command = read_command(line)
    if text.startswith("refused "):
        return Entry(line, text, command, {})
    if command is None:
        return None
    found = REPLIES[command.kind].fullmatch(text)
    if found is None:
        return None
    repeated = command.kind in ("user", "deposit", "withdraw", "resolve")
    if repeated and text.rsplit(" at ", 1)[0] != line.removesuffix("\r"):
        return None
    if command.kind == "add" and found["name"] != command.name:
        return None
    if command.kind == "paid" and not text.startswith(f"paid {command.user} "):
        return None
    if command.kind == "spread" and len(found["ratios"].split(" ")) != len(command.numbers):
        return None
    return Entry(line, text, command, found.groupdict())


def read_transcript(lines, replies):
    """The entries of commands, blank lines left out, and of their replies, the greeting among them. A last line of another form than `run` is no reply."""
    if not replies or not re.fullmatch(r"ready [0-9]+ [0-9]+", replies[0]):
        raise NoTranscript("the replies do not begin with the line `ready ..`")
    entries, revision = [], 0
    for number, line in enumerate(lines):
        if number + 1 >= len(replies):
            raise NoTranscript(f"there are {len(lines):,} commands and replies to {number:,} of them")
        entry = read_entry(line, replies[number + 1])
        if entry is None:
            raise NoTranscript(f"reply {number + 1:,} is none to its command `{line}`: {replies[number + 1]}")
        if not entry.is_refused() and entry.reply.get("at"):
            revision += entry.is_change()
            if int(entry.reply["at"]) != revision:
                raise NoTranscript(f"reply {number + 1:,} speaks of revision {entry.reply['at']}, where {revision:,} is the one: {entry.text}")
        entries.append(entry)
    rest = replies[len(lines) + 1:]
    if len(rest) > 1 or rest and not LAST_LINE.fullmatch(rest[0]):
        raise NoTranscript(f"there are {len(lines):,} commands and {len(replies) - 1:,} replies to commands")
    return entries


def read_lines(path):
    """The lines of a file as the program cuts them."""
    with open(path, encoding="utf-8", errors="surrogateescape", newline="\n") as file:
        text = file.read()
    return text.removesuffix("\n").split("\n") if text else []
