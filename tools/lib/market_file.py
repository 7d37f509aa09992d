"""Market files as the tools beside the program read them. The first fault of a file is one sentence, with its line where that is known."""
import copy
import difflib
import os
import re
import tomllib
from math import prod

NAME = re.compile(r"[a-z][a-z0-9_]{0,31}")
TOP_KEYS = ("points_per_bit", "max_trades", "max_users", "max_transfers", "variable", "cliques", "links", "zeros")
# the keys that may be absent, and what they are then
USUAL = {"max_users": 256, "max_transfers": 65_536, "zeros": False}
QUESTION_KEYS = ("name", "values", "parents", "rows")
MILLION = 1_000_000
MOST_BYTES, MOST_CELLS, MOST_CELLS_TOGETHER = 1_048_576, 4_096, 32_768
SYNTAX_OF_NAMES = "a name is a small letter, then small letters, digits and _, at most 32 together"


class NoMarket(Exception):
    """The file cannot be read, or the program would refuse it."""


def is_whole(value):
    return isinstance(value, int) and not isinstance(value, bool)


def is_list_of(value, is_item):
    return isinstance(value, list) and all(map(is_item, value))


def is_text(value):
    return isinstance(value, str)


def meant(word, known):
    """What was probably meant, as the end of a sentence."""
    near = difflib.get_close_matches(word, known, 1)
    return f"; did you mean {near[0]}?" if near else ""


class Places:
    """Finds the line of a key or a row in the text of a file. Forms that it does not know have no line."""

    def __init__(self, text):
        self.lines = text.split("\n")
        self.tables = [at for at, line in enumerate(self.lines) if re.match(r"\s*\[\[\s*\"?variable\"?\s*\]\]", line)]

    def section(self, question):
        """The numbers of the first line of a question's table and of the line behind it; of the top where it is None."""
        bounds = [0, *self.tables, len(self.lines)]
        at = 0 if question is None else question + 1
        return (bounds[at], bounds[at + 1]) if at + 1 < len(bounds) else (0, 0)

    def key(self, key, question=None):
        begin, end = self.section(question)
        for at in range(begin, end):
            if re.match(rf"\s*\"?{re.escape(key)}\"?\s*=", self.lines[at]):
                return at + 1
        return None

    def rows(self, question):
        """The lines of the rows of a question, where each stands in a line of its own: pairs of a number and the comment behind it."""
        begin, end = self.section(question)
        first = self.key("rows", question)
        found = []
        for at in range(first - 1 if first else end, end):
            line = self.lines[at].split("=", 1)[-1] if at == first - 1 else self.lines[at]
            row = re.match(r"\s*(?:\[\s*)?\[[\d\s,_+]+\]\s*[,\]]*\s*(?:#(.*))?$", line)
            if row:
                found.append((at + 1, row[1] or ""))
        return found


class Question:
    def __init__(self, table):
        self.name, self.values, self.parents, self.rows = (table[key] for key in QUESTION_KEYS)


class Market:
    """A market file that the program takes. `questions` are by name, in the order of the file, those that were added last."""

    def __init__(self, path, text, document):
        self.path, self.document, self.places = path, document, Places(text)
        self.title = os.path.basename(str(path)).removesuffix(".toml")
        self.points, self.max_trades = document["points_per_bit"], document["max_trades"]
        self.max_users, self.max_transfers, self.has_zeros = (document.get(key, usual) for key, usual in USUAL.items())
        self.cliques, self.links = document["cliques"], document["links"]
        self.questions = {table["name"]: Question(table) for table in document["variable"]}

    def grown(self, name, addition):
        """The market with one question more, as an `add` gives it."""
        market = copy.copy(self)
        market.questions = {**self.questions, name: Question({"name": name, "values": addition.values, "parents": addition.parents, "rows": addition.rows})}
        market.cliques, market.links = [*self.cliques, addition.clique], [*self.links, addition.link]
        return market

    def values(self, name):
        return self.questions[name].values

    def size(self, names):
        """The number of lists of values of these questions."""
        return prod(len(self.values(name)) for name in names)

    def homes(self, names):
        """The cliques, counted from 0, that hold all these questions."""
        return [at for at, clique in enumerate(self.cliques) if set(names) <= set(clique)]


def fail(text, line=None):
    raise NoMarket(f"line {line}: {text}" if line else text)


def check_kinds(document, places):
    """Every key that has to be there is, and each is of its kind."""
    kinds = {"points_per_bit": (is_whole, "a whole number"), "max_trades": (is_whole, "a whole number"),
             "max_users": (is_whole, "a whole number"), "max_transfers": (is_whole, "a whole number"),
             "variable": (lambda value: is_list_of(value, lambda it: isinstance(it, dict)), "tables [[variable]]"),
             "cliques": (lambda value: is_list_of(value, lambda it: is_list_of(it, is_text)), "a list of lists of names"),
             "links": (lambda value: is_list_of(value, is_whole), "a list of whole numbers"),
             "zeros": (lambda value: isinstance(value, bool), "true or false")}
    for key, (is_kind, kind) in kinds.items():
        if key not in document:
            if key in USUAL:
                continue
            tables = document["variable"] if isinstance(document.get("variable"), list) else []
            for at, table in enumerate(tables):
                if isinstance(table, dict) and key in table:
                    where = table.get("name", f"question {at + 1}")
                    fail(f"{key} stands in the table of {where}; it belongs above the first [[variable]]", places.key(key, at))
            fail(f"there is no {key}" + ("; tools/cliques finds cliques and links" if key in ("cliques", "links") else ""))
        if not is_kind(document[key]):
            fail(f"{key} has to be {kind}", places.key(key))
    kinds = {"name": (is_text, "a text"), "values": (lambda value: is_list_of(value, is_text), "a list of texts"),
             "parents": (lambda value: is_list_of(value, is_text), "a list of texts"),
             "rows": (lambda value: is_list_of(value, lambda it: is_list_of(it, is_whole)), "a list of lists of whole numbers, parts per million")}
    for at, table in enumerate(document["variable"]):
        who = table["name"] if is_text(table.get("name")) else f"question {at + 1}"
        for key, (is_kind, kind) in kinds.items():
            if key not in table:
                near = [it for it in table if it not in QUESTION_KEYS and meant(it, [key])]
                fail(f"{who} has no {key}" + (f", but {near[0]}" if near else ""), places.key(near[0], at) if near else None)
            if not is_kind(table[key]):
                fail(f"{key} of {who} has to be {kind}", places.key(key, at))


def check_counts(document, places):
    def within(count, low, high, what, line):
        if not low <= count <= high:
            fail(f"{what}: {count:,}, where a market takes {low:,} to {high:,}", line)
    within(document["points_per_bit"], 1, MILLION, "points_per_bit", places.key("points_per_bit"))
    within(document["max_trades"], 1, MILLION, "max_trades", places.key("max_trades"))
    for key, most in (("max_users", 65_536), ("max_transfers", MILLION)):
        within(document.get(key, USUAL[key]), 1, most, key, places.key(key))
    within(len(document["variable"]), 1, 256, "questions", None)
    within(len(document["cliques"]), 1, 256, "cliques", places.key("cliques"))
    if len(document["links"]) != len(document["cliques"]) - 1:
        count = len(document["cliques"])
        fail(f"{count} cliques take {count - 1} links, one for each after the first; here are {len(document['links'])}", places.key("links"))
    for at, table in enumerate(document["variable"]):
        within(len(table["values"]), 2, 16, f"values of {table['name']}", places.key("values", at))
        within(len(table["parents"]), 0, 8, f"parents of {table['name']}", places.key("parents", at))
    for at, clique in enumerate(document["cliques"], 1):
        within(len(clique), 1, 256, f"names of clique {at}", places.key("cliques"))


def check_names(document, places):
    tables = document["variable"]
    for at, table in enumerate(tables):
        for key, word in [("name", table["name"])] + [("values", value) for value in table["values"]]:
            if not NAME.fullmatch(word):
                fail(f"“{word}” is no name: {SYNTAX_OF_NAMES}", places.key(key, at))
    for at, table in enumerate(tables):
        if table["name"] in [it["name"] for it in tables[:at]]:
            fail(f"there is an earlier question {table['name']}", places.key("name", at))
        if len(set(table["values"])) < len(table["values"]):
            fail(f"a value of {table['name']} stands twice", places.key("values", at))
    for at, table in enumerate(tables):
        earlier = [it["name"] for it in tables[:at]]
        for parent in table["parents"]:
            if parent not in earlier:
                fail(f"the parent {parent} of {table['name']} is no earlier question{meant(parent, earlier)}", places.key("parents", at))
        if len(set(table["parents"])) < len(table["parents"]):
            fail(f"a parent of {table['name']} stands twice", places.key("parents", at))


def check_rows(document, places):
    sizes = {table["name"]: len(table["values"]) for table in document["variable"]}
    least = 0 if document.get("zeros") else 1
    for at, table in enumerate(document["variable"]):
        name, count, line = table["name"], prod(sizes[parent] for parent in table["parents"]), places.key("rows", at)
        lines = [number for number, _ in places.rows(at)]
        if len(table["rows"]) != count:
            fail(f"{name} has {len(table['rows'])} rows, and there are {count} lists of values of its parents", line)
        for number, row in enumerate(table["rows"], 1):
            here = lines[number - 1] if len(lines) == count else line
            if len(row) != sizes[name]:
                fail(f"row {number} of {name} has {len(row)} entries, and there are {sizes[name]} values", here)
            for entry in row:
                if not least <= entry <= MILLION:
                    fail(f"{entry} in row {number} of {name} is not from {least} to 1,000,000 parts per million"
                         + ("; with zeros = true at the top an entry may be 0" if entry == 0 else ""), here)
            if sum(row) != MILLION:
                fail(f"row {number} of {name} adds up to {sum(row):,}, not to 1,000,000", here)


def check_tree(document, places):
    sizes = {table["name"]: len(table["values"]) for table in document["variable"]}
    cliques, links = document["cliques"], document["links"]
    for number, clique in enumerate(cliques, 1):
        for name in clique:
            if name not in sizes:
                fail(f"clique {number} names {name}, which is no question{meant(name, sizes)}", places.key("cliques"))
        if len(set(clique)) < len(clique):
            fail(f"clique {number} names a question twice", places.key("cliques"))
    for number, link in enumerate(links, 2):
        if not 1 <= link < number:
            fail(f"the link of clique {number} is {link}; it has to be an earlier clique, counted from 1", places.key("links"))
    for table in document["variable"]:
        if not any({table["name"], *table["parents"]} <= set(clique) for clique in cliques):
            fail(f"no clique holds {table['name']} together with all its parents", places.key("cliques"))
    for name in sizes:
        tops = [number for number, clique in enumerate(cliques, 1) if name in clique and (number == 1 or name not in cliques[links[number - 2] - 1])]
        if len(tops) > 1:
            fail(f"the cliques that hold {name} do not hang together: clique {tops[1]} is linked to one without it", places.key("links"))
    total = 0
    for number, clique in enumerate(cliques, 1):
        cells = prod(sizes[name] for name in clique)
        total += cells
        if cells > MOST_CELLS or total > MOST_CELLS_TOGETHER:
            limits = f"a market takes {MOST_CELLS:,} in one and {MOST_CELLS_TOGETHER:,} together"
            fail(f"clique {number} has {cells:,} cells, with those before it {total:,}; {limits}", places.key("cliques"))


def read_market(path):
    try:
        with open(path, "rb") as file:
            data = file.read(MOST_BYTES + 1)
    except OSError as error:
        raise NoMarket(f"{path} cannot be read: {error.strerror}")
    try:
        if len(data) > MOST_BYTES:
            fail(f"more than {MOST_BYTES:,} bytes")
        text = data.decode()
        document = tomllib.loads(text)
        for check in (check_kinds, check_counts, check_names, check_rows, check_tree):
            check(document, Places(text))
    except UnicodeDecodeError as error:
        raise NoMarket(f"{path} is no market file: line {data[:error.start].count(10) + 1}: bytes that are no UTF-8")
    except tomllib.TOMLDecodeError as error:
        raise NoMarket(f"{path} is no market file: no TOML document: {error}")
    except RecursionError:
        raise NoMarket(f"{path} is no market file: its brackets are nested too deep")
    except NoMarket as fault:
        raise NoMarket(f"{path} is no market file: {fault}")
    return Market(path, text, document)
