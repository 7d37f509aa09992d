"""docs/STATEMENT.md: the contract of the program and all that it rests on, as the sources have it, on one page."""
import re
import textwrap

from lib.believed import Fault, member_line

COUNTED = """There are {definitions} definitions and types, from {files} files, of {lines} lines with their comments. The sections are: {sections}. A
name means the definition of its own file; else the one that is given behind the file's name, at its first definition; else the only one of that name on this page."""

# the sections of the page, in reading order, each with its files in theirs; within a file the order is that of the source
SECTIONS = [
    ("The program", ["daggre/src/program.rt", "daggre/src/call.rt", "daggre/src/main.rt"]),
    ("Words and statuses", [
        "daggre/specs/Words.antt", "daggre/specs/Called.antt", "mk_names/specs/Texts.antt", "mk_io/src/status.rt", "mk_io/specs/Status.antt",
        "mk_session/specs/Outcome.antt", "mk_session/specs/Complete.antt"]),
    ("What is asked of the last history", [
        "daggre/src/ask.rt", "daggre/specs/AskOutcome.antt", "daggre/specs/LastLine.antt", "mk_best/src/found.rt", "mk_best/specs/Chances.antt",
        "mk_best/specs/BestStates.antt", "mk_enclose/src/enclosure.rt", "mk_enclose/specs/Enclosure.antt", "mk_scaled/src/scaled.rt",
        "mk_expect/specs/Expectation.antt"]),
    ("A market that is kept", [
        "mk_durable/specs/KeepOutcome.antt", "mk_durable/src/fault.rt", "mk_durable/specs/Resuming.antt", "mk_durable/specs/Recovery.antt",
        "mk_session/specs/Left.antt", "mk_journal/specs/Market.antt", "mk_restore/specs/Restoring.antt", "mk_journal/specs/Store.antt"]),
    ("The audit of a transcript", [
        "mk_audit/specs/AuditOutcome.antt", "mk_audit/src/verdict.rt", "mk_audit/specs/Verdicts.antt", "mk_verify/specs/Clear.antt",
        "mk_judge_quotes/specs/Clear.antt", "mk_evidence/specs/Grades.antt",
        "mk_judge/specs/Compared.antt", "mk_judge/specs/Prices.antt", "mk_judge_points/specs/Cash.antt", "mk_judge_points/specs/Losses.antt",
        "mk_judge/specs/Limits.antt", "mk_scaled/specs/Near.antt"]),
    ("The transcript", [
        "mk_session/specs/Transcript.antt", "mk_session/specs/Passed.antt", "mk_rules/specs/Transcript.antt", "mk_rules/specs/Standings.antt",
        "mk_io/specs/Stream.antt", "mk_io/specs/Cutting.antt"]),
    ("Commands and questions", [
        "mk_command/src/command.rt", "mk_addition/src/add.rt", "mk_net/src/row.rt", "mk_net/src/words.rt", "mk_names/src/name.rt", "mk_names/specs/Name.antt", "mk_names/src/limits.rt", "mk_net/specs/Bounds.antt",
        "mk_net/specs/Network.antt", "mk_net/specs/Zeros.antt", "mk_net/specs/Named.antt", "mk_net/specs/Asked.antt", "mk_net/specs/Events.antt",
        "mk_spread/specs/Spreads.antt"]),
    ("Refusals", ["mk_reply/src/refusal.rt", "mk_net/specs/Firsts.antt", "mk_rules/specs/Refusals.antt", "mk_rules/specs/Additions.antt"]),
    ("Answers and quotes", [
        "mk_reply/src/reply.rt", "mk_reply/src/payments.rt", "mk_rules/specs/Answers.antt", "mk_rules/specs/Told.antt", "mk_rules/specs/Quotes.antt",
        "mk_reply/specs/Refusals.antt"]),
    ("The exact market", [
        "mk_exact/specs/Market.antt", "mk_states/specs/States.antt", "mk_states/specs/InitialWeight.antt", "mk_states/specs/Events.antt",
        "mk_exact/specs/History.antt", "mk_states/specs/Ratios.antt", "mk_states/specs/OfNetwork.antt", "mk_exact/specs/Weight.antt", "mk_exact/specs/Factors.antt",
        "mk_exact/specs/Prices.antt", "mk_exact/specs/Limits.antt", "mk_exact/specs/Sides.antt", "mk_exact/specs/Accepted.antt",
        "mk_exact/specs/Cash.antt", "mk_scaled/specs/Form.antt", "mk_scaled/specs/ByRule.antt", "mk_exact/specs/ByRule.antt", "mk_exact/specs/Proper.antt", "mk_exact/specs/Sound.antt", "mk_spread/specs/Bounds.antt",
        "mk_spread/specs/Markets.antt", "mk_spread/specs/Told.antt"]),
    ("The operator's bound", ["mk_exact/specs/Risk.antt", "mk_exact/specs/Laws.antt", "mk_rules/specs/Laws.antt"]),
    ("Texts", [
        "mk_session/specs/Texts.antt", "mk_command/specs/Commands.antt", "mk_addition/specs/Adds.antt", "mk_reply/specs/Replies.antt", "mk_text/specs/Texts.antt",
        "mk_text/specs/Joined.antt", "mk_text/specs/Numbers.antt", "mk_file/specs/Faults.antt", "mk_names/src/key.rt", "mk_names/specs/Key.antt"]),
    ("The market file and its tree", [
        "mk_file/src/fault.rt", "mk_file/specs/File.antt", "mk_file/specs/Walk.antt", "mk_net/specs/Drafts.antt", "mk_file/specs/Counts.antt",
        "mk_net/src/fault.rt", "mk_net/specs/Checked.antt", "mk_file/specs/Cliques.antt", "mk_tree/src/fault.rt", "mk_tree/specs/Given.antt",
        "mk_tree/specs/Tests.antt", "mk_sets/specs/Sets.antt"]),
    ("The sample", [
        "daggre/specs/Sampled.antt", "mk_tally/src/counts.rt", "mk_tally/specs/Tally.antt", "mk_make/specs/Sample.antt", "mk_make/specs/Lines.antt"]),
    ("The outside", [
        "mk_io/src/outside.rt", "mk_io/specs/Outside.antt", "mk_io/src/standard.rt", "mk_disk/src/disk.rt", "mk_disk/specs/Disk.antt",
        "mk_disk/src/standard.rt", "mk_disk/specs/Standard.antt"]),
]

HEAD = """# Statement

What has to be believed for the program's contract to mean anything, whole and in reading order: the contracts of `program` and of
`call`, which `main` calls, and each definition that their clauses rest on, as the sources have it. No other file is needed to read it.
[DEFINITIONS](DEFINITIONS.md) says the same in words, and which laws hold over it.

`tools/believe --text` wrote this page from the sources: from the clauses it goes to each name that they cite, and on from there. The
gate compares both by `tools/believe --check`, so neither changes without the other. That the program meets the contracts is proved,
and nobody has to believe it. That these definitions say what you mean, no proof can tell. Trusted beside them is what
[ASSURANCE](ASSURANCE.md) lists: the prover, the compilers, and the libraries, whose words are explained below. Where inputs and sinks
tell no bytes, clauses on bytes say nothing; the real ones, at the end of the page, tell none.

{counted}

## How to read it

| written | meaning |
|---|---|
{notation}

Words of the libraries:

| word | meaning |
|---|---|
{words}
"""

# signs of the language itself
NOTATION = [
    ("requires { P }", "what a caller owes a function"),
    ("ensures name { P }", "a clause of that name: what the function owes when it returns"),
    ("x.old, x.new, x.now", "what a reference points to before the call and after it; `now` where it does not change"),
    ("result", "what the function returns"),
    ("ghost", "only for statements: nothing of it is run. A trait's ghost members are what an implementation tells of itself"),
    ("Model, Value, view", "a type of the code is seen in statements as a value of the type `Value`, which `view` reads off it"),
    ("abbrev, unfoldable", "a definition that stands for its right side. The word concerns the prover alone, and so does `opaque`"),
    ("struct, enum, type", "a type of the code, seen as a `record`, as `data`, and as another name of a type. Its `u8` to `u128` are seen as numbers of `ℕ`, its `i64` as one of `ℤ`, `&str` as its bytes"),
    ("pub", "other files may cite it"),
    ("f : A → B → C", "`f` takes an `A` and a `B` and gives a `C`. It is defined by the equations below: the first whose left side fits"),
    ("f x y", "`f` of `x` and `y`"),
    ("_", "anything; in the names of the second table, the places of what is joined"),
    ("λ x. e", "the function that gives `e` of `x`"),
    ("Type 0", "where it is given, the definition is a statement, or a type"),
    ("P → Q", "if `P` then `Q`"),
    ("(x : A) → P", "for each `x` of `A`, `P`. `{x : A}` is the same, where `x` is not written at the call"),
    ("P × Q", "`P` and `Q`; of types, pairs, whose parts are `.0` and `.1`"),
    ("(x : A) × P", "there is an `x` of `A` with `P`"),
    ("let x = e in f", "`f`, where `x` is `e`"),
    ("⊥, ¬ P", "what never holds; not `P`"),
    ("Unit {0}", "what always holds"),
    ("record", "a thing with the fields that are listed, each read as `x.field`. As a statement: there are such fields, and all of them hold"),
    ("record { a = x }", "the thing whose field `a` is `x`"),
    ("a.Form", "the form `Form` of the type that the file's note says `a` is"),
    ("data", "a thing of one of the forms that are listed"),
    ("infixr 65", "how an operator groups"),
    ("--, ///", "a comment"),
]

# words of the libraries, with the meaning that their own definitions have; text is a list of bytes, each a number
WORDS = {
    "ℕ": "whole numbers from 0 on, of any size",
    "ℤ": "whole numbers, also below 0: `pos n` is n and `negsuc n` is -1 - n",
    "pos": "a whole number from 0 on, as one of `ℤ`",
    "negsuc": "-1 - n, as one of `ℤ`",
    "to_be_bytes": "the bytes of a number, the highest first, as many as a width has",
    "w32": "a width of four bytes",
    "w64": "a width of eight bytes",
    "is_some": "whether there is one",
    "unwrap_or": "the thing that there is, else the other",
    "zero": "0",
    "suc": "the number plus 1",
    "nat_abs": "a whole number of `ℤ` without its sign",
    "◌+◌": "plus",
    "◌-◌": "minus, and 0 where it would be below 0",
    "◌*◌": "times",
    "◌/◌": "the quotient, rounded down; by 0 it is 0",
    "◌%◌": "the remainder; by 0 it is the number itself",
    "◌^◌": "to the power",
    "min": "the lesser of two",
    "max": "the greater of two",
    "sum": "the sum of a list",
    "sum_by": "the sum of what a function gives of the items",
    "count_by": "how many items pass a test",
    "AllPairs": "each two items of a list, the earlier first, meet a statement",
    "◌≤◌": "at most",
    "◌<◌": "less",
    "◌≡◌": "is the same as",
    "◌≢◌": "is not the same as",
    "◌⊎◌": "or",
    "◌↔◌": "each follows from the other",
    "⊤": "what always holds",
    "Bool": "`true` or `false`",
    "true": "a test is passed",
    "false": "a test is not passed",
    "not": "the other of `true` and `false`",
    "◌&&◌": "and, of tests",
    "◌||◌": "or, of tests",
    "◌==◌": "whether two numbers are the same",
    "nat_le": "whether the first number is at most the second",
    "nat_lt": "whether the first number is less than the second",
    "IsTrue": "a test is `true`",
    "if◌then◌else◌": "the first if the test is passed, else the second",
    "List": "a list of items. A text is a list of its bytes",
    "[]": "the list of nothing",
    "◌∷◌": "an item and the list behind it",
    "◌++◌": "a list and another behind it",
    "length": "how many items a list has",
    "map": "the list of what a function gives of each item",
    "filter": "the items that pass a test",
    "filter_map": "what a function gives of the items, without those where it gives nothing",
    "flat_map": "the lists that a function gives of the items, one behind another",
    "fold": "`fold f a xs` goes through the items with `f`, from `a` on",
    "take": "the first items of a list, so many",
    "drop": "a list without its first items, so many",
    "find": "the first item that passes a test, if one does",
    "position": "the place, from 0 on, of the first item that passes a test, if one does",
    "position_or_len": "that place, or the length where none does",
    "enumerate_from": "each item in a pair behind its number, from a given one on",
    "range_with_len": "`range_with_len a n` are n numbers, from a on",
    "list_all": "whether each item passes a test",
    "list_any": "whether some item does",
    "pointwise": "whether two lists are of one length and a test is passed place by place",
    "slice_get": "the item at a place from 0 on, if there is one",
    "slice_set": "the list with another item at a place",
    "slice_index": "the number at a place, and 0 past the end",
    "slice_index_or": "the item at a place, and the given one past the end",
    "All": "a statement holds of each item",
    "AllByRecursion": "a statement holds of each item",
    "Any": "a statement holds of some item",
    "AllZip": "two lists are of one length and a statement holds of their items place by place",
    "Option": "a thing (`Some`) or none (`None`)",
    "Some": "a thing that is there",
    "None": "no thing",
    "is_none": "whether there is none",
    "option_map": "what a function gives of the thing, if there is one",
    "option_and_then": "the same for a function that gives a thing or none",
    "option_to_list": "a list of the thing, or of nothing",
    "IfSome": "a statement holds of the thing, if there is one",
    "IsSomeAnd": "there is a thing and a statement holds of it",
    "MatchOption": "`MatchOption o P Q` is `P` where there is none, and `Q` of the thing where there is one",
    "Result": "what came of a call: a thing (`Ok`) or why there is none (`Err`)",
    "Ok": "it succeeded with a thing",
    "Err": "it failed, for a reason",
    "IsOk": "it succeeded",
    "IfOk": "a statement holds of the thing, if it succeeded",
    "OnOk": "if it succeeded, a statement holds",
    "OnErr": "if it failed, a statement holds",
    "codes": "the bytes of a text that is written out",
    "decimal": "the decimal digits of a number, as a text",
    "signed_decimal": "the same of a whole number of `ℤ`, behind `-` where it is below 0",
    "is_utf8": "whether some bytes are text in UTF-8",
    "String": "a text of the code",
    "string_bytes": "the bytes of a `String`",
    "ArrayVec": "a list of the code that has at most so many items; `x.items` is the list, and so of a `Vec`",
    "IntoIter": "the items of a list that are still to come",
    "into_iter_items": "these items, as a list",
    "Error": "why a call of the system failed",
    "ErrorKind": "which kind of failure that is",
    "error_kind": "the kind of a failure",
    "InvalidData": "the kind of arguments that are no text",
    "Data": "a value of a TOML document",
    "Items": "a list of such values: `no_items`, or an `item` and the others",
    "no_items": "the list of no values",
    "item": "a value and the others",
    "Members": "a table of a TOML document, from keys to values",
    "get_member": "the value at a key of a table, if there is one",
    "as_str": "the text that a value is, if it is one",
    "as_integer": "the whole number that a value is, if it is one",
    "as_bool": "the truth that a value is, if it is one",
    "as_array": "the list that a value is, if it is one",
    "as_table": "the table that a value is, if it is one",
    "parse_document": "the table that a text is in TOML 1.1, if it is one",
}


def shown_name(word):
    return word.replace("◌", " _ ").strip().replace("  ", " ") if "◌" in word else word


def cell(text):
    return text.replace("|", "\\|")


def headline(item):
    return f"### `{item.name}` ({item.path})"


def fenced(item):
    language = "rust" if item.path.endswith(".rt") else "antt"
    return [f"```{language}", *item.text, "```"]


def places(sources):
    """Each file with believed items, by its section; a file without a section is an error, and so is one that is named in vain."""
    files = {}
    for item in sources.items.values():
        files.setdefault(item.path, []).append(item)
    known = {f"crates/{file}" for _, listed in SECTIONS for file in listed}
    faults = [f"{path}: no section of tools/lib/statement.py has this file, and {len(found)} believed definitions stand in it, "
              f"`{found[0].name}` (line {found[0].line}) among them" for path, found in files.items() if path not in known]
    faults += [f"tools/lib/statement.py: {path} has a section, and no believed definition" for path in sorted(known - set(files))]
    for found in files.values():
        found.sort(key=lambda it: it.line)
    return files, faults


def word_faults(sources):
    """Each word of a library has its line, and each line its word."""
    faults = []
    for word, cited in sources.std.items():
        if word not in WORDS:
            name, path = next(iter(cited))
            faults.append(f"{path}: `{name}` cites `{word}` of {cited[(name, path)]}, which tools/lib/statement.py does not explain")
    return faults + [f"tools/lib/statement.py: explains `{word}`, which no believed definition cites" for word in WORDS if word not in sources.std]


def owners(sources):
    """Name -> where it stands for a believed definition, a type or a form of one: the file, and of a form its type."""
    found = {}
    for item in sources.items.values():
        found.setdefault(item.name, set()).add((item.path, item.name))
        module = sources.modules.get(item.path)
        for part, whole in (module.parts.items() if module else ()):
            if whole == item.name:
                found.setdefault(part, set()).add((item.path, whole))
        for path, name, whole in sources.meant(item).values():
            if path is not None:
                found.setdefault(name, set()).add((path, whole))
    return found


def notes(sources, items, owned):
    """What names mean in a file, where another of that name stands on the page or the file has its own name for it."""
    plain, forms = {}, {}
    for item in items:
        for word, (path, name, whole) in sources.meant(item).items():
            if word == name and len(owned[name]) < 2:
                continue
            if path is None:
                plain[word] = f"`{word}` is `{name}` of the libraries"
            elif name == whole:
                plain[word] = f"`{word}` is that of {path}" if word == name else f"`{word}` is `{name}` of {path}"
            else:
                forms.setdefault((whole, path), set()).add(f"`{word}`" if word == name else f"`{word}` (there `{name}`)")
    said = [plain[word] for word in sorted(plain)]
    said += [f"of `{whole}` ({path}) {'is' if len(words) == 1 else 'are'} {', '.join(sorted(words))}" for (whole, path), words in sorted(forms.items())]
    return "; ".join(said)


def count(sources):
    """Definitions and types, files, and lines with comments; the contracts are not among them."""
    items = [it for it in sources.items.values() if it.kind != "function"]
    return len(items), len({it.path for it in items}), sum(len(it.text) for it in items)


def page(sources):
    """The text of the page, with the faults that keep it from being whole."""
    files, faults = places(sources)
    faults += word_faults(sources)
    definitions, number, lines = count(sources)
    notation = "\n".join(f"| `{cell(sign)}` | {cell(text)} |" for sign, text in NOTATION)
    titles = [title[0].lower() + title[1:] for title, _ in SECTIONS]
    words = "\n".join(f"| `{cell(shown_name(word))}` | {cell(text)} |" for word, text in WORDS.items())
    counted = COUNTED.format(definitions=definitions, files=number, lines=lines, sections="; ".join(titles))
    out = [HEAD.format(counted=textwrap.fill(counted, 135), notation=notation, words=words)]
    owned = owners(sources)
    for title, listed in SECTIONS:
        out += [f"## {title}", ""]
        for path in (f"crates/{file}" for file in listed):
            if path not in files:
                continue
            about = (sources.modules.get(path) or sources.codes.get(path)).about
            said = notes(sources, files[path], owned)
            out += [f"*{path}*: {about}" + (f" Here {said}." if said else ""), ""]
            for item in files[path]:
                out += [headline(item), "", *fenced(item), ""]
    return "\n".join(out).rstrip("\n") + "\n", faults


def parts_of(text):
    """The page's definitions: heading -> (line, text)."""
    found, heading, inside = {}, None, False
    for number, line in enumerate(text.splitlines(), 1):
        if line.startswith("### `") and not inside:
            heading = line
            found[heading] = (number, [])
        elif line.startswith("```") and heading:
            inside = not inside
        elif inside and heading:
            found[heading][1].append(line)
    return found


def differences(sources, text, name):
    """What a page lacks, has otherwise or has in vain; each with file and line."""
    wanted, faults = page(sources)
    there = parts_of(text)
    for item in sources.items.values():
        heading = headline(item)
        if heading not in there:
            faults.append(f"{item.path}:{item.line}: `{item.name}` is not in {name}")
        elif there[heading][1] != item.text:
            faults.append(f"{item.path}:{item.line}: `{item.name}` stands otherwise in {name}, line {there[heading][0]}")
    for trait, member, by in sources.members:
        shown = there.get(headline(trait), (0, []))[1]
        if not any(re.match(rf"^\s+ghost {member}:", line) for line in shown):
            line = trait.line + trait.text.index(member_line(trait, member)) - trait.text.index(next(it for it in trait.text if it.startswith("pub trait")))
            faults.append(f"{trait.path}:{line}: the ghost member `{member}` of `{trait.name}`, which `{by.name}` cites, is not in {name}")
    needed = {headline(item) for item in sources.items.values()}
    for heading, (line, _) in there.items():
        if heading not in needed:
            faults.append(f"{name}:{line}: no clause rests on {heading[4:]}")
    if not faults and text != wanted:
        for number, (old, new) in enumerate(zip(text.splitlines(), wanted.splitlines()), 1):
            if old != new:
                faults.append(f"{name}:{number}: stands otherwise than tools/believe --text writes it")
                break
        else:
            faults.append(f"{name}: has another number of lines than tools/believe --text writes")
    return faults


__all__ = ["Fault", "count", "differences", "page"]
