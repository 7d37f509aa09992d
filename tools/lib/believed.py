"""What a reader must believe, read off the sources: each definition, type and trait that the clauses of the program rest on.

The files are read as text, with no more of the language than this takes. A name that cannot be found is an error, so that the
list is not short by mistake.
"""
import re

WORD = re.compile(r"[A-Za-z_][A-Za-z0-9_'-]*")
USE = re.compile(r"^\s*(?:ghost |pub )?use Rattle\.([a-z0-9_]+)\.specs\.((?:\w+\.)*)\{([^}]*)\};?\s*$")
USE_AS = re.compile(r"^\s*(?:ghost )?use Rattle\.([a-z0-9_]+)\.specs\.([A-Za-z0-9_.]+) as ([A-Za-z0-9_]+);?\s*$")
RUST_USE = re.compile(r"(?m)^(?:pub )?use ((?:crate|mk_[a-z_]+)(?:::[a-z_]+)*)::(\{[^}]*\}|\w+);")
NAME = r"(?:◌[^\s◌]+◌|[A-Za-z_][A-Za-z0-9_'-]*)"
PUBLIC = re.compile(r"^\s*(?:abbrev |unfoldable |opaque )*pub ")
HEAD = re.compile(rf"^\s*(?:abbrev |unfoldable |opaque )*pub (?:(record|data) )?({NAME})")
FIELD = re.compile(r"^\s+(?:pub )?([A-Za-z_][A-Za-z0-9_'-]*) :")
FIXITY = re.compile(r"^infix[lr]? ")
DECLARED = re.compile(r"^pub (enum|struct|type|trait|const) (\w+)")
IMPL = re.compile(r"^impl(?:<.*?>)? (\w+) for (\w+)")
GHOST = re.compile(r"^\s+ghost (\w+)\s*[:=]")
MEMBER = re.compile(r"\b([A-Z])\.([a-z_]+)\b")
# where the program begins: a file of crates/daggre/src, its function, and whether clauses or the body are what it says
ROOTS = [("program", "program", True), ("call", "call", True), ("main", "main", False)]


class Fault(Exception):
    """Why the list cannot be made."""


def without_comments(lines, mark):
    return [re.sub(rf"(^|\s){re.escape(mark)}.*$", "", line) for line in lines]


def joined(lines):
    """The lines, with an import that stands on several in one."""
    taken = []
    for line in lines:
        if taken and re.match(r"^\s*(?:ghost |pub )?use [^{}]*\{[^}]*$", taken[-1]):
            taken[-1] += line.strip()
        else:
            taken.append(line)
    return taken


def imports_of(lines):
    """Local name -> (crate, module path, name there)."""
    found = {}
    for line in joined(lines):
        match = USE.match(line)
        if not match:
            continue
        crate, module, names = match.groups()
        for item in names.split(","):
            path, _, alias = item.strip().partition(" as ")
            inner, name = re.fullmatch(r"((?:\w+\.)*)(.*)", path.strip()).groups()
            if name:
                found[alias.strip() or name] = (crate, (module + inner).rstrip("."), name)
    return found


def rust_imports_of(text):
    """Local name -> (crate or `crate`, name there)."""
    found = {}
    for path, names in RUST_USE.findall(text):
        for item in names.strip("{}").split(","):
            parts = item.strip().split(" as ")
            if parts[0]:
                found[parts[-1].strip()] = (path.split("::")[0], parts[0].strip())
    return found


def stands_in(name, text):
    """Whether an operator, whose places are ◌, stands in a text."""
    if name in text:
        return True
    return all(re.search(rf"(?:^|(?<=[\s(\[])){re.escape(part)}(?=$|[\s)\]])", text) for part in name.split("◌") if part)


class Item:
    """A definition, a type, a trait or a function of the program, with its text as it stands."""

    def __init__(self, kind, name, path, line, text):
        self.kind, self.name, self.path, self.line, self.text = kind, name, path, line, text
        self.key = (name, path)
        self.cited = {}


class Module:
    """One file of specs/: its definitions, and what it brings in."""

    def __init__(self, crate, path, shown):
        self.crate, self.path, self.shown = crate, path, shown
        raw = path.read_text().splitlines()
        lines = without_comments(raw, "--")
        self.imports = imports_of(lines)
        named = [m.groups() for m in map(USE_AS.match, lines) if m]
        # the forms of a type of the code, under one name: `name.Form`
        self.forms = {alias: (crate, path) for crate, path, alias in named if path.startswith("declared.") and path.endswith(".TheVariants")}
        self.aliases = {alias: crate for crate, _, alias in named if alias not in self.forms}
        self.about = self.first_comment(raw)
        self.texts, self.parts, self.items = {}, {}, {}
        heads = self.read(lines)
        for at, (name, start) in enumerate(heads):
            stop = self.above(raw, heads[at + 1][1]) if at + 1 < len(heads) else len(raw)
            text = raw[self.above(raw, start):stop]
            while text and not text[-1].strip():
                text.pop()
            self.items[name] = Item("definition", name, shown, start + 1, text)

    @staticmethod
    def first_comment(raw):
        taken = []
        for line in raw:
            if not line.startswith("--"):
                break
            taken.append(line[2:].strip())
        return " ".join(taken)

    @staticmethod
    def above(raw, start):
        """The first line of the comment of a definition."""
        while start > 0 and (raw[start - 1].startswith("--") or FIXITY.match(raw[start - 1])):
            start -= 1
        return start

    def read(self, lines):
        heads, name, kind, base = [], None, None, 0
        for at, line in enumerate(lines):
            if re.match(r"^(pub )?(use|mod) ", line) or FIXITY.match(line):
                continue
            head = HEAD.match(line)
            if PUBLIC.match(line) and not head:
                raise Fault(f"{self.shown}:{at + 1}: a definition whose name is not understood")
            indent = len(line) - len(line.lstrip())
            inside = name is not None and kind in ("record", "data") and indent > base
            if head and not inside:
                kind, name = head.groups()
                base = indent
                self.texts[name] = [line]
                heads.append((name, at))
                continue
            if name is None:
                continue
            if inside and kind == "data":
                constructor = FIELD.match(line)
                if constructor:
                    self.parts[constructor.group(1)] = name
            self.texts[name].append(line)
        return heads

    def words(self, name):
        """The words of a definition that may name others: no names of fields. What it binds itself counts, rather than being missed."""
        text = "\n".join(self.texts[name])
        operators = [it for it in {**self.texts, **self.imports} if "◌" in it and it != name and stands_in(it, text)]
        text = re.sub(r"(?m)^(\s+pub )[A-Za-z0-9_'-]+ :", r"\1 :", text)
        text = re.sub(r"\.[A-Za-z_][A-Za-z0-9_'-]*", " ", text)
        text = re.sub(r"([{;]\s*)[A-Za-z0-9_'-]+ =", r"\1 =", text)
        symbols = [it for it in ("[]", "ℕ", "ℤ", "⊤") if it in self.imports and it in text]
        return WORD.findall(text) + operators + symbols


class Code:
    """One file of src/: its types, its traits and what it brings in."""

    def __init__(self, crate, path, shown):
        self.crate, self.path, self.shown = crate, path, shown
        self.raw = path.read_text().splitlines()
        plain = without_comments(self.raw, "//")
        self.imports = imports_of(plain)
        self.rust = rust_imports_of("\n".join(plain))
        self.about = " ".join(line[3:].strip() for line in self.raw if line.startswith("//!"))
        self.declared = {m.group(2): (m.group(1), at) for at, m in enumerate(map(DECLARED.match, self.raw)) if m}

    def above(self, start):
        while start > 0 and self.raw[start - 1].startswith(("//", "#[")) and not self.raw[start - 1].startswith("//!"):
            start -= 1
        return start

    def until(self, start, ends):
        return next(at for at in range(start, len(self.raw)) if ends(self.raw[at]))

    def item(self, name, traits):
        """A type with what it is seen as, or a trait with all that it asks."""
        kind, start = self.declared[name]
        stop = start
        if not self.raw[start].endswith(";"):
            stop = self.until(start, lambda line: line.startswith("}"))
        text = self.raw[self.above(start):stop + 1]
        if kind != "trait":
            for seen in self.seen_as(name, traits):
                text += [""] + seen
        return Item("trait" if kind == "trait" else "type", name, self.shown, start + 1, text)

    def seen_as(self, name, traits):
        """For each implementation of `Model` or of a believed trait: its head and its ghost members."""
        for start, line in enumerate(self.raw):
            match = IMPL.match(line)
            if not match or match.group(2) != name or match.group(1) not in {"Model", *traits}:
                continue
            stop = self.until(start, lambda it: it.startswith("}"))
            taken, depth = [line], 0
            for it in self.raw[start + 1:stop]:
                member = GHOST.match(it)
                wanted = member and (match.group(1) != "Model" or member.group(1) in ("Value", "view"))
                if depth or wanted:
                    taken.append(it)
                    depth += it.count("{") - it.count("}")
            yield taken + ["}"]

    def function(self, name, by_clauses):
        start = self.until(0, lambda line: re.match(rf"^(pub )?fn {name}\b", line))
        ends = (lambda line: line == "{") if by_clauses else (lambda line: line == "}")
        stop = self.until(start, ends)
        return Item("function", name, self.shown, start + 1, self.raw[self.above(start):stop + (not by_clauses)])

    def words(self, item):
        """The words of a type, a trait or a contract that may name others: no variants."""
        text = "\n".join(without_comments(item.text, "//"))
        if text.count("enum "):
            text = re.sub(r"(?m)^    [A-Z]\w*(?=[ ({,])", "    ", text)
        signs = [it for it in self.imports if ("◌" in it and stands_in(it, text)) or (it in ("[]", "ℕ", "ℤ", "⊤") and it in text)]
        return list(dict.fromkeys(WORD.findall(re.sub(r"\.[A-Za-z_]\w*", " ", text)) + signs)), text


class Sources:
    """All that the program's clauses rest on, as `items`, in the order in which they are met."""

    def __init__(self, root):
        self.root, self.crates = root, root / "crates"
        self.modules, self.codes, self.items = {}, {}, {}
        self.traits, self.members, self.std = set(), [], {}
        for file, name, by_clauses in ROOTS:
            code = self.code("daggre", file)
            if code is None:
                raise Fault(f"no file crates/daggre/src/{file}.rt")
            self.visit_code(code, code.function(name, by_clauses))
        if not re.search(r"\bcall\(", "\n".join(self.items[("main", "crates/daggre/src/main.rt")].text)):
            raise Fault("crates/daggre/src/main.rt: main does not call `call`")

    def module(self, crate, path):
        return self.file(self.modules, Module, crate, "specs/" + path.replace(".", "/") + ".antt")

    def code(self, crate, path):
        return self.file(self.codes, Code, crate, f"src/{path}.rt")

    def file(self, kept, kind, crate, path):
        shown = f"crates/{crate}/{path}"
        if shown not in kept:
            file = self.root / shown
            kept[shown] = kind(crate, file, shown) if file.is_file() else None
        return kept[shown]

    def visit_import(self, by, crate, path, name):
        """The item that a name stands for; None for a word of a library."""
        if not (self.crates / crate).is_dir():
            self.std.setdefault(name, {})[by.key] = f"{crate}.{path}"
            return None
        parts = path.split(".")
        if parts[0] == "declared":
            file, declared = self.declared(parts, name)
            code = self.code(crate, file)
            if code is None or declared not in code.declared:
                raise Fault(f"{by.path}:{by.line}: `{by.name}` cites `{declared}`, which crates/{crate}/src/{file}.rt lacks")
            return self.visit_declared(code, declared, by)
        module = self.module(crate, path)
        if module is None:
            raise Fault(f"{by.path}:{by.line}: `{by.name}` cites Rattle.{crate}.specs.{path}, and there is no such file")
        name = module.parts.get(name, name)
        if name in module.texts:
            return self.visit(module, name, by)
        if name in module.imports:
            return self.visit_import(by, *module.imports[name])
        raise Fault(f"{by.path}:{by.line}: `{by.name}` cites `{name}`, which {module.shown} lacks")

    @staticmethod
    def declared(parts, name):
        """The file of src/ and the name there of what a path below `declared` gives: a type, a form of one, or a constant."""
        if parts[-1] == "TheConstants":
            return "/".join(parts[1:-1]), name
        parts = parts[:-1] if parts[-1] == "TheVariants" else parts
        return "/".join(parts[1:-1]), parts[-1]

    def visit(self, module, name, by):
        item = module.items[name]
        if "⟦" in "".join(item.text):
            raise Fault(f"{item.path}:{item.line}: `{name}` cites what an implementation of a trait tells, which is not followed")
        if self.first(item, by):
            for word in dict.fromkeys(module.words(name)):
                self.follow(module, word, item)
        return item

    def first(self, item, by):
        known = self.items.get(item.key)
        if known is None:
            self.items[item.key] = item
        if by is not None:
            self.items[item.key].cited[by.key] = True
        return known is None

    def follow(self, module, word, by):
        word = module.parts.get(word, word) if word not in module.texts else word
        if word in module.aliases and (self.crates / module.aliases[word]).is_dir():
            raise Fault(f"{by.path}:{by.line}: `{by.name}` cites a whole module, `{word}`, which is not followed")
        if word in module.texts:
            if word != by.name:
                self.visit(module, word, by)
        elif word in module.imports:
            self.visit_import(by, *module.imports[word])
        elif word in module.forms:
            self.visit_import(by, *module.forms[word], word)

    def visit_declared(self, code, name, by):
        known = self.items.get((name, code.shown))
        if known is None:
            if code.declared[name][0] == "trait":
                self.traits.add(name)
            self.visit_code(code, code.item(name, self.traits))
        known = self.items[(name, code.shown)]
        known.cited[by.key] = True
        return known

    def visit_code(self, code, item):
        self.items[item.key] = item
        words, text = code.words(item)
        local = {**code.imports, **imports_of(self.inner_uses(code, item))}
        for word in words:
            if word in local:
                self.visit_import(item, *local[word])
            elif word in code.declared and word != item.name:
                self.visit_declared(code, word, item)
            elif word in code.rust:
                self.visit_rust(code, *code.rust[word], item)
        self.note_members(code, item, text)

    @staticmethod
    def inner_uses(code, item):
        """What is brought in inside of the implementations that belong to a type."""
        return [line for line in code.raw if line.startswith("    ghost use ")] if item.kind == "type" else []

    def visit_rust(self, code, crate, name, by):
        crate = code.crate if crate == "crate" else crate
        found = []
        for file in sorted((self.crates / crate / "src").rglob("*.rt")):
            other = self.code(crate, str(file.relative_to(self.crates / crate / "src"))[:-3])
            if name in other.declared:
                found.append(other)
        if len(found) > 1:
            raise Fault(f"{by.path}:{by.line}: `{by.name}` cites `{name}`, which {crate} declares twice")
        if found:
            self.visit_declared(found[0], name, by)

    def note_members(self, code, item, text):
        """Which ghost members of traits a contract cites: each of them has to be declared in its trait."""
        if item.kind != "function":
            return
        bounds = dict(re.findall(r"\b([A-Z]): (\w+)", text))
        for letter, member in dict.fromkeys(MEMBER.findall(text)):
            if letter not in bounds:
                raise Fault(f"{item.path}:{item.line}: `{item.name}` cites `{letter}.{member}` of no trait")
            trait = next((it for it in self.items.values() if it.kind == "trait" and it.name == bounds[letter]), None)
            if trait is None or not member_line(trait, member):
                raise Fault(f"{item.path}:{item.line}: `{item.name}` cites `{member}`, which no trait `{bounds[letter]}` declares")
            self.members.append((trait, member, item))

    def meant(self, item):
        """Local name -> (file, name there, definition or type) of what it stands for, for each believed item that a definition brings in."""
        module = self.modules.get(item.path)
        code = self.codes.get(item.path)
        imports = {**module.imports} if module else {**code.imports, **imports_of(self.inner_uses(code, item))}
        words = module.words(item.name) if module else code.words(item)[0]
        found = {}
        for word in dict.fromkeys(words):
            if word in (module.texts if module else code.declared):
                continue
            if module and word in module.forms:
                owner = self.owner(*module.forms[word], word)
                found[word] = (owner.path, owner.name, owner.name)
            elif word in imports:
                crate, path, name = imports[word]
                if (self.crates / crate).is_dir():
                    owner = self.owner(crate, path, name)
                    found[word] = (owner.path, name, owner.name)
                elif word != name:
                    found[word] = (None, name, name)
            elif code and word in code.rust:
                name = code.rust[word][1]
                crate = code.crate if code.rust[word][0] == "crate" else code.rust[word][0]
                owner = next((it for it in self.items.values() if it.name == name and it.path.startswith(f"crates/{crate}/src/")), None)
                if owner is not None and owner.kind != "function":
                    found[word] = (owner.path, name, name)
        return found

    def owner(self, crate, path, name):
        parts = path.split(".")
        if parts[0] == "declared":
            file, declared = self.declared(parts, name)
            return self.items[(declared, f"crates/{crate}/src/{file}.rt")]
        module = self.module(crate, path)
        name = module.parts.get(name, name)
        if name in module.texts:
            return module.items[name]
        return self.owner(*module.imports[name])


def member_line(trait, member):
    """The line of a ghost member in a trait's text, if it is there."""
    return next((line for line in trait.text if re.match(rf"^\s+ghost {member}:", line)), None)
