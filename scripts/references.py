"""What the declarations of a tree say and what their words refer to: definitions, types of the code, contracts,
theorems.

A module for the scripts beside it; it is no command.
"""
import hashlib
from collections import defaultdict

import declarations
from common import ROOT, is_made, traced


class Present:
    """The files under crates/ as they are now, with docs/TRACE.md."""

    def __init__(self):
        found = [path for path in (ROOT / "crates").rglob("*") if path.is_file()] + [ROOT / "docs" / "TRACE.md"]
        paths = (path.relative_to(ROOT).as_posix() for path in found)
        self.paths = sorted(path for path in paths if not is_made(path))
        self.text = {path: (ROOT / path).read_text() for path in self.paths if path.endswith((".antt", ".rt", ".md"))}


class Thing:
    """Something that a tree declares: its words, and what they refer to."""

    def __init__(self, kind, crate, path, declaration, words):
        self.kind, self.crate, self.path, self.words = kind, crate, path, words
        self.name, self.line, self.last, self.marks = declaration.name, declaration.line, declaration.last, declaration.marks
        self.refers = {}  # place of a word -> the thing that it names
        self.meaning = None
        self.fate = "new"


class Tree:
    def __init__(self, files):
        self.files = files
        self.things = []
        self.declared = {}  # (path, name) -> thing that words may refer to
        self.types = defaultdict(dict)  # crate -> name -> type
        self.parsed = {}
        operations = traced(files.text.get("docs/TRACE.md", ""))
        for path in files.paths:
            parts = path.split("/")
            if len(parts) > 3 and parts[0] == "crates":
                if path.endswith(".antt") and parts[2] in ("specs", "proofs"):
                    self.read_antt(path, parts)
                elif path.endswith(".rt") and parts[2] == "src":
                    self.read_rattle(path, parts, operations)
        for thing in self.things:
            self.resolve(thing)
        for thing in self.things:
            self.meaning(thing)

    def read_antt(self, path, parts):
        if parts[-1] == "Lib.antt" or (parts[2] == "proofs" and parts[-1] in declarations.OF_ONE_FUNCTION):
            return
        file = self.parsed[path] = declarations.antt(self.files.text[path])
        for one in file.declarations:
            stated = parts[2] == "specs" or "abbrev" in one.marks or one.kind != "definition"
            theorem = parts[2] == "proofs" and "pub" in one.marks and not stated
            kind = "definitions" if parts[2] == "specs" else "theorems" if theorem else None
            words = one.words() if stated else statement(one)
            thing = Thing(kind, parts[1], path, one, words)
            self.declared[(path, one.name)] = thing
            for member in one.members:
                self.declared.setdefault((path, member), thing)
            self.things.append(thing)

    def read_rattle(self, path, parts, operations):
        file = self.parsed[path] = declarations.rattle(self.files.text[path])
        for one in file.declarations:
            if one.kind != "function":
                thing = Thing("types", parts[1], path, one, one.head)
                self.types[parts[1]][one.name] = thing
                self.things.append(thing)
                continue
            asks = any(t.text == "requires" for t in one.head)
            operation = "pub" in one.marks and not asks and f"{parts[1]}::{one.name}" in operations
            kind = "promises" if operation or "extern" in one.marks else "other contracts"
            self.things.append(Thing(kind, parts[1], path, one, one.head))

    def resolve(self, thing):
        file = self.parsed[thing.path]
        words = thing.words
        # a parameter or a field of Rattle hides a definition of its name; a contract may name the definition of its function's name
        is_code = thing.path.endswith(".rt")
        own = {a.text for a, b in zip(words, words[1:]) if b.text == ":"} if is_code else {thing.name}
        for k, token in enumerate(words):
            if k and words[k - 1].text == "." and token.tight:
                continue  # a field
            if token.text in own or (is_code and k and words[k - 1].text in ("fn", "struct", "enum")):
                continue
            infix = f"◌{token.text}◌"
            if token.text in file.modules and k + 2 < len(words) and words[k + 1].text == "." and words[k + 2].tight:
                found = self.imported(thing.crate, file.modules[token.text], words[k + 2].text)
            elif token.text in file.names or infix in file.names:
                found = self.imported(thing.crate, *(file.names.get(token.text) or file.names[infix]))
            elif thing.path.endswith(".rt"):
                found = self.types[thing.crate].get(token.text)
            else:
                # a declaration sees what stands above it; further down, the word is a variable of its own
                found = self.declared.get((thing.path, token.text)) or self.declared.get((thing.path, infix))
                found = found if found and found.line < thing.line else None
            if found and found is not thing:
                thing.refers[k] = found

    def imported(self, crate, parts, name, seen=()):
        """The thing that a module has under a name, or passes on: a path of antt, or one of Rattle."""
        parts = [part for part in parts if part]
        if len(parts) > 1 and parts[0] == "Rattle":
            owner, rest = parts[1], parts[2:]
            if rest[:2] == ["specs", "declared"]:
                return self.type_of(owner, rest[2] if len(rest) > 2 else name)
            path = "/".join(["crates", owner, *rest]) + ".antt"
            further = self.parsed[path].names.get(name) if path in self.parsed else None
            if (path, name) in self.declared or not further or further in seen:
                return self.declared.get((path, name))
            return self.imported(owner, *further, seen=(*seen, further))
        return self.type_of(crate if not parts or parts[0] in ("crate", "self", "super") else parts[0], name)

    def type_of(self, crate, name, seen=()):
        """A struct or enum of a crate, or one that it passes on from another."""
        if name in self.types[crate]:
            return self.types[crate][name]
        for path, file in self.parsed.items():
            parts, further = file.names.get(name, ([], None))
            if parts and parts[0] != crate and parts[0] not in seen and path.startswith(f"crates/{crate}/src/"):
                return self.type_of(parts[0], further, (*seen, crate))
        return None

    def meaning(self, thing):
        """A thing's words with the meaning of what they name in place of the names: neither its name nor its file is part of it."""
        todo = [thing]
        while todo:
            one = todo[-1]
            waiting = [r for r in one.refers.values() if r.meaning is None and r not in todo]
            if waiting and one.meaning is None:
                todo.append(waiting[0])
                continue
            todo.pop()
            if one.meaning is None:
                one.meaning = hashlib.sha256(" ".join(spelling(one)).encode()).hexdigest()


def statement(one):
    """The words of a theorem, with the parameters of the blocks around it in front of its type, where they mean the same."""
    colon = declarations.top(one.head, {":"})
    if not one.scope or any(token.text == "open" for token in one.scope):
        return one.scope + one.head
    arrow = declarations.Token("→", one.line, 0, False)
    return one.head[: colon + 1] + [token for group in groups(one.scope) for token in group] + [arrow] + one.head[colon + 1 :]


def groups(words):
    """What stands in brackets, with them."""
    found, depth = [], 0
    for token in words:
        if not depth and token.text in declarations.OPEN:
            found.append([])
        depth += token.text in declarations.OPEN
        if depth:
            found[-1].append(token)
        depth -= token.text in declarations.CLOSE
    return found


def value(thing):
    """Where the right side of a definition by one equation without parameters begins."""
    texts = [token.text for token in thing.words]
    begins = [k + 2 for k in range(len(texts) - 1) if texts[k : k + 2] == [thing.name, "="]]
    return begins[0] if texts[0] == thing.name and len(begins) == 1 else None


def said(thing):
    """The words of a thing, each with what it names; of a theorem those of its type, and where that is the name of a definition, those of the definition."""
    words, start = thing.words, 0
    if thing.kind == "theorems" and [token.text for token in words[:2]] == [thing.name, ":"]:
        start = 2
        named = thing.refers.get(start) if len(words) == start + 1 else None
        if named and named.kind == "definitions" and value(named):
            thing, words, start = named, named.words, value(named)
    found = [("·" if t.text == thing.name else t.text, thing.refers.get(start + k)) for k, t in enumerate(words[start:])]
    return canonical(found) if start else found


def spelling(thing):
    """The words, with meanings in place of names."""
    return [named.meaning or text if named else text for text, named in said(thing)]


def canonical(words):
    """A statement, each word with what it names, as its premises in brackets and its conclusion. So it makes no difference how parameters are grouped,
    where an arrow between two groups is left out, and whether a premise has a name that nothing behind it uses."""
    parts, depth = [[]], 0
    for word in words:
        depth += (word[0] in declarations.OPEN) - (word[0] in declarations.CLOSE)
        if word[0] == "→" and not depth:
            parts.append([])
        else:
            parts[-1].append(word)
    premises = [premise for part in parts[:-1] for premise in parameters(part) or [(None, part)]]
    spelt = parts[-1]
    for name, kind in reversed(premises):
        used = name and any(text == name[0] for text, _ in spelt)
        spelt = [("(", None), *([name, (":", None)] if used else []), *kind, (")", None), ("→", None), *spelt]
    return spelt


def parameters(part):
    """The parameters (name, type) of a part that is nothing but groups of them in round brackets."""
    found, k = [], 0
    while k < len(part):
        depth, stop, colon = 1, k + 1, None
        while part[k][0] == "(" and depth and stop < len(part):
            depth += (part[stop][0] in declarations.OPEN) - (part[stop][0] in declarations.CLOSE)
            colon = stop if colon is None and depth == 1 and part[stop][0] == ":" else colon
            stop += 1
        if depth or colon is None:
            return []
        found += [(name, part[colon + 1 : stop - 1]) for name in part[k + 1 : colon]]
        k = stop
    return found
