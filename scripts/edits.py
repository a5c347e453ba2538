"""Reads the must-fail edits, the words that stand with them and the page that shows them; it is no command.

An edit is a file crates/CRATE/must-fail/NAME.edit. `rt` reads its lines `file: `, `old: ` and `new: ` and passes over
all others. Lines that begin with `#` say in words what is wrong, and may go on in the `#` lines after them:

    # What the edit stands for, in a sentence.
    # of: the operations that it is a wrong program of, with commas between them
    file: src/lib.rt
    # slip: what is wrong at the place that follows
    # fact: what the fact says that fails there
    old: the text before
    new: the text after

A place is in a function, in the promise of a function or in a definition; one in a constant belongs to the function
that names the constant. A pair that only brings names in is no place, and has no words.
"""
import functools
import os
import re
import textwrap
from dataclasses import dataclass, field

import declarations
from common import ROOT, TRACE, crates, operations

PAGE = ROOT / "docs" / "WRONG_PROGRAMS.md"
BEGIN, END = "<!-- written by scripts/must-fail -->\n", "<!-- end of what is written -->\n"
UNKNOWN = ("?", "?")  # a fact that no run has shown
CONSTANT = re.compile(r"(?:pub )?const (\w+):")
HEAD = """# Wrong programs

`scripts/must-fail --write` writes this page: the words and places from the edits in `crates/*/must-fail`, the last
column from what the checker said of them. The gate tries every edit, and fails if one is not refused, if the words and
places here are not those of the edits, or if a place is refused at a different fact than this page names.

Each edit is applied to a copy of its crate, and the checker refuses it. All places of an edit are tried at once: each
lies in a function of its own, and each of these functions is refused by itself; one that shows nothing there, since
a function that it calls is refused, where its place is tried alone. So each row is a wrong program, and its last
column names the function (or the file of laws) and the fact at which it is refused, and says what that fact is. No row
is refused for its form, that is, with words with which a right program of that form would be refused too, but those of
`octets::text::write_decimal` and `manifest::ordered::Ordered::record_for`: there the slip needs a branch or a call, and
the proof by hand names what is called. The fact is false of these wrong programs too.

A place in a promise is a wrong promise of right code: of the functions of `lent`, and of the exported ones that take a
reference to a struct. The checker proves those with no proof written by hand, and what fails is the fact `returns`:
that the callee's promise gives this one. A promise that is weaker and true was tried for `lent::update`, and goes
through.
"""


@dataclass
class Place:
    file: str
    line: int
    old: str
    new: str
    slip: str
    fact: str
    function: str = None  # the function that is to be refused, without its module; none for a definition
    where: str = ""  # in words, for the page


@dataclass
class Edit:
    crate: str
    label: str
    sentence: str = ""
    operations: list = field(default_factory=list)
    places: list = field(default_factory=list)
    changed: dict = field(default_factory=dict)  # each file that the edit changes, as it is then
    pairs: list = field(default_factory=list)  # each file, text before and text after, also of what is no place
    unapplied: list = field(default_factory=list)  # why it cannot be applied
    unsaid: list = field(default_factory=list)  # which words are missing

    @property
    def name(self):
        return f"{self.crate}/{self.label}"

    @property
    def source(self):
        return ROOT / "crates" / self.crate

    def text(self, file):
        return self.changed.get(file) or (self.source / file).read_text()

    @property
    def raw(self):
        return "".join(f"file: {file}\nold: {old}\nnew: {new}\n" for file, old, new in self.pairs)

    def each_place(self):
        """The edit cut up: an edit for each of its places, which brings in the same names."""
        own = {(place.file, place.old) for place in self.places}
        for k, place in enumerate(self.places, 1):
            kept = [pair for pair in self.pairs if pair[:2] == (place.file, place.old) or pair[:2] not in own]
            part = Edit(self.crate, f"{self.label}_{k}")
            for file, old, new in kept:
                part.place(file, old, new, place.slip, place.fact)
            yield part

    def read(self, text):
        words, key, file, old = {}, "sentence", "", ""
        for line in text.splitlines():
            if line.startswith("#"):
                said = re.match(r"# ?(?:(of|slip|fact): )?(.*)", line)
                key = said[1] or key
                words[key] = (words.get(key, "") + " " + said[2].strip()).strip()
            elif line.startswith("file: "):
                file = line[6:]
            elif line.startswith("old: "):
                old = line[5:]
            elif line.startswith("new:"):
                self.place(file, old, line[4:].removeprefix(" "), words.pop("slip", ""), words.pop("fact", ""))
                key = "slip"
        self.sentence = words.get("sentence", "")
        self.operations = [name.strip() for name in words.get("of", "").split(",") if name.strip()]
        self.unsaid = [f"{self.name}: {fault}" for fault in self.missing()]
        return self

    def place(self, file, old, new, slip, fact):
        text = self.text(file) if (self.source / file).is_file() else ""
        self.pairs.append((file, old, new))
        if not old or text.count(old) != 1:
            self.unapplied.append(f"{self.name}: stands {text.count(old)} times in {file}, and not once: {old}")
            return
        line = text.count("\n", 0, text.find(old)) + 1
        if not text.splitlines()[line - 1].startswith(("use ", "ghost use ")):
            self.places.append(Place(file, line, old, new, slip, fact, *self.found_at(file, line)))
        self.changed[file] = text.replace(old, new, 1)

    def missing(self):
        if not self.sentence:
            yield "no sentence says what it stands for"
        if not self.operations:
            yield "no line of: says which operations it is a wrong program of"
        for place in self.places:
            if not place.slip or not place.fact:
                yield f"no {'fact' if place.slip else 'slip'}: line says what is wrong at: {place.old}"

    def found_at(self, file, line):
        """The function at a line, or the one that names the constant there; and the place in words."""
        text = (self.source / file).read_text()  # an edit adds no line and takes none
        if file.endswith(".antt"):
            name = enclosing(declarations.antt(text), line)
            return None, f"definition `{name}`" if name else f"`{self.crate}/{file}`"
        one = next((d for d in functions(text) if d.line <= line <= d.last), None)
        if one:
            body = one.head[-1].line
            promise = one.head[0].line < line <= body and any(t.text == "ensures" for t in one.head)
            name = one.name if "extern" in one.marks else qualified(self.crate, file, one.name)
            return one.name.split("::")[-1], f"promise of `{name}`" if promise else f"`{name}`"
        heads = [CONSTANT.match(said) for said in text.splitlines()[:line]]
        constant = next((head[1] for head in reversed(heads) if head), None)
        users = []
        for path in sorted((self.source / "src").rglob("*.rt")):
            text = path.read_text()
            for d in functions(text):
                if constant in re.findall(r"\w+", "\n".join(text.splitlines()[d.line - 1 : d.last])):
                    users.append((d.name.split("::")[-1], qualified(self.crate, path.relative_to(self.source).as_posix(), d.name)))
        return (users[0][0], f"`{constant}` in `{users[0][1]}`") if len(users) == 1 else (None, f"`{constant}`")


def qualified(crate, file, function):
    module = file.removeprefix("src/").removesuffix(".rt").replace("/", "::")
    return "::".join([crate] + ([] if module in ("lib", "main") else [module]) + [function])


@functools.cache
def functions(text):
    return [d for d in declarations.rattle(text).declarations if d.kind == "function"]


def enclosing(file, line):
    return next((d.name for d in file.declarations if d.line <= line <= d.last), None)


def edits():
    paths = sorted(ROOT.glob("crates/*/must-fail/*.edit"), key=lambda p: (crates().index(p.parent.parent.name), p.stem))
    return [Edit(path.parent.parent.name, path.stem).read(path.read_text()) for path in paths]


def wrong_programs(known):
    """The operations with the edits that are wrong programs of them, in the order of the edits."""
    table = {}
    for edit in known:
        for operation in edit.operations:
            table.setdefault(operation, []).append(edit.name)
    return table


# ---- the page


def page(known, facts):
    """The page, where `facts` gives for an edit the pairs of function and declaration at which its places are refused."""
    parts = [HEAD]
    for edit in known:
        of = ", ".join(f"`{name}`" for name in edit.operations)
        words = textwrap.fill(f"{edit.sentence} A wrong program of {of}.", 120, break_long_words=False, break_on_hyphens=False)
        lines = [f"## {edit.name}\n", f"{words}\n", "| Place | Right | Written | Slip | Refused at |", "|---|---|---|---|---|"]
        pairs = facts.get(edit.name, [])
        if len(pairs) != len(edit.places):
            pairs = [UNKNOWN] * len(edit.places)
        for place, fact in zip(edit.places, pairs):
            cells = [place.where, *map(code, shortened(place.old, place.new)), place.slip, "`{}` `{}`: ".format(*fact) + place.fact]
            lines.append("| " + " | ".join(cells) + " |")
        parts.append("\n".join(lines) + "\n")
    return "\n".join(parts)


def operation_table(known):
    """The table of docs/TRACE.md: those of README's table first, in its order."""
    table = wrong_programs(known)
    listed = [name.removeprefix("wickslate::") for name in operations((ROOT / "README.md").read_text())]
    order = [name for name in listed if name in table] + sorted(set(table) - set(listed))
    rows = [f"| `{name}` | {', '.join(f'`{edit}`' for edit in table[name])} |" for name in order]
    return "\n".join(["| Operation | Edits |", "|---|---|"] + rows) + "\n"


def with_table(text, table):
    before, rest = text.split(BEGIN) if text.count(BEGIN) == 1 else (text, END)
    return before + BEGIN + "\n" + table + "\n" + END + rest.split(END, 1)[1]


def page_faults(known):
    """What is wrong with the edits, and where page and table differ from them; the facts are taken from the page."""
    for edit in known:
        yield from edit.unapplied + edit.unsaid
    text = PAGE.read_text() if PAGE.exists() else ""
    facts = stated(text)
    if text != page(known, facts):
        yield "docs/WRONG_PROGRAMS.md is not what the edits say"
    yield from (f"{name}: docs/WRONG_PROGRAMS.md lacks a fact" for name, pairs in facts.items() if UNKNOWN in pairs)
    text = TRACE.read_text()
    if text != with_table(text, operation_table(known)):
        yield "the last table of docs/TRACE.md is not what the edits say"


def stated(text):
    """The facts that the page names, for each edit in the order of its rows."""
    found = {}
    for section in text.split("\n## ")[1:]:
        rows = [re.split(r"(?<!\\)\|", line)[-2] for line in section.splitlines() if line.startswith("| ") and not line.startswith("| Place |")]
        pairs = [re.match(r" `([^`]+)` `([^`]+)`: ", row) for row in rows]
        found[section.splitlines()[0]] = [pair.groups() if pair else UNKNOWN for pair in pairs]
    return found


def shortened(old, new, room=72):
    """Two lines or, if one is long, what differs in them with as many of the words around it as there is room for."""
    old, new = " ".join(old.split()), " ".join(new.split())
    a, b = (re.findall(r"\w+|\s|.", text) for text in (old, new))
    front = len(os.path.commonprefix([a, b]))
    back = len(os.path.commonprefix([a[front:][::-1], b[front:][::-1]]))
    spare = max(room - max(len("".join(words[front : len(words) - back])) for words in (a, b)), room // 3)
    before, after = "".join(a[:front]), "".join(a[len(a) - back :])
    left = max(spare // 2, spare - len(after))
    before = before if len(before) <= left else "…" + before[len(before) - left :]
    right = max(spare - len(before), 0)
    after = after if len(after) <= right else after[:right] + "…"
    return tuple(before + "".join(words[front : len(words) - back]) + after for words in (a, b))


def code(text):
    return "`" + text.replace("|", "\\|") + "`" if text else "nothing"
