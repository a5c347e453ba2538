"""Reads what files of antt and of Rattle declare: each name with its words (no comments, no layout), its place and what
its file brings in.

A module for the scripts beside it; it is no command.
"""
import re
from dataclasses import dataclass, field

MARKS = {"unfoldable", "abbrev", "pub", "axiom", "pattern"}
CLAUSES = {"requires", "ensures"}
# A text, an escaped name, a separator, or a run of anything else: the lexical rules of antt
ANTT = re.compile(r'(?P<space>\s+)|(?P<text>"(?:\\.|[^"\\])*")|«[^»]*»|[(){}.;,@]|[^\s(){}.;,@"«»]+')
RATTLE = re.compile(
    r"(?P<space>\s+|//[^\n]*)|(?P<text>b?\"(?:\\[\s\S]|[^\"\\])*\"|b?'(?:\\.|[^'\\\n])')|'\w+|::|->|=>|[(){}\[\];,.:<>=&|!+\-*/%^#?@]"
    r"|[^\s(){}\[\];,.:<>=&|!+\-*/%^#?@\"]+"
)
OPEN, CLOSE = {"(", "{", "["}, {")", "}", "]"}
# The files of the proof of one function; what they declare is its alone.
OF_ONE_FUNCTION = ("Invariants.antt", "Answers.antt", "Proof.antt")


@dataclass
class Token:
    text: str
    line: int
    column: int
    tight: bool  # nothing stands between it and the token before


@dataclass
class Declaration:
    name: str
    kind: str  # antt: "definition", "data", "record"; Rattle: "function", "struct", "enum"
    line: int
    marks: set
    scope: list = field(default_factory=list)  # the parameters of the blocks around it
    head: list = field(default_factory=list)  # the signature; of a function also its requires and ensures
    body: list = field(default_factory=list)  # the clauses, constructors, fields
    members: list = field(default_factory=list)  # the constructors of a data type
    last: int = 0

    def words(self):
        return self.scope + self.head + self.body


@dataclass
class File:
    declarations: list = field(default_factory=list)
    names: dict = field(default_factory=dict)  # what a `use` line brings in: name -> (path of its module, its name there)
    modules: dict = field(default_factory=dict)  # a module that a `use` line brings in: name -> its path


def without_blocks(text, opener, closer):
    """The text with each block comment, which may hold others, as spaces."""
    out, depth, i = [], 0, 0
    while i < len(text):
        if text.startswith(opener, i):
            depth, i = depth + 1, i + 2
            out.append("  ")
        elif depth and text.startswith(closer, i):
            depth, i = depth - 1, i + 2
            out.append("  ")
        else:
            out.append(text[i] if not depth or text[i] == "\n" else " ")
            i += 1
    return "".join(out)


def tokens(text, pattern, comment=None):
    """The tokens of a text; one that begins with `comment` takes the rest of its line with it."""
    found, line, start, i, end = [], 1, 0, 0, -1
    while i < len(text):
        match = pattern.match(text, i)
        if not match:
            raise ValueError(f"line {line}: cannot read {text[i : i + 20]!r}")
        word, stop = match.group(), match.end()
        if comment and word.startswith(comment) and not match.group("text"):
            stop = text.find("\n", i)
            stop = len(text) if stop < 0 else stop
        elif not match.group("space"):
            found.append(Token(word, line, i - start, i == end))
            end = stop
        newlines = text.count("\n", i, stop)
        if newlines:
            line, start = line + newlines, text.rfind("\n", i, stop) + 1
        i = stop
    return found


# ---- antt


def antt(text):
    """What a file of antt declares and brings in."""
    if "{-" in text:
        text = without_blocks(text, "{-", "-}")
    file = File()
    read = tokens(text, ANTT, "--")
    block(read, [], file)
    ordered = sorted(file.declarations, key=lambda d: d.line)
    for one, after in zip(ordered, ordered[1:]):
        one.last = max(one.last, after.line - 1)
    if ordered:
        ordered[-1].last = text.count("\n") + 1
    return file


def chunks(read):
    """Cuts a block into what stands at its column, each with the deeper lines that follow."""
    column = read[0].column if read else 0
    found = []
    for k, token in enumerate(read):
        if not found or (token.line != read[k - 1].line and token.column <= column):
            found.append([])
        found[-1].append(token)
    return found


def top(words, wanted):
    """The place of the first of these words that stands in no bracket."""
    depth = 0
    for k, token in enumerate(words):
        if not depth and token.text in wanted:
            return k
        depth += (token.text in OPEN) - (token.text in CLOSE)
    return None


def block(read, scope, file):
    current, fixities = None, []
    for chunk in chunks(read):
        marks = 0
        while marks < len(chunk) - 1 and chunk[marks].text in MARKS:
            marks += 1
        kind = chunk[marks].text
        rest = chunk[marks:]
        if kind in ("use", "mod"):
            brings(rest, file)
        elif kind in ("infix", "infixl", "infixr"):
            fixities.append(rest)
        elif kind == "open":
            scope = scope + rest
        elif kind == "module":
            where = top(rest, {"where"})
            inner = rest[where + 1 :] if where is not None else []
            if inner:
                block(inner, scope + rest[1:where], file)
            current = None
        elif kind == "mutual":
            # each of its members has the words of all
            before = len(file.declarations)
            block(rest[1:], scope, file)
            for member in file.declarations[before:]:
                member.scope, member.body = scope, rest[1:]
            current = None
        elif kind in ("data", "record", "ruleset"):
            where = top(rest, {"where"})
            head, body = (rest[1:where], rest[where + 1 :]) if where is not None else (rest[1:], [])
            current = Declaration(rest[1].text, kind, chunk[0].line, {t.text for t in chunk[:marks]}, scope, head, body)
            if kind == "data":
                current.members = [t.text for part in chunks(body) for t in part[: top(part, {":"}) or 0]]
            file.declarations.append(current)
        elif kind == "unfolding":
            pass  # says what the proof looks through, not what it states
        elif (colon := top(rest, {":", "="})) and rest[colon].text == ":":
            current = Declaration(kind, "definition", chunk[0].line, {t.text for t in chunk[:marks]}, scope, rest)
            file.declarations.append(current)
        elif current:
            current.body = current.body + chunk
    for words in fixities:
        for declaration in file.declarations:
            if declaration.name == words[-1].text:
                declaration.body = declaration.body + words


def path_of(read):
    """The dotted path that a token list begins with, and what stands behind it."""
    parts, k = [], 0
    while k < len(read) and read[k].text not in ("{", "as"):
        if read[k].text != ".":
            parts.append(read[k].text)
        k += 1
    return parts, read[k:]


def brings(read, file):
    """Reads a `use` line: names in braces, or a module."""
    parts, rest = path_of(read[1:])
    if read[0].text == "mod" or not parts:
        return
    if not rest or rest[0].text == "as":
        file.modules[rest[1].text if rest else parts[-1]] = parts
        return
    item = []
    for token in rest[1:]:
        if token.text in (",", "}"):
            if item:
                inner, named = path_of(item)
                file.names[named[1].text if named else inner[-1]] = (parts + inner[:-1], inner[-1])
            item = []
        else:
            item.append(token)


# ---- Rattle


def rattle(text):
    """What a file of Rattle declares and brings in."""
    if "/*" in text:
        text = without_blocks(text, "/*", "*/")
    file = File()
    items(tokens(text, RATTLE), "", file)
    return file


def closing(read, k):
    """The place behind the bracket that closes the one at k."""
    depth = 0
    while k < len(read):
        depth += (read[k].text in OPEN) - (read[k].text in CLOSE)
        k += 1
        if not depth:
            break
    return k


def ending(read, k):
    """The place behind the `;` or the braces that end the item at k."""
    while k < len(read) and read[k].text not in (";", "{"):
        k = closing(read, k) if read[k].text in OPEN else k + 1
    return k + 1 if k < len(read) and read[k].text == ";" else closing(read, k)


def items(read, inside, file):
    k = 0
    while k < len(read):
        begin = k
        marks = set()
        while k < len(read) and (read[k].text in ("pub", "ghost", "unsafe", "extern", "#") or read[k].text.startswith('"')):
            marks.add(read[k].text)
            k += 1
            if read[k - 1].text == "#" or (read[k - 1].text == "pub" and read[k].text == "("):
                k = closing(read, k + (read[k].text == "!"))
        word = read[k].text if k < len(read) else ""
        if word == "use":
            begin, k = k, next((n for n in range(k, len(read)) if read[n].text == ";"), len(read)) + 1
            (ghost_use if "ghost" in marks else code_use)(read[begin:k], file)
        elif word == "fn":
            stop = contract_end(read, k)
            found = Declaration(inside + read[k + 1].text, "function", read[begin].line, marks, head=read[k:stop])
            file.declarations.append(found)
            k = closing(read, stop) if stop < len(read) and read[stop].text == "{" else stop + 1
            found.last = read[min(k, len(read)) - 1].line
        elif word in ("struct", "enum"):
            stop = ending(read, k)
            file.declarations.append(Declaration(read[k + 1].text, word, read[begin].line, marks, head=read[k + 1 : stop], last=read[stop - 1].line))
            k = stop
        elif word in ("impl", "mod"):
            opening = k
            while opening < len(read) and read[opening].text not in ("{", ";"):
                opening += 1
            stop = closing(read, opening) if opening < len(read) and read[opening].text == "{" else opening + 1
            if word == "impl" or stop > opening + 1:
                named = [t.text for t in read[k + 1 : opening] if re.match(r"\w", t.text)]
                owner = named[named.index("for") + 1] if "for" in named else next((n for n in named if n[0].isupper()), named[-1])
                items(read[opening + 1 : stop - 1], f"{inside}{owner}::", file)
            k = stop
        else:
            k = max(ending(read, k), begin + 1)


def contract_end(read, k):
    """Where the body of the function at k begins: the first brace that no `requires` or `ensures` opens, or a `;`."""
    k += 2
    while k < len(read) and read[k].text != "(":
        k += 1
    k = closing(read, k)
    clause = False
    while k < len(read):
        word = read[k].text
        if word in CLAUSES:
            clause = True
        elif word == "{" and clause:
            k, clause = closing(read, k), False
            continue
        elif word in ("{", ";"):
            break
        elif word in OPEN:
            k = closing(read, k)
            continue
        k += 1
    return k


def ghost_use(read, file):
    """`ghost use A.B.{x, y};`: the tokens of Rattle, put together to antt's."""
    text = "".join(("" if t.tight else " ") + t.text for t in read[1:-1])
    brings([Token("use", 0, 0, False)] + tokens(text, ANTT), file)


def code_use(read, file):
    """`use a::b::{C, D as E};` A function and a definition may have one name: a `ghost use` of it is what contracts mean."""
    words = [t.text for t in read[1:-1] if t.text != "::"]
    parts = []
    while words and words[0] not in ("{", "as"):
        parts.append(words.pop(0))
    if not words:
        file.names.setdefault(parts[-1], (parts[:-1], parts[-1]))
    elif words[0] == "as":
        file.names.setdefault(words[1], (parts[:-1], parts[-1]))
    else:
        for item in " ".join(words[1:-1]).split(","):
            names = item.split()
            if names:
                file.names.setdefault(names[-1], (parts, names[0]))
