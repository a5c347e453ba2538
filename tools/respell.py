#!/usr/bin/env python3
"""Brings the repository's own names to today's spelling: words in snake case, a prime as an apostrophe, crate `bytes` as `octets`.

  respell.py [ROOT]     once, after the kit's own script for older repositories

A name of a definition or a lemma that begins with a small letter and has capitals gets underscores (`stateInWords` becomes
`state_in_words`); the dash between the two names of a lemma stays. Types, modules and the names of Rattle source keep theirs.
A word may then have the name of the Rattle function that is proved equal to it: these stand in different places, and the
check takes both. Two words, or a word and a lemma, that would fall together are named in WORDS and LEMMAS.
"""
import pathlib
import re
import sys

ROOT = pathlib.Path(sys.argv[1] if len(sys.argv) > 1 else ".")
NAME = re.compile(r"(?<![A-Za-z0-9_'′\-])[a-z][A-Za-z0-9_'′]*(?:-[A-Za-z0-9_'′]+)*(?![A-Za-z0-9_'′])")
# the dash in these is no joint of two names
WORDS = {"high-first": "high_first", "low-first": "low_first", "knownValues": "known_rows"}
# fields of records in crates that the word does not reach
APART = {"block_size", "goes_on"}
# a lemma that would have a word's name
LEMMAS = [
    ("crates/lesamnta", "block_room"),
    ("crates/lesamnta", "look_up"),
    ("crates/spongent/proofs/Layers.antt", "low_value"),
]


def snake(name):
    if name in WORDS:
        return WORDS[name]
    parts = []
    for part in name.split("-"):
        if re.search(r"(^|_)[A-Z]", part):
            parts.append(part)
            continue
        part = re.sub(r"([a-z0-9'])([A-Z])", r"\1_\2", part)
        part = re.sub(r"([A-Z])([A-Z])", r"\1_\2", part)
        parts.append(part.lower())
    return "-".join(parts).replace("′", "'")


def sources():
    return [p for p in sorted((ROOT / "crates").rglob("*")) if p.suffix in (".rt", ".antt") and "out" not in p.parts and p.is_file()]


def words_of(text):
    return set(NAME.findall(text))


def main():
    files = sources()
    for place, name in LEMMAS:
        for p in files:
            if str(p.relative_to(ROOT)).startswith(place) and p.suffix == ".antt":
                old = p.read_text(encoding="utf-8")
                new = NAME.sub(lambda m: m.group() + "_lem" if m.group() == name else m.group(), old)
                if new != old:
                    p.write_text(new, encoding="utf-8")
    seen = set()
    for p in files:
        seen |= words_of(re.sub(r'"[^"\n]*"', "", p.read_text(encoding="utf-8")))
    turned = {n: snake(n) for n in seen if snake(n) != n}
    declared = set()
    for p in files:
        if p.suffix == ".antt" and p.name not in ("Proof.antt", "Answers.antt", "Invariants.antt"):
            declared |= {m.group(1) for m in re.finditer(r"^ *(?:(?:unfoldable|abbrev|pattern|pub) )*([A-Za-z0-9_'′-]+) :", p.read_text(encoding="utf-8"), re.M)}
    clash = sorted((n, t) for n, t in turned.items() if t in declared - APART)
    twice = {}
    for n, t in turned.items():
        twice.setdefault(t, []).append(n)
    clash += sorted((ns, t) for t, ns in twice.items() if len(ns) > 1)
    if clash:
        for c in clash:
            print("fall together:", c)
        sys.exit(1)
    more = [p for d in ("docs",) for p in sorted((ROOT / d).rglob("*"))
            if p.is_file() and p.name != "ROUNDS.md"]
    more += [ROOT / "README.md", ROOT / "crates.txt", ROOT / ".ci" / "run", ROOT / "digest", ROOT / "report"]
    more += sorted((ROOT / "crates").rglob("*.edit"))
    for p in files + more:
        try:
            old = p.read_text(encoding="utf-8")
        except UnicodeDecodeError:
            continue
        new = NAME.sub(lambda m: turned.get(m.group(), m.group()), old)
        new = re.sub(r"\bRattle([.·])bytes\b", r"Rattle\1octets", new)
        if p.suffix in (".rt", ".edit"):
            new = re.sub(r"(?<![\w:.])bytes::", "octets::", new)
        if p.name == "crates.txt":
            new = re.sub(r"\bbytes\b", "octets", new)
        if p.suffix in (".md", ""):
            new = re.sub(r"crates/bytes\b", "crates/octets", new)
            new = re.sub(r"`bytes::(?=[a-z])", "`octets::", new)
            new = re.sub(r"`bytes/(?=[a-z])", "`octets/", new)
        if new != old:
            p.write_text(new, encoding="utf-8")
    old = ROOT / "crates" / "bytes"
    if old.is_dir():
        old.rename(ROOT / "crates" / "octets")
    print(len(turned), "names turned")


main()
