"""What the scripts beside it share; it is no command."""
import pathlib
import re
import sys

ROOT = pathlib.Path(__file__).resolve().parent.parent
TRACE = ROOT / "docs" / "TRACE.md"
ASSURANCE = ROOT / "docs" / "ASSURANCE.md"


def help_asked(text):
    """Prints the help and ends, if the command was called for that."""
    if sys.argv[1:2] in (["--help"], ["-h"]):
        print(text.strip())
        sys.exit(0)


def lines_of_crates():
    """What crates.txt says: each crate with the words before its colon and those behind it."""
    lines = (line.split("#")[0].partition(":") for line in (ROOT / "crates.txt").read_text().splitlines())
    return {before.split()[0]: (before.split(), behind.split()) for before, _, behind in lines if before.strip()}


def crates():
    """The crates of crates.txt, in its order."""
    return list(lines_of_crates())


def beneath(crate):
    """The crates of crates.txt that a crate stands on, the lowest first."""
    lines, found = lines_of_crates(), []

    def walk(name):
        for further in lines[name][1]:
            if further in lines and further not in found:
                walk(further)
                found.append(further)

    walk(crate)
    return found


def is_made(path):
    """Whether a path, from the root, is of a crate's folder out/, which `rt` makes."""
    parts = path.split("/")
    return parts[0] == "crates" and parts[2:3] == ["out"]


def operations(page):
    """The public operations of README's table as `CRATE::FUNCTION`, the exports first. In a cell a name alone belongs to the crate before it,
    and a crate's name alone says that the functions before it are in that crate too."""
    rows = page.split("\n## The operations\n")[-1].split("\n## ")[0].splitlines() if "\n## The operations\n" in page else []
    exports, others = [], []
    for exported, named, *_ in (re.split(r"(?<!\\)\|", row)[1:-1] for row in rows if row.startswith("|")):
        exports += [f"wickslate::{name}" for name in re.findall(r"`(\w+)`", exported)]
        crate, found = None, []
        for first, second in re.findall(r"`(\w+)(?:::(\w+))?[^`]*`", named):
            if not second and first in crates():
                others += [f"{first}::{name}" for name in found]
            else:
                crate, name = (first, second) if second else (crate, first)
                others.append(f"{crate}::{name}")
                found.append(name)
    return list(dict.fromkeys(exports + others))


def traced(page):
    """The operations of docs/TRACE.md's last table, also as earlier trees have it."""
    rows = page.split("\n## Wrong programs\n")[-1].split("\n## ")[0].splitlines() if "\n## Wrong programs\n" in page else []
    return {name for row in rows if row.startswith("| `") for name in re.findall(r"`([^`]+)`", row.split("|")[1])}
