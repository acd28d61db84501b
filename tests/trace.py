"""Checks that what docs/TRACE.md names is there.

A quoted path is a file, or a must-fail edit, below crates/. A quoted name after it stands in that file, or is an edit of
that folder; a name after no path of its own item stands somewhere in crates/. An item begins with its rule and the rule's
numbers in docs/RULES.md, and every line of RULES.md is cited by an item, save those in WHOLE.
"""

import pathlib
import re
import sys

ROOT = pathlib.Path(__file__).resolve().parent.parent
CRATES = ROOT / "crates"


# lines of docs/RULES.md that speak of the repository as a whole, of a delivery, or of cards that have not landed
WHOLE = {"1.7", "2.1", "2.2", "2.3", "5.25", "11.11"}
ITEM = re.compile(r"(K?\d+(?:\.\d+)?)\. ")
START = re.compile(ITEM.pattern + r"\*[^*]+\* \(([^)]*)\): ")
RULE = r"(K?\d+)\.(\d+)"


def texts(files):
    return "\n".join(f.read_text() for f in files)


ALL = texts(f for f in CRATES.rglob("*") if f.suffix in (".rt", ".antt") and "out" not in f.parts)


def find(path):
    """The file or folder that a quoted path stands for."""
    base = ROOT if path.startswith(("docs/", "tests/")) else CRATES
    for name in (path, path + ".antt", path + ".edit"):
        if (base / name).exists():
            return base / name
    return None


def is_named(name, place):
    last = name.split("::")[-1]
    word = re.compile(r"(?<![\w-])" + re.escape(last) + r"(?![\w-])")
    if place is None or place.suffix == "":
        inside = place is not None and (place / (last + ".edit")).exists()
        return inside or bool(word.search(ALL))
    if place.suffix == ".edit":
        return (place.parent / (last + ".edit")).exists()
    return bool(word.search(place.read_text()))


def faults(item):
    """What an item quotes and crates/ does not have."""
    place = None
    for quoted in re.findall(r"`([^`]+)`", item):
        if "/" in quoted:
            place = find(quoted)
            if place is None:
                yield quoted
        elif not is_named(quoted, place):
            yield quoted


def rules():
    """The numbers of the lines of docs/RULES.md: a list item or a row of a table begins with its number."""
    text = (ROOT / "docs" / "RULES.md").read_text()
    return [".".join(m) for m in re.findall(r"^(?:- |\| )" + RULE + r"\b", text, re.M)]


def cited(words):
    """The numbers in `3.1, 3.3 to 3.6`; a word that is none is given back as it is."""
    for part in words.split(", "):
        ends = [re.fullmatch(RULE, end) for end in part.split(" to ")]
        if all(ends) and len(ends) <= 2 and ends[0][1] == ends[-1][1] and int(ends[0][2]) <= int(ends[-1][2]):
            yield from (f"{ends[0][1]}.{i}" for i in range(int(ends[0][2]), int(ends[-1][2]) + 1))
        else:
            yield part


def main():
    known, seen, bad = rules(), set(WHOLE), []
    for line in (ROOT / "docs" / "TRACE.md").read_text().splitlines():
        item = ITEM.match(line)
        if not item:
            continue
        start = START.match(line)
        numbers = set(cited(start[2])) if start else set()
        seen |= numbers
        bad += [f"docs/TRACE.md, item {item[1]}: {name} is not there" for name in [*faults(line), *sorted(numbers - set(known))]]
        bad += [] if start else [f"docs/TRACE.md, item {item[1]}: it does not begin with its rule and the rule's numbers"]
    bad += [f"docs/RULES.md: {n} is there twice" for n in sorted({n for n in known if known.count(n) > 1})]
    bad += [f"docs/RULES.md, line {n}: no item of docs/TRACE.md carries it" for n in known if n not in seen]
    for fault in bad:
        print(fault, file=sys.stderr)
    sys.exit(1 if bad or not known else 0)


main()
