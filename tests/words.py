"""Checks that each word of the contracts has one meaning.

The words are the names that the libraries' code and the definitions in crates/*/specs declare: definitions, types, their
constructors and fields, functions, structs, enums, their cases and fields, the clauses of a public call's contract, the names that a module
is imported by, and the parameters of functions and definitions that are no single letters. Words that differ only in case or in
`_` and `-` count as one, and so does the name of a claim that has `_lem` after the word that it is about. A word stands in two
places only where ONE has the meaning that it has at each, or where it names a function or a constant and the definition that the
code is held to; a parameter is of one type wherever the code has it. In the contract of a function within, names only tell one clause
from another. The numbers in WRITTEN_OUT alone have the word of another thing. None is a name that a contract or a definition imports
from the toolchain's library, and no import gives a definition another name. The C functions of exports_c are the calls of exports
again, with the same parameters and clauses.
"""

import collections
import pathlib
import re
import sys

ROOT = pathlib.Path(__file__).resolve().parent.parent
CRATES = ROOT / "crates"
OWN = {f.name for f in CRATES.iterdir()}
# the crate whose functions are those of exports again, for C
TO_C = "exports_c"

# words that stand in more than one place, and what each of them means everywhere
ONE = {
    # calls and answers
    "Refusal": "a ground for sending work back: the enum of them, and the number in a ground",
    "Outcome": "what a call's conditions fix: the type, and the definition that gives it",
    "Ground": "a line of the table of refusals: the record, and the definition that gives it",
    "Answer": "what a call answers: the type, its values in a list of calls, the clause of a contract, the parameter by which a sum's answer is handed on",
    "add": "the call that adds two columns, and its entry in a list of calls",
    "merge": "the call that merges two tables, and its entry in a list of calls",
    "save": "the call that saves a table, and its entry in a list of calls",
    "load": "the call that loads a saved table, and its entry in a list of calls",
    "sum": "a section's sum: the call, its question, its field in a line, its entry in the bench book, the double",
    "figure": "a section's mill figure: the call, its question, its field in a line, the case that carries it",
    "line": "a section's finished line: the call, its question, the case that carries it",
    "exactness": "whether a kept value is known to be exact: the call, and its question",
    "calls": "the calls of a way of working, with or without loads of older files and removals",
    "totals": "how many sections and rows a table has: the call, its question, the case that carries them, the numbers to be printed",
    "side": "which side of the value that was rounded a number is on: the fields, Card 2's definition",
    "remove": "the call that removes two columns, and its entry in a list of calls",
    "Accounted": "each removal took rows that the table had: the field of an account, and the claim of a table",
    "TooFewRows": "refusal 20 and its condition",
    "RaisesTop": "refusal 21 and its condition",
    "TotalExceeds": "refusal 22 and its condition",
    "binary_search": "the place of a key: among records in bytes, in a sound table",
    "bytes": "the bytes that something has: a number in a field, a sound table",
    "columns": "two columns of rows: the struct, and the parameter",
    "field": "what holds one number: digits of a float, bytes of a record, the trait of the numbers that fill bytes",
    "find": "the section of a key: among sections, in a sound table",
    "is_zero": "whether something is 0: a total, a number in limbs",
    "left": "what is left over: of a size below a level, of two tables",
    "new": "what makes a value of a type",
    "numeral": "a number's digits: the trait of what has one, its definition and its function",
    "other": "the one beside that which is spoken of: a number, a call",
    "prelude": "the library's names, in a definition that has the logic's Option too",
    "read": "takes from bytes what they hold: a number, a patch file's rows",
    "write": "puts bytes into a lent buffer: a number's, or a patch file",
    "record": "the 64 bytes of a section by field: the struct, a sound table's by its place",
    "rounded": "what rounding gives: a quotient, a section's sum",
    "row_count": "how many rows there are: by a file's trailer, of columns",
    "sound": "document 01's condition of a table or a record: the definition, and what a type says of its value",
    "sound_record": "a record that is sound by itself: the condition, and the type",
    "sound_table": "a table that is sound: the type, and what is known of a table's bytes",
    "hint": "the place that a search tries first",
    "remaining": "what a removal leaves: of a table's sections, and of a record",
    "address": "where a returned part stands",
    "end": "the place after what is put into a lent buffer",
    "content": "the bytes that the caller has afterwards, of a part returned or of a buffer lent",
    "work": "the work buffer: what is lent, and what it holds after the call",
    "Absent": "a section without a row: the sum's case, and the claim about it",
    "TooLarge": "refusal 14's condition, and the sum's case",
    "NotSound": "refusal 7's condition: the sum's case, and the example of it",
    "TooManyKeys": "refusal 12 and its condition",
    "TooManyRows": "refusal 11 and its condition",
    # files and columns
    "file": "the bytes of a file: of a patch file, or of a saved table",
    "mark": "the four bytes that end a file: a patch file's, and what a trailer is given",
    "keys": "a key column",
    "values": "a value column",
    "kind": "a kind of value",
    "key_start": "where a file's key column starts",
    "value_start": "where a file's value column starts",
    "start": "where a column starts",
    "KeyDistance": "the key distance, and the refusal for it",
    "ValueDistance": "the value distance, and the refusal for it",
    "width": "how many bytes a value has: the definition, and the clause of a contract",
    "value_width": "how many bytes a value has: the function, and what a caller is told or tells",
    "fraction": "the fraction's field in the bits of a float: the definition for a double, and what a function is given of a short float",
    "columns_fit": "some row count fits both columns: the definition, the function, the example of it",
    "Row": "a row: the record, and an example of it",
    "rows": "a list of rows: of each table, of two columns",
    "count": "a number of rows",
    "key": "a section number",
    "bits": "the 64 bits of a double",
    # levels and records
    "significand": "a double's significand: the definition and the function that gives it, and the 53 digits of which a sum's is made",
    "is_finite": "neither infinite nor not a number: the function, and the claim",
    "negative": "the sign is a minus",
    "magnitude": "a size without its sign",
    "unsigned": "a number or bits without a sign",
    "top": "document 01's top",
    "finest": "Card 7's finest power: of a row, of a section, and the field of its record",
    "tops": "the tops of normal rows by their exponent field: the constant, and the parameter by which an entry of it is read",
    "high": "what belongs to level t",
    "middle": "what belongs to level t - 1",
    "low": "what belongs to level t - 2",
    "rest": "what is left after a whole number of units",
    "rounded_up": "the units came to more than what was cut",
    "total": "a level's total",
    "split": "a total as residue and carry",
    "nothing": "the total 0",
    "capacity": "document 01's capacity: the definition and the function that gives it",
    "groups": "a number of groups",
    "group_count": "a table's group count: the clause about it, and the field of a saved table",
    "table": "a table: its bytes as they are lent, the buffer and group count that a list of calls leaves",
    "TableTotals": "how many sections and rows a table has: the struct, and the definition that gives it",
    "initial": "the bytes in tables' buffers at the start",
    "LastTaken": "the last section of the union is taken away: the record, and the field that has it",
    "first": "the first of two tables: its bytes as they are lent, its field in the pair",
    "second": "the second of two tables: its bytes as they are lent, its field in the pair",
    "LastSection": "the last section of the union of two tables: the definition, and the claim about it",
    # wide numbers
    "reduced": "every limb has 40 digits",
    "low_limbs": "each limb but the last has 40 digits",
    "limb3": "the bound of the last limb",
    "same": "the limbs stand for this number",
    "near": "nothing is nearer",
    # texts
    "Text": "a text in memory of a fixed size: the struct, and what is printed into",
    # examples
    "computed": "that the definitions give what the examples expect",
    "input": "the file of an example",
    "expected": "what an example has to give",
    "example_rows": "the rows of an example",
    "BenchFigure": "a figure of the bench book",
}
# numbers that exported calls write out, whose names the interface fixes: elsewhere each is the word for what the number stands for
WRITTEN_OUT = {"rows", "sections", "side"}
ONE |= {f"of-{call}": "what is said of this call's contract" for call in ("keys", "values", "read", "key-start", "value-start", "write", "report", "girth-read", "girth-write", "girth-report", "girth-sum", "girth-figure", "girth-line", "girth-exact", "girth-totals", "save", "load", "girth-save", "girth-load")}

NAME = r"[^\s:(){}.,;]+"


def spec_words(text):
    """The names that a file of definitions declares."""
    inside = None
    for line in text.splitlines():
        if line and not line.startswith(" "):
            inside = None
        if found := re.match(rf"(?:pub )?(record|data) ({NAME})", line):
            inside = found[1]
            yield found[2]
        elif found := re.match(rf"(?:(?:unfoldable|abbrev) )?(?:pub )?({NAME}) :(?: |$)", line):
            yield found[1]
        elif inside and (found := re.match(rf"  (?:pub )?({NAME}(?: {NAME})*) : ", line)):
            yield from found[1].split()


def code_words(text):
    """The names that a file of code declares. What an impl gives a trait is named where the trait is."""
    inside, given = False, False
    for line in text.splitlines():
        if line.startswith("}"):
            inside, given = False, False
        if re.match(r"impl\b.* for ", line):
            given = True
        elif given:
            continue
        if found := re.match(r" *(?:pub )?fn (\w+)", line):
            yield found[1]
        elif found := re.match(r"    (?:pub )?ghost (\w+):", line):
            yield found[1]
        elif found := re.match(r"(?:pub )?(?:struct|enum|trait) (\w+)", line):
            inside = line.endswith("{") and " trait " not in f" {line}"
            yield found[1]
        elif found := re.match(r"(?:pub )?(?:const|type) (\w+)", line):
            yield found[1]
        elif inside and (found := re.match(r"    (?:pub )?(\w+)(?: \{(.*)\})?", line)):
            yield found[1]
            yield from re.findall(r"(\w+):", found[2] or "")


def folded(word):
    """A word without what only sets styles apart."""
    return re.sub(r"_lem$|[_\-«»◌]", "", word).lower()


def functions(text):
    """The functions and methods of a file of code: name, parameters with their types and whether they are written out, and contract."""
    for found in re.finditer(r"^ *(?:pub )?(?:extern \"C\" )?fn (\w+)(?:<[^(]*>)?\(([^)]*)\)(.*?)(?:^ *\{|\{$|;$)", text, re.M | re.S):
        named = re.findall(r"(\w\w+): (&mut |&)?(?:'\w+ )?([^,\n]+)", found[2])
        yield found[1], [(word, re.sub(r"^(?:[iu]\d+|usize)$", "a number", kind.strip()), way == "&mut ") for word, way, kind in named], found[3]


def spec_parameters(text):
    """The parameters of the definitions in a file; what it imports or declares itself is a constructor in a pattern."""
    named = {part for word in [*spec_words(text), *modules(text)] for part in word.split("◌")}
    for names in re.findall(r"^use [^{\n]*\{([^}]*)\}", text, re.M):
        named |= {n.strip() for n in names.split(",")}
    words = []
    for line in text.splitlines():
        if found := re.match(rf"(?:{NAME})((?: [\w′\-]+| \([^)]*\))+) =(?: |$)", line):
            words += re.findall(r"(?<![\w.])[a-z]\w+", found[1])
    for names in re.findall(r"\(([a-z][\w ]*) : ", text):
        words += [n for n in names.split() if len(n) > 1]
    yield from (w for w in words if w not in named)


def clauses(contract):
    """The clauses of a contract that says what is answered, what the caller has afterwards or where a part starts."""
    names = re.findall(r"(?:ensures|requires) (\w+) \{", contract)
    return names if {"answer", "content", "start"} & set(names) else []


def cited(contract, word):
    return re.search(r"(?<![\w-])" + re.escape(word) + r"(?![\w-])", contract) is not None


def library(text):
    """The names that a file takes from the library."""
    for path, names in re.findall(r"^(?:ghost )?use ([\w.-]+)\.\{([^}]*)\}", text, re.M):
        if path.split(".")[0] != "Rattle" or path.split(".")[1] not in OWN:
            yield from (n.strip() for n in names.split(","))


def modules(text):
    """The names that a file gives modules, but for those of a call's contract, which are the call's name and Reads or Kinds."""
    for path, name in re.findall(r"^use ([^{\n]*) as (\w+)$", text, re.M):
        if folded(name) != folded("".join(path.split(".")[-2:])):
            yield name


def renamed(text):
    """The definitions that a file gives another name."""
    for names in re.findall(r"^(?:ghost )?use [^{\n]*\{([^}]*)\}", text, re.M):
        yield from (n.strip() for n in names.split(",") if " as " in n)


def amount(value):
    """What a constant's value or a definition's right side comes to, where that is plain arithmetic."""
    plain = value.replace("<<", " * 2 ** ").replace("^", "**")
    return eval(plain) if re.fullmatch(r"[\d\s()*+<>-]+", plain) else None


def tied(text, definitions, values):
    """The words of a file of code that name what a definition gives: a function whose contract cites it, or a constant. A plain word is in ONE."""
    for name, _, contract in functions(text):
        if "_" in name and folded(name) in definitions and cited(contract, definitions[folded(name)]):
            yield name
    for name, value in re.findall(r"^(?:pub )?const (\w+): \w+ = (.*);", text, re.M):
        if folded(name) in definitions:
            amounts = {amount(value), values.get(folded(name))}
            if None in amounts or len(amounts) == 1:
                yield name


def main():
    places, types, taken, bad = collections.defaultdict(list), collections.defaultdict(set), set(), []
    specs = sorted(CRATES.glob("*/specs/**/*.antt"))
    codes = sorted(f for f in CRATES.glob("*/src/**/*.rt") if f.name != "main.rt" and f.parents[1].name != TO_C)
    parameters, definitions, values, apart = set(), {}, {}, set()
    for f in specs:
        text, name = f.read_text(), str(f.relative_to(CRATES))
        for word in [*spec_words(text), *modules(text)]:
            places[folded(word)].append((word, name))
            definitions.setdefault(folded(word), word)
        values |= {folded(word): amount(right) for word, right in re.findall(rf"^({NAME}) = (.*)$", text, re.M)}
        parameters |= set(spec_parameters(text))
    for f in codes:
        text, name = f.read_text(), str(f.relative_to(CRATES))
        paired = set(tied(text, definitions, values))
        words = [word for word in [*code_words(text), *modules(text)] if word not in paired]
        for _, named, contract in functions(text):
            out = {word for word, kind, written in named if written and kind == "a number" and word in WRITTEN_OUT and name.startswith("exports/")}
            apart |= out
            words += [word for word in clauses(contract) if word not in out]
            for word, kind, _ in named:
                if word not in out:
                    parameters.add(word)
                    types[word].add(kind)
                    if word in WRITTEN_OUT and kind == "a number":
                        bad.append(f"{word} in {name}: a number that no exported call writes out")
        for word in words:
            places[folded(word)].append((word, name))
    for f in specs + codes:
        text, name = f.read_text(), str(f.relative_to(CRATES))
        taken |= set(library(text))
        bad += [f"{name}: {names}: a definition with another name" for names in renamed(text)]
    calls = {call[0]: call for call in functions((CRATES / "exports" / "src" / "lib.rt").read_text())}
    to_c = {call[0]: call for call in functions((CRATES / TO_C / "src" / "lib.rt").read_text())}
    for name in sorted({name for name in calls if name.startswith("girth_")} | set(to_c)):
        if calls.get(name) != to_c.get(name):
            bad.append(f"{name} in {TO_C}/src/lib.rt: not the call of exports with its parameters and clauses")
    one = {folded(word) for word in ONE}
    for word in parameters:
        if not any(name == "a parameter" for _, name in places[folded(word)]):
            places[folded(word)].append((word, "a parameter"))
        if len(types[word]) > 1:
            bad.append(f"{word}: a parameter of the types {', '.join(sorted(types[word]))}")
    for word, where in sorted(places.items()):
        if len(where) > 1 and word not in one:
            bad.append(", ".join(f"{spelt} in {name}" for spelt, name in where) + ": which meaning?")
        bad += [f"{spelt} in {name}: it is the library's" for spelt, name in where if spelt in taken]
    bad += [f"{word}: is not written out" for word in sorted(WRITTEN_OUT - apart)]
    bad += [f"{word}: stands in one place only" for word in sorted(ONE) if len(places[folded(word)]) < 2]
    for fault in bad:
        print(fault, file=sys.stderr)
    sys.exit(1 if bad or not places else 0)


main()
