#!/usr/bin/env python3
"""Holds docs/RULES.md against the tree: each limit that a row cites is a constant of crates/ks_base/src/limits.rt, or of the
file behind it; each definition is one of the file of specs behind it; each clause is that of a public function of the crate
behind it; each file of code exists, and so does each test. And each constant of limits.rt has a row. Says what is amiss, a
line each, and then ends with 1.

A row is `| rule | limit | definition | clause | code |`. A cell cites in parts between semicolons: names in backticks, and behind
them where they stand, in backticks too. Limits of limits.rt stand alone, and so do files of code, tests and measurements.
"""
import functools
import pathlib
import re
import sys

from definitions import defined

ROOT = pathlib.Path(__file__).resolve().parent.parent
PAGE = ROOT / "docs" / "RULES.md"
LIMITS = "ks_base/src/limits.rt"
COLUMNS = ["Rule", "Limit", "Definition", "Clause", "Code"]
CONSTANT = r"[A-Z][A-Z_]*"
FUNCTION = r"(?:\w+::)?[a-z]\w*"


def rows():
    """The rows of the page: the line and the cells of each."""
    for number, line in enumerate(PAGE.read_text(encoding="utf-8").splitlines(), 1):
        if line.startswith("|") and not set(line) <= set("|-"):
            cells = [cell.strip() for cell in re.split(r"(?<!\\)\|", line)[1:-1]]
            if cells != COLUMNS:
                yield number, cells


def parts(cell):
    """What a cell cites: the names of each part, of which the last says where the others stand."""
    return [re.findall(r"`([^`]+)`", part) for part in cell.split(";") if part.strip()]


@functools.cache
def constants(file):
    path = ROOT / "crates" / file
    public = "pub " if file == LIMITS else r"(?:pub(?:\(\w+\))? )?"
    return set(re.findall(rf"^{public}const (\w+):", path.read_text(encoding="utf-8"), re.M)) if path.exists() else None


@functools.cache
def definitions(file):
    path = ROOT / "crates" / file
    return defined(path) if path.exists() else None


def owner(header):
    """Whose the functions of an `impl` or a `trait` are, and whether all of them can be called: those of a trait can."""
    header = re.sub(r"^pub(?:\(\w+\))? ", "", header)
    kind, rest = re.match(r"(impl|trait)\b(.*)", header, re.S).groups()
    if kind == "impl" and rest.startswith("<"):
        depth = 0
        for place, letter in enumerate(rest):
            depth += {"<": 1, ">": -1}.get(letter, 0)
            if depth == 0:
                rest = rest[place + 1:]
                break
    _, parted, of = rest.rpartition(" for ")
    name = re.match(r"\s*(?:\w+::)*(\w+)", of if parted else rest)
    return name[1] if name else None, kind == "trait" or bool(parted)


@functools.cache
def functions(crate):
    """The public functions of a crate, methods by their type or their trait."""
    if not (ROOT / "crates" / crate / "src").is_dir():
        return None
    found = set()
    for source in sorted((ROOT / "crates" / crate / "src").glob("**/*.rt")):
        text = source.read_text(encoding="utf-8")
        found |= set(re.findall(r"^pub fn (\w+)", text, re.M))
        for block in re.finditer(r"^((?:pub(?:\(\w+\))? )?(?:impl|trait)\b[^{]*)\{(.*?)^\}", text, re.M | re.S):
            name, open_to_all = owner(block[1])
            public = r"(?:pub )?" if open_to_all else "pub "
            found |= {f"{name}::{of}" for of in re.findall(rf"^    {public}fn (\w+)", block[2], re.M)}
    return found


def limits(cell):
    """What is amiss with the limits of a row, and those of limits.rt that it has."""
    amiss, told = [], set()
    for names in parts(cell):
        file = names.pop() if names and names[-1].endswith(".rt") else LIMITS
        if not names:
            amiss.append("no limit is named by a part")
        there = constants(file)
        if there is None:
            amiss.append(f"there is no {file}")
            continue
        amiss += [f"{file} has no {name}" for name in names if not re.fullmatch(CONSTANT, name) or name not in there]
        told |= set(names) & there if file == LIMITS else set()
    return amiss, told


def cited(cell, place, look, what):
    """What is amiss with names of a cell, each part of which ends with such a place."""
    amiss = []
    for names in parts(cell):
        if len(names) < 2 or not re.fullmatch(place, names[-1]):
            amiss.append(f"no {what} is named by {' and '.join(names) or 'a part'}")
            continue
        there = look(names[-1])
        if there is None:
            amiss.append(f"there is no {names[-1]}")
        else:
            amiss += [f"{names[-1]} has no {name}" for name in names[:-1] if name.strip("◌") not in there]
    return amiss


def clauses(cell):
    """What is amiss with the clauses of a row, of which some are tests or measurements."""
    amiss, proved = [], []
    for part in cell.split(";"):
        script = re.fullmatch(r"(?:tried by `(?=tests/)|shown by `(?=bench/))(\w+/\w+\.(?:py|sh))`", part.strip())
        if not script:
            proved.append(part)
        elif not (ROOT / script[1]).exists():
            amiss.append(f"there is no {script[1]}")
    amiss += cited(";".join(proved), r"ks\w*", functions, "clause")
    names = [name for found in parts(";".join(proved)) for name in found[:-1]]
    return amiss + [f"{name} is no function" for name in names if not re.fullmatch(FUNCTION, name)]


def files(cell):
    found = re.findall(r"`([^`]+)`", cell)
    amiss = [f"there is no {file}" for file in found if not (ROOT / "crates" / file).is_file()]
    amiss += [f"{file} is no code" for file in found if not re.fullmatch(r"ks\w*/src/[\w/]+\.rt", file)]
    return amiss if found else ["no code is named"]


def main():
    amiss, told, seen = [], set(), set()
    for number, cells in rows():
        if len(cells) != len(COLUMNS):
            amiss.append(f"{PAGE.name}:{number}: a row has {len(COLUMNS)} cells, and this one {len(cells)}")
            continue
        rule, limit, definition, clause, code = cells
        wrong, named = limits(limit)
        told |= named
        wrong += cited(definition, r"ks_\w+/specs/[\w/]+\.antt", definitions, "definition")
        wrong += clauses(clause) + files(code)
        # What is not proved has no definition.
        wrong += ["no definition is named"] if not definition and not clause.startswith("tried by") else []
        wrong += ["no clause is named"] if not clause else []
        wrong += ["the rule has a row already"] if rule in seen else []
        seen.add(rule)
        amiss += [f"{PAGE.name}:{number}: {what}" for what in wrong]
    amiss += [f"{PAGE.name}: no row for {name} of {LIMITS}" for name in sorted(constants(LIMITS) - told)]
    amiss += [] if seen else [f"{PAGE.name}: there is no row"]
    print(*amiss, sep="\n", end="\n" if amiss else "")
    return 1 if amiss else 0


if __name__ == "__main__":
    sys.exit(main())
