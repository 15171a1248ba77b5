#!/usr/bin/env python3
"""Sees that code stands once: fails where six lines and more of the sources are the same in two places, but for those that are known.
Says where, a line for each two places, and then ends with 1.

Blank lines, comments, attributes, imports and lone brackets do not count, nor parameters that stand a line each and fields that are only
named, nor how far a line stands in. Contracts do.
"""
import collections
import pathlib
import re
import sys

ROOT = pathlib.Path(__file__).resolve().parent.parent
FEWEST = 6
PLAIN = re.compile(r"//.*|#!?\[.*|[\[\](){}]+[;,]?|\w+(: _)?,")
IMPORT = re.compile(r"(pub(\(\w+\))? )?(ghost )?(use|mod) ")
SIGNATURE = re.compile(r"(pub(\(\w+\))? )?fn .*[(<]$")
# How many lines two files share for a reason.
KNOWN = {
    # Impls of one trait, and a trait's contract that its impls say again.
    ("ks_base/src/rows.rt", "ks_base/src/rows.rt"): 12,
    ("ks_base/src/rows.rt", "ks_base/src/users.rt"): 12,
    ("ks_keeper/src/memory.rt", "ks_keeper/src/memory.rt"): 6,
    # The lists of an opening, with passwords and with what is kept of them.
    ("ks_policy/src/opening.rt", "ks_written/src/written.rt"): 8,
    # What a line of the command `check` says is not what the API says, though many words are the same.
    ("ks_lines/src/spot.rt", "ks_render/src/names.rt"): 13,
    # A method that no route has is named in the log of requests alone.
    ("ks_pool/src/line.rt", "ks_render/src/fields.rt"): 7,
    # They stop reading at different ends.
    ("ks_commands/src/opening.rt", "ks_commands/src/password.rt"): 6,
    # A table with names is one by ids and more.
    ("ks_base/src/id_table.rt", "ks_index/src/table.rt"): 31,
    # A row that is told with its name, of a domain and of a role.
    ("ks_checks/src/names.rt", "ks_checks/src/names.rt"): 6,
    # What a caller asks and has who tries to take the turn, once and for a while.
    ("ks_turn/src/turn.rt", "ks_turn/src/turn.rt"): 7,
}


def counted(path):
    """The lines of a file that count, each with its number."""
    lines, end = [], ""
    for number, line in enumerate(path.read_text(encoding="utf-8").splitlines(), 1):
        said = " ".join(line.split())
        if end:
            end = "" if re.search(end, said) else end
        elif IMPORT.match(said):
            end = "" if said.endswith(";") else ";$"
        elif said and not PLAIN.fullmatch(said):
            lines.append((number, said))
            end = r"^\)" if SIGNATURE.match(said) else ""
    return lines


def twins(files):
    """The longest runs that stand in two places: both places, each a file and an index of its lines, and how many lines they are."""
    homes = collections.defaultdict(list)
    for name, lines in files.items():
        for at in range(len(lines) - FEWEST + 1):
            homes[tuple(said for _, said in lines[at : at + FEWEST])].append((name, at))
    pairs = {(one, other) for places in homes.values() for number, one in enumerate(places) for other in places[number + 1 :]}
    behind = lambda pair, by: tuple((name, at + by) for name, at in pair)
    for pair in sorted(pair for pair in pairs if behind(pair, -1) not in pairs):
        more = 1
        while behind(pair, more) in pairs:
            more += 1
        yield *pair, FEWEST + more - 1


def main():
    files = {path.relative_to(ROOT / "crates").as_posix(): counted(path) for path in sorted(ROOT.glob("crates/*/src/**/*.rt"))}
    found, shared = list(twins(files)), collections.Counter()
    for (one, _), (other, _), length in found:
        shared[one, other] += length
    place = lambda name, at, length: f"{name}:{files[name][at][0]}-{files[name][at + length - 1][0]}"
    faults = [
        f"stands twice: {length} lines of {place(*one, length)} and {place(*other, length)}"
        for one, other, length in found
        if shared[one[0], other[0]] > KNOWN.get((one[0], other[0]), 0)
    ]
    lines = sum(map(len, files.values()))
    print("\n".join(faults) or f"twins: of {lines} lines no {FEWEST} stand twice, but for {len(KNOWN)} known pairs of files")
    return 1 if faults else 0


sys.exit(main())
