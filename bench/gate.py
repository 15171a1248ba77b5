#!/usr/bin/env python3
"""Runs a command and prints what the checks that it starts cost: processor seconds by crate and kind of work.

    bench/gate.py COMMAND..

A check that ends between two looks, which are a second apart, counts up to the last one: few and small.
"""
import collections
import os
import re
import subprocess
import sys
import time

KINDS = ("proofs", "tests", "edits")
TICKS = os.sysconf("SC_CLK_TCK")


def parents():
    """The parent of each process, and the processor seconds that it has used itself."""
    found = {}
    for name in os.listdir("/proc"):
        if not name.isdigit():
            continue
        try:
            with open(f"/proc/{name}/stat", encoding="utf-8", errors="replace") as file:
                fields = file.read().rpartition(")")[2].split()
        except OSError:
            continue
        found[int(name)] = int(fields[1]), (int(fields[11]) + int(fields[12])) / TICKS
    return found


def is_below(pid, top, table):
    while pid in table and pid != top:
        pid = table[pid][0]
    return pid == top


def look(top, seen):
    table = parents()
    for pid, (_, seconds) in table.items():
        if not is_below(pid, top, table):
            continue
        try:
            with open(f"/proc/{pid}/cmdline", "rb") as file:
                words = file.read().decode(errors="replace").split("\0")
        except OSError:
            continue
        if len(words) < 2 or os.path.basename(words[0]) != "rattle" or words[1] not in ("build", "check"):
            continue
        line = " ".join(words)
        name = re.search(r"--crate-name (\S+)", line)
        kind = "edits" if "rt-edit" in line else "tests" if "--test" in words else "proofs"
        if name:
            seen[pid, name[1], kind] = seconds


def main(command):
    if not command:
        sys.exit(__doc__)
    child, seen = subprocess.Popen(command), {}
    while child.poll() is None:
        look(child.pid, seen)
        time.sleep(1)
    rows = collections.defaultdict(lambda: dict.fromkeys(KINDS, 0.0))
    for (_, name, kind), seconds in seen.items():
        rows[name][kind] += seconds
    print(f"{'crate':16}" + "".join(f"{kind:>9}" for kind in KINDS) + "   processor seconds")
    for name, row in sorted(rows.items(), key=lambda item: -sum(item[1].values())):
        print(f"{name:16}" + "".join(f"{row[kind]:9.0f}" for kind in KINDS))
    sums = {kind: sum(row[kind] for row in rows.values()) / 60 for kind in KINDS}
    print(f"{'in all':16}" + "".join(f"{sums[kind]:9.1f}" for kind in KINDS) + f"   processor minutes: {sum(sums.values()):.1f}")
    return child.returncode


if __name__ == "__main__":
    sys.exit(main(sys.argv[1:]))
