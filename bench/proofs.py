#!/usr/bin/env python3
"""Prints which functions take the time of a check, as the machine does it now.

    bench/proofs.py SECONDS [COUNT]    for so many seconds; the COUNT dearest of each crate, by default 10

While `rt` proves a crate, the modules that are done lie in a folder of the checker's own under /tmp, which goes when the crate is done.
What a function takes is the time between the module before and each of its modules: `Lts` are the lifetimes, `Tie` ties the code to
its contract, and `Proof` and the names of files are what was written or searched. Run it beside `rt ci` or `rt check --jobs 1`; where
several processes prove one crate, each is told by itself.
"""

import collections
import glob
import os
import re
import sys
import time

FOLDERS = "/tmp/rattle-logic-built-locked-*"


def crate_of(folder):
    """The name of the crate that the folder's process proves, if it still does."""
    try:
        with open(f"/proc/{folder.split('-')[4]}/cmdline", encoding="utf-8") as file:
            words = file.read().split("\0")
    except OSError:
        return None
    return words[words.index("--crate-name") + 1] if "--crate-name" in words else None


def look(seen, names):
    """Notes the moment of each module that is new."""
    for folder in glob.glob(FOLDERS):
        names.setdefault(folder, crate_of(folder))
        try:
            for entry in os.scandir(folder):
                if entry.name.endswith(".oantt") and entry.name not in seen[folder]:
                    seen[folder][entry.name] = entry.stat().st_mtime
        except FileNotFoundError:
            pass


def seconds(moments):
    """The seconds of each function, or of each file of lemmas."""
    taken = collections.Counter()
    before = min(moments.values())
    for name, moment in sorted(moments.items(), key=lambda item: item[1]):
        what = re.sub(r"^Rattle-\w+-(proofs|specs)\.", "", name.removesuffix(".oantt"))
        taken[".".join(what.split(".")[:4])] += moment - before
        before = moment
    return taken


def main(length, count):
    seen, names = collections.defaultdict(dict), {}
    end = time.time() + length
    while time.time() < end:
        look(seen, names)
        time.sleep(1)
    for folder, moments in seen.items():
        taken = seconds(moments)
        print(f"{names[folder] or folder}: {sum(taken.values()):.0f} seconds")
        for what, cost in taken.most_common(count):
            print(f"  {cost:6.1f} {what}")


if __name__ == "__main__":
    if len(sys.argv) not in (2, 3) or not all(word.isdecimal() for word in sys.argv[1:]):
        sys.exit(__doc__)
    main(int(sys.argv[1]), int(sys.argv[2]) if len(sys.argv) == 3 else 10)
