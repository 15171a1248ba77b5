#!/usr/bin/env python3
"""Counts what work of the built program no answer shows, and compares it with the figures that are kept.

    tests/instructions.py           compares; the exit status is 1 where a count is more than a tenth above its figure
    tests/instructions.py --keep    writes the counts of this run as the figures

The figures stand in bench/instructions.txt: the instructions of a line of `check` and of a request of `talk`, of a validation and of
listings of grants also among 10,000 users with 100,000 grants, of a validation whose token has a large catalog, and the most bytes that
the program had asked for and not given back.
Instructions come of two runs under valgrind over the same line or request, of which the second has more of them, so that the beginning
and the end of a run do not count. Such counts repeat exactly on one machine. Where there is no valgrind, nothing is counted. The program
is bin/ks of this repository; the environment's KS names another.
"""

import atexit
import collections
import json
import os
import shutil
import subprocess
import sys
import tempfile

sys.dont_write_bytecode = True
from served import fresh

TOP = os.path.dirname(os.path.dirname(os.path.abspath(__file__)))
# Before tests/, which has a tables.py too.
sys.path.insert(0, os.path.join(TOP, "bench"))
import catalog
import tables
import talk

FIGURES = os.path.join(TOP, "bench", "instructions.txt")
HEAD = """\
# The figures of tests/instructions.py, which `tests/instructions.py --keep` writes: instructions a line or a request, and of
# `heap` bytes in all. It fails where a count is more than a tenth above its figure.
"""

CHECK = ["check"]
OPENING = os.path.join(TOP, "examples", "o1.json")
TALK = ["talk", OPENING, "keys"]
VERSION = b"GET /v3/ HTTP/1.1\r\nHost: 127.0.0.1:5000\r\n\r\n"
BODY = b"POST /v3 HTTP/1.1\r\nContent-Length: 4000\r\n\r\n" + b" " * 4000
# The body of a login, all of which is read: its last field, the name of the project, is no text.
USER = {"name": "ann", "domain": {"id": "default"}, "password": "secret"}
IDENTITY = {"methods": ["password"], "password": {"user": USER}}
LOGIN = json.dumps({"auth": {"identity": IDENTITY, "scope": {"project": {"domain": {"id": "default"}, "name": 1}}}}).encode()
REFUSED = b"POST /v3/auth/tokens HTTP/1.1\r\nContent-Length: %d\r\n\r\n" % len(LOGIN) + LOGIN

with open(os.path.join(TOP, "examples", "check.txt"), "rb") as file:
    KEY, *LINES = file.read().splitlines(keepends=True)


def written(opening):
    """An opening file. It goes when the script ends."""
    folder = tempfile.mkdtemp()
    atexit.register(shutil.rmtree, folder, ignore_errors=True)
    path = os.path.join(folder, "opening.json")
    with open(path, "w", encoding="utf-8") as out:
        json.dump(opening, out, separators=(",", ":"))
    return path


TOLD, _, USERS, PROJECTS, _ = tables.opening(10_000, 100_000, 0)
MANY = written(TOLD)
CLOUD = written(catalog.opening(40, 120))
# Listings of the grants of one user and at one project.
GRANTED = f"user.id={USERS[1]}", f"scope.project.id={PROJECTS[-1]}"
GRANTS = b"".join(tables.request("GET", f"/v3/role_assignments?{of}", talk.sealed()) for of in GRANTED)

# Runs whose instructions are counted: the words of the command line, what stands in front, what is repeated, how often in both
# runs, and the names of the counts, each with the front of the names of the functions that count.
INSTRUCTIONS = [
    (CHECK, KEY, LINES[0], 100, 600, {"check: a valid token": ""}),
    (CHECK, KEY, LINES[12], 100, 600, {"check: a token of another key": ""}),
    (CHECK, KEY, LINES[11], 1000, 6000, {"check: a text that is no token": ""}),
    (TALK, b"", VERSION, 200, 1200, {"talk: the version": "", "talk: the version, in the table of routes": "ks_routes::"}),
    (TALK, b"", b"GET /v3/nothing HTTP/1.1\r\n\r\n", 200, 1200, {"talk: a path without a route": ""}),
    (TALK, b"", BODY, 100, 600, {"talk: a body of 4,000 bytes": ""}),
    (TALK, b"", REFUSED, 100, 600, {"talk: a login, read to its last field": ""}),
    (TALK, b"", talk.validation(talk.sealed()), 50, 250, {"talk: a validation": ""}),
    (["talk", MANY, "keys"], b"", talk.validation(talk.sealed()), 50, 250, {"talk: a validation among 100,000 grants": ""}),
    (["talk", CLOUD, "keys"], b"", talk.validation(talk.sealed()), 50, 250, {"talk: a validation with 120 endpoints": ""}),
    (["talk", MANY, "keys"], b"", GRANTS, 50, 250, {"talk: the grants of a user and those at a project, of 100,000": ""}),
]
# Runs whose memory is counted.
HEAP = [
    (TALK, b"", BODY, 500, "heap: 500 bodies of 4,000 bytes"),
    (CHECK, KEY, LINES[11], 5000, "heap: 5,000 lines of no token"),
]
# The C library copies and fills bytes in other ways on other processors; these names turn them off.
TUNABLES = "glibc.cpu.hwcaps=-ERMS,-FSRM,-AVX2,-AVX2_Usable,-AVX512F,-AVX512F_Usable,-AVX512VL"


def begun(words):
    """The words, with an opening file of which nothing is kept yet."""
    return [fresh(word) if word in (OPENING, MANY, CLOUD) else word for word in words]


def program():
    """The program itself, since bin/ks is a script that builds it and becomes it."""
    if "KS" in os.environ:
        return os.environ["KS"]
    subprocess.run([os.path.join(TOP, "bin", "ks"), *begun(TALK)], stdin=subprocess.DEVNULL, check=True)
    return os.path.join(TOP, "crates", "ks", "out", "ks")


def run(before, words, given):
    """What the program writes for these bytes, by the command that stands before it."""
    env = {**os.environ, "GLIBC_TUNABLES": TUNABLES}
    done = subprocess.run([*before, KS, *begun(words)], input=given, stdout=subprocess.PIPE, stderr=subprocess.PIPE, env=env)
    if done.returncode != 0:
        sys.exit(f"instructions: status {done.returncode}: {done.stderr.decode(errors='replace')}")
    return done.stdout


def dumped(tool, words, front, unit, times):
    """The lines that a tool of valgrind writes of so many units, each of which is answered as one alone."""
    with tempfile.TemporaryDirectory() as work:
        path = os.path.join(work, "out")
        before = ["valgrind", f"--tool={tool}", f"--{tool}-out-file={path}"]
        if run(before, words, front + unit * times) != run([], words, front + unit) * times:
            sys.exit("instructions: repeated lines or requests are answered otherwise than one alone")
        with open(path, encoding="utf-8", errors="replace") as file:
            return file.read().splitlines()


def profile(lines):
    """The instructions of each function, without those that it calls."""
    names = {}
    costs = collections.Counter()
    function = called = None
    for line in lines:
        if line.startswith(("fn=", "cfn=")):
            # A name is written once, and is a number afterwards.
            key, _, name = line.partition("=")[2].partition(" ")
            names.setdefault(key, name)
            function = key if line.startswith("fn=") else function
        elif line[:1] in tuple("0123456789+-*") and not called:
            costs[function] += int(line.split()[1])
        # The line behind that of a call has what was called.
        called = line.startswith("calls=")
    return {names[key]: cost for key, cost in costs.items()}


def instructions(lines, front):
    return sum(cost for name, cost in profile(lines).items() if name.startswith(front))


def counts():
    """Each name with its count."""
    for words, front, unit, few, many, names in INSTRUCTIONS:
        low, high = (dumped("callgrind", words, front, unit, times) for times in (few, many))
        for name, functions in names.items():
            yield name, (instructions(high, functions) - instructions(low, functions)) // (many - few)
    for words, front, unit, times, name in HEAP:
        lines = dumped("massif", words, front, unit, times)
        yield name, max(int(line.partition("=")[2]) for line in lines if line.startswith("mem_heap_B="))


def kept():
    with open(FIGURES, encoding="utf-8") as file:
        lines = [line.split(None, 1) for line in file if not line.startswith("#")]
    return {name.rstrip("\n"): int(figure) for figure, name in lines}


def main(words):
    found = dict(counts())
    for name in found:
        if found[name] == 0:
            sys.exit(f"instructions: nothing was counted: {name}")
    if words == ["--keep"]:
        with open(FIGURES, "w", encoding="utf-8") as file:
            file.write(HEAD + "".join(f"{count} {name}\n" for name, count in found.items()))
        return 0
    figures = kept()
    if set(figures) != set(found):
        sys.exit("instructions: the figures that are kept are of other counts")
    above = [name for name, count in found.items() if count * 10 > figures[name] * 11]
    for name in above:
        print(f"instructions: {name}: {found[name]}, where {figures[name]} are kept", file=sys.stderr)
    print(f"instructions: {len(found)} counts, {len(above)} more than a tenth above their figures")
    return 1 if above else 0


if __name__ == "__main__":
    if shutil.which("valgrind") is None:
        print("instructions: not counted, since there is no valgrind")
        sys.exit(0)
    KS = program()
    sys.exit(main(sys.argv[1:]))
