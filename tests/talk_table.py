#!/usr/bin/env python3
"""Drives `ks talk` with the connections of a table, and compares every byte that the built program writes.

    tests/talk_table.py

The tables are `talks` and `talk_responses` in crates/ks_run_cases/data, where the same connections are tried in memory. Here
each input is given to a process whole, and then in pieces of one byte. Each process opens with o1.json of that folder, which
has its own keys, so that the folder of keys is empty. The program is bin/ks of this repository; the environment's KS names
another. The exit status is 1 where a connection is answered otherwise.
"""

import os
import subprocess
import sys
import tempfile

sys.dont_write_bytecode = True
from served import fresh
from tables import rows

TOP = os.path.dirname(os.path.dirname(os.path.abspath(__file__)))
KS = os.environ.get("KS") or os.path.join(TOP, "bin", "ks")
DATA = os.path.join(TOP, "crates", "ks_run_cases", "data")

OPENING = os.path.join(DATA, "o1.json")

RESPONSES = {name.decode(): (head, body) for name, head, body in rows(os.path.join(DATA, "talk_responses.txt"))}


def response(name):
    """The bytes of a response."""
    name, *marks = name.split()
    head, body = RESPONSES[name]
    if "close" in marks:
        head += b"Connection: close\r\n"
    return head + b"\r\n" + (b"" if "head" in marks else body)


def talk(folder, pieces):
    """What the program writes for the pieces over an empty folder, and its status."""
    run = subprocess.Popen([KS, "talk", fresh(OPENING), folder], stdin=subprocess.PIPE, stdout=subprocess.PIPE, bufsize=0)
    try:
        for piece in pieces:
            run.stdin.write(piece)
        run.stdin.close()
    except BrokenPipeError:
        # The connection ended before its input did.
        pass
    return run.stdout.read(), run.wait()


def wrong_ways(folder, talks):
    """How many connections are answered otherwise, each of which is said."""
    wrong = 0
    for given, names in talks:
        expected = b"".join(response(name) for name in names.decode().split(", ")) if names else b""
        # Single bytes of a long input only take long.
        ways = [[given]] if len(given) > 1000 else [[given], [given[i : i + 1] for i in range(len(given))]]
        for pieces in ways:
            written, status = talk(folder, pieces)
            if (written, status) != (expected, 0):
                wrong += 1
                print(f"talk_table: {given[:80]!r}: {written!r}, status {status}", file=sys.stderr)
    return wrong


def main():
    talks = rows(os.path.join(DATA, "talks.txt"))
    with tempfile.TemporaryDirectory() as folder:
        wrong = wrong_ways(folder, talks)
    print(f"talk_table: {len(talks)} connections, {wrong} answered otherwise")
    return 1 if wrong or not talks else 0


if __name__ == "__main__":
    sys.exit(main())
