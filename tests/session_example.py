#!/usr/bin/env python3
"""Holds what `ks talk` answers to examples/session.http against examples/session.out, where `..` stands for what differs from run to run.

    tests/session_example.py

The program is bin/ks of this repository, or the environment's KS. The exit status is 1 where it answers otherwise.
"""

import os
import re
import subprocess
import sys

sys.dont_write_bytecode = True
from served import fresh

TOP = os.path.dirname(os.path.dirname(os.path.abspath(__file__)))
KS = os.environ.get("KS") or os.path.join(TOP, "bin", "ks")


def read(name):
    with open(os.path.join(TOP, "examples", name), "rb") as file:
        return file.read()


def main():
    words = [KS, "talk", fresh(os.path.join(TOP, "examples", "o1.json")), os.path.join(TOP, "examples", "keys")]
    ran = subprocess.run(words, input=read("session.http"), stdout=subprocess.PIPE, check=False)
    wanted = re.escape(read("session.out").rstrip(b"\n")).replace(rb"\.\.", rb"[^\n]*?")
    written = ran.stdout.replace(b"\r\n", b"\n")
    if ran.returncode == 0 and re.fullmatch(wanted, written):
        print("session_example: as examples/session.out says")
        return 0
    print(f"session_example: status {ran.returncode}, and written was {written!r}", file=sys.stderr)
    return 1


if __name__ == "__main__":
    sys.exit(main())
