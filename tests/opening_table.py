#!/usr/bin/env python3
"""Runs the built program on opening files, on words of the command line and on bodies that are no text, as tables say.

    tests/opening_table.py

The tables are `opening_lines`, `command_words` and `no_texts` in crates/ks_run_cases/data, whose README.txt says what they hold.
Beside these, each list of an opening file is given one row more than may stand, the shorter ones also as many as may stand, the
system gives no random bytes, and an opening file has the record of a password that the program made. The program is
bin/ks of this repository; the environment's KS names another. The exit status is 1 where it ends or answers otherwise.
"""

import base64
import hashlib
import itertools
import json
import os
import re
import subprocess
import sys
import tempfile

sys.dont_write_bytecode = True
from served import fresh
from tables import expanded, rows, with_length

TOP = os.path.dirname(os.path.dirname(os.path.abspath(__file__)))
KS = os.path.abspath(os.environ.get("KS") or os.path.join(TOP, "bin", "ks"))
DATA = os.path.join(TOP, "crates", "ks_run_cases", "data")

USAGE = "usage: ks check | ks talk FILE FOLDER | ks serve FILE FOLDER ADDRESS [--workers N] [--connections N] [--log FILE] | ks setup FOLDER | ks rotate FOLDER [--max N] | ks password [--rounds N] | ks drill START COUNT"
NOT_JSON = b'{"error":{"code":400,"message":"The body is not JSON.","title":"Bad Request"}}'
NAMES = {name.decode(): text for name, text in rows(os.path.join(DATA, "parts.txt"))}

wrong = []


def table(name):
    """The cases of a table."""
    return rows(os.path.join(DATA, name + ".txt"))


def expect(what, got, wanted):
    """Notes where these differ."""
    if got != wanted:
        wrong.append(what)
        print(f"opening_table: {what[:200]}: {got!r} for {wanted!r}", file=sys.stderr)


def run(words, folder, given=b"", tracer=()):
    """The status, the output and what is said, of the program in a folder."""
    ended = subprocess.run([*tracer, KS, *words], cwd=folder, input=given, capture_output=True, timeout=300)
    return ended.returncode, ended.stdout, ended.stderr.decode().removesuffix("\n")


def lay_out(folder, files):
    """A folder of keys: its contents by their indices."""
    os.mkdir(folder)
    for index, content in files.items():
        with open(os.path.join(folder, str(index)), "wb") as file:
            file.write(content)


# Opening files.


def write_opening(work, content):
    """Writes an opening file of which nothing is kept yet."""
    for beside in ("f.book", "f.book-wal", "f.book-shm"):
        if os.path.exists(os.path.join(work, beside)):
            os.remove(os.path.join(work, beside))
    with open(os.path.join(work, "f"), "wb") as file:
        file.write(content)


def try_opening(work, content, line):
    """An opening file is refused with this line, or opens where there is none."""
    write_opening(work, content)
    wanted = (7, b"", f"ks: f: {line}") if line else (0, b"", "")
    expect(f"opening {content[:150]!r}", run(["talk", "f", "keys"], work), wanted)


def numbered(count, *names, **fields):
    """Rows with a number in each of these fields, beside the others."""
    return [{**fields, **{name: f"n{number:05}" for name in names}} for number in range(count)]


def pairs(first, firsts, second, seconds, count, **fields):
    """So many rows with different pairs of ids that stand."""
    both = [(one, other) for one in range(firsts) for other in range(seconds)]
    return [{**fields, first: f"n{one:05}", second: f"n{other:05}"} for one, other in both[:count]]


def full_files():
    """For each list of an opening file its limit, and a file with one row more whose rows hold together but for that."""
    home = {"domain_id": "default"}
    users, groups = numbered(1024, "id", "name", **home), numbered(512, "id", "name", **home)
    roles = numbered(1024, "id", "name")
    yield "domains", 1024, {"domains": numbered(1025, "id", "name")}
    yield "projects", 65536, {"projects": numbered(65537, "id", "name", **home)}
    yield "users", 65536, {"users": numbered(65537, "id", "name", **home)}
    yield "groups", 16384, {"groups": numbered(16385, "id", "name", **home)}
    yield "members", 262144, {"users": users, "groups": groups, "members": pairs("group", 512, "user", 513, 262145)}
    yield "roles", 1024, {"roles": numbered(1025, "id", "name")}
    yield "implications", 8192, {"roles": roles, "implications": pairs("prior", 91, "implied", 91, 8193)}
    yield "regions", 256, {"regions": numbered(257, "id")}
    yield "services", 1024, {"services": numbered(1025, "id", type="compute")}
    endpoints = numbered(8193, "id", service_id="n00000", interface="public", url="http://n")
    yield "endpoints", 8192, {"services": numbered(1, "id", type="compute"), "endpoints": endpoints}
    assignments = pairs("user", 512, "role", 513, 262145, domain="default")
    yield "assignments", 262144, {"users": users, "roles": roles, "assignments": assignments}


def try_openings(work):
    """The opening files of the table, and the example that takes its keys from the folder; how many there are."""
    cases = table("opening_lines")
    for content, line in cases:
        try_opening(work, expanded(content, NAMES), line.decode())
    with open(os.path.join(TOP, "examples", "cloud.json"), "rb") as file:
        try_opening(work, file.read(), "")
    return len(cases) + 1


def try_full(work):
    """Opening files with a row, and with a rule, more than may stand, and with as many rows as may; how many there are."""
    full = [(file, f"{name}: more than {limit} {name}") for name, limit, file in full_files()]
    full += [({**file, name: file[name][:limit]}, "") for name, limit, file in full_files() if limit <= 8192]
    for file, line in full:
        try_opening(work, json.dumps(file, separators=(",", ":")).encode(), line)
    rules = json.dumps({"policy": {f"n{number}": "@" for number in range(1025)}}).encode()
    try_opening(work, rules, "policy: more than 1024 rules, the default ones among them")
    return len(full) + 1


def try_without_random(work):
    """
    An opening file with a password is refused where the system gives no random bytes for its salt, if an strace may see to that. The
    C library and the new book draw first, so often as this system has them: from which draw on all fail is tried one after the other.
    """
    tracer = "strace -f -qq -o /dev/null -e inject=getrandom:error=EIO:when={}+".format
    try:
        can_trace = subprocess.run([*tracer(1).split(), "true"], capture_output=True, check=False).returncode == 0
    except FileNotFoundError:
        can_trace = False
    if not can_trace:
        print("opening_table: skipped: no random bytes, for want of an strace that may trace")
        return
    user = {"id": "u", "domain_id": "default", "name": "U", "password": "p"}
    ended = []
    for first in range(1, 33):
        write_opening(work, json.dumps({"settings": {"rounds": 1}, "users": [user]}).encode())
        ended.append(run(["talk", "f", "keys"], work, tracer=tracer(first).split()))
        if ended[-1][0] == 0:
            break
    turns = [ending for ending, _ in itertools.groupby(ended)]
    refused, whole = (10, b"", "ks: there were no random bytes"), (0, b"", "")
    expect("no random bytes", turns[-2:], [refused, whole])
    no_book = (13, b"", "ks: f.book: unable to open database file")
    expect("no random bytes for a book", turns[:-2] in ([], [no_book]), True)


def try_record(work):
    """A record of a password is PBKDF2 of it with the salt that the record names, and an opening file may hold it."""
    status, record, said = run(["password", "--rounds", "1000"], work, b"secret\n")
    parts = record.decode().removesuffix("\n").split("$")
    salt = base64.b64decode(parts[2], validate=True) if len(parts) == 4 else b""
    digest = base64.b64encode(hashlib.pbkdf2_hmac("sha256", b"secret", salt, 1000, 32)).decode()
    expect("a record", (status, len(salt), parts, said), (0, 16, ["pbkdf2_sha256", "1000", base64.b64encode(salt).decode(), digest], ""))
    other = run(["password", "--rounds", "1000"], work, b"secret\n")[1]
    expect("the salt of another record", other != record, True)
    user = {"id": "u", "domain_id": "default", "name": "U", "password_record": record.decode().removesuffix("\n")}
    try_opening(work, json.dumps({"users": [user]}).encode(), "")


# Words of the command line.


def try_words(words, status, output, line):
    """The program ends so where `f` is an opening file over a folder, `keys` a folder of eleven keys and `none` an empty one."""
    with tempfile.TemporaryDirectory() as work:
        with open(os.path.join(work, "f"), "wb") as file:
            file.write(b"{}")
        lay_out(os.path.join(work, "keys"), {index: NAMES["primary"] for index in range(11)})
        lay_out(os.path.join(work, "none"), {})
        given = ["" if word == "''" else word for word in words.decode().split()]
        wanted = (int(status), output, USAGE if line == b"usage" else line.decode())
        expect(f"words {words.decode()}", run(given, work), wanted)


# Bodies.


def try_bodies(work, requests):
    """Bodies that are no text are refused on one connection, each as no JSON."""
    fields = f"Content-Length: {len(NOT_JSON)}\r\nContent-Type: application/json\r\nVary: X-Auth-Token\r\n"
    response = f"HTTP/1.1 400 Bad Request\r\n{fields}\r\n".encode() + NOT_JSON
    given = b"".join(with_length(expanded(request, NAMES)) for request in requests)
    ended = run(["talk", fresh(os.path.join(DATA, "o1.json")), "keys"], work, given)
    expect("bodies that are no text", ended, (0, response * len(requests), ""))


def main():
    # Else it would be said of each file what others may do with it.
    os.umask(0o077)
    words, requests = table("command_words"), [row[0] for row in table("no_texts")]
    with tempfile.TemporaryDirectory() as work:
        lay_out(os.path.join(work, "keys"), {3: NAMES["staged"], 7: NAMES["primary"]})
        files = try_openings(work) + try_full(work)
        try_without_random(work)
        try_record(work)
        try_bodies(work, requests)
    for case in words:
        try_words(*case)
    print(f"opening_table: {files} opening files, {len(words)} command lines, {len(requests)} bodies, {len(wrong)} otherwise")
    return 1 if wrong or not words or not requests else 0


if __name__ == "__main__":
    sys.exit(main())
