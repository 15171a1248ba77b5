#!/usr/bin/env python3
"""What bench/keep.sh runs: changes, validations and openings, over a book.

    keep.py KS SECONDS OTHER
"""

import contextlib
import os
import shutil
import sqlite3
import subprocess
import sys
import time

sys.dont_write_bytecode = True
# The benchmark beside this, which brings in tests/, too.
import serve
from served import Connection, Server, fresh, login, measure_in_folder, project_scope, request, require, run

ENTRIES = (100_000, 1_000_000)
ENTRY = 120


def size(path):
    """How large a file is, in MiB."""
    return os.path.getsize(path) / (1 << 20) if os.path.exists(path) else 0


def inserts(work, seconds):
    """How many entries a second Python's sqlite3 keeps singly."""
    with contextlib.closing(sqlite3.connect(os.path.join(work, "python.book"), isolation_level=None)) as book:
        book.execute("PRAGMA journal_mode=WAL").fetchall()
        book.execute("PRAGMA synchronous=FULL")
        book.execute("CREATE TABLE entry (id INTEGER PRIMARY KEY, body BLOB NOT NULL) STRICT")
        count, began = 0, time.monotonic()
        while time.monotonic() - began < seconds:
            book.execute("INSERT INTO entry (id, body) VALUES (?, ?)", (count, os.urandom(ENTRY)))
            count += 1
        return count / (time.monotonic() - began)


def token_of(port):
    """A token of the administrator."""
    with Connection(port) as connection:
        answer = connection.ask("POST", "/v3/auth/tokens", login("ann", "secret", project_scope("demo")))
        require(answer.status == 201, f"a login is answered with {answer.status}")
        return answer.fields["X-Subject-Token"]


def changes(port, project):
    """Requests each of which is a change."""
    token = token_of(port)
    bodies = [{"project": {"description": f"change {number}"}} for number in range(1000)]
    return [request("PATCH", f"/v3/projects/{project}", body, token) for body in bodies]


def loaded(work, port, clients, requests, depth, seconds):
    """Responses a second, the median and the 99th percentile in milliseconds, by wrk where there is one."""
    if shutil.which("wrk"):
        return serve.by_wrk(work, port, clients, requests, seconds)
    return serve.by_python(port, clients, requests, depth, seconds)


def made(program, work, folder, seconds):
    """Prints how many changes a second are made, and how large the book then is."""
    file, project = serve.opening(work)
    for clients in (1, 4):
        begun = fresh(file)
        with Server(program, begun, folder, 4) as server:
            rate, half, most = loaded(work, server.port, clients, changes(server.port, project), 1, seconds)
            print(f"changes, {clients} at once: {rate:,.0f} a second, p50 {half:.3f} ms, p99 {most:.3f} ms; "
                  f"the book has {size(begun + '.book'):.1f} MiB and its log {size(begun + '.book-wal'):.1f}", flush=True)


def validations(what, program, work, folder, seconds):
    """Prints how many validations a second are answered, alone and with a change in a hundred."""
    file, project = serve.opening(work)
    with Server(program, fresh(file), folder, 4) as server:
        rows = {row[0]: row for row in serve.loads(server.port, project)}
        for name in (f"validations of {serve.TOKENS:,} tokens", "validations with a change in a hundred"):
            _, requests, depth = rows[name]
            rate, half, most = loaded(work, server.port, 4, requests, depth, seconds)
            print(f"{name}{what}: {rate:,.0f} a second, p50 {half:.3f} ms, p99 {most:.3f} ms", flush=True)


def book_of(program, file, folder, project, count):
    """Begins a book, and has two of its entries stand in turn, as many as that."""
    with Server(program, file, folder, 1) as server, Connection(server.port) as connection:
        for each in changes(server.port, project)[:2]:
            connection.send(each)
            require(connection.response().status == 200, "a change is refused")
    with contextlib.closing(sqlite3.connect(file + ".book", isolation_level=None)) as book:
        bodies = [body for body, in book.execute("SELECT body FROM entry ORDER BY id")]
        book.execute("BEGIN")
        # An entry begins with its number.
        more = ((number, number.to_bytes(8, "big") + bodies[number % 2][8:]) for number in range(2, count))
        book.executemany("INSERT INTO entry (id, body) VALUES (?, ?)", more)
        book.execute("COMMIT")
        book.execute("PRAGMA wal_checkpoint(TRUNCATE)").fetchall()
    return len(bodies[0])


def openings(program, work, folder):
    """Prints how long it takes to open with many entries, until the first answer."""
    for count in ENTRIES:
        file, project = serve.opening(work)
        file = fresh(file)
        length = book_of(program, file, folder, project, count)
        began = time.monotonic()
        talk = subprocess.Popen([program, "talk", file, folder], stdin=subprocess.PIPE, stdout=subprocess.PIPE)
        talk.stdin.write(b"GET /v3 HTTP/1.1\r\n\r\n")
        talk.stdin.flush()
        answer = talk.stdout.readline()
        took = time.monotonic() - began
        require(answer.startswith(b"HTTP/1.1 200 "), f"behind {count:,} entries it is answered {answer!r}")
        with open(f"/proc/{talk.pid}/status", encoding="ascii") as status:
            peak = next(int(line.split()[1]) for line in status if line.startswith("VmHWM:"))
        talk.communicate()
        print(f"opening with {count:,} entries of {length} bytes: {took:.2f} s, {peak / 1024:.0f} MiB; "
              f"the book has {size(file + '.book'):.1f} MiB", flush=True)


def measure(program, seconds, other, work):
    """All of it."""
    folder = os.path.join(work, "keys")
    os.mkdir(folder, 0o700)
    require(run(program, "setup", folder)[0] == 0, "the keys cannot be set up")
    made(program, work, folder, seconds)
    print(f"Python's sqlite3, entries of {ENTRY} bytes kept singly: {inserts(work, seconds):,.0f} a second", flush=True)
    validations("", program, work, folder, seconds)
    if other:
        validations(" by the other program", other, work, folder, seconds)
    openings(program, work, folder)


def main():
    program, seconds, other = sys.argv[1], int(sys.argv[2]), sys.argv[3]
    return measure_in_folder("keep", lambda work: measure(program, seconds, other, work))


if __name__ == "__main__":
    sys.exit(main())
