#!/usr/bin/env python3
"""What is left of passwords in the memory of a server that was opened, logged in to, and told new passwords.

    tests/memory.py [PROGRAM] [--plain]

PROGRAM is the built program; where it is left out, the environment's KS, or bin/ks. The server is started as bin/ks starts one; with
--plain the C library overwrites nothing, and the line says what is then left. It is opened twice: with a file that holds records of
its passwords, and with one that holds them plain, whose text stands in the journal's header and in what the database has of that in
memory. The exit status is 1 where more is left: a whole password of a file of records, or one that was told later. Where the
memory of a process may not be read, nothing is tried.
"""

import base64
import collections
import hashlib
import json
import os
import re
import secrets
import sys
import tempfile

from served import TOP, Connection, Failure, Server, login, main_of, program_of, require

USERS = 50

LOGINS = 4

# Where the stacks of two workers hold pieces of the last requests that they read, at up to three depths each.
PLACES = 6


def tunables():
    """What bin/ks tells the C library."""
    with open(os.path.join(TOP, "bin", "ks"), encoding="utf-8") as file:
        return re.search(r"^overwritten='(GLIBC_TUNABLES=\S+)'$", file.read(), re.M)[1]


def record(password):
    """What may stand for a password in an opening file."""
    salt = secrets.token_bytes(16)
    digest = hashlib.pbkdf2_hmac("sha256", password.encode(), salt, 10)
    return f"pbkdf2_sha256$10${base64.b64encode(salt).decode()}${base64.b64encode(digest).decode()}"


def opening(passwords, records):
    """An opening file with users of these passwords, of which it holds records, or which it holds plain."""
    users = [{"id": f"u{number}", "name": f"user{number}", "domain_id": "default",
              **({"password_record": record(password)} if records else {"password": password})}
             for number, password in enumerate(passwords)]
    return {"settings": {"rounds": 10}, "keys": [secrets.token_urlsafe(32) + "="], "users": users}


def change(connection, number, old, new):
    """Logs a user in so many times, and sets a new password, with which the user then logs in."""
    for _ in range(LOGINS):
        response = connection.ask("POST", "/v3/auth/tokens", login(f"user{number}", old))
        require(response.status == 201, f"a login is answered by {response.status}")
    token = response.fields["X-Subject-Token"]
    body = {"user": {"original_password": old, "password": new}}
    status = connection.ask("POST", f"/v3/users/u{number}/password", body, token).status
    require(status == 204, f"a new password is answered by {status}")
    status = connection.ask("POST", "/v3/auth/tokens", login(f"user{number}", new)).status
    require(status == 201, f"a login by a new password is answered by {status}")


def written(pid):
    """The parts of a process's memory that it may write, each with its name."""
    with open(f"/proc/{pid}/maps", encoding="ascii") as maps, open(f"/proc/{pid}/mem", "rb", buffering=0) as memory:
        for line in maps:
            where, rights, *_, name = (line.rstrip("\n") + " ").split(" ", 5)
            if rights.startswith("rw"):
                start, end = (int(it, 16) for it in where.split("-"))
                memory.seek(start)
                yield name.strip() or f"{(end - start) >> 10} KiB", memory.read(end - start)


def copies(pid, passwords):
    """How many copies of these stand in the memory, by the names of its parts."""
    found = collections.Counter()
    pattern = re.compile(b"|".join(it.encode() for it in passwords))
    for name, held in written(pid):
        found[name] += len(pattern.findall(held))
    return +found


def try_server(program, before, folder, records):
    """Opens a server, logs in, changes passwords, and counts the copies of the old ones behind the opening, and of both at the end."""
    old, new = ([secrets.token_hex(12) for _ in range(USERS)] for _ in range(2))
    file = os.path.join(folder, f"opening{int(records)}.json")
    with open(file, "w", encoding="ascii") as out:
        json.dump(opening(old, records), out)
    with Server(program, file, "keys", 2, before=before) as server:
        opened = copies(server.process.pid, old)
        with Connection(server.port) as connection:
            for number in range(USERS):
                change(connection, number, old[number], new[number])
        with Connection(server.port) as connection:
            require(connection.ask("GET", "/v3").status == 200, "GET /v3 is not answered")
        return opened, copies(server.process.pid, old), copies(server.process.pid, new)


def told(found):
    """What was found, in words."""
    return f"{sum(found.values())} " + str(dict(found)) if found else "none"


def run(words):
    """Tries a server, and says what is left."""
    plain = "--plain" in words
    program = program_of([it for it in words if it != "--plain"])
    before = [] if plain else ["env", tunables()]
    with tempfile.TemporaryDirectory() as folder:
        try:
            kept, old, new = try_server(program, before, folder, True)
            plain_kept, plain_old, plain_new = try_server(program, before, folder, False)
        except PermissionError:
            return "skipped, since the memory of a process may not be read"
    line = (f"copies of {USERS} passwords: of a file of records {told(kept)} behind the opening, {told(old)} of the old and "
            f"{told(new)} of the new ones at the end; of a file of plain ones {told(plain_kept)}, {told(plain_old)} and {told(plain_new)}")
    if not plain and (kept or sum((old + new).values()) > PLACES or sum(plain_new.values()) > PLACES):
        raise Failure(line)
    return line


sys.exit(main_of("memory", lambda: run(sys.argv[1:])))
