#!/usr/bin/env python3
"""Kills a server at random moments, fills its disk and spoils its book, and sees that nothing that it said is lost.

    tests/stops.py [--stops N] [KS]

Four clients make roles, users and trusts, revoke tokens, change passwords, use trusts and rotate the keys, until a SIGKILL; then the
server starts again over the same book. Each change whose reply was read has to stand, and of the others at most those on the way,
each whole or not at all; the book has an entry for each, without a gap. N is 10 where it is not said. Then a disk is filled: the
server ends with status 13, and goes on where there is room again. Books that are spoiled are refused with one line, and left as
they are. The program is bin/ks of this repository, the environment's KS, or the word. The exit status is 1 where anything is
otherwise.
"""

import argparse
import contextlib
import json
import os
import random
import shutil
import signal
import sqlite3
import subprocess
import sys
import tempfile
import threading
import time

sys.dont_write_bytecode = True
from served import HOST, TOP, Connection, Failure, Server, exchange, free_port, login, main_of, program_of, project_scope, require, run

O1 = os.path.join(TOP, "examples", "o1.json")

# The examples' own keys are rotated up to so many at a time.
KEYS = 32

# So many of what is known of earlier starts are asked for after each start.
SAMPLE = 200

# How many uses a trust begins with, which no client comes to the end of.
USES = 1_000_000

# How much a file may grow where the disk is full, and how large a file system is that is filled.
ROOM, SMALL = 800_000, 1 << 20


def opening_file(work):
    """An opening file with a user for each client, whose keys can be rotated."""
    with open(O1, encoding="utf-8") as file:
        told = json.load(file)
    told["settings"].update(max_active_keys=KEYS, life=86_400)
    project, role = told["projects"][0]["id"], told["roles"][0]["id"]
    for number in range(4):
        told["users"].append({"id": f"client{number}", "domain_id": "default", "name": f"client{number}", "password": "secret"})
        told["assignments"].append({"user": f"client{number}", "project": project, "role": role})
    path = os.path.join(work, "opening.json")
    with open(path, "w", encoding="utf-8") as file:
        json.dump(told, file)
    os.chmod(path, 0o600)
    return path, told


def copy_of_book(file, place):
    """A copy of the book of an opening file, with its log, which a reader of SQLite may open and change."""
    for end in ("", "-wal"):
        if os.path.exists(file + ".book" + end):
            shutil.copy(file + ".book" + end, os.path.join(place, "copy.book" + end))
    return os.path.join(place, "copy.book")


def entries_of(file):
    """How many entries the book has, which are numbered from 0 on without a gap; SQLite itself has nothing to say against it."""
    with tempfile.TemporaryDirectory() as place, contextlib.closing(sqlite3.connect(copy_of_book(file, place))) as book:
        sound = book.execute("PRAGMA integrity_check").fetchall()
        require(sound == [("ok",)], f"the book is not sound: {sound}")
        count, first, last = book.execute("SELECT count(*), min(id), max(id) FROM entry").fetchone()
        require(count == 0 or (first, last) == (0, count - 1), f"{count} entries stand from {first} to {last}")
        return count


class Keys:
    """Which key is primary. The examples' second key is at first."""

    def __init__(self):
        self.primary = 1


class Facts:
    """What is known: for each thing the values that it may have, and the one that it had before. It has one, or two while a change
    of it is on the way, and two after a stop until it is asked for."""

    def __init__(self):
        self.may, self.before, self.recent = {}, {}, set()

    def begin(self, becomes):
        """A change is sent that makes these so."""
        for thing, value in becomes.items():
            may = self.may.get(thing, {None})
            self.before[thing], self.may[thing] = min(may, key=str), may | {value}
            self.recent.add(thing)

    def end(self, becomes):
        """Its reply was read."""
        for thing, value in becomes.items():
            self.may[thing] = {value}

    def value(self, thing):
        """The one value that a thing has."""
        value, = self.may[thing]
        return value


class Client:
    """One client at a server, with what it knows of what it alone changes. The first one alone rotates the keys."""

    def __init__(self, number, told, keys):
        self.number, self.told, self.keys, self.facts = number, told, keys, Facts()
        self.random, self.name, self.count = random.Random(number), f"client{number}", 0
        self.trusts, self.people, self.roles, self.sealed = [], [], [], {}
        if number == 0:
            self.facts.may["primary", "keys"] = {keys.primary}
        self.made, self.on_the_way, self.wrong, self.token, self.connection = 0, 0, None, None, None

    def log_in(self, port):
        """Connects, and logs in."""
        self.connection, self.made, self.on_the_way = Connection(port), 0, 0
        response = self.connection.ask("POST", "/v3/auth/tokens", login(self.name, "secret", project_scope("demo")))
        require(response.status == 201, f"a login is answered with {response.status}")
        self.token = response.fields["X-Subject-Token"]

    def change(self, becomes, wanted, method, path, body=None, **tokens):
        """Makes a change by which these become so."""
        self.facts.begin(becomes)
        self.on_the_way = 1
        response = self.connection.ask(method, path, body, **{"auth": self.token, **tokens})
        require(response.status == wanted, f"{method} {path} is answered with {response.status}: {response.body[:200]!r}")
        self.facts.end(becomes)
        self.made, self.on_the_way = self.made + 1, 0
        return response

    def fresh_name(self, front):
        """A name that nothing had yet."""
        self.count += 1
        return f"{front}{self.number}x{self.count}"

    # What it does.

    def make_role(self):
        """Makes a role, or removes one where it made some."""
        if len(self.roles) > 20:
            role, name = self.roles.pop(0)
            self.change({("role", name): None}, 204, "DELETE", f"/v3/roles/{role}")
            return
        name = self.fresh_name("role")
        role = self.change({("role", name): "there"}, 201, "POST", "/v3/roles", {"role": {"name": name}}).told()["role"]["id"]
        self.roles.append((role, name))

    def make_user(self):
        """Makes a user, who can log in."""
        name = self.fresh_name("user")
        body = {"user": {"name": name, "domain_id": "default", "password": "first"}}
        user = self.change({("password", name): "first"}, 201, "POST", "/v3/users", body).told()["user"]["id"]
        self.people.append((user, name))

    def change_password(self):
        """Changes the password of a user that it made."""
        if not self.people:
            return self.make_user()
        user, name = self.random.choice(self.people)
        old, new = self.facts.value(("password", name)), self.fresh_name("secret")
        body = {"user": {"original_password": old, "password": new}}
        return self.change({("password", name): new}, 204, "POST", f"/v3/users/{user}/password", body)

    def revoke_token(self):
        """Makes two tokens, and revokes one."""
        for is_revoked in (False, True):
            response = self.connection.ask("POST", "/v3/auth/tokens", login(self.name, "secret", project_scope("demo")))
            require(response.status == 201, f"a login is answered with {response.status}")
            token = response.fields["X-Subject-Token"]
            self.facts.may["token", token], self.sealed[token] = {"valid"}, self.keys.primary
            self.facts.recent.add(("token", token))
            if is_revoked:
                self.change({("token", token): None}, 204, "DELETE", "/v3/auth/tokens", subject=token)

    def make_trust(self):
        """Makes a trust, whose uses are counted."""
        body = {"trust": {"trustor_user_id": self.name, "trustee_user_id": "bob", "project_id": self.told["projects"][0]["id"],
                          "impersonation": True, "roles": [{"name": "admin"}], "remaining_uses": USES}}
        thing = ("trusts", self.name)
        trust = self.change({thing: len(self.trusts) + 1}, 201, "POST", "/v3/OS-TRUST/trusts", body).told()["trust"]["id"]
        self.facts.may["uses", trust] = {USES}
        self.trusts.append(trust)

    def use_trust(self):
        """Logs in by a trust that it made."""
        if not self.trusts:
            return self.make_trust()
        trust = self.random.choice(self.trusts)
        response = self.connection.ask("POST", "/v3/auth/tokens", login("bob", "hunter2"))
        require(response.status == 201, f"a login of bob is answered with {response.status}")
        body = exchange(response.fields["X-Subject-Token"], {"OS-TRUST:trust": {"id": trust}})
        left = self.facts.value(("uses", trust)) - 1
        return self.change({("uses", trust): left}, 201, "POST", "/v3/auth/tokens", body, auth=None)

    def rotate(self):
        """Rotates the keys now and then."""
        if self.number == 0 and self.random.random() < 0.1:
            after = self.keys.primary + 1
            self.change({("primary", "keys"): after}, 200, "POST", "/v3/OS-KS-KEYS/rotate")
            self.keys.primary = after

    def go_on(self):
        """Makes changes until the server is gone."""
        choices = [(self.make_role, 4), (self.make_user, 2), (self.change_password, 4), (self.revoke_token, 3), (self.make_trust, 1),
                   (self.use_trust, 4), (self.rotate, 1)]
        kinds, weights = zip(*choices)
        while True:
            self.random.choices(kinds, weights)[0]()

    def run(self):
        """Makes changes until the server is gone, and notes what was otherwise."""
        try:
            self.go_on()
        except OSError:
            pass
        except Failure as why:
            # The connection may have ended between two replies.
            if "the connection was closed" not in str(why):
                self.wrong = why
        finally:
            self.connection.close()

    # What stands.

    def found(self, connection, kind, what):
        """The value of a thing, as the server tells it."""
        if kind == "role":
            roles = connection.ask("GET", f"/v3/roles?name={what}", auth=self.token).told()["roles"]
            require(all(role["name"] == what and role["id"] and role["domain_id"] is None for role in roles), f"not whole: {roles}")
            return {0: None, 1: "there"}[len(roles)]
        if kind == "password":
            tried = (self.facts.may[kind, what] | {self.facts.before.get((kind, what))}) - {None}
            right = [each for each in tried if connection.ask("POST", "/v3/auth/tokens", login(what, each)).status == 201]
            require(len(right) <= 1, f"{what} has the passwords {right}")
            return right[0] if right else None
        if kind == "token":
            status = connection.ask("GET", "/v3/auth/tokens", auth=self.token, subject=what).status
            return {200: "valid", 404: None}[status]
        if kind == "uses":
            return connection.ask("GET", f"/v3/OS-TRUST/trusts/{what}", auth=self.token).told()["trust"]["remaining_uses"]
        if kind == "trusts":
            return len(connection.ask("GET", f"/v3/OS-TRUST/trusts?trustor_user_id={what}", auth=self.token).told()["trusts"]) or None
        # A rotation tells which key was staged before it.
        told = connection.ask("POST", "/v3/OS-KS-KEYS/rotate", auth=self.token).told()["keys"]
        self.made += 1
        self.keys.primary = told["primary"]
        return told["primary"] - 1

    def compare(self, everything):
        """Asks for what was changed last, and for some or all else that is known; how many things it asked for."""
        asked = set(self.facts.recent)
        older = [thing for thing in self.facts.may if thing not in asked]
        asked |= set(older if everything else self.random.sample(older, min(SAMPLE, len(older))))
        for thing in sorted(asked):
            kind, what = thing
            if kind == "token" and self.keys.primary - self.sealed[what] > KEYS - 4:
                continue
            may, found = self.facts.may[thing], self.found(self.connection, kind, what)
            require(found in may, f"{kind} {what} is {found!r}, and may be {may}")
            self.facts.may[thing] = {found if kind != "primary" else self.keys.primary}
        self.facts.recent.clear()
        self.settle()
        return len(asked)

    def settle(self):
        """Takes up what was on the way when the server stopped, and stands."""
        for kind, what in [thing for thing in self.facts.may if thing[0] in ("trusts", "role", "password")]:
            value = self.facts.value((kind, what))
            if kind == "trusts" and value not in (None, len(self.trusts)):
                listed = self.connection.ask("GET", f"/v3/OS-TRUST/trusts?trustor_user_id={what}", auth=self.token).told()["trusts"]
                for trust in [each for each in listed if each["id"] not in self.trusts]:
                    self.trusts.append(trust["id"])
                    self.facts.may["uses", trust["id"]] = {USES}
            if kind == "role" and value is None:
                self.roles = [role for role in self.roles if role[1] != what]


def killed(program, clients, file, folder, rng):
    """Serves until a SIGKILL at a random moment; the changes whose replies were read, and how many were on the way."""
    with Server(program, file, folder, 4) as server:
        for client in clients:
            client.log_in(server.port)
        threads = [threading.Thread(target=client.run) for client in clients]
        for thread in threads:
            thread.start()
        time.sleep(rng.random() ** 2)
        server.process.send_signal(signal.SIGKILL)
        for thread in threads:
            thread.join()
        require(server.process.wait() == -signal.SIGKILL, f"the server ended with status {server.process.returncode}: {server.lines}")
    wrong = [client.wrong for client in clients if client.wrong]
    require(not wrong, f"before a stop: {wrong}")
    return sum(client.made for client in clients), sum(client.on_the_way for client in clients)


def compared(program, clients, file, folder, everything):
    """Serves, and asks for what stands; how many things were asked for, and how many changes that took."""
    asked = 0
    with Server(program, file, folder, 4) as server:
        for client in clients:
            client.log_in(server.port)
            asked += client.compare(everything)
            client.connection.close()
    return asked, sum(client.made for client in clients)


def stops(program, work, count):
    """Kills a server so often, and sees each time that nothing is lost."""
    file, told = opening_file(work)
    folder, seed, keys = os.path.join(work, "keys"), random.randrange(10 ** 9), Keys()
    rng, clients = random.Random(seed), [Client(number, told, keys) for number in range(4)]
    stood = changes = asked = 0
    try:
        for number in range(count):
            made, on_the_way = killed(program, clients, file, folder, rng)
            there = entries_of(file)
            require(stood + made <= there <= stood + made + on_the_way,
                    f"{there} entries stand behind {stood} and {made} changes, with {on_the_way} on the way")
            more, again = compared(program, clients, file, folder, number == count - 1)
            stood, changes, asked = there + again, changes + made, asked + more
            require(entries_of(file) == stood, f"{entries_of(file)} entries stand, and not {stood}")
    except Failure as why:
        raise Failure(f"{why} (seed {seed}, stop {number})") from why
    return f"{count} stops behind {changes:,} changes, {asked:,} things stood as they were said to be"


# A disk that is full.


def refused(program, file, folder, status, line):
    """The server does not start, and says so in this line alone."""
    ended = run(program, "serve", file, folder, f"{HOST}:{free_port()}")
    require(ended == (status, "", [line]), f"for {line!r}: {ended}")


def fill(server, project):
    """Sends changes until one is not answered; the description that was told last, and the one on the way."""
    with Connection(server.port) as connection:
        token = connection.ask("POST", "/v3/auth/tokens", login("ann", "secret", project_scope("demo"))).fields["X-Subject-Token"]
        last = None
        for number in range(100_000):
            description = f"{number} " + "x" * 4000
            try:
                response = connection.ask("PATCH", f"/v3/projects/{project}", {"project": {"description": description}}, token)
            except (Failure, OSError):
                return last, description
            require(response.status == 200, f"a change on a full disk is answered with {response.status}")
            last = description
    raise Failure("the disk does not get full")


def description_of(port, project):
    """What stands of the project that was changed."""
    with Connection(port) as connection:
        token = connection.ask("POST", "/v3/auth/tokens", login("ann", "secret", project_scope("demo"))).fields["X-Subject-Token"]
        return connection.ask("GET", f"/v3/projects/{project}", auth=token).told()["project"]["description"]


def filled(program, file, folder, project, before, make_room):
    """A server whose book has no more room ends with status 13, and goes on where there is room again."""
    with Server(program, file, folder, 2, before=before) as server:
        last, on_the_way = fill(server, project)
        # The other worker finds out at its next call.
        with contextlib.suppress(Failure, OSError), Connection(server.port) as connection:
            connection.ask("GET", "/v3")
        status = server.status()
        wanted = [server.listening, f"ks: {file}.book: a change could not be kept"]
        require((status, server.lines) == (13, wanted), f"on a full disk: status {status}, {server.lines}")
    make_room()
    with Server(program, file, folder, 2) as server:
        found = description_of(server.port, project)
        require(found in (last, on_the_way), f"behind a full disk stands {found[:20]!r} for {last[:20]!r}")


def mounted(place, options):
    """Mounts a small file system, or gives an existing one more room, where that may be done."""
    words = ["mount", "-t", "tmpfs", "-o", options, "tmpfs", place]
    return shutil.which("mount") and subprocess.run(words, stderr=subprocess.DEVNULL, check=False).returncode == 0


def full_disks(program, work, folder):
    """A file that may not grow, and a file system without room, where one can be mounted."""
    place = os.path.join(work, "limited")
    os.mkdir(place)
    file, told = opening_file(place)
    project = told["projects"][0]["id"]
    # Its files may be no larger than this, and who writes further is told so by an error.
    limited = ["sh", "-c", f'trap "" XFSZ; ulimit -f {ROOM // 512}; exec "$0" "$@"']
    filled(program, file, folder, project, limited, lambda: None)
    place = os.path.join(work, "small")
    os.mkdir(place)
    if not mounted(place, f"size={SMALL}"):
        return "a file that may not grow, and no file system could be mounted"
    try:
        file, told = opening_file(place)
        filled(program, file, folder, project, (), lambda: mounted(place, f"remount,size={16 * SMALL}"))
    finally:
        subprocess.run(["umount", place], check=False)
    return "a file that may not grow and a full file system"


# Books that are spoiled.


def some_book(program, work, folder):
    """An opening file whose book has some entries, and has no log."""
    file, told = opening_file(work)
    with Server(program, file, folder, 1) as server:
        with Connection(server.port) as connection:
            token = connection.ask("POST", "/v3/auth/tokens", login("ann", "secret", project_scope("demo"))).fields["X-Subject-Token"]
            for number in range(6):
                status = connection.ask("POST", "/v3/roles", {"role": {"name": f"role{number}"}}, token).status
                require(status == 201, f"a role is answered with {status}")
        held = f"ks: {file}.book: another process has it open"
        refused(program, file, folder, 13, held)
    changed(file, "SELECT 0")
    return file, told


def changed(file, *statements):
    """Has SQLite itself change the book of an opening file, and bring its log into it."""
    with contextlib.closing(sqlite3.connect(file + ".book", isolation_level=None)) as book:
        for each in ("PRAGMA wal_checkpoint(TRUNCATE)", *statements, "PRAGMA wal_checkpoint(TRUNCATE)"):
            book.execute(each).fetchall()


def spoiled_books(program, work, folder):
    """Each is refused with its status and one line, and left as it is."""
    file, _ = some_book(program, work, folder)
    follow = "can't follow those before it"
    other = f"ks: {file}: is not the file with which {file}.book began"
    cases = [
        ("a gap", ["DELETE FROM entry WHERE id = 3"], 13, "entry 3 is missing, and one behind it is not"),
        ("a first entry that is missing", ["DELETE FROM entry WHERE id = 0"], 13, "entry 0 is missing, and one behind it is not"),
        ("no header", ["DELETE FROM header"], 13, "it has entries and no header"),
        ("another table", ["CREATE TABLE more (id INTEGER PRIMARY KEY)"], 13, "its tables are not those of a book"),
        ("a missing table", ["DROP TABLE header"], 13, "its tables are not those of a book"),
        ("an entry of one byte", ["UPDATE entry SET body = x'00' WHERE id = 2"], 15, f"entry 2 {follow}"),
        ("an entry that stands already", ["UPDATE entry SET body = (SELECT body FROM entry WHERE id = 1) WHERE id = 4"], 15, f"entry 4 {follow}"),
        ("a header that was cut", ["UPDATE header SET body = substr(body, 1, length(body) - 1)"], 14, other),
        ("an empty file", None, 13, "it is empty"),
        ("no database", None, 13, None),
    ]
    with open(file + ".book", "rb") as book:
        whole = book.read()
    for what, statements, status, line in cases:
        with open(file + ".book", "wb") as book:
            book.write(whole if statements else b"no database" * 100 if what == "no database" else b"")
        for end in ("-wal", "-shm"):
            with contextlib.suppress(FileNotFoundError):
                os.remove(file + ".book" + end)
        if statements:
            changed(file, *statements)
        require_refused(program, file, folder, what, status, line)
    with open(file + ".book", "wb") as book:
        book.write(whole)
    with open(file, "a", encoding="utf-8") as opening:
        opening.write("\n")
    require_refused(program, file, folder, "another opening file", 14, other)
    return f"{len(cases) + 2} spoiled books"


def require_refused(program, file, folder, what, status, line):
    """The server does not start, says why in one line that names the book or the file, and leaves the book as it is."""
    with open(file + ".book", "rb") as book:
        before = book.read()
    ended, written, lines = run(program, "serve", file, folder, f"{HOST}:{free_port()}")
    require((ended, written, len(lines)) == (status, "", 1), f"{what}: status {ended}, {written!r} and {lines}")
    wanted = line if line and line.startswith("ks: ") else f"ks: {file}.book: {line or ''}"
    require(lines[0] == wanted if line else lines[0].startswith(wanted), f"{what}: {lines} for {wanted!r}")
    with open(file + ".book", "rb") as book:
        require(book.read() == before, f"{what}: the book was written")


def tried(program, count):
    """All of it."""
    work = tempfile.mkdtemp()
    try:
        folder = os.path.join(work, "keys")
        os.mkdir(folder, 0o700)
        run(program, "setup", folder)
        stopped = stops(program, work, count)
        full = full_disks(program, work, folder)
        place = os.path.join(work, "spoiled")
        os.mkdir(place)
        return f"{stopped}; {full}; {spoiled_books(program, place, folder)}"
    finally:
        shutil.rmtree(work, ignore_errors=True)


def main():
    parser = argparse.ArgumentParser(description=__doc__, formatter_class=argparse.RawDescriptionHelpFormatter)
    parser.add_argument("--stops", type=int, default=10)
    parser.add_argument("program", nargs="*")
    words = parser.parse_args()
    return main_of("stops", lambda: tried(program_of(words.program), words.stops))


if __name__ == "__main__":
    sys.exit(main())
