#!/usr/bin/env python3
"""Keeps 500 clients at `ks serve` for some minutes, half of which cut their connections, beside slow and deaf ones, and sees that each
token is what it may be.

    tests/soak.py [SECONDS [KS]]

Each client is a user of its own, who logs in, validates, revokes tokens and changes the own password, and every fourth one also
makes, changes and drops groups, while the keys rotate. Every second client closes or resets some connections behind a random byte
of a request. Beside them are clients that send a head or a body byte by byte, and clients that ask on and on and never read. A client notes of each token that it got whether it has to be valid, has to be refused, or may be either, as where a
revocation was cut off behind its last byte. Each answer has to agree with that, and at the end each token is validated once more,
and again behind each of three restarts, of which the first follows on a SIGKILL.
It also prints how much memory was resident at first and at last, which may grow by the rows and the remembered changes alone.

SECONDS are 600 where they are not said. The program is the second word, the environment's KS, or bin/ks of this repository. The exit
status is 1 where anything is otherwise.
"""

import calendar
import collections
import json
import multiprocessing
import os
import random
import shutil
import signal
import socket
import struct
import sys
import tempfile
import threading
import time

sys.dont_write_bytecode = True
from crowd import Harm
from served import Connection, Failure, Server, exchange, login, main_of, program_of, project_scope, request, require, run

CLIENTS, PROCESSES, WORKERS = 500, 8, 4
SLOW_HEADS, SLOW_BODIES, NEVER_READ = 60, 60, 10
RESTARTS = 3
ROUNDS = 200
PROJECT, ADMIN, MEMBER = "a" * 32, "b" * 32, "c" * 32

# How many seconds a connection may be idle; the server closes it after 60.
IDLE = 3

# How many seconds a request that was sent whole, and then cut off, may still be answered.
SETTLED = 60

# How many tokens all clients together revoke at most: for what users do for themselves there is room for 131,072 live revocations.
MOST_REVOKED = 120_000

# At most so many KiB are taken for each row and each remembered change, and for what the workers use.
ROW, CHANGE, SPARE = 2, 2, 16_384
REMEMBERED = 65_536


def user_of(number):
    """The id and the name of a client's user."""
    return f"{number:032x}", f"user{number}"


def opening(seconds):
    """An opening file with a user for each client."""
    users = [{"id": user_of(number)[0], "domain_id": "default", "name": user_of(number)[1], "password": f"first {number}"}
             for number in range(CLIENTS)]
    roles = [(ADMIN if number % 4 == 0 else MEMBER, each["id"]) for number, each in enumerate(users)]
    return {
        "settings": {"life": min(604_800, max(3600, 4 * seconds)), "rounds": ROUNDS, "max_active_keys": 32},
        "domains": [{"id": "default", "name": "Default"}],
        "projects": [{"id": PROJECT, "domain_id": "default", "name": "demo"}],
        "roles": [{"id": ADMIN, "name": "admin"}, {"id": MEMBER, "name": "member"}],
        "users": users,
        "assignments": [{"user": user, "project": PROJECT, "role": role} for role, user in roles],
    }


class Token:
    """A token and what it has to be: valid, refused, or either."""

    def __init__(self, text, issued, fate):
        self.text, self.issued, self.fate = text, issued, fate

    def agrees(self, is_valid):
        """Whether a validation with this outcome agrees with what the token has to be; what is refused once stays so."""
        agrees = self.fate == "either" or (self.fate == "valid") == is_valid
        if self.fate == "either" and not is_valid:
            self.fate = "refused"
        return agrees

    def end(self, is_sure):
        """It was revoked, or perhaps."""
        if is_sure:
            self.fate = "refused"
        elif self.fate == "valid":
            self.fate = "either"


class Client:
    """One user: its tokens, its connection, where one is open, and its password. Where a change of the password was cut off behind
    its last byte, it has two: what was, and what may be from some moment before `settled` on. A token that was issued up to
    `doubtful` may be ended by a change of the password in the same second.
    """

    def __init__(self, number, port, seed):
        self.number, self.port, self.random = number, port, random.Random(f"{seed} {number}")
        self.user, self.name = user_of(number)
        self.passwords, self.settled, self.doubtful = [f"first {number}"], 0, 0
        self.tokens, self.groups = [], []
        self.connection, self.left, self.used, self.did = None, 0, 0, collections.Counter()

    # Connections.

    def close(self):
        """Closes the connection."""
        if self.connection is not None:
            self.connection.close()
        self.connection = None

    def opened(self):
        """The connection, a new one after some requests, or where the server may have closed the old one for being idle."""
        if time.monotonic() - self.used > IDLE:
            self.close()
        if self.connection is None:
            self.connection, self.left = Connection(self.port), self.random.randint(1, 12)
        self.left -= 1
        return self.connection

    def ask(self, what, statuses, method, path, body=None, auth=None, subject=None):
        """The response to a request, which has one of these statuses."""
        self.did[what] += 1
        response = self.opened().ask(method, path, body, auth, subject)
        self.used = time.monotonic()
        require(response.status in statuses,
                f"{self.name}: {what}: status {response.status} for one of {statuses}, and {response.body[:200]!r}")
        if self.left <= 0:
            self.close()
        return response

    def cut(self, method, path, body=None, auth=None, subject=None):
        """Ends the connection behind some byte of a request, and says whether the whole request was sent."""
        self.did["cut"] += 1
        data = request(method, path, body, auth, subject)
        place = self.random.choice([self.random.randint(0, len(data)), len(data)])
        connection = self.opened()
        connection.send(data[:place])
        if self.random.random() < 0.5:
            connection.socket.setsockopt(socket.SOL_SOCKET, socket.SO_LINGER, struct.pack("ii", 1, 0))
        self.close()
        return place == len(data)

    def cuts(self):
        """Whether the next request is to be cut."""
        return self.number % 2 == 1 and self.random.random() < 0.2

    # What it does.

    def log_in(self):
        """A login by the password, or with a token that has to be valid; a token is noted."""
        token = self.some("valid")
        if token and self.random.random() < 0.3:
            self.get_token(exchange(token.text, project_scope("demo")), (201,))
            return
        is_settled, password = time.time() > self.settled, self.random.choice(self.passwords)
        body = login(self.name, password, project_scope("demo"))
        if len(self.passwords) == 1:
            self.get_token(body, (201,))
            return
        status = self.get_token(body, (201, 401))
        if status is None:
            return
        if (status == 201) == (password == self.passwords[1]):
            # The change was made.
            self.passwords, self.doubtful = self.passwords[1:], int(time.time())
        elif is_settled:
            # It was not made, and will not be.
            self.passwords.pop()

    def get_token(self, body, statuses):
        """The status of a login, whose token is noted; None where it was cut."""
        if self.cuts():
            self.cut("POST", "/v3/auth/tokens", body)
            return None
        response = self.ask("login", statuses, "POST", "/v3/auth/tokens", body)
        if response.status == 201:
            issued = response.told()["token"]["issued_at"]
            issued = calendar.timegm(time.strptime(issued, "%Y-%m-%dT%H:%M:%S.000000Z"))
            is_sure = len(self.passwords) == 1 and issued > self.doubtful
            self.tokens.append(Token(response.fields["X-Subject-Token"], issued, "valid" if is_sure else "either"))
        return response.status

    def guess(self):
        """A login by a wrong password."""
        self.ask("guess", (401,), "POST", "/v3/auth/tokens", login(self.name, "a guess", project_scope("demo")))

    def some(self, *fates):
        """One of the last tokens that has one of these fates, or None."""
        found = [token for token in self.tokens[-40:] if token.fate in fates]
        return self.random.choice(found) if found else None

    def validate(self):
        """Any token of this user, by one that has to be valid."""
        caller, token = self.some("valid"), self.some("valid", "either", "refused")
        if caller is None:
            self.log_in()
        elif self.cuts():
            self.cut("GET", "/v3/auth/tokens", auth=caller.text, subject=token.text)
        else:
            response = self.ask("validation", (200, 404), "GET", "/v3/auth/tokens", auth=caller.text, subject=token.text)
            require(token.agrees(response.status == 200), f"{self.name}: a token that is {token.fate}: status {response.status}")

    def revoke(self):
        """A token that has to be valid, by itself."""
        token = self.some("valid")
        if token is None:
            self.log_in()
        elif self.cuts():
            if self.cut("DELETE", "/v3/auth/tokens", auth=token.text, subject=token.text):
                token.end(False)
        else:
            self.ask("revocation", (204,), "DELETE", "/v3/auth/tokens", auth=token.text, subject=token.text)
            token.end(True)

    def change_password(self):
        """A new password, which revokes each token that was issued up to that second."""
        if len(self.passwords) > 1:
            self.log_in()
            return
        new, began = f"next {self.random.random()}", int(time.time())
        body = {"user": {"original_password": self.passwords[0], "password": new}}
        if self.cuts():
            if self.cut("POST", f"/v3/users/{self.user}/password", body):
                self.passwords, self.settled = [self.passwords[0], new], time.time() + SETTLED
                for token in self.tokens:
                    token.end(False)
            return
        self.ask("password", (204,), "POST", f"/v3/users/{self.user}/password", body)
        self.passwords, ended = [new], int(time.time())
        self.doubtful = ended
        for token in self.tokens:
            if token.issued <= ended:
                token.end(token.issued <= began)

    def change_groups(self):
        """A group is made, renamed or dropped, where this user may."""
        caller = self.some("valid")
        if caller is None:
            self.log_in()
        elif not self.groups or self.random.random() < 0.4:
            body = {"group": {"name": f"group {self.number} {self.random.random()}", "domain_id": "default"}}
            response = self.ask("group", (201,), "POST", "/v3/groups", body, caller.text)
            self.groups.append(response.told()["group"]["id"])
        elif len(self.groups) < 50 and self.random.random() < 0.5:
            body = {"group": {"description": f"{self.random.random()}"}}
            self.ask("group", (200,), "PATCH", f"/v3/groups/{self.random.choice(self.groups)}", body, caller.text)
        else:
            self.ask("group", (204,), "DELETE", f"/v3/groups/{self.groups.pop()}", auth=caller.text)

    def act(self, revoked):
        """One of these; `revoked` counts revocations over all clients."""
        weights = {self.validate: 60, self.log_in: 12, self.guess: 2}
        with revoked.get_lock():
            may_revoke = revoked.value < MOST_REVOKED
            revoked.value += 1 if may_revoke else 0
        if may_revoke:
            weights.update({self.revoke: 5, self.change_password: 1})
        if self.number % 4 == 0:
            weights[self.change_groups] = 5
        chosen = self.random.choices(list(weights), list(weights.values()))[0]
        if chosen not in (self.revoke, self.change_password) and may_revoke:
            with revoked.get_lock():
                revoked.value -= 1
        chosen()

    def run(self, until, revoked, wrong):
        """Acts until then, or until something is wrong with any client of this process."""
        try:
            while time.time() < until and not wrong:
                self.act(revoked)
        except (Failure, OSError) as why:
            wrong.append(f"{self.name}: {why}" if isinstance(why, OSError) else str(why))
        finally:
            self.close()


def clients_of(numbers, port, seed, until, revoked, results):
    """Runs some clients, a thread for each, and hands on their tokens and what they did."""
    wrong, did = [], collections.Counter()
    clients = [Client(number, port, seed) for number in numbers]
    threads = [threading.Thread(target=client.run, args=(until, revoked, wrong)) for client in clients]
    for thread in threads:
        thread.start()
    for thread in threads:
        thread.join()
    for client in clients:
        did.update(client.did)
    tokens = [(client.number, token.text, token.fate) for client in clients for token in client.tokens]
    results.put((wrong, did, tokens, sum(len(client.groups) for client in clients)))


class Keeper:
    """Rotates the keys of the folder and has the server load them, a few dozen times in all."""

    def __init__(self, program, folder, server, seconds):
        self.program, self.folder, self.server = program, folder, server
        self.pause, self.rotations, self.token = max(1, seconds / 25), 0, None

    def log_in(self):
        """The token of the administrator, by the password that nobody changes."""
        with Connection(self.server.port) as connection:
            response = connection.ask("POST", "/v3/auth/tokens", login("keeper", "keeps", project_scope("demo")))
        require(response.status == 201, f"the keeper's login: status {response.status}")
        self.token = response.fields["X-Subject-Token"]

    def rotate(self):
        """One rotation, and its loading."""
        status, written, lines = run(self.program, "rotate", self.folder, "--max", "32")
        require(status == 0, f"a rotation: status {status}, and {lines}")
        held = [int(index) for index in written.split()[1:]]
        with Connection(self.server.port) as connection:
            response = connection.ask("POST", "/v3/OS-KS-KEYS/load", auth=self.token)
        require(response.status == 200 and response.told()["keys"]["held"] == held,
                f"loading the keys {held}: status {response.status}, and {response.body[:200]!r}")
        self.rotations += 1

    def keep(self, until):
        """Rotates until then, each time beside other clients that mean harm."""
        while time.time() + self.pause < until:
            harm = Harm(self.server.port, self.token, SLOW_HEADS, SLOW_BODIES, NEVER_READ)
            time.sleep(self.pause)
            harm.end()
            require(self.server.process.poll() is None, f"the server ended with status {self.server.process.poll()}")
            self.rotate()


def validate_all(port, keeper, tokens):
    """Validates every token once more: how many were valid, refused, and either."""
    found = collections.Counter()
    with Connection(port) as connection:
        for number, text, fate in tokens:
            response = connection.ask("GET", "/v3/auth/tokens", auth=keeper, subject=text)
            require(response.status in (200, 404), f"at the end: status {response.status}, and {response.body[:200]!r}")
            require(fate == "either" or (fate == "valid") == (response.status == 200),
                    f"at the end: a token of user{number} that has to be {fate}: status {response.status}")
            found[fate] += 1
    return found


def soaked(program, seconds, work):
    """All of it."""
    file, folder, seed = os.path.join(work, "opening.json"), os.path.join(work, "keys"), random.randrange(10 ** 9)
    told = opening(seconds)
    keeper_id = "d" * 32
    told["users"].append({"id": keeper_id, "domain_id": "default", "name": "keeper", "password": "keeps"})
    told["assignments"].append({"user": keeper_id, "project": PROJECT, "role": ADMIN})
    with open(file, "w", encoding="utf-8") as opened:
        json.dump(told, opened)
    os.mkdir(folder, 0o700)
    require(run(program, "setup", folder)[0] == 0, "the keys cannot be set up")
    print(f"soak: seed {seed}", flush=True)
    with Server(program, file, folder, WORKERS) as server:
        keeper = Keeper(program, folder, server, seconds)
        keeper.log_in()
        first, until = server.memory(), time.time() + seconds
        revoked, results = multiprocessing.Value("Q", 0), multiprocessing.Queue()
        processes = [multiprocessing.Process(target=clients_of, args=(range(start, CLIENTS, PROCESSES), server.port, seed, until,
                                                                      revoked, results)) for start in range(PROCESSES)]
        for process in processes:
            process.start()
        try:
            keeper.keep(until)
            told = [results.get(timeout=seconds + 300) for _ in processes]
        finally:
            for process in processes:
                process.join(5)
                process.kill()
        wrong = [why for part in told for why in part[0]]
        require(not wrong, "\n".join(wrong))
        did = sum((part[1] for part in told), collections.Counter())
        tokens = [token for part in told for token in part[2]]
        found = validate_all(server.port, keeper.token, tokens)
        last, groups = server.memory(), sum(part[3] for part in told)
        require(server.lines == [server.listening], f"the server said {server.lines}")
        server.process.send_signal(signal.SIGKILL)
        server.process.wait()
    for _ in range(RESTARTS):
        with Server(program, file, folder, WORKERS) as server:
            keeper.server = server
            keeper.log_in()
            again = validate_all(server.port, keeper.token, tokens)
            require(again == found, f"behind a restart: {dict(again)} for {dict(found)}")
    rows, changes = revoked.value + groups, min(REMEMBERED, revoked.value + did["group"] + keeper.rotations)
    explained = rows * ROW + changes * CHANGE + SPARE
    print(f"soak: {dict(did)}, {keeper.rotations} rotations; at the end {dict(found)}")
    print(f"soak: {first:,} KiB resident at first, {last:,} at last; {rows:,} rows and {changes:,} changes may take {explained:,} more")
    require(last <= first + explained, "there is more in memory than the rows explain")
    return f"{sum(did.values()):,} requests in {seconds} seconds, as they are said to be"


def main():
    seconds = int(sys.argv[1]) if len(sys.argv) > 1 else 600
    work = tempfile.mkdtemp()
    try:
        return main_of("soak", lambda: soaked(program_of(sys.argv[2:]), seconds, work))
    finally:
        shutil.rmtree(work, ignore_errors=True)


if __name__ == "__main__":
    sys.exit(main())
