#!/usr/bin/env python3
"""Holds `ks serve` to its word over real sockets: sessions, two connections at once, its waits, its keys and its statuses.

    tests/serve.py [KS]

It listens on free ports of 127.0.0.1, with keys that `ks setup` makes in a folder that goes afterwards. It takes about 35 seconds, of
which 30 are a wait of the server. The program is bin/ks of this repository, the environment's KS, or the word. The exit
status is 1 where it does otherwise.
"""

import json
import os
import shutil
import socket
import sys
import tempfile
import time

sys.dont_write_bytecode = True
from served import HOST, TOP, Connection, Failure, Server, exchange, fresh, login, main_of, program_of, project_scope, request, require, run

O1 = os.path.join(TOP, "examples", "o1.json")

PASSWORDS = {"ann": "secret", "bob": "hunter2"}


def status_of(what, response, wanted):
    """A response that has this status."""
    require(response.status == wanted, f"{what}: status {response.status} for {wanted}, and {response.body[:200]!r}")
    return response


def log_in(connection, name, scope=None):
    """The token of a login by a password."""
    scope = scope or project_scope("demo")
    response = status_of(f"a login of {name}", connection.ask("POST", "/v3/auth/tokens", login(name, PASSWORDS[name], scope)), 201)
    user = response.told()["token"]["user"]["name"]
    require(user == name, f"a login of {name}: the token is that of {user}")
    require("X-Subject-Token" in response.fields, f"a login of {name}: no token came")
    return response.fields["X-Subject-Token"]


def a_session(connection):
    """The version, logins, validations and a listing; the tokens of ann and bob."""
    version = status_of("the version", connection.ask("GET", "/v3"), 200).told()["version"]
    require(version["id"] == "v3.14", f"the version: {version}")
    ann, bob = log_in(connection, "ann"), log_in(connection, "bob")
    told = status_of("a validation", connection.ask("GET", "/v3/auth/tokens", auth=ann, subject=bob), 200).told()["token"]
    require((told["user"]["name"], told["project"]["name"]) == ("bob", "demo"), f"a validation: {told}")
    require([role["name"] for role in told["roles"]] == ["member"], f"a validation: {told['roles']}")
    projects = status_of("the projects", connection.ask("GET", "/v3/projects", auth=ann), 200).told()["projects"]
    require([project["name"] for project in projects] == ["demo"], f"the projects: {projects}")
    return ann, bob


def refusals(connection, ann, bob):
    """What is refused, and how."""
    guessed = connection.ask("POST", "/v3/auth/tokens", login("bob", "a guess", project_scope("demo")))
    status_of("a wrong password", guessed, 401)
    require(guessed.fields.get("WWW-Authenticate", "").startswith("Keystone uri="), f"a wrong password: {guessed.fields}")
    status_of("a validation of garbage", connection.ask("GET", "/v3/auth/tokens", auth=ann, subject="gAAAAAgarbage"), 404)
    status_of("a validation by garbage", connection.ask("GET", "/v3/auth/tokens", auth="garbage", subject=ann), 401)
    status_of("users, without the role", connection.ask("GET", "/v3/users", auth=bob), 403)
    status_of("a path that is none", connection.ask("GET", "/v3/nothing", auth=ann), 404)
    status_of("a method that is none", connection.ask("PUT", "/v3"), 405)


def rows_of_examples():
    """What the opening file of the examples holds."""
    with open(O1, encoding="utf-8") as file:
        return json.load(file)


def a_trust(connection, ann, bob):
    """A trust is made, used, validated and dropped; with it goes its token."""
    rows = rows_of_examples()
    users, project = [user["id"] for user in rows["users"]], rows["projects"][0]["id"]
    body = {"trust": {"trustor_user_id": users[0], "trustee_user_id": users[1], "project_id": project, "impersonation": True,
                      "roles": [{"name": "admin"}]}}
    trust = status_of("a new trust", connection.ask("POST", "/v3/OS-TRUST/trusts", body, ann), 201).told()["trust"]["id"]
    used = connection.ask("POST", "/v3/auth/tokens", exchange(bob, {"OS-TRUST:trust": {"id": trust}}))
    token = status_of("a login with the trust", used, 201).fields["X-Subject-Token"]
    told = status_of("its validation", connection.ask("GET", "/v3/auth/tokens", auth=ann, subject=token), 200).told()["token"]
    require(told["user"]["name"] == "ann" and told["OS-TRUST:trust"]["id"] == trust, f"a token of the trust: {told}")
    status_of("the end of the trust", connection.ask("DELETE", f"/v3/OS-TRUST/trusts/{trust}", auth=ann), 204)
    status_of("a validation behind it", connection.ask("GET", "/v3/auth/tokens", auth=ann, subject=token), 404)


def many_on_one(connection, ann):
    """Requests that are sent at once are answered in their order."""
    asked = [("GET", "/v3"), ("HEAD", "/v3/auth/tokens"), ("GET", "/v3/users"), ("GET", "/v3/nothing")]
    connection.send(b"".join(request(method, path, auth=ann, subject=ann) for method, path in asked))
    statuses = [connection.response(method).status for method, _ in asked]
    require(statuses == [200, 200, 200, 404], f"requests at once: {statuses}")


def two_at_once(port):
    """A connection in the middle of a request holds its own worker alone; what one connection changed the other one sees."""
    with Connection(port) as held, Connection(port) as other:
        whole = request("POST", "/v3/auth/tokens", login("bob", PASSWORDS["bob"], project_scope("demo")))
        held.send(whole[:len(whole) // 2])
        time.sleep(0.2)
        began = time.monotonic()
        ann, bob = a_session(other)
        refusals(other, ann, bob)
        a_trust(other, ann, bob)
        many_on_one(other, ann)
        require(time.monotonic() - began < 20, "a connection that waits for a request slows down the other one")
        status_of("revoking a token", other.ask("DELETE", "/v3/auth/tokens", auth=ann, subject=bob), 204)
        held.send(whole[len(whole) // 2:])
        later = status_of("a login in two pieces", held.response("POST"), 201).fields["X-Subject-Token"]
        status_of("its validation on the other connection", other.ask("GET", "/v3/auth/tokens", auth=ann, subject=later), 200)
        status_of("a validation of what is revoked", held.ask("GET", "/v3/auth/tokens", auth=ann, subject=bob), 404)


def waits(port):
    """A connection that stops within a head is closed after 10 seconds, and one that stops within a body after 30; others go on."""
    with Connection(port) as head, Connection(port) as body, Connection(port) as kept:
        began = time.monotonic()
        head.send(b"GET /v3 HT")
        body.send(b"POST /v3/auth/tokens HTTP/1.1\r\nContent-Length: 100\r\n\r\n{")
        status_of("the version", kept.ask("GET", "/v3"), 200)
        head.seconds_until_closed()
        seconds = time.monotonic() - began
        require(9 <= seconds <= 16, f"a connection within a head is closed after {seconds:.1f} seconds")
        status_of("the version on a kept connection", kept.ask("GET", "/v3"), 200)
        body.seconds_until_closed()
        seconds = time.monotonic() - began
        require(28 <= seconds <= 36, f"a connection within a body is closed after {seconds:.1f} seconds")
        status_of("the version on a connection that was kept for long", kept.ask("GET", "/v3"), 200)


def until_it_ends(server):
    """Asks on further connections until each worker had as many as it is to have. One that rests counts anew."""
    for _ in range(20):
        if server.process.poll() is not None:
            return
        try:
            with Connection(server.port, 5) as connection:
                status_of("one of the last connections", connection.ask("GET", "/v3"), 200)
        except (Failure, OSError):
            require(server.status() == 0, "a connection is not answered, and the server goes on")
        time.sleep(0.1)


def cut(port):
    """Connections that end at any place end no worker."""
    whole = request("POST", "/v3/auth/tokens", login("ann", PASSWORDS["ann"]))
    for length in range(0, len(whole) + 1, 8):
        connection = Connection(port)
        connection.send(whole[:length])
        if length % 16 == 0:
            # The close is a reset.
            connection.socket.setsockopt(socket.SOL_SOCKET, socket.SO_LINGER, b"\1\0\0\0\0\0\0\0")
        connection.close()
    with Connection(port) as one, Connection(port) as other:
        status_of("behind connections that were cut", one.ask("GET", "/v3"), 200)
        status_of("behind connections that were cut, on the other worker", other.ask("GET", "/v3"), 200)


def a_body_that_is_too_long(port):
    """Its refusal reaches a client that sends it to its end, piece by piece, though the server reads no more than its head."""
    pieces, piece = 10, 50_000
    with Connection(port) as connection:
        connection.send(f"POST /v3/auth/tokens HTTP/1.1\r\nHost: {HOST}\r\nContent-Length: {pieces * piece}\r\n\r\n".encode())
        for _ in range(pieces):
            time.sleep(0.05)
            connection.send(b"x" * piece)
        status_of("a body that is too long", connection.response("POST"), 413)
        require(connection.socket.recv(1) == b"", "a body that is too long: the connection goes on")


def statuses(program, folder, port):
    """How the program ends where it does not serve."""
    for address in (f"{HOST}:{port}", "no address", "192.0.2.1:5000"):
        began = time.monotonic()
        status, written, lines = run(program, "serve", fresh(O1), folder, address)
        require((status, written, len(lines)) == (10, "", 1), f"at {address}: status {status}, {written!r} and {lines}")
        require(lines[0].startswith("ks: "), f"at {address}: {lines}")
        require(time.monotonic() - began < 20, f"at {address}: it takes long to be refused")
    for words in (["--workers", "0"], ["--workers", "33"], ["--connections", "1000001"], ["--workers"], ["--port", "1"]):
        status, written, lines = run(program, "serve", fresh(O1), folder, f"{HOST}:{port}", *words)
        require((status, written, len(lines)) == (2, "", 1), f"with {words}: status {status}, {written!r} and {lines}")


def keys_of_a_folder(program, work, folder):
    """Keys are rotated while it serves; it ends by itself where each worker had its connections."""
    rows = rows_of_examples()
    rows["keys"] = "folder"
    file = os.path.join(work, "folder.json")
    with open(file, "w", encoding="utf-8") as opening:
        json.dump(rows, opening)
    with Server(program, file, folder, 2, connections=3) as server:
        with Connection(server.port) as connection:
            before = log_in(connection, "ann")
            rotated = run(program, "rotate", folder)
            require(rotated == (0, "keys 0 1 2\n", []), f"a rotation: {rotated}")
            loaded = status_of("loading the keys", connection.ask("POST", "/v3/OS-KS-KEYS/load", auth=before), 200).told()
            require(loaded == {"keys": {"held": [0, 1, 2], "primary": 2}}, f"loading the keys: {loaded}")
            after = log_in(connection, "ann")
            for token in (before, after):
                status_of("a token over a rotation", connection.ask("GET", "/v3/auth/tokens", auth=after, subject=token), 200)
        until_it_ends(server)
        status = server.status()
        require(status == 0, f"behind the last connection: status {status}, and {server.lines}")
        require(server.lines == [server.listening], f"it said {server.lines}")


def tried(program):
    """All of it."""
    work = tempfile.mkdtemp()
    try:
        folder = os.path.join(work, "keys")
        os.mkdir(folder, 0o700)
        made = run(program, "setup", folder)
        require(made == (0, "keys 0 1\n", []), f"setup: {made}")
        with Server(program, fresh(O1), folder, 2) as server:
            two_at_once(server.port)
            cut(server.port)
            a_body_that_is_too_long(server.port)
            statuses(program, folder, server.port)
            waits(server.port)
            require(server.process.poll() is None, f"the server ended with status {server.process.poll()}")
            server.end()
            require(server.lines == [server.listening], f"it said {server.lines}")
        keys_of_a_folder(program, work, folder)
    finally:
        shutil.rmtree(work, ignore_errors=True)
    return "sessions, waits, keys and statuses are as they are said to be"


if __name__ == "__main__":
    sys.exit(main_of("serve", lambda: tried(program_of(sys.argv[1:]))))
