#!/usr/bin/env python3
"""A client of `ks talk`: logs in, has a token validated, lists users, is refused, revokes a token, and asks again.

    examples/session.py [KS]

Prints a line for each request: its status, and the front of its body. The program is bin/ks of this repository, or the word. A token
is only known once its login is answered, so each request waits for the response to the one before.
"""

import json
import os
import shutil
import subprocess
import sys
import tempfile

TOP = os.path.dirname(os.path.dirname(os.path.abspath(__file__)))


class Client:
    """One connection to `ks talk` over a copy of the examples' opening file, beside which its changes are kept."""

    def __init__(self, program, place):
        file = shutil.copy(os.path.join(TOP, "examples", "o1.json"), place)
        words = [program, "talk", file, os.path.join(TOP, "examples", "keys")]
        self.server = subprocess.Popen(words, stdin=subprocess.PIPE, stdout=subprocess.PIPE)

    def ask(self, method, path, body=None, **tokens):
        """The status, the fields and the body of the response."""
        data = json.dumps(body).encode() if body is not None else b""
        head = [f"{method} {path} HTTP/1.1"] + ([f"Content-Length: {len(data)}"] if data else [])
        head += [f"X-{name.capitalize()}-Token: {token}" for name, token in tokens.items()]
        self.server.stdin.write("".join(line + "\r\n" for line in head + [""]).encode() + data)
        self.server.stdin.flush()
        status = int(self.server.stdout.readline().split()[1])
        fields = {}
        while line := self.server.stdout.readline().decode().strip():
            name, value = line.split(": ", 1)
            fields[name] = value
        told = self.server.stdout.read(int(fields.get("Content-Length", 0)) if method != "HEAD" else 0).decode()
        print(f"{status} {method} {path} {told[:60]}")
        return status, fields, told

    def log_in(self, name, password):
        user = {"name": name, "domain": {"id": "default"}, "password": password}
        scope = {"project": {"name": "demo", "domain": {"id": "default"}}}
        body = {"auth": {"identity": {"methods": ["password"], "password": {"user": user}}, "scope": scope}}
        return self.ask("POST", "/v3/auth/tokens", body)[1].get("X-Subject-Token")


def main():
    program = sys.argv[1] if len(sys.argv) > 1 else os.environ.get("KS") or os.path.join(TOP, "bin", "ks")
    with tempfile.TemporaryDirectory() as place:
        return session(Client(program, place))


def session(client):
    """Asks, and tells whether it was answered as it has to be."""
    ann, bob, nobody = client.log_in("ann", "secret"), client.log_in("bob", "hunter2"), client.log_in("bob", "a guess")
    statuses = [
        client.ask("GET", "/v3/auth/tokens", auth=ann, subject=bob)[0],
        client.ask("GET", "/v3/users", auth=ann)[0],
        client.ask("GET", "/v3/users", auth=bob)[0],
        client.ask("DELETE", "/v3/auth/tokens", auth=ann, subject=bob)[0],
        client.ask("GET", "/v3/auth/tokens", auth=ann, subject=bob)[0],
    ]
    client.server.stdin.close()
    ended = client.server.wait()
    return 0 if nobody is None and statuses == [200, 200, 403, 204, 404] and ended == 0 else 1


if __name__ == "__main__":
    sys.exit(main())
