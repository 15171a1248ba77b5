#!/usr/bin/env python3
"""Fills the table of revocations up to both of its limits, and sees who still finds room.

    tests/event_room.py

A domain with nearly as many users and projects as may stand is deleted, which revokes each of them: so one revocation less is live than
users may lead to by what they do for themselves. Behind one more of these each is refused, and disabling goes on until the table is
full. The program is bin/ks of this repository, or the environment's KS. The exit status is 1 where it answers otherwise.
"""

import json
import os
import subprocess
import sys
import tempfile
import threading

TOP = os.path.dirname(os.path.dirname(os.path.abspath(__file__)))
KS = os.environ.get("KS") or os.path.join(TOP, "bin", "ks")
ROWS, SELF_REVOCATIONS, EVENTS = 65_536, 131_072, 262_144
FULL = "The event table is full."


def opening():
    """The example's, with a domain whose users and projects leave room for no more."""
    with open(os.path.join(TOP, "examples", "o1.json"), encoding="utf-8") as file:
        told = json.load(file)
    told["domains"].append({"id": "big", "name": "big"})
    for kind in ("users", "projects"):
        told[kind] += [{"id": f"{kind}{number}", "name": f"{number}", "domain_id": "big"} for number in range(ROWS - len(told[kind]))]
    return told


def login(name, password):
    """The body that a user logs in with, on the example's project."""
    user = {"name": name, "domain": {"id": "default"}, "password": password}
    return {"auth": {"identity": {"methods": ["password"], "password": {"user": user}},
                     "scope": {"project": {"name": "demo", "domain": {"id": "default"}}}}}


class Talk:
    """A connection to the program."""

    def __init__(self, place):
        with open(os.path.join(place, "opening.json"), "w", encoding="utf-8") as file:
            json.dump(opening(), file)
        words = [KS, "talk", os.path.join(place, "opening.json"), os.path.join(TOP, "examples", "keys")]
        self.run = subprocess.Popen(words, stdin=subprocess.PIPE, stdout=subprocess.PIPE)
        self.caller = None

    def bytes_of(self, method, path, body=None, subject=None):
        """The bytes of a request."""
        data = b"" if body is None else json.dumps(body).encode()
        lines = [f"{method} {path} HTTP/1.1", f"Content-Length: {len(data)}"]
        lines += [f"X-Auth-Token: {self.caller}"] if self.caller else []
        lines += [f"X-Subject-Token: {subject}"] if subject else []
        return "".join(line + "\r\n" for line in lines + [""]).encode() + data

    def response(self):
        """The status, the fields and the body of the next response."""
        status, fields = int(self.run.stdout.readline().split()[1]), {}
        while line := self.run.stdout.readline().decode().strip():
            name, _, value = line.partition(": ")
            fields[name] = value
        body = self.run.stdout.read(int(fields.get("Content-Length", "0")))
        return status, fields, json.loads(body) if body else None

    def ask(self, *request, **more):
        """Sends a request and gives its response."""
        self.run.stdin.write(self.bytes_of(*request, **more))
        self.run.stdin.flush()
        return self.response()

    def require(self, status, *request, **more):
        """The response, which has this status; a 503 is that of the full table."""
        found, fields, told = self.ask(*request, **more)
        if found != status or found == 503 and told["error"]["message"] != FULL:
            raise SystemExit(f"event_room: {request[:2]}: {found} in place of {status}: {told}")
        return fields, told

    def repeat(self, requests, times):
        """Sends the requests so often, and counts the responses with 200."""
        writer = threading.Thread(target=lambda: (self.run.stdin.write(b"".join(requests) * times), self.run.stdin.flush()))
        writer.start()
        granted = sum(self.response()[0] == 200 for _ in range(times * len(requests)))
        writer.join()
        return granted


def refuse_own(talk, token, trust):
    """What users do for themselves finds no room."""
    talk.require(503, "DELETE", "/v3/auth/tokens", subject=token)
    talk.require(503, "DELETE", "/v3/OS-TRUST/trusts/" + trust)
    talk.require(503, "POST", "/v3/users/bob/password", {"user": {"original_password": "hunter2", "password": "other"}})
    talk.require(201, "POST", "/v3/auth/tokens", login("bob", "hunter2"))


def main():
    with tempfile.TemporaryDirectory() as place:
        talk = Talk(place)
        tokens = [talk.require(201, "POST", "/v3/auth/tokens", login("ann", "secret"))[0]["X-Subject-Token"] for _ in range(3)]
        talk.caller = tokens[0]
        user = talk.require(200, "GET", "/v3/auth/tokens", subject=tokens[0])[1]["token"]["user"]["id"]
        project = talk.require(200, "GET", "/v3/projects?name=demo")[1]["projects"][0]["id"]
        trust = talk.require(201, "POST", "/v3/OS-TRUST/trusts", {"trust": {
            "trustor_user_id": user, "trustee_user_id": "bob", "project_id": project, "impersonation": False,
            "roles": [{"name": "admin"}]}})[1]["trust"]["id"]
        # The domain ends twice, and each of its users and projects once; two users and a project are not its own.
        talk.require(200, "PATCH", "/v3/domains/big", {"domain": {"enabled": False}})
        talk.require(204, "DELETE", "/v3/domains/big")
        live = 2 + 2 * ROWS - 3
        talk.require(204, "DELETE", "/v3/auth/tokens", subject=tokens[1])
        live += 1
        if live != SELF_REVOCATIONS:
            raise SystemExit(f"event_room: {live} are live")
        refuse_own(talk, tokens[2], trust)
        other = talk.require(201, "POST", "/v3/projects", {"project": {"name": "other"}})[1]["project"]["id"]
        switch = [talk.bytes_of("PATCH", "/v3/projects/" + other, {"project": {"enabled": enabled}}) for enabled in (False, True)]
        granted, live = talk.repeat(switch, EVENTS - live), EVENTS
        talk.require(503, "PATCH", "/v3/projects/" + other, {"project": {"enabled": False}})
        talk.require(503, "PATCH", "/v3/users/bob", {"user": {"enabled": False}})
        refuse_own(talk, tokens[2], trust)
        talk.run.stdin.close()
        status = talk.run.wait()
    if status == 0 and granted == 2 * (EVENTS - SELF_REVOCATIONS):
        print(f"event_room: {SELF_REVOCATIONS} live revocations for what users do for themselves, and {EVENTS} for all else")
        return 0
    print(f"event_room: status {status}, {granted} were granted", file=sys.stderr)
    return 1


if __name__ == "__main__":
    sys.exit(main())
