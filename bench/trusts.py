#!/usr/bin/env python3
"""Prints what holds everybody up where one user has as many trusts as may stand, and 60,000 projects: by `ks talk`, one request after
the other, in milliseconds until each response.

    bench/trusts.py [TRUSTS]    as many trusts of one trustor, by default 65,536

The program is bin/ks of this repository; the environment's KS names another. The journal is kept in memory, where there is a
/dev/shm, so that making the trusts does not take long.
"""

import json
import os
import subprocess
import sys
import tempfile
import threading
import time

sys.dont_write_bytecode = True
sys.path.insert(0, os.path.join(os.path.dirname(os.path.dirname(os.path.abspath(__file__))), "tests"))
from served import login, main_of, program_of, project_scope, request, require

import talk

PROJECTS = 60_000


class Talk:
    """A `talk` over an opening file."""

    def __init__(self, program, file):
        self.run = subprocess.Popen([program, "talk", file, "keys"], stdin=subprocess.PIPE, stdout=subprocess.PIPE)

    def response(self):
        """The status, the fields and the body of the next response."""
        status, fields = int(self.run.stdout.readline().split()[1]), {}
        while line := self.run.stdout.readline().strip():
            name, _, value = line.decode().partition(":")
            fields[name.lower()] = value.strip()
        return status, fields, self.run.stdout.read(int(fields.get("content-length", 0)))

    def all_of(self, requests, wanted):
        """The responses to requests that are sent at once, each with this status."""
        data = b"".join(requests)
        writer = threading.Thread(target=lambda: (self.run.stdin.write(data), self.run.stdin.flush()))
        writer.start()
        responses = [self.response() for _ in requests]
        writer.join()
        require(all(status == wanted for status, _, _ in responses), f"{requests[0][:60]!r} is answered otherwise")
        return responses

    def timed(self, what, asked, wanted):
        began = time.monotonic()
        self.all_of([asked], wanted)
        print(f"{what}: {(time.monotonic() - began) * 1e3:.1f} ms", flush=True)


def opening(folder):
    """An opening like that of the examples, with many projects."""
    with open(talk.O1, encoding="utf-8") as file:
        told = json.load(file)
    told["settings"]["life"] = 3600
    told["users"].append({"id": "carol", "domain_id": "default", "name": "carol"})
    told["projects"] += [{"id": f"p{n}", "domain_id": "default", "name": f"project{n}"} for n in range(PROJECTS)]
    path = os.path.join(folder, "opening.json")
    with open(path, "w", encoding="utf-8") as out:
        json.dump(told, out)
    return path, told


def measure(words):
    trusts = int(words[0]) if words else 65_536
    with tempfile.TemporaryDirectory(dir="/dev/shm" if os.path.isdir("/dev/shm") else None) as folder:
        path, told = opening(folder)
        (admin, user, _), project = (row["id"] for row in told["users"]), told["projects"][0]
        server = Talk(program_of([]), path)
        tokens = [
            server.all_of([request("POST", "/v3/auth/tokens", login(name, secret, project_scope(project["name"])))], 201)[0][1]["x-subject-token"]
            for name, secret in (("ann", "secret"), ("bob", "hunter2"))
        ]

        def trust(trustee):
            """A request of the user's for a trust to this one."""
            body = {"trustor_user_id": user, "trustee_user_id": trustee, "project_id": project["id"], "impersonation": True,
                    "roles": [{"id": told["roles"][1]["id"]}]}
            return request("POST", "/v3/OS-TRUST/trusts", {"trust": body}, tokens[1])

        made = server.all_of([trust(admin)] * trusts, 201)
        one = json.loads(made[0][2])["trust"]["id"]
        server.timed(f"one of {trusts:,} trusts ended", request("DELETE", f"/v3/OS-TRUST/trusts/{one}", None, tokens[1]), 204)
        server.all_of([trust("carol")], 201)
        server.timed(f"the one trust to a user listed, among {trusts:,}", request("GET", "/v3/OS-TRUST/trusts?trustee_user_id=carol", None, tokens[0]), 200)
        server.timed(f"a user's effective assignments among {PROJECTS:,} projects",
                     request("GET", f"/v3/role_assignments?effective&user.id={user}", None, tokens[0]), 200)
        server.timed(f"one of {PROJECTS:,} projects listed by its name", request("GET", f"/v3/projects?name=project{PROJECTS - 1}", None, tokens[0]), 200)
        server.timed("the trustor of all trusts deleted", request("DELETE", f"/v3/users/{user}", None, tokens[0]), 204)
        server.run.stdin.close()
        require(server.run.wait() == 0, "the program ended otherwise")
    return f"{trusts:,} trusts"


if __name__ == "__main__":
    sys.exit(main_of("trusts", lambda: measure(sys.argv[1:])))
