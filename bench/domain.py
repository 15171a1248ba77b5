#!/usr/bin/env python3
"""Prints how long a domain's deletion holds everybody up, with the projects and users that go with it: by `ks talk`, in milliseconds
until the response, in a domain beside another with 50,000 users.

    bench/domain.py [ROWS]    as many projects, and as many users, by default 10,000

The program is bin/ks of this repository; the environment's KS names another.
"""

import json
import os
import sys
import tempfile

import talk
from trusts import Talk, main_of, program_of, request, require

USERS = 50_000


def opening(folder, rows):
    """An opening like that of the examples, with many users, and a disabled domain with these rows."""
    with open(talk.O1, encoding="utf-8") as file:
        told = json.load(file)
    told["settings"]["life"] = 3600
    told["domains"].append({"id": "gone", "name": "gone", "enabled": False})
    told["users"] += [{"id": f"u{n}", "domain_id": "default", "name": f"user{n}"} for n in range(USERS)]
    for kind in "users", "projects":
        told[kind] += [{"id": f"g{n}", "domain_id": "gone", "name": f"gone{n}"} for n in range(rows)]
    path = os.path.join(folder, "opening.json")
    with open(path, "w", encoding="utf-8") as out:
        json.dump(told, out, separators=(",", ":"))
    return path


def measure(words):
    rows = int(words[0]) if words else 10_000
    with tempfile.TemporaryDirectory() as folder:
        server = Talk(program_of([]), opening(folder, rows))
        token = talk.sealed()
        server.all_of([request("GET", "/v3/domains/gone", None, token)], 200)
        server.timed(f"a domain with {rows:,} projects and {rows:,} users deleted", request("DELETE", "/v3/domains/gone", None, token), 204)
        server.all_of([request("GET", f"/v3/{kind}/g{rows - 1}", None, token) for kind in ("users", "projects")], 404)
        server.run.stdin.close()
        require(server.run.wait() == 0, "the program ended otherwise")
    return f"{rows:,} rows of each"


if __name__ == "__main__":
    sys.exit(main_of("domain", lambda: measure(sys.argv[1:])))
