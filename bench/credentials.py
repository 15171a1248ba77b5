#!/usr/bin/env python3
"""What bench/credentials.sh runs: logins by a password and by an application credential, among few and among many credentials.

    credentials.py KS SECONDS
"""

import concurrent.futures
import json
import os
import sys

sys.dont_write_bytecode = True
# The benchmark beside this, which brings in tests/, too.
import serve
from served import Connection, Server, fresh, login, measure_in_folder, project_scope, request, require, run

# How many credentials stand: few, and as many as may.
SIZES = (10, 65_536)
MAKERS, SECRET = 4, "a secret"


def opening(work):
    """The opening file of the examples, with a single round, so that deriving hides nothing."""
    path, _ = serve.opening(work)
    with open(path, encoding="utf-8") as file:
        told = json.load(file)
    told["settings"]["rounds"] = 1
    with open(path, "w", encoding="utf-8") as file:
        json.dump(told, file)
    return path


def make(port, path, token, numbers):
    """Makes the credentials of these numbers: their ids."""
    made = []
    with Connection(port) as connection:
        for number in numbers:
            body = {"application_credential": {"name": f"credential {number}", "secret": SECRET}}
            answer = connection.ask("POST", path, body, token)
            require(answer.status == 201, f"credential {number} is answered with {answer.status}")
            made.append(answer.told()["application_credential"]["id"])
    return made


def by_credential(identity):
    """The body of a login by a credential."""
    return {"auth": {"identity": {"methods": ["application_credential"], "application_credential": {"id": identity, "secret": SECRET}}}}


def measure(program, seconds, work):
    """Prints how long a login takes, one after the other on one connection."""
    folder = os.path.join(work, "keys")
    os.mkdir(folder, 0o700)
    require(run(program, "setup", folder)[0] == 0, "the keys cannot be set up")
    with Server(program, fresh(opening(work)), folder, 4) as server:
        password = login("ann", "secret", project_scope("demo"))
        with Connection(server.port) as connection:
            answer = connection.ask("POST", "/v3/auth/tokens", password)
        require(answer.status == 201, f"a login is answered with {answer.status}")
        token, user = answer.fields["X-Subject-Token"], answer.told()["token"]["user"]["id"]
        path, identities = f"/v3/users/{user}/application_credentials", []
        for size in SIZES:
            with concurrent.futures.ThreadPoolExecutor(MAKERS) as makers:
                parts = [range(len(identities) + maker, size, MAKERS) for maker in range(MAKERS)]
                more = list(makers.map(lambda part: make(server.port, path, token, part), parts))
            identities += [each for part in more for each in part]
            some = identities[::max(1, len(identities) // 1000)]
            rows = [("a password", [request("POST", "/v3/auth/tokens", password)]),
                    ("a credential", [request("POST", "/v3/auth/tokens", by_credential(each)) for each in some])]
            for what, requests in rows * 2:
                rate, half, most = serve.by_wrk(work, server.port, 1, requests, seconds)
                print(f"a login by {what} among {size:,} credentials: {1e6 / rate:,.1f} µs, p50 {half:.3f} ms, p99 {most:.3f} ms", flush=True)


def main():
    program, seconds = sys.argv[1], int(sys.argv[2])
    return measure_in_folder("credentials", lambda work: measure(program, seconds, work))


if __name__ == "__main__":
    sys.exit(main())
