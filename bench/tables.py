#!/usr/bin/env python3
"""What bench/tables.sh runs: the same requests over opening files with few and with many rows.

    tables.py KS REQUESTS [USERS,GRANTS,MEMBERS ..]
"""

import json
import os
import subprocess
import sys
import tempfile
import threading
import time

import talk

SIZES = [(200, 200, 0), (10_000, 10_000, 0), (10_000, 100_000, 0), (60_000, 100_000, 0), (10_000, 10_000, 100_000)]
PROJECTS = 100


def unordered(count):
    """So many different short ids, in an order that is no order of theirs."""
    return [f"{number * 0x9E3779B1 % 2 ** 32:08x}" for number in range(1, count + 1)]


def opening(users, grants, members):
    """An opening like that of the examples, with more users, groups and projects, and so many grants and memberships among them."""
    with open(talk.O1, encoding="utf-8") as file:
        told = json.load(file)
    admin, role = told["users"][0]["id"], told["roles"][1]["id"]
    # In no order, as Keystone's ids are, and short, so that the largest opening is one that may be.
    ids = unordered(users - len(told["users"]))
    projects = unordered(PROJECTS)
    groups = unordered(PROJECTS) if members else []
    told["users"] += [{"id": id, "domain_id": "default", "name": f"{id[::-1]} user{number}"} for number, id in enumerate(ids)]
    # The user of the logins.
    told["users"][-1]["password"] = "a secret"
    told["projects"] += [{"id": id, "domain_id": "default", "name": f"project{number}"} for number, id in enumerate(projects)]
    told["groups"] = [{"id": id, "domain_id": "default", "name": f"group{number}"} for number, id in enumerate(groups)]
    told["members"] = [{"group": groups[n % PROJECTS], "user": ids[n // PROJECTS % len(ids)]} for n in range(members)]
    # Not more than the users that no request takes away may have.
    told["assignments"] += [
        {"user": ids[number % len(ids)], "project": projects[number // len(ids) % PROJECTS], "role": role} for number in range(grants)
    ]
    told["settings"]["life"] = 3600
    return told, admin, ids, projects, role


def request(method, path, token, body=None):
    data = json.dumps(body).encode() if body is not None else b""
    head = f"{method} {path} HTTP/1.1\r\nX-Auth-Token: {token}\r\nContent-Length: {len(data)}\r\n\r\n"
    return head.encode() + data


def statuses(stream, count):
    """Reads so many responses, and how often each status came."""
    found = {}
    for _ in range(count):
        status = int(stream.readline().split()[1])
        length = 0
        while line := stream.readline().strip():
            if line.lower().startswith(b"content-length:"):
                length = int(line.split(b":")[1])
        if len(stream.read(length)) != length:
            talk.fail("a response is cut")
        found[status] = found.get(status, 0) + 1
    return found


def cpu_of(run):
    """The seconds of a core that the program has used, which the clock of processes tells by hundredths alone."""
    used = 0
    for thread in os.listdir(f"/proc/{run.pid}/task"):
        with open(f"/proc/{run.pid}/task/{thread}/schedstat", encoding="utf-8") as file:
            used += int(file.read().split()[0])
    return used / 1e9


def asked(run, requests, wanted):
    """Microseconds of a core that each of these takes, all of them sent at once."""
    data = b"".join(requests)
    writer = threading.Thread(target=lambda: (run.stdin.write(data), run.stdin.flush()))
    before = cpu_of(run)
    writer.start()
    found = statuses(run.stdout, len(requests))
    writer.join()
    if found != {wanted: len(requests)}:
        talk.fail(f"{requests[0][:60]!r} is answered {found}, not {wanted}")
    return (cpu_of(run) - before) / len(requests) * 1e6


def opened(ks, path, token):
    """`KS talk` over this opening file, which has answered a validation of the token."""
    run = subprocess.Popen([ks, "talk", talk.fresh(path), "keys"], stdin=subprocess.PIPE, stdout=subprocess.PIPE)
    run.stdin.write(talk.validation(token))
    run.stdin.flush()
    if statuses(run.stdout, 1) != {200: 1}:
        talk.fail("a validation is answered otherwise")
    return run


def measured(ks, path, told, admin, ids, projects, role, count):
    token = talk.sealed()
    began = time.monotonic()
    run = opened(ks, path, token)
    figures = {"opening, seconds": time.monotonic() - began}
    named = {"name": told["users"][-1]["name"], "domain": {"id": "default"}, "password": "a secret"}
    login = {"auth": {"identity": {"methods": ["password"], "password": {"user": named}}}}
    many = count * 10
    gone = ids[: min(count, len(ids) // 2)]
    # New names come between those that stand.
    new = [f"{id} new" for id in unordered(count)]
    names = [user["name"] for user in told["users"][-count:]]
    # On the last half of the projects nobody has a role: some of them go, and grants come on the others. What stands is no change.
    bare = projects[PROJECTS // 2 : PROJECTS * 3 // 4]
    late = [(ids[-1 - n % 100], projects[-1 - n // 100]) for n in range(min(count, PROJECTS // 4 * 100))]
    rows = [
        ("validation", [talk.validation(token)] * many, 200),
        ("login by name", [request("POST", "/v3/auth/tokens", "", login)] * many, 201),
        ("a user made", [request("POST", "/v3/users", token, {"user": {"name": name}}) for name in new], 201),
        ("a user by name", [request("GET", "/v3/users?name=" + name.replace(" ", "%20"), token) for name in names], 200),
        ("a grant made", [request("PUT", f"/v3/projects/{at}/users/{id}/roles/{role}", token) for id, at in late], 204),
        ("a user's grants listed", [request("GET", f"/v3/role_assignments?user.id={id}", token) for id in gone], 200),
        ("a project's grants listed", [request("GET", f"/v3/role_assignments?scope.project.id={id}", token) for id in bare], 200),
        ("a project deleted", [request("DELETE", f"/v3/projects/{id}", token) for id in bare], 204),
        ("a user deleted", [request("DELETE", f"/v3/users/{id}", token) for id in gone], 204),
    ]
    for name, requests, wanted in rows:
        figures[name] = asked(run, requests, wanted)
    with open(f"/proc/{run.pid}/status", encoding="utf-8") as file:
        peak = [line.split()[1] for line in file if line.startswith("VmHWM")]
    figures["most resident, MiB"] = int(peak[0]) / 1024
    run.stdin.close()
    if run.wait() != 0:
        talk.fail("the program ended otherwise")
    return figures


def main(ks, count, sizes):
    rows = []
    for users, grants, members in sizes:
        told, *rest = opening(users, grants, members)
        with tempfile.NamedTemporaryFile("w", suffix=".json", encoding="utf-8") as file:
            json.dump(told, file, separators=(",", ":"))
            file.flush()
            rows.append(measured(ks, file.name, told, *rest, count))
    print("| Microseconds of a core | " + " | ".join(f"{u:,} users, {g:,} grants, {m:,} members" for u, g, m in sizes) + " |")
    print("|---" * (len(sizes) + 1) + "|")
    for name in rows[0]:
        first = rows[0][name] or 1
        shown = [f"{row[name]:,.2f}" if name.startswith("opening") else f"{row[name]:,.0f}" for row in rows]
        print(f"| {name} | " + " | ".join(f"{text} ({row[name] / first:.1f})" for text, row in zip(shown, rows)) + " |")


if __name__ == "__main__":
    given = [tuple(map(int, word.split(","))) for word in sys.argv[3:]]
    main(sys.argv[1], int(sys.argv[2]), given or SIZES)
