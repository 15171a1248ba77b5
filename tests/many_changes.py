#!/usr/bin/env python3
"""Makes more changes over one connection than an identity remembers one by one, and sees that each is made.

    tests/many_changes.py

A role is granted and taken back in turn, 65,537 times in all; each is answered with 204, and at the end the grant stands, as the odd
number has it. The program is bin/ks of this repository, or the environment's KS. The exit status is 1 where it answers otherwise.
"""

import json
import os
import subprocess
import sys
import threading

sys.dont_write_bytecode = True
from served import fresh

TOP = os.path.dirname(os.path.dirname(os.path.abspath(__file__)))
KS = os.environ.get("KS") or os.path.join(TOP, "bin", "ks")
CHANGES = 65_537

USER = {"name": "ann", "domain": {"id": "default"}, "password": "secret"}
LOGIN = {"auth": {"identity": {"methods": ["password"], "password": {"user": USER}},
                  "scope": {"project": {"name": "demo", "domain": {"id": "default"}}}}}


def main():
    with open(os.path.join(TOP, "examples", "o1.json"), encoding="utf-8") as file:
        told = json.load(file)
    project, role = told["projects"][0]["id"], told["roles"][0]["id"]
    path = f"/v3/projects/{project}/users/bob/roles/{role}"
    words = [KS, "talk", fresh(os.path.join(TOP, "examples", "o1.json")), os.path.join(TOP, "examples", "keys")]
    run = subprocess.Popen(words, stdin=subprocess.PIPE, stdout=subprocess.PIPE)
    body = json.dumps(LOGIN).encode()
    run.stdin.write(f"POST /v3/auth/tokens HTTP/1.1\r\nContent-Length: {len(body)}\r\n\r\n".encode() + body)
    run.stdin.flush()
    fields = {}
    while line := run.stdout.readline().decode().strip():
        name, _, value = line.partition(": ")
        fields[name] = value
    run.stdout.read(int(fields["Content-Length"]))
    token = f"X-Auth-Token: {fields['X-Subject-Token']}\r\n\r\n".encode()
    put, delete = (f"{method} {path} HTTP/1.1\r\n".encode() + token for method in ("PUT", "DELETE"))
    changes = (put + delete) * (CHANGES // 2) + put
    last = f"HEAD {path} HTTP/1.1\r\n".encode() + token
    writer = threading.Thread(target=lambda: (run.stdin.write(changes + last), run.stdin.close()))
    writer.start()
    written = run.stdout.read()
    writer.join()
    status, made = run.wait(), written.count(b"HTTP/1.1 204 No Content\r\n")
    if status == 0 and made == CHANGES + 1:
        print(f"many_changes: {CHANGES} changes made")
        return 0
    print(f"many_changes: status {status}, {made} answers with 204 for {CHANGES + 1}", file=sys.stderr)
    return 1


if __name__ == "__main__":
    sys.exit(main())
