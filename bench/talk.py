#!/usr/bin/env python3
"""What bench/talk.sh runs: requests, and clients that send them and compare the responses.

    talk.py make REQUESTS                   writes so many requests
    talk.py pipelined FILE REQUESTS KS      runs `KS talk` on the file
    talk.py in-turn REQUESTS KS             sends each request once the response before it has come
    talk.py opening USERS FILE              writes an opening file with so many users
    talk.py validate REQUESTS FILE KS       logs in over this opening file, and has the token validated so many times, pipelined
    talk.py sealed REQUESTS FILE            writes so many validations of a token that is sealed here
"""

import json
import os
import subprocess
import sys
import threading
import time

sys.dont_write_bytecode = True
TOP = os.path.dirname(os.path.dirname(os.path.abspath(__file__)))
sys.path.insert(0, os.path.join(TOP, "tests"))
from served import fresh

O1 = os.path.join(TOP, "examples", "o1.json")

REQUEST = b"GET /v3 HTTP/1.1\r\n\r\n"

BODY = (
    b'{"version":{"id":"v3.14","links":[{"href":"http://127.0.0.1:5000/v3/","rel":"self"}],'
    b'"media-types":[{"base":"application/json","type":"application/vnd.openstack.identity-v3+json"}],'
    b'"status":"stable","updated":"2020-04-07T00:00:00Z"}}'
)

RESPONSE = (
    b"HTTP/1.1 200 OK\r\nContent-Length: 233\r\nContent-Type: application/json\r\nVary: X-Auth-Token\r\n\r\n" + BODY
)


def fail(why):
    print(f"talk: {why}", file=sys.stderr)
    sys.exit(1)


def make(requests):
    sys.stdout.buffer.write(REQUEST * requests)


def opening(users):
    """An opening like that of the examples, with more users."""
    with open(O1, encoding="utf-8") as file:
        told = json.load(file)
    told["users"] += [{"id": f"{number:032x}", "domain_id": "default", "name": f"user{number}"} for number in range(users - 2)]
    return told


def validation(token):
    """A request of the token's owner to validate it."""
    return f"GET /v3/auth/tokens HTTP/1.1\r\nX-Auth-Token: {token}\r\nX-Subject-Token: {token}\r\n\r\n".encode()


def sealed():
    """A token of the first user on the project, sealed with the first key of the examples by the second reading."""
    from second_reading.ciphers import key_of, seal

    with open(O1, encoding="utf-8") as file:
        told = json.load(file)
    now, user, project = int(time.time()) - 60, told["users"][0]["id"], told["projects"][0]["id"]
    payload = bytes([2, 2, 1, 0]) + bytes.fromhex(user) + b"\0" + bytes.fromhex(project) + (now + 3600).to_bytes(8, "big")
    return seal(key_of(told["keys"][0]), now, os.urandom(16), payload + b"\1" + os.urandom(16))


def validate(requests, path, ks):
    """Validations a second over one connection, behind a login."""
    run = subprocess.Popen([ks, "talk", fresh(path), "keys"], stdin=subprocess.PIPE, stdout=subprocess.PIPE)
    unit = validation(sealed())
    began = time.monotonic()
    run.stdin.write(unit)
    run.stdin.flush()
    first = run.stdout.read(len("HTTP/1.1 200 OK\r\nContent-Length: 497\r\n"))
    opened = time.monotonic() - began
    if not first.startswith(b"HTTP/1.1 200 OK"):
        fail(f"a validation is answered otherwise: {first!r}")
    writer = threading.Thread(target=lambda: (run.stdin.write(unit * requests), run.stdin.close()))
    began = time.monotonic()
    writer.start()
    written = run.stdout.read()
    seconds = time.monotonic() - began
    writer.join()
    if run.wait() != 0 or written.count(b"HTTP/1.1 200 OK") != requests:
        fail("validations are answered otherwise")
    print(f"{os.path.getsize(path):,} bytes of opening file: the first answer after {opened:.2f} s")
    report("to validate", requests, seconds)


def report(how, requests, seconds):
    print(f"{requests} requests {how}: {seconds:.2f} s, {requests / seconds:,.0f} a second")


def pipelined(path, requests, ks):
    with open(path, "rb") as file:
        began = time.monotonic()
        run = subprocess.run([ks, "talk", fresh(O1), "keys"], stdin=file, stdout=subprocess.PIPE)
        seconds = time.monotonic() - began
    if run.returncode != 0 or run.stdout != RESPONSE * requests:
        fail("the responses to pipelined requests are not those that were expected")
    report("pipelined", requests, seconds)


def in_turn(requests, ks):
    run = subprocess.Popen([ks, "talk", fresh(O1), "keys"], stdin=subprocess.PIPE, stdout=subprocess.PIPE, bufsize=0)
    began = time.monotonic()
    for _ in range(requests):
        run.stdin.write(REQUEST)
        response = run.stdout.read(len(RESPONSE))
        if response != RESPONSE:
            fail("a response is not the one that was expected, or did not come in one piece")
    seconds = time.monotonic() - began
    run.stdin.close()
    if run.stdout.read() or run.wait() != 0:
        fail("the program wrote more, or did not end with status 0")
    report("in turn", requests, seconds)


if __name__ == "__main__":
    command, *words = sys.argv[1:]
    if command == "make":
        make(int(words[0]))
    elif command == "pipelined":
        pipelined(words[0], int(words[1]), words[2])
    elif command == "in-turn":
        in_turn(int(words[0]), words[1])
    elif command == "opening":
        with open(words[1], "w", encoding="utf-8") as file:
            json.dump(opening(int(words[0])), file)
    elif command == "validate":
        validate(int(words[0]), words[1], words[2])
    elif command == "sealed":
        with open(words[1], "wb") as file:
            file.write(validation(sealed()) * int(words[0]))
    else:
        fail(f"there is no {command}")
