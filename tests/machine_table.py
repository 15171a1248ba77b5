#!/usr/bin/env python3
"""Tries the plain reading of the identity server on worked examples and on random calls, and the built program against it.

    tests/machine_table.py [SEED]

The examples are computed, and random sequences of calls, of which only what holds of every call is asked: a refusal changes nothing
but the highest moment, and a change is counted. Then 20 random sequences of 200 calls over random openings are sent to `ks talk`, and
each response is compared byte for byte; the program is bin/ks of this repository, or the environment's KS. The exit status is 1
where something is otherwise.
"""

import base64
import json
import math
import os
import random
import re
import subprocess
import sys
import tempfile
import time

sys.dont_write_bytecode = True
from machine_calls import Caller, parts_of, random_opening, sequences
from holding_examples import EXAMPLES as OF_HOLDINGS
from machine_examples import EXAMPLES, K, STAGED, salts
from second_reading.machine import Machine, wire
from second_reading.words import CATALOG, KINDS

TOP = os.path.dirname(os.path.dirname(os.path.abspath(__file__)))
KS = os.environ.get("KS") or os.path.join(TOP, "bin", "ks")


class Talk:
    """A connection to the program over an opening file and a folder."""

    def __init__(self, opening, folder):
        self.place = tempfile.TemporaryDirectory()
        file, keys = os.path.join(self.place.name, "opening.json"), os.path.join(self.place.name, "keys")
        os.mkdir(keys)
        for index, content in folder.items():
            with open(os.path.join(keys, str(index)), "wb") as key:
                key.write(content)
        with open(file, "w", encoding="utf-8") as out:
            out.write(opening)
        self.run = subprocess.Popen([KS, "talk", file, keys], stdin=subprocess.PIPE, stdout=subprocess.PIPE)

    def ask(self, method, path, query, headers, body):
        """The bytes of the response, as its head and its body."""
        lines = [f"{method} {path}{'?' if query else ''}{query} HTTP/1.1"] + [f"{name}: {value}" for name, value in headers]
        lines += [f"Content-Length: {len(body)}"] if body else []
        self.run.stdin.write("".join(line + "\r\n" for line in lines + [""]).encode() + body)
        self.run.stdin.flush()
        head, length = b"", 0
        while not head.endswith(b"\r\n\r\n"):
            line = self.run.stdout.readline()
            if not line:
                raise EOFError("the program ended")
            head += line
            if line.startswith(b"Content-Length:"):
                length = int(line.split(b":")[1])
        return head, self.run.stdout.read(length) if method != "HEAD" else b""

    def end(self):
        """The status with which the program ends behind its input."""
        try:
            self.run.stdin.close()
        except BrokenPipeError:
            pass  # It has ended before its input did.
        status = self.run.wait()
        self.run.stdout.close()
        self.place.cleanup()
        return status


def bytes_of_text(text):
    """The bytes of base64url without padding."""
    return base64.urlsafe_b64decode(text + "=" * (-len(text) % 4))


def drawn_in(head, body):
    """The bytes that the program drew, as far as its response tells them; the others are any, as a salt is."""
    draw = bytearray(os.urandom(64))
    if not head.startswith(b"HTTP/1.1 201 "):
        return bytes(draw)
    told = json.loads(body)
    for kind in KINDS + CATALOG + ("trust", "application_credential", "credential"):
        # The id of a region may have been given.
        if isinstance(told.get(kind), dict) and re.fullmatch("[0-9a-f]{32}", told[kind]["id"]):
            draw[:16] = bytes.fromhex(told[kind]["id"])
    secret = told.get("application_credential", {}).get("secret", "")
    if len(secret) == 43:
        draw[32:] = bytes_of_text(secret)
    if "token" in told:
        text = head.split(b"X-Subject-Token: ")[1].split(b"\r\n")[0].decode()
        draw[:16], draw[16:32] = bytes_of_text(told["token"]["audit_ids"][0]), bytes_of_text(text)[9:25]
    return bytes(draw)


def settled_second():
    """Waits until the clock is well inside a second, and tells it: the program's reading is then the same."""
    while time.time() % 1 > 0.8:
        time.sleep(0.01)
    return math.floor(time.time())


def drive(seed, number, length):
    """Sends a sequence to the program and compares each response; gives how many were compared, and the first that differs.

    What the program draws is read from its responses and given to the machine, so that every byte is compared, those of ids and
    tokens too. It does not tell the salts and the key of a rotation: no response hangs on a salt, and none of these sequences
    rotates so often that the new key is used.
    """
    rng = random.Random(f"{seed} {number}")
    opening, folder = random_opening(rng, rng.random() < 0.3), {0: STAGED.encode(), 1: K.encode()}
    server, caller = Machine(json.dumps(opening), salts(), folder), Caller(rng, opening, 1)
    talk, compared, wrong = Talk(json.dumps(opening), folder), 0, None
    for _ in range(length):
        now = settled_second()
        request = caller.request(now)
        given = parts_of(request)
        try:
            head, body = talk.ask(*given)
        except (EOFError, BrokenPipeError):
            wrong = f"sequence {number}: {request}: the program ended"
            break
        if math.floor(time.time()) != now:
            break  # Which of the two seconds the program read is not known.
        reply = server.call(*given, now, drawn_in(head, body), folder)
        compared += 1
        if wire(reply) != head + body:
            wrong = f"sequence {number}: {request}: {head + body!r} in place of {wire(reply)!r}"
            break
        caller.learn(request, reply)
    status = talk.end()
    return compared, wrong or (f"sequence {number}: status {status}" if status else None)


def main():
    seed = sys.argv[1] if len(sys.argv) > 1 else "0"
    for example in EXAMPLES + OF_HOLDINGS:
        example()
    statuses = {}
    for _, _, calls in sequences(seed, 12, 150):
        for call in calls:
            statuses[call[-1][0]] = statuses.get(call[-1][0], 0) + 1
    told = ", ".join(f"{count} of {status}" for status, count in sorted(statuses.items()))
    print(f"machine_table: {len(EXAMPLES + OF_HOLDINGS)} examples; calls of sequences: {told}")
    results = [drive(seed, number, 200) for number in range(20)]
    for _, wrong in results:
        if wrong:
            print(f"machine_table: {wrong}", file=sys.stderr)
    print(f"machine_table: {sum(compared for compared, _ in results)} responses of the program compared")
    return 1 if any(wrong for _, wrong in results) else 0


if __name__ == "__main__":
    sys.exit(main())
