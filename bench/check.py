#!/usr/bin/env python3
"""Makes tokens for bench/check.sh, answers them in plain Python, and times programs that answer them.

    check.py make LINES            writes a key and lines of tokens, as `ks check` reads them
    check.py answer                answers such lines, as `ks check` does
    check.py compare FILE RUNS KS  times `KS check` and `check.py answer` in turn on the lines of a file
"""

import base64
import binascii
import hmac
import os
import random
import re
import resource
import subprocess
import sys
import tempfile
import time

from cryptography.hazmat.primitives.ciphers import Cipher, algorithms, modes

LIFE = 3600
LAST_MOMENT = 253370764799
LAST_EXPIRY = 253402300799
START = 1700000000


# The tokens.


def payload(rng, expires):
    """A payload of a token for a project, mostly. Of users a quarter have the long ids of other directories."""
    kind = rng.choice((2, 2, 2, 2, 2, 2, 0, 1, 3, 4))
    fields = [bytes((2, kind, 1))]
    fields.append(b"\x40" + rng.randbytes(32).hex().encode() if rng.random() < 0.25 else b"\0" + rng.randbytes(16))
    for _ in range(IDS[kind] - 1):
        fields.append(b"\x07default" if kind == 1 else b"\0" + rng.randbytes(16))
    fields.append(expires.to_bytes(8, "big"))
    fields.append(b"\x01" + rng.randbytes(16) if rng.random() < 0.5 else b"\x02" + rng.randbytes(32))
    return b"".join(fields)


def seal(rng, key, issued, plain):
    count = 16 - len(plain) % 16
    iv = rng.randbytes(16)
    encryptor = Cipher(algorithms.AES(key[16:]), modes.CBC(iv)).encryptor()
    sealed = encryptor.update(plain + bytes([count]) * count) + encryptor.finalize()
    data = b"\x80" + issued.to_bytes(8, "big") + iv + sealed
    text = base64.urlsafe_b64encode(data + hmac.digest(key[:16], data, "sha256"))
    return text.rstrip(b"=")


def make(lines, output):
    """Of 100 tokens about 95 are valid, and each other is refused for another reason."""
    rng = random.Random(7)
    key = rng.randbytes(32)
    output.write(base64.urlsafe_b64encode(key) + b"\n")
    for line in range(lines):
        moment = START + line // 100
        issued = moment - rng.randint(0, 3000)
        expires = issued + LIFE
        token = None
        sort = rng.random()
        if sort < 0.01:
            token = seal(rng, rng.randbytes(32), issued, payload(rng, expires))
        elif sort < 0.02:
            expires = moment
        elif sort < 0.03:
            token = seal(rng, key, issued, payload(rng, expires)[:-1])
        elif sort < 0.04:
            issued, expires = moment + 1, moment + LIFE
        elif sort < 0.05:
            expires = issued + LIFE + 1
        elif sort < 0.06:
            token = seal(rng, key, issued, payload(rng, expires))[:-1]
        if token is None:
            token = seal(rng, key, issued, payload(rng, expires))
        output.write(b"%d %s\n" % (moment, token))


# The answers in plain Python.

is_number = re.compile(rb"0|[1-9][0-9]*").fullmatch
is_text = re.compile(rb"[0-9A-Za-z_-]*(={0,2})").fullmatch
is_id = re.compile(rb"[0-9A-Za-z_-]{1,64}").fullmatch
is_hex_id = re.compile(rb"[0-9a-f]{32}").fullmatch

# How many ids stand in a payload of each kind.
IDS = (1, 2, 2, 3, 1, 3)
# The unused bits of the last digit are zero: the digits for which they are, where 4 or 2 are unused.
LAST_OF_TWO = frozenset(b"AQgw")
LAST_OF_THREE = frozenset(b"AEIMQUYcgkosw048")


def read_base64(text):
    match = is_text(text)
    if match is None:
        return None
    equals = len(match.group(1))
    digits = len(text) - equals
    over = digits % 4
    if over == 1 or (equals and equals != -digits % 4):
        return None
    if over and text[digits - 1] not in (LAST_OF_TWO if over == 2 else LAST_OF_THREE):
        return None
    return base64.urlsafe_b64decode(text if equals or not over else text + b"==")


def read_expiry(plain):
    """When a payload's token expires; None where the bytes are no payload."""
    size = len(plain)
    if size < 3 or not 1 <= plain[0] <= 2 or plain[1] > (3, 5)[plain[0] - 1] or not 1 <= plain[2] <= 15:
        return None
    place = 3
    for _ in range(IDS[plain[1]]):
        if place >= size:
            return None
        length = plain[place]
        if length == 0:
            place += 17
        else:
            text = plain[place + 1 : place + 1 + length]
            if len(text) != length or not is_id(text) or is_hex_id(text):
                return None
            place += 1 + length
    if place + 9 > size:
        return None
    expires = int.from_bytes(plain[place : place + 8], "big")
    audits = plain[place + 8]
    if expires > LAST_EXPIRY or not 1 <= audits <= 2 or place + 9 + 16 * audits != size:
        return None
    return expires


class Checker:
    def __init__(self, key):
        self.signing = key[:16]
        self.cipher = algorithms.AES(key[16:])

    def answer(self, moment, text):
        if len(text) > 1024:
            return b"refused text\n"
        data = read_base64(text)
        if data is None or len(data) < 73 or len(data) % 16 != 9 or data[0] != 0x80:
            return b"refused text\n"
        if not hmac.compare_digest(hmac.digest(self.signing, data[:-32], "sha256"), data[-32:]):
            return b"refused key\n"
        decryptor = Cipher(self.cipher, modes.CBC(data[9:25])).decryptor()
        padded = decryptor.update(data[25:-32]) + decryptor.finalize()
        count = padded[-1]
        if not 1 <= count <= 16 or padded[-count:] != bytes((count,)) * count:
            return b"refused key\n"
        plain = padded[:-count]
        expires = read_expiry(plain)
        if expires is None:
            return b"refused payload\n"
        issued = int.from_bytes(data[1:9], "big")
        if issued > moment:
            return b"refused future\n"
        if moment >= expires:
            return b"refused expired\n"
        if expires > issued + LIFE:
            return b"refused span\n"
        return b"valid " + binascii.hexlify(plain) + b"\n"


def read_key(line):
    key = read_base64(line) if len(line) <= 44 else None
    return key if key is not None and len(key) == 32 else None


def answer(source, sink):
    """Answers the lines of the source. The status of the process is 6 at a line in no grammar."""
    key = read_key(source.readline(1102).removesuffix(b"\n"))
    if key is None:
        return 6
    checker = Checker(key)
    moment = 0
    for count, line in enumerate(source, 2):
        line = line.removesuffix(b"\n")
        number, space, token = line.partition(b" ")
        if not space or len(line) > 1100 or count > 1048576 or not is_number(number):
            return 6
        reading = int(number)
        if reading >= 1 << 64:
            return 6
        moment = max(moment, min(reading, LAST_MOMENT))
        sink.write(checker.answer(moment, token))
    return 0


# The times.


def timed(command, name, out):
    """The seconds that a command took on a file: the processor's, and those on the clock."""
    before = resource.getrusage(resource.RUSAGE_CHILDREN)
    start = time.perf_counter()
    with open(name, "rb") as given, open(out, "wb") as said:
        subprocess.run(command, stdin=given, stdout=said, check=True)
    passed = time.perf_counter() - start
    after = resource.getrusage(resource.RUSAGE_CHILDREN)
    return after.ru_utime + after.ru_stime - before.ru_utime - before.ru_stime, passed


def contents(name):
    with open(name, "rb") as given:
        return given.read()


def compare(name, runs, ks):
    sides = {"ks check": [ks, "check"], "Python": [sys.executable, os.path.abspath(__file__), "answer"]}
    begun = {side: [] for side in sides}
    took = {side: [] for side in sides}
    data = contents(name)
    lines = data.count(b"\n") - 1
    print(f"{lines} lines of {len(data) / lines:.0f} bytes, the best of {runs} runs of each in turn:")
    with tempfile.TemporaryDirectory() as folder:
        key = os.path.join(folder, "key")
        with open(key, "wb") as given:
            given.write(data.partition(b"\n")[0])
        for _ in range(runs):
            answers = set()
            for side, command in sides.items():
                out = os.path.join(folder, "answers")
                begun[side].append(timed(command, key, out))
                took[side].append(timed(command, name, out))
                answers.add(contents(out))
            if len(answers) != 1:
                sys.exit("check: the answers differ")
    for place, what in enumerate(("of processor time", "on the clock")):
        rate = {}
        for side in sides:
            # What a program takes for the key alone, as to begin, counts for neither.
            best, start = (min(run[place] for run in runs) for runs in (took[side], begun[side]))
            rate[side] = lines / (best - start)
        rates = ", ".join(f"{side} {rate[side]:,.0f}" for side in sides)
        print(f"lines a second {what}: {rates}; {rate['ks check'] / rate['Python']:.2f} times Python's")


def main():
    words = sys.argv[1:]
    if words[:1] == ["make"] and len(words) == 2:
        make(int(words[1]), sys.stdout.buffer)
    elif words == ["answer"]:
        sys.exit(answer(sys.stdin.buffer, sys.stdout.buffer))
    elif words[:1] == ["compare"] and len(words) == 4:
        compare(words[1], int(words[2]), words[3])
    else:
        sys.exit(__doc__)


if __name__ == "__main__":
    main()
