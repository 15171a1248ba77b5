#!/usr/bin/env python3
"""Drives `ks check` with random inputs, and compares what it says with a plain reading of the format.

    tests/check_random.py [--seed N] [--cases N] [--counts]

The reading below was written from the format's description and shares nothing with the program but
AES, which is that of the package `cryptography`; where that is missing, nothing is tried. The program
is bin/ks of this repository; the environment's KS names another. The exit status is 1 on a difference.
"""

import argparse
import collections
import hashlib
import hmac
import itertools
import os
import random
import re
import subprocess
import sys
import tempfile
import threading
import time

try:
    from cryptography.hazmat.primitives.ciphers import Cipher, algorithms, modes
except ImportError:
    print("check_random: skipped, since Python's package cryptography is missing")
    sys.exit(0)

TOP = os.path.dirname(os.path.dirname(os.path.abspath(__file__)))
KS = os.environ.get("KS") or os.path.join(TOP, "bin", "ks")

LONGEST_LINE = 1100
MOST_LINES = 1048576
LONGEST_TEXT = 1024
LIFE = 3600
LAST_MOMENT = 253370764799
LAST_EXPIRY = 253402300799
LAST_NUMBER = 2**64 - 1

# How many ids of its scope a payload of each kind has; version 1 has the first four kinds.
SCOPE_IDS = (0, 1, 1, 2, 0, 2)

DIGITS = b"ABCDEFGHIJKLMNOPQRSTUVWXYZabcdefghijklmnopqrstuvwxyz0123456789-_"


# The reading.


def read_base64(text):
    """The bytes of a base64url text with its full padding or with none; None where it is another text."""
    digits = text.rstrip(b"=")
    equals = len(text) - len(digits)
    if equals and equals != -len(digits) % 4:
        return None
    if len(digits) % 4 == 1:
        return None
    number = 0
    for digit in digits:
        place = DIGITS.find(digit)
        if place < 0:
            return None
        number = number << 6 | place
    unused = len(digits) * 6 % 8
    if number & ((1 << unused) - 1):
        return None
    return (number >> unused).to_bytes(len(digits) * 6 // 8, "big")


def read_key(line):
    key = read_base64(line)
    return key if key is not None and len(key) == 32 else None


class Fields:
    """Bytes that are read from the front. Where too few are left, ValueError says so."""

    def __init__(self, data):
        self.data = data

    def take(self, count):
        if count > len(self.data):
            raise ValueError
        taken, self.data = self.data[:count], self.data[count:]
        return taken

    def number(self, least, most, count=1):
        number = int.from_bytes(self.take(count), "big")
        if not least <= number <= most:
            raise ValueError
        return number

    def id(self):
        length = self.number(0, 64)
        if length == 0:
            return self.take(16).hex().encode()
        text = self.take(length)
        if not re.fullmatch(rb"[0-9A-Za-z_-]+", text) or re.fullmatch(rb"[0-9a-f]{32}", text):
            raise ValueError
        return text


def read_expiry(plain):
    """When the token of this payload expires; None where the bytes are no payload."""
    fields = Fields(plain)
    try:
        version = fields.number(1, 2)
        kind = fields.number(0, (3, 5)[version - 1])
        fields.number(1, 15)
        for _ in range(1 + SCOPE_IDS[kind]):
            fields.id()
        expires = fields.number(0, LAST_EXPIRY, 8)
        fields.take(16 * fields.number(1, 2))
    except ValueError:
        return None
    return expires if not fields.data else None


def decipher(key, iv, sealed):
    decryptor = Cipher(algorithms.AES(key), modes.CBC(iv)).decryptor()
    return decryptor.update(sealed) + decryptor.finalize()


def answer(key, moment, text):
    if len(text) > LONGEST_TEXT:
        return b"refused text"
    data = read_base64(text)
    if data is None or len(data) < 73 or (len(data) - 57) % 16 != 0 or data[0] != 0x80:
        return b"refused text"
    if hmac.new(key[:16], data[:-32], hashlib.sha256).digest() != data[-32:]:
        return b"refused key"
    padded = decipher(key[16:], data[9:25], data[25:-32])
    count = padded[-1]
    if not 1 <= count <= 16 or padded[-count:] != bytes([count]) * count:
        return b"refused key"
    plain = padded[:-count]
    expires = read_expiry(plain)
    if expires is None:
        return b"refused payload"
    issued = int.from_bytes(data[1:9], "big")
    if issued > moment:
        return b"refused future"
    if moment >= expires:
        return b"refused expired"
    if expires > issued + LIFE:
        return b"refused span"
    return b"valid " + plain.hex().encode()


def read_line(line):
    """The number and the token of a line; None where it is no line of these."""
    number, space, token = line.partition(b" ")
    if not space or not re.fullmatch(rb"0|[1-9][0-9]*", number) or int(number) > LAST_NUMBER:
        return None
    return int(number), token


def check(data):
    """What the program is to write, and the number of the bad line or None."""
    lines = data.split(b"\n")
    if lines[-1] == b"":
        lines.pop()
    key = read_key(lines[0]) if lines else None
    if key is None:
        return b"", 1
    moment = 0
    said = []
    for count, line in enumerate(lines[1:], 2):
        read = read_line(line) if len(line) <= LONGEST_LINE and count <= MOST_LINES else None
        if read is None:
            return b"".join(said), count
        number, token = read
        moment = max(moment, min(number, LAST_MOMENT))
        said.append(answer(key, moment, token) + b"\n")
    return b"".join(said), None


# The inputs.


def write_base64(data, padded=True):
    bits = len(data) * 8
    unused = -bits % 6
    number = int.from_bytes(data, "big") << unused
    text = bytearray()
    for place in range((bits + unused) // 6 - 1, -1, -1):
        text.append(DIGITS[number >> 6 * place & 63])
    return bytes(text) + (b"=" * (-len(text) % 4) if padded else b"")


def random_id(rng):
    if rng.random() < 0.5:
        return b"\0" + rng.randbytes(16)
    length = rng.choice((1, 2, 31, 32, 33, 63, 64, rng.randint(1, 64)))
    text = bytes(rng.choice(DIGITS) for _ in range(length))
    if rng.random() < 0.5:
        # Almost an id that is packed: hex digits, but of another number or with another sign.
        text = rng.randbytes(32).hex().encode()[:length]
        if length == 32:
            place = rng.choice((0, 31, rng.randrange(32)))
            text = text[:place] + rng.choice((b"A", b"F", b"G", b"g", b"_", b"-")) + text[place + 1 :]
    return bytes([length]) + text


def wrong_id(rng):
    return rng.choice((
        b"\x20" + rng.randbytes(16).hex().encode(),
        b"\x20" + b"0" * 32,
        b"\x41" + b"a" * 65,
        b"\xff" + b"a" * 255,
        b"\x03a" + bytes([rng.choice(b"\0 /:@[`{.,+=\x7f\x80\xff\n")]) + b"b",
        b"\x01" + bytes([rng.choice(b"\0 /:@[`{.,+=\x7f\x80\xff\n")]),
        b"\0" + rng.randbytes(15),
        b"\x40" + b"z" * 63,
        b"",
    ))


def payload(rng, expires, defect=None):
    version = rng.choice((1, 2, 2))
    kind = rng.randint(0, (3, 5)[version - 1])
    fields = [bytes([version]), bytes([kind]), bytes([rng.randint(1, 15)])]
    fields += [random_id(rng) for _ in range(1 + SCOPE_IDS[kind])]
    fields.append(expires.to_bytes(8, "big"))
    audits = rng.randint(1, 2)
    fields += [bytes([audits]), rng.randbytes(16 * audits)]
    if defect == "version":
        fields[0] = bytes([rng.choice((0, 1, 2, 3, 0x80, 255))])
    elif defect == "kind":
        fields[1] = bytes([rng.choice((4, 5, 6, 255, (kind + 1) % 4, (kind + 1) % 6))])
    elif defect == "methods":
        fields[2] = bytes([rng.choice((0, 16, 17, 255))])
    elif defect == "id":
        fields[rng.randint(3, len(fields) - 4)] = wrong_id(rng)
    elif defect == "expires":
        late = rng.choice((LAST_EXPIRY, LAST_EXPIRY + 1, 2**63, LAST_NUMBER))
        fields[-3] = late.to_bytes(8, "big")
    elif defect == "audits":
        audits = rng.choice((0, 1, 2, 3, 255))
        fields[-2] = bytes([audits])
        if rng.random() < 0.7:
            fields[-1] = rng.randbytes(16 * audits + rng.choice((0, 0, 0, -1 if audits else 0, 1)))
    elif defect == "cut":
        whole = b"".join(fields)
        return whole[: rng.choice((len(whole) - 1, rng.randrange(len(whole))))]
    elif defect == "more":
        fields.append(rng.randbytes(rng.choice((1, 16, rng.randint(1, 300)))))
    elif defect == "noise":
        return rng.randbytes(rng.randint(1, 200))
    elif defect == "empty":
        return b""
    return b"".join(fields)


PAYLOAD_DEFECTS = ("version", "kind", "methods", "id", "id", "expires", "audits", "cut", "more", "noise", "empty")


def encipher(key, iv, padded):
    encryptor = Cipher(algorithms.AES(key), modes.CBC(iv)).encryptor()
    return encryptor.update(padded) + encryptor.finalize()


def pad(plain):
    count = 16 - len(plain) % 16
    return plain + bytes([count]) * count


def wrong_pad(rng, plain):
    """Whole blocks whose last bytes are no padding, or one that takes up a strange part of them."""
    padded = bytearray(pad(plain))
    sort = rng.randrange(5)
    if sort == 0:
        padded[-1] = 0
    elif sort == 1:
        padded[-1] = rng.choice((17, 18, 32, 128, 255))
    elif sort == 2:
        count = rng.randint(2, 16)
        padded[-count:] = bytes([count]) * count
        padded[-rng.randint(2, count)] ^= rng.randint(1, 255)
    elif sort == 3:
        padded += bytes([17]) * 32
    else:
        padded[-1] = rng.randint(1, 16)
    return bytes(padded)


def sign(key, data):
    return data + hmac.new(key[:16], data, hashlib.sha256).digest()


def seal(rng, key, issued, padded, version=0x80):
    iv = rng.randbytes(16)
    return sign(key, bytes([version]) + issued.to_bytes(8, "big") + iv + encipher(key[16:], iv, padded))


def spell(rng, data):
    return write_base64(data, rng.random() < 0.5)


def flipped(rng, data):
    """The bytes with a bit of some region turned."""
    start, end = rng.choice(((0, 1), (1, 9), (9, 25), (25, len(data) - 32), (len(data) - 32, len(data))))
    changed = bytearray(data)
    changed[rng.choice((start, end - 1, rng.randrange(start, end)))] ^= 1 << rng.randrange(8)
    return bytes(changed)


def with_unused_bits(rng, text):
    """The same bytes in a text whose last digit has a bit set that says nothing, where there is one."""
    bare = text.rstrip(b"=")
    unused = len(bare) * 6 % 8
    if not unused:
        return text + rng.choice((b"=", b"A", b"=="))
    place = DIGITS.index(bare[-1]) | rng.randint(1, (1 << unused) - 1)
    return bare[:-1] + DIGITS[place : place + 1] + text[len(bare) :]


def broken_text(rng, text):
    bare = text.rstrip(b"=")
    place = rng.randrange(len(bare))
    sort = rng.randrange(13)
    if sort == 0:
        return bare + b"=" * rng.randint(0, 4)
    if sort == 1:
        return with_unused_bits(rng, text)
    if sort == 2:
        return text[: rng.randrange(len(text))]
    if sort == 3:
        return bare[: len(bare) - rng.randint(1, 4)]
    if sort == 4:
        return bare[:place] + rng.choice((b"+", b"/", b"=", b".", b"~", b"%2D")) + bare[place + 1 :]
    if sort == 5:
        return bare.replace(b"-", b"+").replace(b"_", b"/")
    if sort == 6:
        return bare[:place] + bytes([rng.choice((0, 13, 9, 32, 0x80, 0xC3, 0xFF, 0x7F))]) + bare[place + 1 :]
    if sort == 7:
        return bare[:place] + bytes([rng.choice((0, 13, 32, 65, 0xFF))]) + bare[place:]
    if sort == 8:
        return text + rng.choice((b"\r", b" ", b"\0", b"A", b"AA", b"AAA", b"AAAA", b"==", b"\xe2\x82\xac"))
    if sort == 9:
        return rng.choice((b" ", b"\0", b"A", b"=", b"\xef\xbb\xbf")) + text
    if sort == 10:
        return b"".join((text, b" ", text))
    if sort == 11:
        return bare[:place] + bytes([bare[place] ^ 32]) + bare[place + 1 :]
    return bytes(b for b in rng.randbytes(rng.randint(0, 300)) if b != 10)


def long_text(rng, key, issued):
    sort = rng.randrange(6)
    if sort == 0:
        # The longest that is an envelope: 44 blocks, 761 bytes, 1,015 digits.
        plain = rng.randbytes(44 * 16 - rng.randint(1, 16))
        return spell(rng, seal(rng, key, issued, pad(plain)))
    if sort == 1:
        plain = rng.randbytes(45 * 16 - rng.randint(1, 16))
        return spell(rng, seal(rng, key, issued, pad(plain)))
    if sort == 2:
        return bytes(rng.choice(DIGITS) for _ in range(rng.choice((1023, 1024, 1025, 1026, 1027))))
    if sort == 3:
        return b"gAAAA" + b"A" * (rng.choice((1016, 1020, 1023, 1024, 1025, 1027, 1028)) - 5)
    if sort == 4:
        # No whole blocks.
        sealed = rng.randbytes(rng.choice((0, 8, 15, 17, 31, 703, 705, 712)))
        return spell(rng, sign(key, b"\x80" + issued.to_bytes(8, "big") + rng.randbytes(16) + sealed))
    return spell(rng, seal(rng, key, issued, rng.randbytes(16 * rng.randint(1, 60))))


def other_key(rng, key):
    sort = rng.randrange(4)
    if sort == 0:
        return rng.randbytes(32)
    if sort == 1:
        return key[:16] + rng.randbytes(16)
    if sort == 2:
        return rng.randbytes(16) + key[16:]
    return key[16:] + key[:16]


def times(rng, moment):
    """When a token was issued, how long it lives, and a reading, each often at a bound."""
    issued = max(0, moment + rng.randint(-4000, 10))
    lives = [LIFE, LIFE, LIFE + 1, LIFE - 1, 1, 0]
    life = rng.choice(lives + [rng.randint(0, LIFE), rng.randint(0, LIFE), rng.randint(0, 9000)])
    expires = min(issued + life, LAST_EXPIRY)
    if rng.random() < 0.02:
        expires = max(0, issued - rng.randint(0, 5))
    readings = [issued - 1, issued, issued, issued + 1, expires - 2, expires - 1, expires - 1, expires, expires + 1]
    readings += [rng.randint(issued, max(issued, expires)) for _ in range(2)]
    return issued, expires, max(0, rng.choice(readings))


def token_line(rng, key, moment):
    """The parts of a line: a reading and a token, and the moment that the lines behind it are near."""
    issued, expires, reading = times(rng, moment)
    if rng.random() < 0.03:
        issued = rng.choice((0, LAST_MOMENT, LAST_MOMENT + 1, LAST_EXPIRY, 2**63, LAST_NUMBER - LIFE, LAST_NUMBER))
    sort = rng.random()
    if sort < 0.45:
        return reading, spell(rng, seal(rng, key, issued, pad(payload(rng, expires))))
    if sort < 0.65:
        plain = payload(rng, expires, rng.choice(PAYLOAD_DEFECTS))
        return reading, spell(rng, seal(rng, key, issued, pad(plain)))
    if sort < 0.72:
        return reading, spell(rng, seal(rng, key, issued, wrong_pad(rng, payload(rng, expires))))
    good = pad(payload(rng, expires))
    if sort < 0.79:
        return reading, spell(rng, flipped(rng, seal(rng, key, issued, good)))
    if sort < 0.83:
        return reading, spell(rng, seal(rng, other_key(rng, key), issued, good))
    if sort < 0.85:
        return reading, spell(rng, seal(rng, key, issued, good, rng.choice((0, 1, 0x7F, 0x81, 0xFF))))
    if sort < 0.88:
        return reading, long_text(rng, key, issued)
    return reading, broken_text(rng, spell(rng, seal(rng, key, issued, good)))


def long_line(rng):
    """A line of the greatest length, or of one byte more."""
    number = rng.choice((b"0", b"17", b"18446744073709551615"))
    length = rng.choice((1099, 1100, 1100, 1101, 1102, 3000, 70000)) - len(number) - 1
    return number + b" " + bytes([rng.choice(b"A= \0\xff")]) * length


def bad_lines(rng, line):
    """A line of each sort that is not a number, one space and a token."""
    number, _, token = line.partition(b" ")
    return [
        b"",
        b" ",
        b"\r",
        number,
        number + token,
        token,
        b" " + line,
        b"0" + line,
        b"00 " + token,
        b"01 " + token,
        b"+" + line,
        b"-" + line,
        b"-0 " + token,
        number + b"\t" + token,
        number + b"\xc2\xa0" + token,
        number + b"\r " + token,
        number + b"\0 " + token,
        number + b". " + token,
        number + b"_0 " + token,
        b"0x1 " + token,
        b"1e3 " + token,
        b"\xd9\xa1 " + token,
        b"\xb2 " + token,
        b"\xef\xbb\xbf" + line,
        b"18446744073709551616 " + token,
        b"18446744073709551620 " + token,
        b"28446744073709551615 " + token,
        b"184467440737095516150 " + token,
        b"99999999999999999999 " + token,
        b"9" * 300 + b" " + token,
        b"/ " + token,
        b": " + token,
        number + b": " + token,
        b"7" * 1101,
        number + b" " + b"A" * 1101,
    ]


def key_line(rng, key):
    return write_base64(key, rng.random() < 0.8)


def bad_key_lines(rng, key):
    """A line of each sort that is no key."""
    text = write_base64(key)
    bare = text.rstrip(b"=")
    place = rng.randrange(43)
    lines = [with_unused_bits(rng, text), with_unused_bits(rng, bare)]
    lines += [text + more for more in (b"=", b"\r", b" ", b"\0", b"A", b" 0")]
    lines += [bare + more for more in (b"==", b"A", b"\r", b"=A", b"A=")]
    lines += [more + text for more in (b" ", b"\0", b"=", b"A", b"\xef\xbb\xbf", b"0 ")]
    for count in (0, 1, 16, 24, 30, 31, 33, 34, 48, 64):
        lines += [write_base64(rng.randbytes(count), padded) for padded in (True, False)]
    lines += [text[:place] + bytes([wrong]) + text[place + 1 :] for wrong in b"+/=. \r\0\xff\x80"]
    lines += [text[:place], key.hex().encode(), key.replace(b"\n", b"\0"), b"A" * 1100, b"A" * 1101]
    return lines


def random_input(rng):
    key = rng.randbytes(32)
    if rng.random() < 0.1:
        # Digits of both sorts that are the url's own.
        key = bytes(rng.choice((0xFB, 0xEF, 0xBE, 0xFF)) for _ in range(32))
    if rng.random() < 0.02:
        return rng.choice((b"", b"\n", b"\n\n", b"\r\n", b"\0", b" \n"))
    lines = [key_line(rng, key)]
    if rng.random() < 0.06:
        lines = [rng.choice(bad_key_lines(rng, key))]
    moment = rng.choice((0, 1700000000, 1700000000, 1700000000, LAST_MOMENT - 5000, LAST_MOMENT, LAST_EXPIRY - 3000))
    for _ in range(rng.choice((0, 1, 2, 5, 10, 20, rng.randint(0, 40)))):
        reading, token = token_line(rng, key, moment)
        if rng.random() < 0.01:
            reading = rng.choice((0, LAST_MOMENT - 1, LAST_MOMENT, LAST_MOMENT + 1, LAST_EXPIRY, 2**63, LAST_NUMBER))
        line = b"%d " % reading + token
        if rng.random() < 0.02:
            line = b"%d " % reading + bytes(b for b in rng.randbytes(rng.randint(0, 20)) if b != 10)
        if rng.random() < 0.01:
            line = long_line(rng)
        if rng.random() < 0.01:
            line = rng.choice(bad_lines(rng, line))
        lines.append(line)
        # Near the moment that the reading gave, or else far readings would make all later tokens old.
        if rng.random() < 0.95:
            moment = max(moment, min(reading, LAST_MOMENT))
    data = b"\n".join(lines)
    if rng.random() < 0.03:
        data = data.replace(b"\n", b"\r\n")
    if rng.random() < 0.7:
        data += b"\n"
    if rng.random() < 0.02:
        data += rng.choice((b"\n", b"0", b"0 ", b"\0", b"\r"))
    return data


def each_sort(rng):
    """Inputs of each sort of bad line, which comes before other lines, between them and behind them."""
    key = rng.randbytes(32)
    line = lambda: b"%d " % 1700000000 + token_line(rng, key, 1700000000)[1]
    for bad in bad_key_lines(rng, key):
        yield bad
        yield b"\n".join((bad, line(), b""))
    for place in range(len(bad_lines(rng, line()))):
        first = key_line(rng, key)
        bad = bad_lines(rng, line())[place]
        yield b"\n".join((first, bad, line(), b""))
        yield b"\n".join((first, line(), line(), bad, bad))
        yield b"\n".join((first, line(), bad)) + rng.choice((b"", b"\n"))
    for end in (b"", b"\n", b"\n\n", b"\n\r", b"\r", b"\0"):
        yield end
        yield key_line(rng, key) + end
        yield b"\n".join((key_line(rng, key), line())) + end


def long_inputs(rng):
    """Inputs of the greatest number of lines and of one more, and one of many pieces."""
    key = rng.randbytes(32)
    first = write_base64(key) + b"\n"
    yield first + b"7 \n" * (MOST_LINES - 2) + b"8 x"
    yield first + b"7 \n" * (MOST_LINES - 1) + b"8 x"
    lines = []
    for _ in range(2000):
        reading, token = token_line(rng, key, 1700000000)
        lines.append(b"%d " % min(reading, 1700000000) + token + b"\n")
    yield first + b"".join(lines)


# The runs.


def deliver(pipe, data, rng):
    """Writes the data in chunks, mostly at once and now and then with pauses, and closes the pipe."""
    sizes = rng.choice(((1 << 20,), (1 << 20,), (1, 7, 60, 500), (4096,), (65535, 65536, 65537)))
    pauses = rng.random() < 0.1
    try:
        while data:
            count = rng.choice(sizes)
            pipe.write(data[:count])
            pipe.flush()
            data = data[count:]
            if pauses and rng.random() < 0.2:
                time.sleep(0.001)
    except BrokenPipeError:
        # The program ended at a bad line.
        pass
    finally:
        try:
            pipe.close()
        except BrokenPipeError:
            pass


def run(data, rng):
    process = subprocess.Popen([KS, "check"], stdin=subprocess.PIPE, stdout=subprocess.PIPE, stderr=subprocess.PIPE)
    writer = threading.Thread(target=deliver, args=(process.stdin, data, rng))
    process.stdin = None
    writer.start()
    out, err = process.communicate()
    writer.join()
    return out, err, process.returncode


def difference(data, out, err, status):
    """What the program said otherwise than the reading, or None."""
    wanted, bad = check(data)
    if out != wanted:
        pairs = itertools.zip_longest(out.splitlines(True), wanted.splitlines(True))
        place, (said, asked) = next(found for found in enumerate(pairs, 1) if found[1][0] != found[1][1])
        return f"answer {place} is {said}, and {asked} is wanted"
    if status != (6 if bad else 0):
        return f"the status is {status}, and {6 if bad else 0} is wanted"
    if bad and not re.fullmatch(rb"[^\n]*\bline %d\b[^\n]*\n" % bad, err):
        return f"the error is {err}, and one line on line {bad} is wanted"
    if not bad and err:
        return f"the error is {err}, and nothing is wanted"
    return None


def ended(words, status, stdin=subprocess.DEVNULL, stdout=subprocess.PIPE):
    """Whether the program ends with the status on these words, with one line on standard error alone."""
    done = subprocess.run([KS] + words, stdin=stdin, stdout=stdout, stderr=subprocess.PIPE)
    if done.returncode == status and not done.stdout and re.fullmatch(rb"[^\n]+\n", done.stderr):
        return True
    said = f"{words} ends with {done.returncode}, {done.stdout} and {done.stderr}"
    print(f"check_random: {said}, and status {status} and one line on standard error are wanted")
    return False


def ends():
    """Tries the statuses of other words than check's, and those of an input and an output that fail."""
    words = ([], [""], ["chec"], ["checks"], ["Check"], ["check", "check"], ["check", ""], [b"check\xff"], ["check\n"])
    if not all(ended(list(w), 2) for w in words):
        return False
    folder = os.open(TOP, os.O_RDONLY)
    fine = ended(["check"], 3, stdin=folder)
    os.close(folder)
    if not fine or not os.path.exists("/dev/full"):
        return fine
    with tempfile.TemporaryFile() as given, open("/dev/full", "wb") as full:
        given.write(b"A" * 43 + b"\n0 x\n")
        given.seek(0)
        return ended(["check"], 4, stdin=given, stdout=full)


def inputs(seed, cases):
    rng = random.Random(seed)
    for _ in range(cases):
        yield random_input(random.Random(rng.randbytes(16)))
    yield from each_sort(rng)
    yield from long_inputs(rng)


def main():
    parser = argparse.ArgumentParser(description="Compares ks check with a plain reading of its format.")
    parser.add_argument("--seed", type=int, default=1)
    parser.add_argument("--cases", type=int, default=500)
    parser.add_argument("--counts", action="store_true", help="also print how often each answer was given")
    options = parser.parse_args()
    if not os.access(KS, os.X_OK):
        print(f"check_random: there is no program {KS}")
        return 1
    # bin/ks may have to build the program first.
    subprocess.run([KS, "check"], stdin=subprocess.DEVNULL, stdout=subprocess.DEVNULL, stderr=subprocess.DEVNULL)
    if not ends():
        return 1
    chunks = random.Random(options.seed)
    tried = lines = 0
    counts = collections.Counter()
    for data in inputs(options.seed, options.cases):
        out, err, status = run(data, chunks)
        differs = difference(data, out, err, status)
        if differs:
            name = os.path.join(tempfile.mkdtemp(prefix="check_random."), "input")
            with open(name, "wb") as kept:
                kept.write(data)
            print(f"check_random: input {tried + 1} of seed {options.seed}, which is in {name}: {differs}")
            return 1
        tried += 1
        lines += data.count(b"\n") + (data != b"" and not data.endswith(b"\n"))
        if options.counts:
            counts[f"status {status}"] += 1
            counts.update(re.sub(b"^valid .*", b"valid", line).decode() for line in out.splitlines())
    print(f"{tried} inputs, {lines} lines: all agree")
    for what, count in sorted(counts.items()):
        print(f"  {what}: {count}")
    return 0


if __name__ == "__main__":
    sys.exit(main())
