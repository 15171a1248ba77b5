"""Fernet tokens (the Fernet specification, over FIPS 197 and SP 800-38A), what they hold, and texts of moments."""

import base64
import datetime
import hashlib
import hmac
import re

from second_reading.words import LAST_SECOND

try:
    from cryptography.hazmat.primitives.ciphers import Cipher, algorithms, modes
except ImportError:  # The ciphers below do as well, only slower.
    Cipher = None


# --- AES-128 in CBC (FIPS 197, SP 800-38A), where the library has none ---


def times(left, right):
    """The product of two bytes in GF(2^8)."""
    product = 0
    while right:
        product ^= left if right & 1 else 0
        left = (left << 1) ^ (0x11B if left & 0x80 else 0)
        right >>= 1
    return product


def sbox_of(byte):
    """The affine map of the inverse of a byte."""
    inverse = next((other for other in range(256) if times(byte, other) == 1), 0)
    turns = [((inverse << turn) | (inverse >> (8 - turn))) & 0xFF for turn in range(5)]
    return turns[0] ^ turns[1] ^ turns[2] ^ turns[3] ^ turns[4] ^ 0x63


SBOX = [sbox_of(byte) for byte in range(256)]
UNBOX = [SBOX.index(byte) for byte in range(256)]


def round_keys(key):
    """The eleven round keys."""
    words = [list(key[place:place + 4]) for place in range(0, 16, 4)]
    constant = 1
    while len(words) < 44:
        word = words[-1]
        if len(words) % 4 == 0:
            word = [SBOX[byte] for byte in word[1:] + word[:1]]
            word[0] ^= constant
            constant = times(constant, 2)
        words.append([left ^ right for left, right in zip(words[-4], word)])
    return [sum(words[place:place + 4], []) for place in range(0, 44, 4)]


def mixed(block, factors):
    """Each column of four bytes times the matrix whose first row the factors are."""
    return [times(block[column], factors[-row % 4]) ^ times(block[column + 1], factors[(1 - row) % 4])
            ^ times(block[column + 2], factors[(2 - row) % 4]) ^ times(block[column + 3], factors[(3 - row) % 4])
            for column in range(0, 16, 4) for row in range(4)]


def added(left, right):
    """Two lists of bytes added byte by byte."""
    return [one ^ other for one, other in zip(left, right)]


def cipher_block(key, block):
    """AES of a block; the tenth round mixes no columns."""
    keys = round_keys(key)
    block = added(block, keys[0])
    for number in range(1, 11):
        block = [SBOX[byte] for byte in block]
        block = [block[(place + 4 * (place % 4)) % 16] for place in range(16)]
        if number < 10:
            block = mixed(block, (2, 3, 1, 1))
        block = added(block, keys[number])
    return block


def decipher_block(key, block):
    """The inverse of AES on a block."""
    keys = round_keys(key)
    for number in range(10, 0, -1):
        block = added(block, keys[number])
        if number < 10:
            block = mixed(block, (14, 11, 13, 9))
        block = [block[(place - 4 * (place % 4)) % 16] for place in range(16)]
        block = [UNBOX[byte] for byte in block]
    return added(block, keys[0])


def plain_cbc(key, iv, text, deciphers):
    """CBC over whole blocks by the ciphers above."""
    written, last = [], list(iv)
    for place in range(0, len(text), 16):
        block = list(text[place:place + 16])
        if deciphers:
            written += added(decipher_block(key, block), last)
            last = block
        else:
            last = cipher_block(key, added(block, last))
            written += last
    return bytes(written)


def library_cbc(key, iv, text, deciphers):
    """CBC over whole blocks by the library."""
    cipher = Cipher(algorithms.AES(key), modes.CBC(iv))
    run = cipher.decryptor() if deciphers else cipher.encryptor()
    return run.update(text) + run.finalize()


cbc = library_cbc if Cipher else plain_cbc


# --- Fernet keys and tokens (Fernet specification) ---


def bare_text(data):
    """Bytes as base64url with no padding."""
    return base64.urlsafe_b64encode(data).rstrip(b"=").decode()


def spelled(text):
    """The bytes that a text spells in base64url with full padding or with none, its unused bits zero; or None."""
    bare = text.rstrip("=")
    if not re.fullmatch("[A-Za-z0-9_-]*", bare) or len(bare) % 4 == 1:
        return None
    if text != bare and text != bare + "=" * (-len(bare) % 4):
        return None
    data = base64.urlsafe_b64decode(bare + "=" * (-len(bare) % 4))
    return data if bare_text(data) == bare else None


def key_of(text):
    """The key that a text spells, as its 32 bytes: those that sign and those that encipher; or None."""
    data = spelled(text) if len(text) in (43, 44) else None
    return data if data is not None and len(data) == 32 else None


def seal(key, issued, iv, plain):
    """The token of a plain text."""
    count = 16 - len(plain) % 16
    head = b"\x80" + issued.to_bytes(8, "big") + iv + cbc(key[16:], iv, plain + bytes([count]) * count, False)
    return bare_text(head + hmac.new(key[:16], head, hashlib.sha256).digest())


def envelope_of(text):
    """The bytes of which a text is the token; or None."""
    data = spelled(text) if len(text) <= 1024 else None
    if data is None or len(data) < 57 + 16 or (len(data) - 57) % 16 or data[0] != 0x80:
        return None
    return data


def opened(key, data):
    """The time and the plain text of an envelope, where the key opens it; or None."""
    if not hmac.compare_digest(hmac.new(key[:16], data[:-32], hashlib.sha256).digest(), data[-32:]):
        return None
    plain = cbc(key[16:], data[9:25], data[25:-32], True)
    count = plain[-1]
    if not 1 <= count <= 16 or plain[-count:] != bytes([count]) * count:
        return None
    return int.from_bytes(data[1:9], "big"), plain[:-count]


# --- Payloads ---

SCOPES = {0: (), 1: ("domain",), 2: ("project",), 3: ("project", "trust"), 4: (), 5: ("project", "credential")}


def is_id(text):
    """1 to 64 bytes of `0-9 A-Z a-z _ -`."""
    return re.fullmatch("[0-9A-Za-z_-]{1,64}", text) is not None


def is_hex_id(text):
    """32 lower hex digits."""
    return re.fullmatch("[0-9a-f]{32}", text) is not None


def id_field(text):
    """00 and the 16 bytes of 32 lower hex digits; else the length and the id."""
    return b"\0" + bytes.fromhex(text) if is_hex_id(text) else bytes([len(text)]) + text.encode()


def spelling(payload):
    """The bytes of a payload, of version 2."""
    data = bytes([2, payload["kind"], payload["methods"]]) + id_field(payload["user"])
    for name in SCOPES[payload["kind"]]:
        data += id_field(payload[name])
    audits = [payload["audit"]] + ([payload["chain"]] if payload["chain"] else [])
    return data + payload["expires"].to_bytes(8, "big") + bytes([len(audits)]) + b"".join(audits)


def taken(data, count):
    """The first bytes and the rest."""
    if len(data) < count:
        raise ValueError("too short")
    return data[:count], data[count:]


def id_taken(data):
    """The id of an id field, and the rest."""
    (length,), data = taken(data, 1)
    if length == 0:
        raw, data = taken(data, 16)
        return raw.hex(), data
    raw, data = taken(data, length)
    text = raw.decode("latin-1")
    if not is_id(text) or is_hex_id(text):
        raise ValueError("no id")
    return text, data


def payload_read(data):
    """The payload that bytes spell, of version 1 or 2; ValueError where they spell none."""
    (version, kind, methods), data = taken(data, 3)
    if version not in (1, 2) or kind > (3 if version == 1 else 5) or not 1 <= methods <= 15:
        raise ValueError("version, kind or methods")
    payload = dict.fromkeys(("domain", "project", "trust", "credential", "chain"))
    payload.update(kind=kind, methods=methods)
    for name in ("user",) + SCOPES[kind]:
        payload[name], data = id_taken(data)
    expires, data = taken(data, 8)
    payload["expires"] = int.from_bytes(expires, "big")
    (count,), data = taken(data, 1)
    if payload["expires"] > LAST_SECOND or count not in (1, 2) or len(data) != 16 * count:
        raise ValueError("expiry or audit ids")
    payload["audit"], payload["chain"] = data[:16], data[16:] or None
    return payload


def payload_of(data):
    """The payload that bytes spell, or None."""
    try:
        return payload_read(data)
    except ValueError:
        return None


# --- Texts of moments ---

EPOCH = datetime.datetime(1970, 1, 1)


def time_text(moment):
    """`YYYY-MM-DDTHH:MM:SS.000000Z` of the seconds since 1970."""
    return (EPOCH + datetime.timedelta(seconds=moment)).strftime("%Y-%m-%dT%H:%M:%S") + ".000000Z"


def moment_of(text):
    """The seconds of a time text, whose fraction is left out; None where it is none."""
    match = re.fullmatch(r"(\d{4})-(\d\d)-(\d\d)T(\d\d):(\d\d):(\d\d)(\.\d{1,6})?Z", text, re.ASCII)
    if not match or int(match[1]) < 1970:
        return None
    try:
        civil = datetime.datetime(*(int(part) for part in match.groups()[:6]))
    except ValueError:
        return None
    return (civil - EPOCH) // datetime.timedelta(seconds=1)
