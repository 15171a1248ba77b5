"""One-time codes (HOTP of RFC 4226, TOTP of RFC 6238), and the base32 of their secrets (RFC 4648, section 6)."""

import base64
import hashlib
import hmac
import re

STEP = 30


def code_of(secret, counter):
    """The six digits that a secret gives for a counter (RFC 4226, section 5.3)."""
    mac = hmac.new(secret, counter.to_bytes(8, "big"), hashlib.sha1).digest()
    offset = mac[19] & 0x0F
    return (int.from_bytes(mac[offset:offset + 4], "big") & 0x7FFFFFFF) % 1000000


def codes_at(secret, moment):
    """The codes that are taken at a moment: that of its 30 seconds, and that of the 30 before, if there are any."""
    step = moment // STEP
    return [code_of(secret, counter) for counter in (step, step - 1) if counter >= 0]


def base32_text(data):
    """Bytes as base32 with no padding."""
    return base64.b32encode(data).rstrip(b"=").decode()


def base32_bytes(text):
    """The bytes that a text spells in base32 with full padding or with none, its unused bits zero; or None."""
    bare = text.rstrip("=")
    padded = bare + "=" * (-len(bare) % 8)
    if not re.fullmatch("[A-Z2-7]*", bare) or len(bare) % 8 in (1, 3, 6) or text not in (bare, padded):
        return None
    data = base64.b32decode(padded)
    return data if base32_text(data) == bare else None
