"""JSON texts and the fields of bodies (Identity API v3), read one by one."""

import json
import re

from second_reading.words import METHOD_RULES, Refusal
from second_reading.ciphers import is_id, moment_of
from second_reading.codes import base32_bytes

MISSING = object()


def is_plain(text):
    """Whether a text has at most 127 levels, and no half of a surrogate pair alone in its strings."""
    levels, place, high, in_string = 0, 0, False, False
    while place < len(text):
        step, is_low = 1, False
        if in_string and text[place] == "\\":
            step = 6 if text[place + 1:place + 2] == "u" else 2
            code = text[place + 2:place + 6] if step == 6 else ""
            code = int(code, 16) if re.fullmatch("[0-9A-Fa-f]{4}", code) else 0
            is_low = 0xDC00 <= code < 0xE000
            if is_low != high:
                return False
            high = 0xD800 <= code < 0xDC00
        elif high:
            return False
        elif text[place] == '"':
            in_string = not in_string
        elif not in_string:
            levels += (text[place] in "[{") - (text[place] in "]}")
            if levels > 127:
                return False
        place += step
    return True


def real(text):
    """A number that is no whole one, or no such from 0 below 2^64; one out of a double's range is no JSON."""
    number = float(text)
    if number in (float("inf"), float("-inf")):
        raise ValueError("out of range")
    return number


def whole_or_real(text):
    """A whole number from 0 below 2^64 as such."""
    if text.startswith("-") or len(text) > 20 or int(text) >= 2**64:
        return real(text)
    return int(text)


def no_constant(text):
    """`NaN` and `Infinity` are no JSON."""
    raise ValueError(text)


def document(data):
    """The value of a JSON text (RFC 8259)."""
    try:
        text = data.decode("utf-8")
        if not is_plain(text):
            raise ValueError("not plain")
        return json.loads(text, parse_int=whole_or_real, parse_float=real, parse_constant=no_constant)
    except ValueError:
        raise Refusal("NotJson") from None


def at(place, *names):
    """The place of a member, as its path and its value; `MISSING` below what is missing."""
    path, value = place
    for name in names:
        if value is not MISSING and not isinstance(value, dict):
            raise Refusal("Kind", path)
        path = path + "." + name if path else name
        value = value.get(name, MISSING) if value is not MISSING else MISSING
    return path, value


def needed(place, reader):
    """A field that must be there; null has the wrong type."""
    path, value = place
    if value is MISSING:
        raise Refusal("Missing", path)
    return reader(path, value)


def optional(place, reader, default=None):
    """A field that may be absent, or null."""
    path, value = place
    return default if value is MISSING or value is None else reader(path, value)


def kind_unless(holds, path):
    """The value has its type."""
    if not holds:
        raise Refusal("Kind", path)


def range_unless(holds, path):
    """The value is in its range."""
    if not holds:
        raise Refusal("Range", path)


def any_text(path, value):
    """A text."""
    kind_unless(isinstance(value, str), path)
    return value


def text_of(low, high):
    """A text of so many bytes."""

    def reader(path, value):
        any_text(path, value)
        range_unless(low <= len(value.encode()) <= high, path)
        return value

    return reader


NAME = text_of(1, 255)
DESCRIPTION = text_of(0, 4096)
PASSWORD = text_of(1, 4096)
SECRET = text_of(1, 255)
SERVICE_TEXT = text_of(0, 255)
ENDPOINT_URL = text_of(1, 2048)


def id_text(path, value):
    """An id."""
    any_text(path, value)
    range_unless(is_id(value), path)
    return value


def truth(path, value):
    """True or false."""
    kind_unless(isinstance(value, bool), path)
    return value


def only(wanted):
    """One of the two truths."""

    def reader(path, value):
        truth(path, value)
        range_unless(value is wanted, path)
        return value

    return reader


def one_of(*texts):
    """One of some texts."""

    def reader(path, value):
        any_text(path, value)
        range_unless(value in texts, path)
        return value

    return reader


interface = one_of("public", "internal", "admin")


def whole(low, high):
    """A whole number in a range."""

    def reader(path, value):
        kind_unless(isinstance(value, int) and not isinstance(value, bool), path)
        range_unless(low <= value <= high, path)
        return value

    return reader


def time_field(path, value):
    """A time text, as its moment."""
    any_text(path, value)
    kind_unless(moment_of(value) is not None, path)
    return moment_of(value)


def a_list(path, value):
    """A list."""
    kind_unless(isinstance(value, list), path)
    return value


def an_object(path, value):
    """An object."""
    kind_unless(isinstance(value, dict), path)
    return value


def named(place):
    """What is named by its id, or else by its name."""
    given = optional(at(place, "id"), id_text)
    return {"id": given} if given is not None else {"name": needed(at(place, "name"), NAME)}


def named_at_home(place):
    """The same, where a name is unique within a domain."""
    found = named(place)
    return found if "id" in found else {"name": found["name"], "domain": named(at(place, "domain"))}


def named_of_user(place):
    """The same, where a name is unique among what is a user's."""
    found = named(place)
    return found if "id" in found else {"name": found["name"], "user": named_at_home(at(place, "user"))}


def shown_methods(path, value):
    """A list of one method that can be shown alone, or of a password and a code in either order."""
    a_list(path, value)
    alone = [[name] for name in ("password", "totp", "token", "application_credential")]
    range_unless(value in alone + [["password", "totp"], ["totp", "password"]], path)
    return value


def passcode(path, value):
    """A code of six digits, as their number."""
    any_text(path, value)
    range_unless(re.fullmatch("[0-9]{6}", value), path)
    return int(value)


def scope_field(path, value):
    """`unscoped`, or exactly one scope."""
    kind_unless(isinstance(value, (str, dict)), path)
    range_unless(isinstance(value, dict) or value == "unscoped", path)
    if value == "unscoped":
        return {"kind": "unscoped"}
    known = ("unscoped", "domain", "project", "system", "OS-TRUST:trust")
    given = [name for name in known if value.get(name) is not None]
    range_unless(len(given) == 1, path)
    place = at((path, value), given[0])
    if given[0] == "domain":
        return {"kind": "domain", "named": named(place)}
    if given[0] == "project":
        return {"kind": "project", "named": named_at_home(place)}
    if given[0] == "system":
        needed(at(place, "all"), only(True))
    if given[0] == "OS-TRUST:trust":
        return {"kind": "trust", "id": needed(at(place, "id"), id_text)}
    return {"kind": given[0]}


def login_form(body):
    """The body of a login: who shows by which method to be whom, and the scope that is asked for."""
    identity = at(body, "auth", "identity")
    methods, proof = needed(at(identity, "methods"), shown_methods), {}
    if "password" in methods:
        user = at(identity, "password", "user")
        proof.update(password=needed(at(user, "password"), PASSWORD), user=named_at_home(user))
    if "totp" in methods:
        user = at(identity, "totp", "user")
        proof.update(code=needed(at(user, "passcode"), passcode), code_user=named_at_home(user))
    if "token" in methods:
        proof.update(token=needed(at(identity, "token", "id"), any_text))
    if "application_credential" in methods:
        place = at(identity, "application_credential")
        proof.update(credential=named_of_user(place), secret=needed(at(place, "secret"), SECRET))
    return {"proof": proof, "scope": optional(at(body, "auth", "scope"), scope_field, {"kind": "none"})}


def method_rule(path, value):
    """One method, or two, of which one may come twice; a rule has the path of the list of rules."""
    a_list(path, value)
    range_unless(1 <= len(value) <= 2, path)
    return {one_of("password", "totp")(path, name) for name in value}


def method_rules(path, value):
    """Rules of the methods that a user has to log in by."""
    a_list(path, value)
    range_unless(len(value) <= METHOD_RULES, path)
    return [method_rule(path, rule) for rule in value]


def user_options(path, value):
    """Whether a user has to log in by more methods, and by which."""
    place = (path, an_object(path, value))
    return {"enabled": optional(at(place, "multi_factor_auth_enabled"), truth, True),
            "rules": optional(at(place, "multi_factor_auth_rules"), method_rules, [])}


MADE = {
    "domain": (("name", NAME), ("description", DESCRIPTION), ("enabled", truth)),
    "project": (("name", NAME), ("domain_id", id_text), ("parent_id", id_text), ("description", DESCRIPTION), ("enabled", truth),
                ("is_domain", only(False))),
    "user": (("name", NAME), ("domain_id", id_text), ("password", PASSWORD), ("enabled", truth), ("options", user_options)),
    "group": (("name", NAME), ("domain_id", id_text), ("description", DESCRIPTION)),
    "role": (("name", NAME), ("description", DESCRIPTION)),
    "region": (("id", id_text), ("description", DESCRIPTION), ("parent_region_id", id_text)),
    "service": (("type", SERVICE_TEXT), ("name", SERVICE_TEXT), ("description", DESCRIPTION), ("enabled", truth)),
    "endpoint": (("service_id", id_text), ("interface", interface), ("url", ENDPOINT_URL), ("region_id", id_text),
                 ("enabled", truth)),
}
NEEDED = {"region": (), "service": ("type",), "endpoint": ("service_id", "interface", "url")}


def made_form(body, kind, is_new):
    """The body that makes a row, or changes one: the fields that it gives."""
    place = at(body, kind)
    fields = {}
    for name, reader in MADE[kind]:
        is_needed = is_new and name in NEEDED.get(kind, ("name",))
        fields[name] = (needed if is_needed else optional)(at(place, name), reader)
        if name == "region_id" and fields[name] is None:
            fields[name] = optional(at(place, "region"), id_text)
    if not is_new and "id" not in fields:
        fields["id"] = optional(at(place, "id"), id_text)
    return {name: value for name, value in fields.items() if value is not None}


def password_form(body):
    """The original and the new password."""
    return (needed(at(body, "user", "original_password"), PASSWORD), needed(at(body, "user", "password"), PASSWORD))


def named_roles(path, value):
    """0 to 64 roles, each by its id or else by its name; an entry has the path of the list."""
    a_list(path, value)
    range_unless(len(value) <= 64, path)
    return [named((path, an_object(path, entry))) for entry in value]


def trust_form(body):
    """The body that makes a trust."""
    place = at(body, "trust")
    read = {
        "trustor": needed(at(place, "trustor_user_id"), id_text),
        "trustee": needed(at(place, "trustee_user_id"), id_text),
        "project": needed(at(place, "project_id"), id_text),
        "impersonation": needed(at(place, "impersonation"), truth),
        "roles": needed(at(place, "roles"), named_roles),
        "expires": optional(at(place, "expires_at"), time_field),
        "remaining": optional(at(place, "remaining_uses"), whole(1, 2**53)),
        "redelegate": optional(at(place, "allow_redelegation"), truth, False),
        "count": optional(at(place, "redelegation_count"), whole(0, 2**32 - 1)),
        "parent": optional(at(place, "redelegated_trust_id"), id_text),
    }
    # A trust that counts its uses can't be passed on.
    range_unless(read["remaining"] is None or not read["redelegate"], "trust.remaining_uses")
    return read


def no_rules(path, value):
    """An empty list."""
    range_unless(not a_list(path, value), path)


def appcred_form(body):
    """The body that makes an application credential."""
    place = at(body, "application_credential")
    read = {
        "name": needed(at(place, "name"), NAME),
        "secret": optional(at(place, "secret"), SECRET),
        "description": optional(at(place, "description"), DESCRIPTION, ""),
        "expires": optional(at(place, "expires_at"), time_field),
        "roles": optional(at(place, "roles"), named_roles),
        "unrestricted": optional(at(place, "unrestricted"), truth, False),
    }
    # With access rules it would be meant for less than its roles.
    optional(at(place, "access_rules"), no_rules)
    return read


def totp_secret(path, value):
    """A secret of 10 to 64 bytes, in base32."""
    data = base32_bytes(any_text(path, value))
    range_unless(data is not None and 10 <= len(data) <= 64, path)
    return data


def secret_form(body):
    """The body that gives a user a secret of one-time codes."""
    place = at(body, "credential")
    needed(at(place, "type"), one_of("totp"))
    return {"secret": needed(at(place, "blob"), totp_secret), "user": needed(at(place, "user_id"), id_text)}
