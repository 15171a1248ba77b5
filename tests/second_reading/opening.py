"""The ring of keys (Keystone's administration guide, Fernet keys) and the opening file."""

import base64
import binascii
import hashlib
import re

from second_reading.words import OpeningRefused
from second_reading.ciphers import key_of
from second_reading.forms import (
    DESCRIPTION, ENDPOINT_URL, MISSING, NAME, PASSWORD, SERVICE_TEXT, a_list, an_object, any_text, at, id_text, interface,
    kind_unless, needed, only, optional, range_unless, truth, whole,
)


def folder_keys(folder):
    """The keys of a folder by rising index, or the name of the first cause for which it is refused."""
    if not folder:
        return "NoKeys"
    if len(folder) > 32:
        return "TooMany"
    keys = []
    for index in sorted(folder):
        text = folder[index].decode("latin-1")
        key = key_of(text[:-1] if text.endswith("\n") else text)
        if key is None:
            return "BadKey"
        keys.append((index, key))
    return keys


class Ring:
    """Held keys as (index, number, key), the highest index first, and the next number."""

    def __init__(self, held=(), following=0):
        self.held, self.following = list(held), following

    def loaded(self, keys):
        """The ring of some keys: a key that was held keeps its number, each other one gets the next."""
        ring, kept = Ring((), self.following), []
        for index, key in sorted(keys):
            numbers = [number for _, number, other in self.held if other == key and number not in kept]
            kept += [min(numbers)] if numbers else [ring.following]
            ring.following += not numbers
            ring.held.insert(0, (index, kept[-1], key))
        return ring

    def rotated(self, key, most):
        """The staged key becomes the primary one, the new key is staged, and the lowest others go."""
        highest = self.held[0][0]
        moved = [(highest + 1 if index == 0 else index, number, other) for index, number, other in self.held]
        others = sorted(moved, reverse=True)[:most - 1]
        return Ring(others + [(0, self.following, key)], self.following + 1)

    def told(self):
        """The body that tells the held keys."""
        return {"keys": {"held": sorted(index for index, _, _ in self.held), "primary": self.held[0][0]}}


# --- The opening file ---


def entries(place):
    """The places of the entries of a list; an absent list is empty."""
    path, _ = place
    return [(f"{path}[{number}]", entry) for number, entry in enumerate(optional(place, a_list, []))]


def derived(password, salt, rounds):
    """What is kept of a password: salt, rounds and PBKDF2-HMAC-SHA256."""
    return (salt, rounds, hashlib.pbkdf2_hmac("sha256", password.encode(), salt, rounds, 32))


def url_text(path, value):
    """A URL that stands in fields of responses: visible ASCII behind the scheme."""
    text = any_text(path, value)
    range_unless(len(text) <= 1024 and re.fullmatch(r"https?://[!-~]*", text), path)
    return text


def settings_in(root):
    """The settings of an opening file."""
    place = (at(root, "settings")[0], optional(at(root, "settings"), an_object, {}))
    return {
        "url": optional(at(place, "url"), url_text, "http://127.0.0.1:5000"),
        "life": optional(at(place, "life"), whole(60, 604800), 3600),
        "rounds": optional(at(place, "rounds"), whole(1, 100000), 10000),
        "max_active_keys": optional(at(place, "max_active_keys"), whole(2, 32), 3),
    }


def key_texts(path, value):
    """The texts of the keys, or None where they come from the folder."""
    kind_unless(isinstance(value, (str, list)), path)
    range_unless(value == "folder" or isinstance(value, list) and 1 <= len(value) <= 32, path)
    return None if value == "folder" else [any_text(*place) for place in entries((path, value))]


def domain_in(place):
    """An entry of `domains`."""
    return {"id": needed(at(place, "id"), id_text), "name": needed(at(place, "name"), NAME),
            "description": optional(at(place, "description"), DESCRIPTION, ""),
            "enabled": optional(at(place, "enabled"), truth, True)}


def project_in(place):
    """An entry of `projects`."""
    row = {"id": needed(at(place, "id"), id_text), "domain": needed(at(place, "domain_id"), id_text)}
    row["parent"] = optional(at(place, "parent_id"), id_text, row["domain"])
    row["name"] = needed(at(place, "name"), NAME)
    row["description"] = optional(at(place, "description"), DESCRIPTION, "")
    row["enabled"] = optional(at(place, "enabled"), truth, True)
    return row


def bytes_in(text, count):
    """The bytes that a text spells in base64 with padding, if there are so many; a text that spells them otherwise is none."""
    try:
        spelled = base64.b64decode(text, validate=True)
    except binascii.Error:
        return None
    return spelled if len(spelled) == count and base64.b64encode(spelled).decode() == text else None


def password_record(path, value):
    """What is kept of a password, as a text: `pbkdf2_sha256$ROUNDS$SALT$DIGEST`."""
    text = any_text(path, value)
    parts = re.fullmatch(r"pbkdf2_sha256\$([1-9][0-9]{0,5})\$([A-Za-z0-9+/=]*)\$([A-Za-z0-9+/=]*)", text)
    range_unless(parts and int(parts[1]) <= 100000, path)
    salt, digest = bytes_in(parts[2], 16), bytes_in(parts[3], 32)
    range_unless(salt is not None and digest is not None, path)
    return (salt, int(parts[1]), digest)


def password_in(place):
    """A plain password, beside which no record stands, or the record of one; or None."""
    plain, record = optional(at(place, "password"), PASSWORD), at(place, "password_record")
    if plain is None:
        return optional(record, password_record)
    range_unless(record[1] is MISSING or record[1] is None, record[0])
    return plain


def user_in(place):
    """An entry of `users`."""
    return {"id": needed(at(place, "id"), id_text), "domain": needed(at(place, "domain_id"), id_text),
            "name": needed(at(place, "name"), NAME), "enabled": optional(at(place, "enabled"), truth, True),
            "password": password_in(place)}


def group_in(place):
    """An entry of `groups`."""
    return {"id": needed(at(place, "id"), id_text), "domain": needed(at(place, "domain_id"), id_text),
            "name": needed(at(place, "name"), NAME), "description": optional(at(place, "description"), DESCRIPTION, "")}


def role_in(place):
    """An entry of `roles`."""
    return {"id": needed(at(place, "id"), id_text), "name": needed(at(place, "name"), NAME),
            "description": optional(at(place, "description"), DESCRIPTION, "")}


def region_in(place):
    """An entry of `regions`."""
    return {"id": needed(at(place, "id"), id_text), "parent": optional(at(place, "parent_region_id"), id_text),
            "description": optional(at(place, "description"), DESCRIPTION, "")}


def service_in(place):
    """An entry of `services`."""
    return {"id": needed(at(place, "id"), id_text), "type": needed(at(place, "type"), SERVICE_TEXT),
            "name": optional(at(place, "name"), SERVICE_TEXT, ""),
            "description": optional(at(place, "description"), DESCRIPTION, ""),
            "enabled": optional(at(place, "enabled"), truth, True)}


def endpoint_in(place):
    """An entry of `endpoints`."""
    return {"id": needed(at(place, "id"), id_text), "service": needed(at(place, "service_id"), id_text),
            "interface": needed(at(place, "interface"), interface), "url": needed(at(place, "url"), ENDPOINT_URL),
            "region": optional(at(place, "region_id"), id_text), "enabled": optional(at(place, "enabled"), truth, True)}


def one_of(place, *members):
    """Exactly one of some members, as its name and what it says; the first is needed where there is none."""
    readers = {"system": only(True)}
    for number, name in enumerate(members):
        given = optional(at(place, name), readers.get(name, id_text))
        if given is not None:
            for other in members[number + 1:]:
                path, more = at(place, other)
                range_unless(more is MISSING or more is None, path)
            return name, given
    return members[0], needed(at(place, members[0]), id_text)


def grant_in(place):
    """An entry of `assignments`; what is granted on the system is inherited by nothing."""
    actor, target = one_of(place, "user", "group"), one_of(place, "project", "domain", "system")
    role, path = needed(at(place, "role"), id_text), at(place, "inherited")[0]
    inherited = optional(at(place, "inherited"), truth, False)
    range_unless(not inherited or target[0] != "system", path)
    return (actor, ("system", "") if target[0] == "system" else target, inherited, role)


def pair_in(first, second):
    """An entry of `members` or `implications`."""
    return lambda place: (needed(at(place, first), id_text), needed(at(place, second), id_text))


LISTS = (("domains", domain_in), ("projects", project_in), ("users", user_in), ("groups", group_in),
         ("members", pair_in("group", "user")), ("roles", role_in), ("implications", pair_in("prior", "implied")),
         ("regions", region_in), ("services", service_in), ("endpoints", endpoint_in), ("assignments", grant_in))


def written(root):
    """What an opening file says apart from its policy, read in the order of its members."""
    file = {"settings": settings_in(root), "keys": optional(at(root, "keys"), key_texts)}
    for name, reader in LISTS:
        file[name] = [reader(place) for place in entries(at(root, name))]
    if at(root, "domains")[1] in (MISSING, None):
        file["domains"] = [{"id": "default", "name": "Default", "description": "", "enabled": True}]
    return file


def rule_texts(value):
    """The texts of a policy; by name, the first value that is no text refuses it."""
    if value in (MISSING, None):
        return {}
    if not isinstance(value, dict):
        raise OpeningRefused("Policy", "NotObject")
    for name in sorted(value):
        if not isinstance(value[name], str):
            raise OpeningRefused("Policy", "NotText", name)
    return value


def grant_order(row):
    """Users before groups, each by id; the system before domains and these before projects; inherited last; the role."""
    (actor, actor_id), (target, target_id), inherited, role = row
    return (actor == "group", actor_id, ("system", "domain", "project").index(target), target_id, inherited, role)


def row_order(row):
    """Rows stand in the order of their ids."""
    return row["id"]
