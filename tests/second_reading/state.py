"""The state: rows, effective roles, trusts, revocations, the validity of tokens, and changes."""

import json

from second_reading.words import (
    CATALOG, EVENT_GRACE, EXPIRED_WINDOW, KINDS, LEVELS, LIMITS, OF_USERS, OpeningRefused, Refusal, SELF_REVOCATIONS,
)
from second_reading.ciphers import envelope_of, key_of, opened, payload_of
from second_reading.forms import MISSING, an_object, document
from second_reading.policy import Policy
from second_reading.opening import Ring, derived, folder_keys, grant_order, row_order, rule_texts, written


class Token:
    """A valid token: its payload, the moment of its issue and its roles; `Invalid` says which line failed."""

    def __init__(self, payload, issued, roles):
        self.payload, self.issued, self.roles = payload, issued, roles


class Invalid(Exception):
    """The first line of a token's validity that fails."""


class Outcome:
    """What a granted command tells, and the change that it makes."""

    def __init__(self, status, body=None, change=None, text=None):
        self.status, self.body, self.change, self.text = status, body, change, text


def made_id(drawn):
    """The lower hex digits of the UUID of version 4 of 16 random bytes (RFC 9562, 5.4)."""
    data = bytearray(drawn)
    data[6] = data[6] & 0x0F | 0x40
    data[8] = data[8] & 0x3F | 0x80
    return data.hex()


def text_of_body(body):
    """JSON without white space, the members in the order of their names."""
    return json.dumps(body, ensure_ascii=False, separators=(",", ":"), sort_keys=True).encode()


class State:
    """The rows, the ring, the live revocations and the highest moment of a server."""

    def __init__(self, opening, salts=(), folder=None):
        self.opening = opening
        file, policy = self.read_file(opening)
        self.settings = file["settings"]
        self.folder_mode = file["keys"] is None
        keys = self.keys_held(folder) if self.folder_mode else None
        self.policy = Policy(rule_texts(policy))
        keys = keys or self.keys_listed(file["keys"])
        self.rows = {kind: file[kind + "s"] for kind in KINDS + CATALOG}
        self.rows.update({kind: [] for kind in ("trust",) + OF_USERS})
        self.members, self.implications, self.grants = file["members"], file["implications"], file["assignments"]
        self.method_rules, self.events, self.high, self.made = {}, [], 0, 0
        self.derive_passwords(iter(salts))
        self.refuse_rows()
        self.ring = Ring().loaded(keys)
        self.sort_rows()

    # The opening.

    def read_file(self, opening):
        """The file and its policy, which is not read yet; or the first fault of its form."""
        data = opening.encode() if isinstance(opening, str) else opening
        try:
            if len(data) > 16777216:
                raise Refusal("Range", "")
            root = ("", an_object("", document(data)))
            return written(root), root[1].get("policy", MISSING)
        except Refusal as refusal:
            raise OpeningRefused("Shape", refusal.cause, *refusal.told) from None

    def keys_held(self, folder):
        """The keys that the folder holds, with their indices."""
        if folder is None:
            raise OpeningRefused("Folder")
        keys = folder_keys(folder)
        if isinstance(keys, str):
            raise OpeningRefused("Keys", keys)
        return keys

    def keys_listed(self, texts):
        """The keys that the file lists, with their places."""
        for number, text in enumerate(texts):
            if key_of(text) is None:
                raise OpeningRefused("BadKey", f"keys[{number}]")
        return [(number, key_of(text)) for number, text in enumerate(texts)]

    def derive_passwords(self, salts):
        """Each plain password is derived with the next salt, and not kept."""
        for row in self.rows["user"]:
            if isinstance(row["password"], str):
                salt = next(salts, None)
                if salt is None:
                    raise OpeningRefused("Random")
                row["password"] = derived(row["password"], salt, self.settings["rounds"])

    def sort_rows(self):
        """Rows by id, and those that are their own key by themselves, each once."""
        for rows in self.rows.values():
            rows.sort(key=row_order)
        self.members, self.implications = sorted(set(self.members)), sorted(set(self.implications))
        self.grants = sorted(set(self.grants), key=grant_order)

    def refuse_rows(self):
        """The first cause for which the rows are refused: ids, names, absent rows, depth, disabled above, admin, room."""
        for test in (self.repeated_ids, self.repeated_names, self.absent_rows, self.deep_projects, self.projects_below_disabled,
                     self.implied_admins, self.full_tables):
            for fault in test():
                raise OpeningRefused(*fault)

    def repeated_ids(self):
        """An id is listed twice."""
        for kind in KINDS + CATALOG:
            ids = [row["id"] for row in self.rows[kind]]
            yield from (("IdRepeated", kind, each) for place, each in enumerate(ids) if each in ids[:place])

    def repeated_names(self):
        """Two rows have a name where it is unique; the earlier one is told."""
        for kind in KINDS:
            for place, row in enumerate(self.rows[kind]):
                for other in self.rows[kind][:place]:
                    if (other["name"], other.get("domain")) == (row["name"], row.get("domain")):
                        yield ("Name", kind, other["id"])

    def absent_rows(self):
        """A row names another that does not stand; a parent stands earlier, and in the same domain."""
        for kind in ("project", "user", "group"):
            for place, row in enumerate(self.rows[kind]):
                if self.row("domain", row["domain"]) is None:
                    yield ("Absent", "domain", row["domain"])
                earlier = [other["id"] for other in self.rows[kind][:place] if other["domain"] == row["domain"]]
                if kind == "project" and row["parent"] != row["domain"] and row["parent"] not in earlier:
                    yield ("Absent", "project", row["parent"])
        pairs = [(("group", group), ("user", user)) for group, user in self.members]
        pairs += [(("role", prior), ("role", implied)) for prior, implied in self.implications]
        yield from self.absent_among(pairs)
        for place, row in enumerate(self.rows["region"]):
            if row["parent"] is not None and row["parent"] not in [other["id"] for other in self.rows["region"][:place]]:
                yield ("Absent", "region", row["parent"])
        named_ones = [(("service", row["service"]), ("region", row["region"])) for row in self.rows["endpoint"]]
        yield from self.absent_among(named_ones)
        yield from self.absent_among([(actor, target, ("role", role)) for actor, target, _, role in self.grants])

    def absent_among(self, lists):
        """Of those that are named together the first that does not stand; no region need be named, and the system stands."""
        for named_ones in lists:
            yield from (("Absent", kind, each) for kind, each in named_ones
                        if each is not None and kind != "system" and self.row(kind, each) is None)

    def deep_projects(self):
        """A project lies too deep."""
        return (("TooDeep", row["id"]) for row in self.rows["project"] if len(self.ancestors(row)) + 1 > LEVELS)

    def projects_below_disabled(self):
        """A project lies below a disabled one."""
        for row in self.rows["project"]:
            yield from (("DisabledAbove", above["id"]) for above in self.ancestors(row) if not above["enabled"])

    def implied_admins(self):
        """A role named `admin` is implied."""
        return (("Prohibited", each) for _, each in self.implications if self.row("role", each)["name"] == "admin")

    def full_tables(self):
        """A table has more rows than it may."""
        tables = [(kind, self.rows[kind]) for kind in KINDS]
        tables[4:4] = [("member", set(self.members))]
        tables += [("implication", set(self.implications))] + [(kind, self.rows[kind]) for kind in CATALOG]
        tables += [("grant", set(self.grants))]
        return (("Full", kind) for kind, rows in tables if len(rows) > LIMITS[kind])

    # Rows and trees.

    def row(self, kind, each):
        """The row with an id, or None."""
        return next((row for row in self.rows[kind] if row["id"] == each), None)

    def standing(self, kind, each):
        """The row with an id, which must stand."""
        row = self.row(kind, each)
        if row is None:
            raise Refusal("Absent", kind, each)
        return row

    def with_name(self, kind, name, domain=None):
        """The row with a name, within a domain where it has one."""
        return next((row for row in self.rows[kind] if row["name"] == name and row.get("domain") == domain), None)

    def is_on(self, kind, each):
        """A row stands and is enabled, in an enabled domain."""
        row = self.row(kind, each)
        if row is None or not row["enabled"]:
            return False
        return kind == "domain" or self.is_on("domain", row["domain"])

    def ancestors(self, row):
        """The projects above one, nearest first, up to a top project, whose parent is its own domain."""
        above = []
        while row is not None and row["parent"] != row["domain"]:
            row = self.row("project", row["parent"])
            above += [row] if row is not None else []
        return above

    def below(self, each):
        """The projects below one, by id."""
        return [row for row in self.rows["project"] if each in [above["id"] for above in self.ancestors(row)]]

    # Effective roles (Identity API v3, role assignments and implied roles; OS-INHERIT).

    def closure(self, roles):
        """The ends of walks of zero or more implications from some roles, by id."""
        found, left = set(roles), list(roles)
        while left:
            prior = left.pop()
            for implied in [second for first, second in self.implications if first == prior]:
                if implied not in found:
                    found.add(implied)
                    left.append(implied)
        return sorted(found)

    def acts(self, actor, user):
        """A grant's actor is the user, or a group with it."""
        return actor == ("user", user) or actor[0] == "group" and (actor[1], user) in self.members

    def reaches(self, target, inherited, place):
        """A grant at a target reaches a place."""
        if not inherited:
            return target == place
        project = self.row("project", place[1]) if place[0] == "project" else None
        if project is None:
            return False
        if target[0] == "domain":
            return project["domain"] == target[1]
        return target[1] in [above["id"] for above in self.ancestors(project)]

    def roles_at(self, user, place):
        """All effective roles of a user at a place, by id."""
        return self.closure([role for actor, target, inherited, role in self.grants
                             if self.acts(actor, user) and self.reaches(target, inherited, place)])

    # Trusts and revocations (OS-TRUST, OS-REVOKE).

    def first_trustor(self, trust):
        """The trustor of the trust at the top of a chain."""
        while trust["parent"] is not None:
            trust = self.row("trust", trust["parent"])
        return trust["trustor"]

    def with_redelegations(self, trusts):
        """The ids of some trusts and of all below them, by id."""
        gone = set(trusts)
        while True:
            more = {row["id"] for row in self.rows["trust"] if row["parent"] in gone} - gone
            if not more:
                return sorted(gone)
            gone |= more

    def trusts_of(self, users=(), projects=(), role=None):
        """The ids of the trusts that go with users, projects or a role, by id."""
        return self.with_redelegations([row["id"] for row in self.rows["trust"] if row["trustor"] in users
                                        or row["trustee"] in users or row["project"] in projects or role in row["roles"]])

    def holder(self, payload):
        """What revocations look at in a token: pairs of a kind of thing and an id."""
        things = [("audit", payload["audit"]), ("user", payload["user"])]
        trust = self.row("trust", payload["trust"]) if payload["trust"] else None
        if trust is not None:
            things += [("user", trust["trustor"]), ("user", trust["trustee"])]
        user = self.row("user", payload["user"])
        things += [("domain", user["domain"])] if user is not None else []
        for kind in ("project", "trust", "domain"):
            things += [(kind, payload[kind])] if payload[kind] else []
        project = self.row("project", payload["project"]) if payload["project"] else None
        return things + ([("domain", project["domain"])] if project is not None else [])

    def live_events(self):
        """The revocations that are kept, in the order in which they were written."""
        return [event for event in self.events if self.high <= event[2] + self.settings["life"] + EVENT_GRACE]

    # Validity of tokens.

    def validity(self, text, late=False):
        """The token, where all lines hold; else `Invalid` with the first that fails."""
        payload, issued = self.read_token(text)
        self.require_time(payload, issued, late)
        things = self.holder(payload)
        self.line("Revoked", not any((kind, each) in things and issued <= moment for kind, each, moment in self.events))
        self.line("User", self.is_on("user", payload["user"]))
        self.line("Scope", self.is_scope_on(payload))
        self.line("Trust", payload["kind"] != 3 or self.is_trust_on(payload))
        self.line("Credential", payload["kind"] != 5 or self.is_credential_on(payload))
        roles = self.token_roles(payload)
        self.line("Roles", payload["kind"] == 0 or roles and self.has_listed_roles(payload))
        return Token(payload, issued, roles)

    def line(self, name, holds):
        """A line of a token's validity holds."""
        if not holds:
            raise Invalid(name)

    def read_token(self, text):
        """The lines `Text`, `Key` and `Payload`; the keys are tried from the highest index."""
        data = envelope_of(text)
        self.line("Text", data is not None)
        found = next((found for found in (opened(key, data) for _, _, key in self.ring.held) if found), None)
        self.line("Key", found is not None)
        payload = payload_of(found[1])
        self.line("Payload", payload is not None)
        return payload, found[0]

    def require_time(self, payload, issued, late):
        """The lines `Future`, `Expired` and `Span`."""
        self.line("Future", issued <= self.high)
        self.line("Expired", self.high < payload["expires"] + (EXPIRED_WINDOW if late else 0))
        self.line("Span", payload["expires"] <= issued + self.settings["life"])

    def is_scope_on(self, payload):
        """The domain or the project of the scope stands and is enabled; the system always does."""
        if payload["kind"] in (0, 4):
            return True
        kind = "domain" if payload["kind"] == 1 else "project"
        return self.is_on(kind, payload[kind])

    def is_trust_on(self, payload):
        """The trust stands, is in time, has the token's project and user, and its people are enabled."""
        trust = self.row("trust", payload["trust"])
        if trust is None or trust["project"] != payload["project"] or self.is_over(trust):
            return False
        if self.user_off(trust) is not None:
            return False
        return payload["user"] == (trust["trustor"] if trust["impersonation"] else trust["trustee"])

    def is_over(self, row):
        """A trust or an application credential has expired."""
        return row["expires"] is not None and row["expires"] <= self.high

    def is_credential_on(self, payload):
        """The application credential stands, is in time, and has the token's user and project."""
        row = self.row("appcred", payload["credential"])
        if row is None or self.is_over(row):
            return False
        return row["user"] == payload["user"] and row["project"] == payload["project"]

    def user_off(self, trust):
        """The first of trustor, trustee and first trustor that is not enabled, or None."""
        people = (trust["trustor"], trust["trustee"], self.first_trustor(trust))
        return next((user for user in people if not self.is_on("user", user)), None)

    def token_roles(self, payload):
        """The roles of a token: the closure of what its trust or its credential lists, else the effective ones at its scope."""
        if payload["kind"] == 3:
            return self.closure(self.row("trust", payload["trust"])["roles"])
        if payload["kind"] == 5:
            return self.closure(self.row("appcred", payload["credential"])["roles"])
        place = {1: ("domain", payload["domain"]), 2: ("project", payload["project"]), 4: ("system", "")}
        return self.roles_at(payload["user"], place[payload["kind"]]) if payload["kind"] in place else []

    def has_listed_roles(self, payload):
        """Each role of a token's trust is effective for the first trustor, and each of its credential for the user."""
        if payload["kind"] == 3:
            return self.lost_role(self.row("trust", payload["trust"])) is None
        return payload["kind"] != 5 or self.has_credential_roles(self.row("appcred", payload["credential"]))

    def has_credential_roles(self, row):
        """Each role of an application credential is effective for its user on its project."""
        held = self.roles_at(row["user"], ("project", row["project"]))
        return all(role in held for role in row["roles"])

    def lost_role(self, trust):
        """The first role of a trust that is not effective for its first trustor, or None."""
        held = self.roles_at(self.first_trustor(trust), ("project", trust["project"]))
        return next((role for role in trust["roles"] if role not in held), None)

    # Changes.

    def ring_after(self, change):
        """The ring after a change."""
        if change[0] == "rotate":
            return self.ring.rotated(change[1], self.settings["max_active_keys"])
        return self.ring.loaded(change[1]) if change[0] == "load" else self.ring

    def require_events(self, change, is_for_oneself):
        """There is room for the revocations that a change writes, if it writes some; less of it for what users do for themselves."""
        written_now, most = self.ended_by(change), SELF_REVOCATIONS if is_for_oneself else LIMITS["event"]
        if written_now and len(self.live_events()) + len(written_now) > most:
            raise Refusal("Full", "event")

    def ended_by(self, change):
        """The things whose tokens a change ends, in the order in which they are written."""
        if change[0] == "revoke_token":
            return [("audit", change[1])]
        if change[0] == "put":
            return self.ended_by_put(change[1], change[2])
        return self.ended_by_drop(change[1], change[2]) if change[0] == "drop" else []

    def ended_by_put(self, kind, row):
        """A row that is disabled ends its tokens, and so does another password; a creation ends none."""
        old = self.row(kind, row["id"])
        if old is None or kind not in ("domain", "project", "user"):
            return []
        ends = old["enabled"] and not row["enabled"] or kind == "user" and old["password"] != row["password"]
        return [(kind, row["id"])] if ends else []

    def ended_by_drop(self, kind, each):
        """A row that goes ends its tokens, those of the rows that go with it, and those of their trusts."""
        if kind == "trust":
            return [("trust", trust) for trust in self.with_redelegations([each])]
        if kind == "role":
            return [("trust", trust) for trust in self.trusts_of(role=each)]
        projects, users, _ = self.going_with(kind, each)
        things = [("domain", each)] if kind == "domain" else []
        things += [("project", project) for project in projects] + [("user", user) for user in users]
        return things + [("trust", trust) for trust in self.trusts_of(users, projects)]

    def going_with(self, kind, each):
        """The projects, users and groups that go with a row, by id."""
        going = []
        for other in ("project", "user", "group"):
            going.append([row["id"] for row in self.rows[other] if kind == "domain" and row["domain"] == each
                          or kind == other and row["id"] == each])
        return going

    def apply(self, change):
        """The state after a change: the revocations that it writes, the rows, the ring, and one more change."""
        self.events += [(kind, each, self.high) for kind, each in self.ended_by(change)]
        self.ring = self.ring_after(change)
        if change[0] == "put":
            self.put(*change[1:])
        if change[0] == "drop":
            self.drop(change[1], change[2])
        if change[0] == "use_trust":
            self.row("trust", change[1])["remaining"] -= 1
        self.relate(*change[:2])
        self.made += 1

    def put(self, kind, row, rules=None):
        """A row is put over the one with its id; what a user has to log in by, where it is said, over what was said before."""
        if rules is not None:
            self.method_rules[row["id"]] = rules
        self.rows[kind] = sorted([other for other in self.rows[kind] if other["id"] != row["id"]] + [row], key=row_order)

    def relate(self, name, row):
        """A membership, an implication or a grant comes or goes."""
        if name in ("join", "leave"):
            self.members = sorted({*self.members, row} if name == "join" else {*self.members} - {row})
        if name in ("imply", "unimply"):
            self.implications = sorted({*self.implications, row} if name == "imply" else {*self.implications} - {row})
        if name in ("grant", "ungrant"):
            self.grants = sorted({*self.grants, row} if name == "grant" else {*self.grants} - {row}, key=grant_order)

    def keep(self, kind, test):
        """Only the rows of a kind that pass a test stay."""
        self.rows[kind] = [row for row in self.rows[kind] if test(row)]

    def drop(self, kind, each):
        """A row goes, and with it what is its own."""
        projects, users, groups = self.going_with(kind, each)
        role = each if kind == "role" else None
        gone = self.with_redelegations([each]) if kind == "trust" else self.trusts_of(users, projects, role)
        self.keep("trust", lambda row: row["id"] not in gone)
        dropped = {(kind, each)} | {("project", project) for project in projects}
        dropped |= {("user", user) for user in users} | {("group", group) for group in groups}
        if kind == "service":
            dropped |= {("endpoint", row["id"]) for row in self.rows["endpoint"] if row["service"] == each}
        for other in KINDS + CATALOG + OF_USERS:
            self.keep(other, lambda row, other=other: (other, row["id"]) not in dropped)
        self.keep("appcred", lambda row: row["user"] not in users and row["project"] not in projects and role not in row["roles"])
        self.keep("secret", lambda row: row["user"] not in users)
        self.method_rules = {user: rules for user, rules in self.method_rules.items() if user not in users}
        self.members = [row for row in self.members if row[0] not in groups and row[1] not in users]
        self.implications = [row for row in self.implications if role not in row]
        self.grants = [row for row in self.grants if not dropped & {row[0], row[1], ("role", row[3])}]
