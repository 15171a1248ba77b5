"""The commands: what each tells of the state, and the change that it makes."""

from second_reading.words import CATALOG, LAST_INDEX, LEVELS, LIMITS, REDELEGATIONS, Refusal
from second_reading.catalog import Catalog
from second_reading.holdings import Holdings
from second_reading.ciphers import bare_text, seal, spelling, time_text
from second_reading.forms import range_unless
from second_reading.opening import derived, folder_keys
from second_reading.routes import GRANT_ACTIONS
from second_reading.state import Invalid, Outcome, Token, made_id


# The kind of the row that a path names first, and no other behind it.
ROWS_OF = {"groups_of": "user", "projects_of": "user", "members_of": "group", "implied": "role", "create_appcred": "user", "list_appcreds": "user"}


class Commands(Catalog, Holdings):
    """Each command is a method, named `do_` and the command's name."""

    # What is told of rows and tokens (Identity API v3).

    def self_link(self, path, each):
        """Where an object stands."""
        return {"self": f"{self.settings['url']}/v3/{path}/{each}"}

    def titled(self, kind, each):
        """An id with its name."""
        return {"id": each, "name": self.row(kind, each)["name"]}

    def homed(self, kind, each):
        """The same within its domain."""
        return {**self.titled(kind, each), "domain": self.titled("domain", self.row(kind, each)["domain"])}

    def object_of(self, kind, row):
        """What is told of a row."""
        if kind in CATALOG:
            return self.object_of_catalog(kind, row)
        told = {"id": row["id"], "name": row["name"], "links": self.self_link(kind + "s", row["id"])}
        if kind in ("project", "user", "group"):
            told["domain_id"] = row["domain"]
        if kind != "user":
            told["description"] = row["description"]
        if kind in ("domain", "project", "user"):
            told["enabled"] = row["enabled"]
        more = {"project": {"is_domain": False, "parent_id": row.get("parent")}, "user": {"password_expires_at": None},
                "role": {"domain_id": None}}
        return {**told, **more.get(kind, {})}

    def trust_object(self, row):
        """What is told of a trust."""
        expires = time_text(row["expires"]) if row["expires"] is not None else None
        return {"deleted_at": None, "expires_at": expires, "id": row["id"], "impersonation": row["impersonation"],
                "links": self.self_link("OS-TRUST/trusts", row["id"]), "project_id": row["project"],
                "redelegated_trust_id": row["parent"], "redelegation_count": row["count"], "remaining_uses": row["remaining"],
                "roles": [self.titled("role", role) for role in row["roles"]], "trustee_user_id": row["trustee"],
                "trustor_user_id": row["trustor"]}

    def listing(self, name, objects, call):
        """The body of a listing."""
        return {name: objects, "links": {"next": None, "previous": None, "self": self.settings["url"] + call.path}}

    def role_listing(self, roles, call):
        """The body that tells some roles whole."""
        return self.listing("roles", [self.object_of("role", self.row("role", role)) for role in roles], call)

    def token_object(self, token):
        """What is told of a token."""
        payload = token.payload
        audits = [payload["audit"]] + ([payload["chain"]] if payload["chain"] else [])
        names = ("password", "token", "totp", "application_credential")
        told = {"audit_ids": [bare_text(audit) for audit in audits], "expires_at": time_text(payload["expires"]),
                "issued_at": time_text(token.issued),
                "methods": [name for bit, name in enumerate(names) if payload["methods"] >> bit & 1],
                "user": {**self.homed("user", payload["user"]), "password_expires_at": None}}
        if payload["kind"] != 0:
            told.update(catalog=self.catalog_of(payload["project"]), roles=[self.titled("role", role) for role in token.roles])
        return {"token": {**told, **self.scope_told(payload)}}

    def scope_told(self, payload):
        """What is told of a token's scope."""
        told = {}
        if payload["project"]:
            told.update(is_domain=False, project=self.homed("project", payload["project"]))
        if payload["domain"]:
            told["domain"] = self.titled("domain", payload["domain"])
        if payload["kind"] == 4:
            told["system"] = {"all": True}
        if payload["trust"]:
            trust = self.row("trust", payload["trust"])
            told["OS-TRUST:trust"] = {"id": trust["id"], "impersonation": trust["impersonation"],
                                      "trustee_user": {"id": trust["trustee"]}, "trustor_user": {"id": trust["trustor"]}}
        return told

    def credentials(self, payload):
        """What rules see of the caller."""
        seen = {"user_id": payload["user"], "user_domain_id": self.row("user", payload["user"])["domain"]}
        if payload["project"]:
            seen.update(project_id=payload["project"], project_domain_id=self.row("project", payload["project"])["domain"])
        if payload["domain"]:
            seen["domain_id"] = payload["domain"]
        if payload["trust"]:
            seen["trust_id"] = payload["trust"]
        if payload["kind"] == 4:
            seen["system_scope"] = "all"
        return seen

    # What rules see of that which a command is about.

    def target(self, call):
        """The keys of a command's target."""
        if call.command in ("get", "update", "delete"):
            return self.row_target(call.about, call.ids[0])
        if call.command in ROWS_OF:
            return self.row_target(ROWS_OF[call.command], call.ids[0])
        if call.command in ("get_appcred", "delete_appcred"):
            return {"user_id": call.ids[0], "target.user.id": call.ids[0]}
        if call.command == "create":
            return self.body_target(call)
        if call.command == "list":
            return call.filters()
        if call.command in ("join", "is_in", "leave"):
            return {"user_id": call.ids[1], "target.user.id": call.ids[1], "target.group.id": call.ids[0]}
        if call.command in ("imply", "implication", "is_implied", "unimply"):
            return {"target.role.id": call.ids[0]}
        if call.command in GRANT_ACTIONS:
            return self.grant_target(call)
        if call.subject is not None:
            return {"target.token.user_id": call.subject.payload["user"]}
        return self.trust_target(call)

    def keys_of_fields(self, kind, fields):
        """Fields under the names that rules know them by; a truth is `True` or `False`."""
        known = [name for name in ("id", "name", "domain_id", "enabled") if name in fields]
        return {f"target.{kind}.{name}": str(fields[name]) for name in known}

    def row_target(self, kind, each):
        """The keys of a row that a path names, where it stands, and the path's user."""
        row = self.row(kind, each)
        keys = {"user_id": each} if kind == "user" else {}
        if row is None:
            return keys
        told = self.object_of(kind, row)
        if kind == "role":
            del told["domain_id"]
        return {**keys, **self.keys_of_fields(kind, told)}

    def body_target(self, call):
        """The keys of a new row, as far as the body gives them."""
        return self.keys_of_fields(call.about, {name: value for name, value in call.body.items() if name != "id"})

    def grant_target(self, call):
        """The ids of a grant's path, whatever stands."""
        actor, target, _ = call.about
        target_id, actor_id, role = self.grant_ids(call)
        keys = {f"target.{actor}.id": actor_id}
        if actor == "user":
            keys["user_id"] = actor_id
        if target != "system":
            keys[f"target.{target}.id"] = target_id
        if role is not None:
            keys["target.role.id"] = role
        return keys

    def trust_target(self, call):
        """The two users of a trust: of the row, of the body, or of the filters."""
        if call.command == "list_trusts":
            return {"target.trust." + name: value for name, value in call.filters().items()}
        row = call.body if call.command == "create_trust" else None
        if call.command in ("get_trust", "delete_trust", "roles_of_trust"):
            row = self.row("trust", call.ids[0])
        if row is None:
            return {}
        return {"target.trust.trustor_user_id": row["trustor"], "target.trust.trustee_user_id": row["trustee"]}

    # Logins and tokens.

    def version_told(self):
        """The one version of the Identity API that there is."""
        media = {"base": "application/json", "type": "application/vnd.openstack.identity-v3+json"}
        links = [{"href": self.settings["url"] + "/v3/", "rel": "self"}]
        return {"id": "v3.14", "links": links, "media-types": [media], "status": "stable", "updated": "2020-04-07T00:00:00Z"}

    def do_version(self, _):
        """The version document."""
        return Outcome(200, {"version": self.version_told()})

    def do_versions(self, _):
        """The versions that there are."""
        return Outcome(300, {"versions": {"values": [self.version_told()]}})

    def shows_password(self, row, password):
        """The user, where it stands, is enabled and has this password."""
        if row is None or row["password"] is None or not self.is_on("user", row["id"]):
            raise Refusal("Credentials")
        salt, rounds, _ = row["password"]
        if derived(password, salt, rounds) != row["password"]:
            raise Refusal("Credentials")
        return row

    def domain_named(self, name):
        """The domain that a body names, or None."""
        return self.row("domain", name["id"]) if "id" in name else self.with_name("domain", name["name"])

    def homed_named(self, kind, name):
        """The user or project that a body names, or None."""
        if "id" in name:
            return self.row(kind, name["id"])
        domain = self.domain_named(name["domain"])
        return self.with_name(kind, name["name"], domain["id"]) if domain is not None else None

    def shown_by_token(self, text):
        """What a token shows: its user, and what a token that follows it takes over."""
        try:
            before = self.validity(text).payload
        except Invalid as invalid:
            raise Refusal("Credentials", *invalid.args) from None
        if before["kind"] in (3, 5):
            raise Refusal("Refused", "TrustToken")
        return {"user": before["user"], "methods": before["methods"] | 2, "expires": before["expires"],
                "chain": before["chain"] or before["audit"]}

    def shown_by_factors(self, proof):
        """A user that shows a password, a code, or both, and of which no more is asked."""
        users, methods = [], 0
        if "password" in proof:
            users.append(self.shows_password(self.homed_named("user", proof["user"]), proof["password"])["id"])
            methods += 1
        if "code" in proof:
            users.append(self.shows_code(self.homed_named("user", proof["code_user"]), proof["code"])["id"])
            methods += 4
        if len(set(users)) > 1 or not self.are_enough(users[0], methods):
            raise Refusal("Credentials")
        return {"user": users[0], "methods": methods}

    def shown(self, proof):
        """What a login shows, as fields of the payload of its token."""
        if "token" in proof:
            return self.shown_by_token(proof["token"])
        if "secret" in proof:
            row = self.shows_secret(self.credential_named(proof["credential"]), proof["secret"])
            return {"user": row["user"], "methods": 8, "credential": row["id"]}
        return self.shown_by_factors(proof)

    def do_login(self, call):
        """A token for who shows to be a user, with the scope that is asked for."""
        payload = dict.fromkeys(("domain", "project", "trust", "credential", "chain"))
        payload.update(kind=0, expires=self.high + self.settings["life"], audit=call.draw[:16])
        payload.update(self.shown(call.body["proof"]))
        change = self.scope_into(payload, call.body["scope"])
        key = self.ring.held[0][2]
        text = seal(key, self.high, call.draw[16:32], spelling(payload))
        token = Token(payload, self.high, self.token_roles(payload))
        return Outcome(201, self.token_object(token), change, text)

    def scope_into(self, payload, scope):
        """Puts the scope into a new token's payload; gives the use of a trust that it takes."""
        if payload["credential"]:
            return self.credential_into(payload, scope)
        if scope["kind"] == "trust":
            return self.trust_into(payload, scope["id"])
        if scope["kind"] == "system":
            payload["kind"] = 4
        if scope["kind"] in ("domain", "project"):
            kind = scope["kind"]
            row = self.domain_named(scope["named"]) if kind == "domain" else self.homed_named(kind, scope["named"])
            self.scope_unless(row is not None, "Absent")
            self.scope_unless(self.is_on(kind, row["id"]), "Off")
            payload.update({"kind": 1 if kind == "domain" else 2, kind: row["id"]})
        self.scope_unless(payload["kind"] == 0 or self.token_roles(payload), "NoRoles")
        return None

    def scope_unless(self, holds, why):
        """The scope is not refused so."""
        if not holds:
            raise Refusal("ScopeRefused", why)

    def trust_into(self, payload, each):
        """The scope of a trust, by the checks of its use."""
        trust = self.row("trust", each)
        self.refuse_if(trust is None, "Absent")
        self.refuse_if(trust["trustee"] != payload["user"], "NotTrustee")
        self.refuse_if(self.is_over(trust), "Expired")
        self.refuse_if(trust["remaining"] == 0, "Spent")
        self.refuse_if(self.user_off(trust) is not None, "UserOff")
        self.require_project(trust["project"])
        self.refuse_if(self.lost_role(trust) is not None, "RoleLost")
        user = trust["trustor"] if trust["impersonation"] else trust["trustee"]
        payload.update(kind=3, user=user, project=trust["project"], trust=each)
        return ("use_trust", each) if trust["remaining"] is not None else None

    def require_project(self, each):
        """The project of a trust or of an application credential stands and is enabled."""
        self.scope_unless(self.row("project", each) is not None, "Absent")
        self.scope_unless(self.is_on("project", each), "Off")

    def refuse_if(self, applies, name):
        """A refusal of the trees or of trusts, by its name."""
        if applies:
            raise Refusal("Refused", name)

    def do_validate(self, call):
        """The subject token, told."""
        return Outcome(200, self.token_object(call.subject), None, call.subject_text)

    do_check = do_validate

    def do_revoke_token(self, call):
        """The end of the subject token."""
        return Outcome(204, None, ("revoke_token", call.subject.payload["audit"]))

    def fresh(self, call, password):
        """What is kept of a new password."""
        return derived(password, call.draw[16:32], self.settings["rounds"])

    def do_change_password(self, call):
        """The change of one's own password."""
        original, new = call.body
        row = self.shows_password(self.row("user", call.ids[0]), original)
        return Outcome(204, None, ("put", "user", {**row, "password": self.fresh(call, new)}))

    # Rows of the five kinds.

    def domain_for(self, call):
        """The domain of a creation: given, else the parent project's, else the caller's scope's, else the caller's user's."""
        if "domain_id" in call.body:
            return call.body["domain_id"]
        parent = self.row("project", call.body["parent_id"]) if "parent_id" in call.body else None
        if parent is not None:
            return parent["domain"]
        seen = self.credentials(call.caller.payload)
        return seen.get("domain_id") or seen.get("project_domain_id") or seen["user_domain_id"]

    def do_create(self, call):
        """A new row."""
        kind, body = call.about, call.body
        if kind in CATALOG:
            return self.create_in_catalog(call)
        row = {"id": made_id(call.draw[:16]), "name": body["name"]}
        if kind in ("project", "user", "group"):
            row["domain"] = self.domain_for(call)
            self.standing("domain", row["domain"])
        if kind != "user":
            row["description"] = body.get("description", "")
        if kind in ("domain", "project", "user"):
            row["enabled"] = body.get("enabled", True)
        if kind == "project":
            row["parent"] = body.get("parent_id", row["domain"])
            self.require_parent(row)
        self.require_name(kind, row)
        if kind == "user":
            row["password"] = self.fresh(call, body["password"]) if "password" in body else None
        self.require_new(kind, row["id"])
        return Outcome(201, {kind: self.object_of(kind, row)}, ("put", kind, row, body.get("options")))

    def require_parent(self, row):
        """The parent of a new project stands in its domain, not too deep, and all above are enabled."""
        if row["parent"] == row["domain"]:
            return
        parent = self.standing("project", row["parent"])
        self.refuse_if(parent["domain"] != row["domain"], "NoParent")
        self.refuse_if(len(self.ancestors(row)) + 1 > LEVELS, "TooDeep")
        self.require_enabled_above(row)

    def require_enabled_above(self, row):
        """Each project above is enabled."""
        self.refuse_if(not all(above["enabled"] for above in self.ancestors(row)), "DisabledAbove")

    def require_name(self, kind, row, own=None):
        """No row but one's own has the name, within the domain where it has one."""
        other = self.with_name(kind, row["name"], row.get("domain"))
        if other is not None and other["id"] != own:
            raise Refusal("NameTaken", other["id"])

    def require_new(self, kind, each):
        """There is room for a row, and its id is not taken."""
        if len(self.rows[kind]) + 1 > LIMITS[kind]:
            raise Refusal("Full", kind)
        if self.row(kind, each) is not None:
            raise Refusal("IdTaken", each)

    def do_update(self, call):
        """A change of a row."""
        kind, body = call.about, call.body
        row = self.standing(kind, call.ids[0])
        if kind in CATALOG:
            return self.update_in_catalog(call, row)
        self.require_unchanged(body, row, (("id", "id"), ("domain_id", "domain"), ("parent_id", "parent")))
        new = {**row, **{name: body[name] for name in ("name", "description", "enabled") if name in body}}
        if kind == "project":
            self.require_switch(row, new)
        self.require_name(kind, new, row["id"])
        if "password" in body:
            new["password"] = self.fresh(call, body["password"])
        return Outcome(200, {kind: self.object_of(kind, new)}, ("put", kind, new, body.get("options")))

    def require_unchanged(self, body, row, fields):
        """Of these fields, each with its name in a row, the body gives none another value."""
        for field, name in fields:
            if field in body and body[field] != row[name]:
                raise Refusal("Immutable", field)

    def require_switch(self, row, new):
        """A project is disabled above no enabled one, and enabled below no disabled one."""
        if row["enabled"] and not new["enabled"]:
            self.refuse_if(any(below["enabled"] for below in self.below(row["id"])), "EnabledBelow")
        if new["enabled"] and not row["enabled"]:
            self.require_enabled_above(row)

    def do_get(self, call):
        """A row, told."""
        return Outcome(200, {call.about: self.object_of(call.about, self.standing(call.about, call.ids[0]))})

    def passes(self, told, name, value):
        """A row passes a filter."""
        if name == "enabled":
            return told["enabled"] == (value not in ("false", "False", "0"))
        return told[name] == value

    def do_list(self, call):
        """The rows of a kind that pass all filters."""
        told = [self.object_of(call.about, row) for row in self.rows[call.about]]
        told = [each for each in told if all(self.passes(each, *given) for given in call.filters().items())]
        return Outcome(200, self.listing(call.about + "s", told, call))

    def do_delete(self, call):
        """The end of a row."""
        kind, each = call.about, call.ids[0]
        row = self.standing(kind, each)
        self.refuse_if(kind == "domain" and row["enabled"], "DomainEnabled")
        self.refuse_if(kind == "project" and self.below(each), "HasChildren")
        self.refuse_if(kind == "region" and self.holds_something(each), "HasChildren")
        return Outcome(204, None, ("drop", kind, each))

    # Memberships, implications and grants.

    def do_groups_of(self, call):
        """The groups of a user."""
        self.standing("user", call.ids[0])
        groups = [group for group, user in self.members if user == call.ids[0]]
        return Outcome(200, self.listing("groups", [self.object_of("group", self.row("group", each)) for each in groups], call))

    def do_projects_of(self, call):
        """The projects on which a user has roles."""
        self.standing("user", call.ids[0])
        projects = [row for row in self.rows["project"] if self.roles_at(call.ids[0], ("project", row["id"]))]
        return Outcome(200, self.listing("projects", [self.object_of("project", row) for row in projects], call))

    def do_members_of(self, call):
        """The users of a group."""
        self.standing("group", call.ids[0])
        users = [user for group, user in self.members if group == call.ids[0]]
        return Outcome(200, self.listing("users", [self.object_of("user", self.row("user", each)) for each in users], call))

    def pair_in_path(self, call, kinds):
        """The two ids of a path, whose rows must stand."""
        for kind, each in zip(kinds, call.ids):
            self.standing(kind, each)
        return tuple(call.ids)

    def require_among(self, pair, pairs, kind, each):
        """A pair stands, and else the id of its part is told."""
        if pair not in pairs:
            raise Refusal("Absent", kind, each)

    def addition(self, name, kind, row, rows):
        """The change that adds a row, none where it stands."""
        if row in rows:
            return None
        if len(rows) + 1 > LIMITS[kind]:
            raise Refusal("Full", kind)
        return (name, row)

    def do_join(self, call):
        """A membership, made."""
        pair = self.pair_in_path(call, ("group", "user"))
        return Outcome(204, None, self.addition("join", "member", pair, self.members))

    def do_is_in(self, call):
        """A membership, tested."""
        pair = self.pair_in_path(call, ("group", "user"))
        self.require_among(pair, self.members, "member", pair[1])
        return Outcome(204)

    def do_leave(self, call):
        """A membership, ended."""
        self.do_is_in(call)
        return Outcome(204, None, ("leave", tuple(call.ids)))

    def inference(self, prior, implies):
        """The body that tells implications."""
        return {"role_inference": {"implies": implies, "prior_role": self.titled("role", prior)}}

    def do_implied(self, call):
        """The roles that one implies directly."""
        self.standing("role", call.ids[0])
        implies = [self.titled("role", second) for first, second in self.implications if first == call.ids[0]]
        return Outcome(200, self.inference(call.ids[0], implies))

    def do_imply(self, call):
        """An implication, made; the role `admin` is implied by none."""
        pair = self.pair_in_path(call, ("role", "role"))
        self.refuse_if(self.row("role", pair[1])["name"] == "admin", "Prohibited")
        change = self.addition("imply", "implication", pair, self.implications)
        return Outcome(201, self.inference(pair[0], self.titled("role", pair[1])), change)

    def do_implication(self, call):
        """An implication, told."""
        pair = self.pair_in_path(call, ("role", "role"))
        self.require_among(pair, self.implications, "implication", pair[1])
        return Outcome(200, self.inference(pair[0], self.titled("role", pair[1])))

    def do_is_implied(self, call):
        """An implication, tested."""
        self.do_implication(call)
        return Outcome(204)

    def do_unimply(self, call):
        """An implication, ended."""
        self.do_implication(call)
        return Outcome(204, None, ("unimply", tuple(call.ids)))

    def grant_ids(self, call):
        """The ids of target, actor and role in a grant's path; the system has none, and a listing no role."""
        ids = ([""] if call.about[1] == "system" else []) + call.ids
        return ids + [None] * (3 - len(ids))

    def grant_in_path(self, call):
        """The grant that a path names, whose rows must stand, in the path's order."""
        actor, target, inherited = call.about
        target_id, actor_id, role = self.grant_ids(call)
        if target != "system":
            self.standing(target, target_id)
        self.standing(actor, actor_id)
        if role is not None:
            self.standing("role", role)
        return ((actor, actor_id), (target, target_id), inherited, role)

    def do_grants_of(self, call):
        """The roles that are granted to an actor at a target."""
        wanted = self.grant_in_path(call)
        return Outcome(200, self.role_listing([row[3] for row in self.grants if row[:3] == wanted[:3]], call))

    def do_grant(self, call):
        """A role, granted."""
        return Outcome(204, None, self.addition("grant", "grant", self.grant_in_path(call), self.grants))

    def do_is_granted(self, call):
        """A grant, tested."""
        row = self.grant_in_path(call)
        self.require_among(row, self.grants, "grant", row[3])
        return Outcome(204)

    def do_ungrant(self, call):
        """A grant, taken back."""
        self.do_is_granted(call)
        return Outcome(204, None, ("ungrant", self.grant_in_path(call)))

    def do_assignments(self, call):
        """The grants, or the effective roles of a user, that pass all filters."""
        filters = call.filters()
        rows = self.effective_rows(filters["user.id"]) if call.is_effective() else self.grants
        rows = [row for row in rows if all(self.passes_grant(row, *given) for given in filters.items())]
        return Outcome(200, self.listing("role_assignments", [self.assignment(row) for row in rows], call))

    def effective_rows(self, user):
        """What a user has, at each place: the system, the domains, the projects."""
        places = [("system", "")] + [(kind, row["id"]) for kind in ("domain", "project") for row in self.rows[kind]]
        return [(("user", user), place, False, role) for place in places for role in self.roles_at(user, place)]

    def passes_grant(self, row, name, value):
        """A grant passes a filter."""
        actor, target, _, role = row
        if name == "scope.system":
            return target[0] == "system" and value == "all"
        wanted = {"user.id": ("user", value), "group.id": ("group", value), "scope.project.id": ("project", value),
                  "scope.domain.id": ("domain", value)}
        if name in ("user.id", "group.id"):
            return actor == wanted[name]
        if name in wanted:
            return target == wanted[name]
        return name == "effective" or role == value

    def assignment(self, row):
        """What is told of a grant."""
        actor, target, inherited, role = row
        scope = {target[0]: {"all": True} if target[0] == "system" else {"id": target[1]}}
        if inherited:
            scope["OS-INHERIT:inherited_to"] = "projects"
        return {"role": {"id": role}, "scope": scope, actor[0]: {"id": actor[1]}}

    # Trusts.

    def parent_of_new(self, call):
        """The trust that a new one redelegates: that of the caller's token, which a given one must be; or None."""
        held, given = call.caller.payload["trust"], call.body["parent"]
        self.refuse_if(given is not None and given != held, "NotParent")
        parent = self.row("trust", held) if held else None
        self.refuse_if(parent is not None and parent["project"] != call.body["project"], "NotParent")
        return parent

    def roles_named(self, names, path):
        """The ids of the roles that a list of a body names, each once; the first that does not stand refuses it."""
        ids = []
        for name in names:
            if "id" in name:
                ids.append(self.standing("role", name["id"])["id"])
            else:
                row = self.with_name("role", name["name"])
                range_unless(row is not None, path)
                ids.append(row["id"])
        return sorted(set(ids))

    def do_create_trust(self, call):
        """A new trust, by the checks in their order."""
        body = call.body
        self.require_unrestricted(call)
        self.refuse_if(body["trustor"] != call.caller.payload["user"], "NotTrustor")
        self.standing("user", body["trustee"])
        self.standing("project", body["project"])
        parent = self.parent_of_new(call)
        self.refuse_if(not body["roles"], "NoRoles")
        row = {name: body[name] for name in ("trustor", "trustee", "project", "impersonation", "remaining", "expires")}
        roles = self.roles_named(body["roles"], "trust.roles")
        row.update(id=made_id(call.draw[:16]), roles=roles, parent=parent["id"] if parent else None)
        if parent is None:
            row["count"] = self.count_of_first(body)
        else:
            self.follow(parent, row, body)
        self.refuse_if(self.lost_role(row) is not None, "RoleLost")
        self.refuse_if(self.is_over(row), "Expired")
        self.require_new("trust", row["id"])
        return Outcome(201, {"trust": self.trust_object(row)}, ("put", "trust", row))

    def count_of_first(self, body):
        """How many may follow below a trust that redelegates none."""
        count = (REDELEGATIONS if body["count"] is None else body["count"]) if body["redelegate"] else 0
        self.refuse_if(count > REDELEGATIONS, "DepthOut")
        return count

    def follow(self, parent, row, body):
        """A new trust gives no more than the one that it redelegates."""
        self.refuse_if(parent["count"] == 0 or body["count"] not in (None, parent["count"] - 1), "DepthOut")
        self.refuse_if(any(role not in parent["roles"] for role in row["roles"]), "RoleNotInParent")
        self.refuse_if(row["impersonation"] and not parent["impersonation"], "Impersonation")
        self.refuse_if(row["remaining"] is not None, "UsesSet")
        if row["expires"] is None:
            row["expires"] = parent["expires"]
        self.refuse_if(parent["expires"] is not None and row["expires"] > parent["expires"], "LaterThanParent")
        row["count"] = parent["count"] - 1 if body["redelegate"] else 0

    def do_list_trusts(self, call):
        """The trusts that pass all filters."""
        told = [self.trust_object(row) for row in self.rows["trust"]]
        told = [each for each in told if all(each[name] == value for name, value in call.filters().items())]
        return Outcome(200, self.listing("trusts", told, call))

    def do_get_trust(self, call):
        """A trust, told."""
        return Outcome(200, {"trust": self.trust_object(self.standing("trust", call.ids[0]))})

    def do_delete_trust(self, call):
        """The end of a trust and of those below it."""
        self.standing("trust", call.ids[0])
        return Outcome(204, None, ("drop", "trust", call.ids[0]))

    def do_roles_of_trust(self, call):
        """The roles of a trust."""
        return Outcome(200, self.role_listing(self.standing("trust", call.ids[0])["roles"], call))

    # Revocations and keys.

    def do_events(self, call):
        """The revocations that are live."""
        names = {"audit": "audit_id", "user": "user_id", "project": "project_id", "domain": "domain_id",
                 "trust": "OS-TRUST:trust_id"}
        told = [{names[kind]: bare_text(each) if kind == "audit" else each, "issued_before": time_text(moment),
                 "revoked_at": time_text(moment)} for kind, each, moment in self.live_events()]
        return Outcome(200, self.listing("events", told, call))

    def do_rotate_keys(self, call):
        """A rotation of the keys, where they come from the opening file."""
        self.refuse_if(self.folder_mode, "KeyMode")
        if self.ring.held[0][0] >= LAST_INDEX:
            raise Refusal("Keys", "IndexEnd")
        change = ("rotate", call.draw[32:64])
        return Outcome(200, self.ring_after(change).told(), change)

    def do_load_keys(self, call):
        """A loading of the folder's keys, where they come from it."""
        self.refuse_if(not self.folder_mode, "KeyMode")
        keys = folder_keys(call.folder)
        if isinstance(keys, str):
            raise Refusal("Keys", keys)
        return Outcome(200, self.ring_after(("load", keys)).told(), ("load", keys))
