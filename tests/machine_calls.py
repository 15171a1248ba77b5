"""Random openings, and calls that are made out of what was seen of the replies."""

import copy
import json
import random

from machine_examples import K, STAGED, START, login_body, salts, trust_body
from second_reading.ciphers import time_text
from second_reading.codes import base32_bytes, base32_text, codes_at
from second_reading.machine import Machine
from second_reading.words import CATALOG, KINDS

POLICY = {
    "identity:list_projects": "role:reader or rule:admin_required or domain_id:%(domain_id)s",
    "identity:create_project": "(role:MEMBER or rule:admin_required) and user_domain_id:%(target.project.domain_id)s",
    "identity:create_user": "rule:admin_required and not True:%(target.user.enabled)s",
    "identity:create_role": "rule:admin_required or system_scope:all",
    "identity:update_user": "rule:admin_or_owner",
    "identity:update_group": "rule:admin_required and user_domain_id:%(target.group.domain_id)s",
    "identity:delete_domain": "rule:admin_required and False:%(target.domain.enabled)s",
    "identity:create_grant": "rule:admin_required and not 'r3':%(target.role.id)s",
    "identity:list_grants": "project_id:%(target.project.id)s or rule:admin_required",
    "identity:list_system_grants_for_user": "rule:owner or rule:none",
    "identity:add_user_to_group": "rule:admin_required or user_id:%(target.user.id)s",
    "identity:get_implied_role": "@",
    "identity:list_trusts": "@",
    "identity:create_service": "rule:admin_required and not True:%(target.service.enabled)s",
    "identity:update_endpoint": "rule:admin_required and True:%(target.endpoint.enabled)s",
    "identity:list_services": "role:reader or compute:%(type)s or rule:admin_required",
    "identity:delete_region": "rule:admin_required and not 'x0':%(target.region.id)s",
    "identity:create_application_credential": "rule:owner or rule:admin_required and True:%(target.user.enabled)s",
    "identity:list_credentials": "role:reader or rule:admin_required",
    "identity:get_trust": "trust_id:%(target.trust.trustor_user_id)s or rule:trust_party or rule:admin_required",
}


def random_opening(rng, from_folder):
    """An opening file of a few rows, in which most things can be asked for."""
    domains = ["default"] + ["d1", "d2"][:rng.randrange(3)]
    opening = {
        "settings": {"rounds": rng.choice((1, 2)), "life": rng.choice((60, 3600)), "max_active_keys": rng.choice((2, 3, 5))},
        "domains": [{"id": each, "name": each.title(), "enabled": each == "default" or rng.random() < 0.9} for each in domains],
        "projects": [], "users": [], "groups": [], "members": [], "roles": [], "implications": [], "regions": [], "services": [],
        "endpoints": [], "assignments": [],
        "keys": "folder" if from_folder else [STAGED, K],
    }
    for number in range(6):
        domain = rng.choice(domains)
        above = [row["id"] for row in opening["projects"] if row["domain_id"] == domain]
        parent = rng.choice(above[:3] + [domain])
        opening["projects"].append({"id": f"p{number}", "domain_id": domain, "parent_id": parent, "name": f"p{number}"})
        opening["users"].append({"id": f"u{number}", "domain_id": rng.choice(domains), "name": f"n{number % 4}{number}",
                                 "enabled": rng.random() < 0.9, "password": f"w{number}"})
    opening["users"].append({"id": "root", "domain_id": "default", "name": "root", "password": "root"})
    opening["groups"] = [{"id": f"g{number}", "domain_id": rng.choice(domains), "name": f"g{number}"} for number in range(3)]
    names = ("admin", "service", "member", "reader")
    opening["roles"] = [{"id": f"r{number}", "name": name} for number, name in enumerate(names)]
    opening["members"] = [{"group": f"g{rng.randrange(3)}", "user": f"u{rng.randrange(6)}"} for _ in range(3)]
    opening["implications"] = [{"prior": f"r{rng.randrange(4)}", "implied": f"r{rng.randrange(1, 4)}"} for _ in range(2)]
    top = next((row["id"] for row in opening["projects"] if row["domain_id"] == "default"), None)
    opening["assignments"] = [{"user": "root", "domain": "default", "role": "r0"}]
    opening["assignments"] += [{"user": "root", "project": top, "role": "r0"}] if top else []
    opening["assignments"] += [{"user": "root", "system": True, "role": "r0"}] if rng.random() < 0.5 else []
    add_catalog(rng, opening)
    for _ in range(12):
        grant = dict([rng.choice((("user", f"u{rng.randrange(6)}"), ("group", f"g{rng.randrange(3)}")))])
        grant.update([rng.choice((("project", f"p{rng.randrange(6)}"), ("domain", rng.choice(domains))))])
        opening["assignments"].append({**grant, "role": f"r{rng.randrange(1, 4)}", "inherited": rng.random() < 0.4})
    opening["policy"] = {name: text for name, text in POLICY.items() if rng.random() < 0.4}
    return opening


OPTIONS = ({}, {"multi_factor_auth_rules": [["password", "totp"]]}, {"multi_factor_auth_rules": [["totp"], ["password"]]},
           {"multi_factor_auth_rules": [["totp"]], "multi_factor_auth_enabled": False}, {"multi_factor_auth_rules": [["token"]]},
           {"lock_password": True}, None, {"multi_factor_auth_rules": [["password", "password"]], "multi_factor_auth_enabled": None})
URLS = ("http://c", "http://c/$(project_id)s", "%(tenant_id)s/%(project_id)s", "http://c/$(user_id)s?100%", "$$(tenant_id)s")


def add_catalog(rng, opening):
    """A few regions, services and endpoints of an opening file."""
    regions = [f"x{number}" for number in range(rng.randrange(4))]
    opening["regions"] = [{"id": each, "parent_region_id": rng.choice((None, *regions[:number]))}
                          for number, each in enumerate(regions)]
    opening["services"] = [{"id": f"s{number}", "type": rng.choice(("compute", "image")), "name": f"t{number}",
                            "enabled": rng.random() < 0.8} for number in range(rng.randrange(1, 4))]
    for number in range(rng.randrange(6)):
        opening["endpoints"].append({
            "id": f"e{number}", "service_id": rng.choice(opening["services"])["id"], "url": rng.choice(URLS),
            "interface": rng.choice(("public", "internal", "admin")), "region_id": rng.choice((None, *regions)),
            "enabled": rng.random() < 0.8})


class Caller:
    """Makes requests out of what it has seen of the replies."""

    def __init__(self, rng, opening, rotations):
        self.rng, self.rotations = rng, rotations
        self.ids = {kind: [row["id"] for row in opening[kind + "s"]] for kind in KINDS + CATALOG}
        self.ids.update(trust=[], appcred=[], secret=[])
        self.credentials, self.secrets = {}, {}
        self.passwords = {row["id"]: row["password"] for row in opening["users"]}
        self.names = {kind: [row["name"] for row in opening[kind + "s"]] for kind in KINDS}
        self.tokens, self.admins, self.of_trusts, self.users = [], [], [], {}
        self.made, self.auth = 0, None
        self.paths, self.trustees, self.scopes, self.parents = [], {}, {}, []
        self.granted = [(grant["user"], grant["project"]) for grant in opening["assignments"] if "project" in grant
                        and "user" in grant and not grant.get("inherited")]

    def pick(self, kind):
        """An id of a kind, or now and then one that does not stand."""
        return self.rng.choice(self.ids[kind]) if self.ids[kind] and self.rng.random() < 0.95 else "none"

    def late(self, kind):
        """An id of a kind that was made of late, mostly."""
        ids = self.ids[kind][-3:] if self.rng.random() < 0.8 else []
        return self.rng.choice(ids) if ids else self.pick(kind)

    def token(self):
        """A token, mostly one that may do something."""
        groups = [self.admins] * 6 + [self.tokens] * 3 + [self.of_trusts] * 2
        tokens = self.rng.choice([group for group in groups if group] or [["none"]])
        return self.rng.choice(tokens[-6:])

    def request(self, now):
        """A method, a target, the fields and the body."""
        if not self.admins or self.rng.random() < 0.1:
            return ("POST", "/v3/auth/tokens", None, None, login_body("root", "root", scope={"domain": {"id": "default"}}))
        kinds = ((self.login, 8), (self.about_token, 8), (self.about_row, 10), (self.about_member, 4), (self.about_role, 3),
                 (self.about_grant, 8), (self.listing, 6), (self.about_trust, 8), (self.about_catalog, 8),
                 (self.about_credential, 8), (self.about_secret, 8), (self.other, 2))
        make = self.rng.choices([kind for kind, _ in kinds], [weight for _, weight in kinds])[0]
        self.auth = self.token() if self.rng.random() < 0.98 else None
        method, target, subject, body = make(now)
        return method, target, self.auth, subject, body

    def standing_path(self, part):
        """The path of a relation that was made, now and then."""
        paths = [path for path in self.paths[-12:] if part in path]
        return self.rng.choice(paths) if paths and self.rng.random() < 0.5 else None

    def login(self, _):
        """A login of any kind."""
        rng = self.rng
        kind = rng.choice(("domain", "project", "project", "named", "system", "trust", "trust", "trust", "unscoped", None))
        scope = {"domain": {"domain": {"id": self.pick("domain")}}, "project": {"project": {"id": self.pick("project")}},
                 "named": {"project": {"name": self.pick("project"), "domain": {"name": self.pick("domain").title()}}},
                 "system": {"system": {"all": True}}, "trust": {"OS-TRUST:trust": {"id": self.pick("trust")}},
                 "unscoped": rng.choice(("unscoped", {"unscoped": {}}, {"unscoped": {}, "domain": None})), None: None}[kind]
        user = self.trustees.get(scope["OS-TRUST:trust"]["id"], "none") if kind == "trust" else self.pick("user")
        user = self.pick("user") if rng.random() < 0.05 else user
        if kind == "project" and self.granted and rng.random() < 0.8:
            user, scope["project"]["id"] = rng.choice(self.granted)
        password = self.passwords.get(user, "none") if rng.random() < 0.95 else "wrong"
        token = None
        if rng.random() < 0.3:
            token = rng.choice(self.tokens[-3:]) if self.tokens and rng.random() < 0.7 else self.token()
        return "POST", "/v3/auth/tokens", None, self.damaged(login_body(user, password, token, scope))

    def login_of(self, user, project):
        """A login of a user on a project."""
        body = login_body(user, self.passwords.get(user, "none"), scope={"project": {"id": project}})
        return "POST", "/v3/auth/tokens", None, body

    def login_by(self, trust):
        """A login of a trustee by its trust."""
        user = self.trustees[trust]
        body = login_body(user, self.passwords.get(user, "none"), scope={"OS-TRUST:trust": {"id": trust}})
        return "POST", "/v3/auth/tokens", None, body

    def damaged(self, body):
        """A body, now and then with one member gone or of another type."""
        if self.rng.random() < 0.95:
            return body
        body = copy.deepcopy(body)
        place = body
        while True:
            name = self.rng.choice(sorted(place)) if place else None
            if name is None:
                return body
            if not isinstance(place[name], dict) or self.rng.random() < 0.2:
                break
            place = place[name]
        place[name] = self.rng.choice((None, 7, [], "", {}, "x" * 5000, -1, True))
        if self.rng.random() < 0.3:
            del place[name]
        return body

    def about_token(self, _):
        """A token, told, tested or ended."""
        method = self.rng.choice(("GET", "GET", "HEAD", "DELETE"))
        query = self.rng.choice(("", "", "?allow_expired=1", "?allow_expired=0", "?allow_expired"))
        return method, "/v3/auth/tokens" + query, self.token() if self.rng.random() < 0.97 else None, None

    def row_body(self, kind):
        """The fields of a row of a kind."""
        rng = self.rng
        self.made += 1
        fields = {"name": f"{kind}{self.made}" if rng.random() < 0.85 else rng.choice(self.names[kind])}
        if kind in ("domain", "project", "user") and rng.random() < 0.3:
            fields["enabled"] = rng.random() < (0.4 if kind == "project" else 0.5)
        if kind in ("project", "user", "group") and rng.random() < 0.5:
            fields["domain_id"] = self.pick("domain")
        if kind == "project" and rng.random() < 0.6:
            fields["parent_id"] = rng.choice(self.ids["project"][-3:]) if rng.random() < 0.7 else self.pick("project")
            fields = {name: value for name, value in fields.items() if name != "domain_id" or rng.random() < 0.3}
        if kind == "user" and rng.random() < 0.6:
            fields["password"] = f"w{self.made}"
        if kind == "user" and rng.random() < 0.2:
            fields["options"] = rng.choice(OPTIONS)
        if kind != "user" and rng.random() < 0.3:
            fields["description"] = 'A "text" with \u00e9, \u2028 and \t.'
        return fields

    def about_row(self, _):
        """A row, made, told, changed or dropped; or a change of one's own password."""
        rng, kind = self.rng, self.rng.choice(KINDS)
        method = rng.choice(("POST", "POST", "GET", "PATCH", "PATCH", "DELETE", "password"))
        if method == "password":
            user = rng.choice([each for each in self.ids["user"] if each != "root"])
            body = {"user": {"original_password": self.passwords.get(user, "none"), "password": f"w{self.made}"}}
            return "POST", f"/v3/users/{user}/password", None, self.damaged(body)
        each = self.pick(kind)
        if each in ("root", "default", "r0") and method != "GET":
            each = "none"
        fields = self.row_body(kind) if method in ("POST", "PATCH") else None
        if method == "PATCH":
            fields = {name: value for name, value in fields.items()
                      if rng.random() < (0.1 if name in ("domain_id", "parent_id") else 0.7)}
        body = self.damaged({kind: fields}) if fields is not None else None
        return method, f"/v3/{kind}s" + ("" if method == "POST" else "/" + each), None, body

    def catalog_body(self, kind, is_new):
        """The fields of a row of the catalog; a change gives some, now and then one that can't be changed."""
        rng = self.rng
        self.made += 1
        texts = {"name": rng.choice(("", "nova", f"t{self.made}")), "description": 'A "text" with \u00e9, \u2028 and \t.'}
        fields = {"region": {"id": rng.choice((f"x{self.made}", self.pick("region"))), "parent_region_id": self.pick("region"),
                             "description": texts["description"]},
                  "service": {"type": rng.choice(("compute", "image", "")), **texts, "enabled": rng.random() < 0.7},
                  "endpoint": {"service_id": self.pick("service"), "interface": rng.choice(("public", "internal", "admin")),
                               "url": rng.choice(URLS), rng.choice(("region", "region_id")): self.pick("region"),
                               "enabled": rng.random() < 0.7}}[kind]
        needed = {"region": (), "service": ("type",), "endpoint": ("service_id", "interface", "url")}[kind]
        likely = {"id": 0.7, "parent_region_id": 0.4} if is_new else {"id": 0.05, "parent_region_id": 0.1, "service_id": 0.1}
        return {name: value for name, value in fields.items()
                if is_new and name in needed or rng.random() < likely.get(name, 0.4)}

    def about_catalog(self, _):
        """A region, a service or an endpoint, made, told, listed, changed or dropped; or the caller's own catalog."""
        rng, kind = self.rng, self.rng.choice(CATALOG + ("own",))
        if kind == "own":
            return "GET", "/v3/auth/catalog", None, None
        method = rng.choice(("POST", "POST", "GET", "list", "PATCH", "PATCH", "DELETE"))
        if method == "list":
            given = {"parent_region_id": self.pick("region"), "type": rng.choice(("compute", "image")), "name": "nova",
                     "service_id": self.pick("service"), "region_id": self.pick("region"), "interface": "public", "other": "x"}
            names = rng.sample(sorted(given), rng.randrange(4))
            return "GET", f"/v3/{kind}s?" + "&".join(f"{name}={given[name]}" for name in names), None, None
        fields = self.catalog_body(kind, method == "POST") if method in ("POST", "PATCH") else None
        body = self.damaged({kind: fields}) if fields is not None else None
        return method, f"/v3/{kind}s" + ("" if method == "POST" else "/" + self.pick(kind)), None, body

    def about_credential(self, now):
        """An application credential, made, told, listed, dropped or logged in by."""
        rng, each = self.rng, self.late("appcred")
        user, name, secret = self.credentials.get(each, (self.pick("user"), "none", "none"))
        choice = rng.choice(("make", "make", "log in", "log in", "log in", "get", "list", "drop"))
        choice = "make" if name == "none" and rng.random() < 0.8 else choice
        if choice == "log in":
            named = rng.choice(({"id": each}, {"name": name, "user": {"id": user}}))
            body = login_body(None, token="")
            body["auth"]["identity"] = {"methods": ["application_credential"], "application_credential": {
                **named, "secret": secret if rng.random() < 0.95 else "wrong"}}
            body["auth"].update({"scope": "unscoped"} if rng.random() < 0.05 else {})
            return "POST", "/v3/auth/tokens", None, self.damaged(body)
        if choice != "make":
            self.auth = rng.choice([text for text in self.tokens[-20:] if self.users[text] == user] + [self.auth])
            path = f"/v3/users/{user if rng.random() < 0.95 else 'none'}/application_credentials"
            return "DELETE" if choice == "drop" else "GET", path + ("" if choice == "list" else "/" + each), None, None
        self.made += 1
        self.auth = rng.choice([text for text in self.tokens[-8:] if self.scopes[text][0] and text not in self.of_trusts] or [self.auth])
        _, roles = self.scopes.get(self.auth, (None, []))
        more = {"secret": f"s{self.made}", "roles": [{"id": role} for role in rng.sample(roles, min(len(roles), 1))],
                "expires_at": time_text(now + rng.choice((-5, 500))), "unrestricted": rng.random() < 0.5, "description": "\u00e9"}
        likely = {"secret": 0.7, "expires_at": 0.2}
        given = {member: value for member, value in more.items() if rng.random() < likely.get(member, 0.4)}
        fields = {"name": rng.choice((f"c{self.made}", name)), **given}
        path = f"/v3/users/{self.users.get(self.auth, 'none')}/application_credentials"
        return "POST", path, None, self.damaged({"application_credential": fields})

    def shown_code(self, user, now):
        """A user with a code that it has now, mostly."""
        secrets = [secret for owner, secret in self.secrets.values() if owner == user]
        codes = codes_at(self.rng.choice(secrets), now) if secrets and self.rng.random() < 0.9 else [7]
        return {"user": {"id": user, "passcode": f"{self.rng.choice(codes):06}"}}

    def about_secret(self, now):
        """A secret of codes, made, told, listed, dropped or logged in by; or what a user has to log in by."""
        rng, each = self.rng, self.late("secret")
        choice = rng.choice(("make", "code", "code", "both", "both", "rules", "get", "list", "drop"))
        choice = "make" if each not in self.secrets and rng.random() < 0.8 else choice
        user = self.secrets[each][0] if each in self.secrets and rng.random() < 0.9 else self.pick("user")
        if choice == "make":
            secret = base32_text(rng.randbytes(rng.randrange(9, 21)))
            return "POST", "/v3/credentials", None, self.damaged(
                {"credential": {"type": "totp", "blob": secret, "user_id": user, "project_id": None}})
        if choice == "rules" and user != "root":
            return "PATCH", f"/v3/users/{user}", None, {"user": {"options": rng.choice(OPTIONS)}}
        if choice in ("code", "both"):
            password = {"user": {"id": user, "password": self.passwords.get(user, "none")}}
            shown = {"totp": self.shown_code(user if rng.random() < 0.95 else "root", now)}
            shown = {"password": password, **shown} if choice == "both" else shown
            scope = {"scope": {"project": {"id": self.pick("project")}}} if rng.random() < 0.3 else {}
            return "POST", "/v3/auth/tokens", None, self.damaged({"auth": {"identity": {"methods": list(shown), **shown}, **scope}})
        path = "/v3/credentials" + ("" if choice == "list" else "/" + each)
        return "DELETE" if choice == "drop" else "GET", path, None, None

    def about_member(self, _):
        """A membership, or a listing of such."""
        user, group, path = self.pick("user"), self.pick("group"), self.standing_path("/v3/groups")
        if path:
            return self.rng.choice(("HEAD", "DELETE", "PUT")), path, None, None
        return self.rng.choice([(method, f"/v3/groups/{group}/users/{user}", None, None) for method in ("PUT", "HEAD", "DELETE")]
                               + [("GET", f"/v3/users/{user}/groups", None, None),
                                  ("GET", f"/v3/users/{user}/projects", None, None),
                                  ("GET", f"/v3/groups/{group}/users", None, None)])

    def about_role(self, _):
        """An implication, or a listing of such."""
        path = self.standing_path("/implies/")
        if path:
            return self.rng.choice(("HEAD", "DELETE", "GET")), path, None, None
        path = f"/v3/roles/{self.pick('role')}/implies"
        one = f"{path}/{self.pick('role')}"
        methods = ("PUT", "GET", "HEAD", "DELETE")
        return self.rng.choice([(method, one, None, None) for method in methods] + [("GET", path, None, None)])

    def about_grant(self, _):
        """A grant of any kind, or a listing of such."""
        rng, path = self.rng, self.standing_path("s/")
        if path and "/roles/" in path and "implies" not in path and "root" not in path:
            return rng.choice(("HEAD", "DELETE", "PUT")), path, None, None
        actor, target = rng.choice(("user", "group")), rng.choice(("project", "domain", "system"))
        is_inherited = target != "system" and rng.random() < 0.4
        path = "/v3/OS-INHERIT" if is_inherited else "/v3"
        path += "/system" if target == "system" else f"/{target}s/{self.pick(target)}"
        path += f"/{actor}s/{self.pick(actor)}/roles"
        method = rng.choice(("PUT", "PUT", "HEAD", "DELETE", "GET"))
        role = rng.choice(("r1", "r2", "r3", self.pick("role") if method != "DELETE" else "none"))
        path += (f"/{role}" if method != "GET" else "") + ("/inherited_to_projects" if is_inherited else "")
        return method, path, None, None

    def listing(self, _):
        """A listing with some filters."""
        rng, kind = self.rng, self.rng.choice(KINDS + ("assignment", "assignment", "event"))
        if kind == "event":
            return "GET", "/v3/OS-REVOKE/events", None, None
        if kind == "assignment":
            given = {"user.id": self.pick("user"), "group.id": self.pick("group"), "role.id": self.pick("role"),
                     "scope.project.id": self.pick("project"), "scope.domain.id": self.pick("domain"), "scope.system": "all",
                     "effective": rng.choice(("", "0", "false", "False", "1"))}
            names = rng.sample(sorted(given), rng.randrange(3))
        else:
            given = {"name": self.pick(kind), "domain_id": self.pick("domain"), "parent_id": self.pick("project"),
                     "enabled": rng.choice(("true", "False", "0")), "other": "%zz+%41"}
            names = rng.sample(sorted(given), rng.randrange(3))
        path = "/v3/role_assignments" if kind == "assignment" else f"/v3/{kind}s"
        return "GET", path + "?" + "&".join(f"{name}={given[name]}" for name in names), None, None

    def about_trust(self, now):
        """A trust, made, told or dropped."""
        rng, trust = self.rng, self.pick("trust")
        choice = rng.choice(("make", "make", "make", "make", "get", "get", "roles", "list", "list", "drop"))
        if choice == "make" and not any(self.scopes[text][0] for text in self.tokens[-20:]) and self.granted:
            return self.login_of(*rng.choice(self.granted))
        if choice == "make" and self.trustees and rng.random() < 0.3:
            return self.login_by(rng.choice(list(self.trustees)[-3:]))
        if choice == "make":
            return "POST", "/v3/OS-TRUST/trusts", None, self.damaged(self.new_trust(now))
        if choice == "drop" and self.parents and rng.random() < 0.7:
            trust = self.parents.pop()
        path = "/v3/OS-TRUST/trusts" + ("" if choice == "list" else "/" + trust) + ("/roles" if choice == "roles" else "")
        if choice == "list" and rng.random() < 0.7:
            path += "?" + rng.choice(("trustor_user_id", "trustee_user_id")) + "=" + self.pick("user")
        return "DELETE" if choice == "drop" else "GET", path, None, None

    def new_trust(self, now):
        """The body of a trust."""
        rng = self.rng
        of_trusts = self.of_trusts[-3:] if rng.random() < 0.5 else []
        given = {"impersonation": rng.random() < 0.5, "roles": [rng.choice(({"id": self.pick("role")}, {"name": "member"}))]}
        more = {"expires_at": time_text(now + rng.choice((-5, 500, 5000))), "remaining_uses": rng.choice((1, 2)),
                "allow_redelegation": True, "redelegation_count": rng.choice((0, 1, 3, 4)),
                "redelegated_trust_id": self.pick("trust")}
        passes_on = rng.random() < 0.6
        uses = 0.05 if of_trusts or passes_on else 0.8  # One that counts its uses is not passed on.
        likely = {"allow_redelegation": 0.95 if passes_on else 0, "remaining_uses": uses, "redelegated_trust_id": 0.05}
        given.update({name: value for name, value in more.items() if rng.random() < likely.get(name, 0.1)})
        self.auth = rng.choice(of_trusts or [text for text in self.tokens[-20:] if self.scopes[text][0]] or [self.auth])
        project, roles = self.scopes.get(self.auth, (None, []))
        if roles and rng.random() < 0.8:
            given["roles"] = [{"id": role} for role in rng.sample(roles, rng.randrange(1, len(roles) + 1))]
        trustor = self.users.get(self.auth, "none") if rng.random() < 0.95 else self.pick("user")
        body = trust_body(trustor, self.pick("user"), **given)
        body["trust"]["project_id"] = project if project and rng.random() < 0.9 else self.pick("project")
        return body

    def other(self, _):
        """The keys, the versions, and what there is not."""
        choices = [("GET", "/", None, None), ("GET", "/v3", None, None), ("GET", "/v3/", None, None),
                   ("GET", "/v3/none", None, None), ("DELETE", "/v3/users", None, None), ("POST", "/v3/OS-KS-KEYS/load", None, None)]
        if self.rotations:
            self.rotations -= 1
            choices += [("POST", "/v3/OS-KS-KEYS/rotate", None, None)] * 4
        return self.rng.choice(choices)

    def forget(self, token):
        """A token that is refused is mostly not shown again."""
        for tokens in (self.tokens, self.admins, self.of_trusts):
            if token in tokens and self.rng.random() < 0.9:
                tokens.remove(token)

    def forget_credential(self, request):
        """A credential that is gone, or by which nobody logs in, is mostly not named again."""
        shown = json.dumps(request[4] or {}) + request[1]
        for kind in ("appcred", "secret"):
            self.ids[kind] = [each for each in self.ids[kind] if each not in shown or self.rng.random() < 0.3]

    def learn(self, request, reply):
        """Keeps what a reply tells of ids, tokens and passwords."""
        status, fields, data = reply
        if status == 401:
            self.forget(request[2])
        if status in (204, 404) and request[1].startswith("/v3/auth/tokens"):
            self.forget(request[3])
        body = json.loads(data) if data else {}
        if status == 201 and "token" in body:
            self.learn_token(dict(fields)["X-Subject-Token"], body["token"])
        for kind in KINDS + CATALOG + ("trust",):
            if status == 201 and isinstance(body.get(kind), dict):
                self.ids[kind].append(body[kind]["id"])
                self.names.get(kind, []).append(body[kind].get("name"))
        if status in (204, 401, 404):
            self.forget_credential(request)
        if status == 201 and "application_credential" in body:
            told = body["application_credential"]
            self.ids["appcred"].append(told["id"])
            self.credentials[told["id"]] = told["user_id"], told["name"], told["secret"]
        if status == 201 and "credential" in body:
            told = body["credential"]
            self.ids["secret"].append(told["id"])
            self.secrets[told["id"]] = told["user_id"], base32_bytes(told["blob"])
        if status == 201 and "trust" in body:
            self.trustees[body["trust"]["id"]] = body["trust"]["trustee_user_id"]
            self.parents += [body["trust"]["redelegated_trust_id"]] if body["trust"]["redelegated_trust_id"] else []
        if status in (201, 204) and request[0] == "PUT":
            self.paths.append(request[1])
            names = request[1].split("/")
            if names[2:3] == ["projects"] and names[4:5] == ["users"]:
                self.granted.append((names[5], names[3]))
        if status == 204 and request[0] == "DELETE":
            for ids in self.ids.values():
                ids[:] = [each for each in ids if not request[1].endswith("/" + each) or request[1].count("/") > 4]
        sent = request[4]["user"] if isinstance(request[4], dict) and isinstance(request[4].get("user"), dict) else {}
        if status in (200, 201, 204) and "password" in sent:
            self.passwords[body["user"]["id"] if body else request[1].split("/")[3]] = sent["password"]

    def learn_token(self, text, token):
        """Keeps a token where it may be found again."""
        self.users[text] = token["user"]["id"]
        self.tokens.append(text)
        self.scopes[text] = (token.get("project", {}).get("id"), [role["id"] for role in token.get("roles", [])])
        if any(role["name"] == "admin" for role in token.get("roles", [])):
            self.admins.append(text)
        if "OS-TRUST:trust" in token:
            self.of_trusts.append(text)


def folder_of(rng):
    """What a reading of the folder finds."""
    staged, key = STAGED.encode(), K.encode()
    return rng.choice(({0: staged, 1: key + b"\n"}, {0: staged, 1: key}, {3: key}, {}, {2: b"x"}, None))


def parts_of(request):
    """The method, path, query, header fields and body bytes of a request."""
    method, target, auth, subject, body = request
    path, _, query = target.partition("?")
    headers = [("X-Auth-Token", auth)] if auth is not None else []
    headers += [("X-Subject-Token", subject)] if subject is not None else []
    return method, path, query, headers, json.dumps(body).encode() if body is not None else b""


def snapshot(server):
    """All that a refusal leaves as it was."""
    return copy.deepcopy((server.rows, server.members, server.implications, server.grants, server.events, server.method_rules,
                          server.ring.held, server.ring.following, server.made))


def sequences(seed, count, length):
    """Random openings, each with random calls and their replies.

    Yields the opening file, the folder, and a list of (method, path, query, headers, body, reading, draw, folder, reply).
    """
    for number in range(count):
        rng = random.Random(f"{seed} {number}")
        from_folder = rng.random() < 0.3
        opening, folder = random_opening(rng, from_folder), {0: STAGED.encode(), 1: K.encode()}
        server, caller = Machine(json.dumps(opening), salts(), folder), Caller(rng, opening, 3)
        now, calls = START, []
        for _ in range(length):
            now += rng.choices((0, 1, -3, 40, 4000, 180000), (50, 20, 2, 3, 0.5, 0.3))[0]
            request = caller.request(now)
            given = parts_of(request) + (now, rng.randbytes(64) if rng.random() < 0.99 else None, folder_of(rng))
            before = snapshot(server)
            reply = server.call(*given)
            after = snapshot(server)
            if reply[0] >= 400 and before != after or before[:-1] != after[:-1] and after[-1] != before[-1] + 1:
                raise AssertionError(f"sequence {number}: {request}: a refusal changed the state, or a change was not counted")
            caller.learn(request, reply)
            calls.append(given + (reply,))
        yield json.dumps(opening), folder, calls
