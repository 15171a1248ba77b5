"""The routes of the Identity API v3: which command a request asks for, and what that needs."""

import re

from second_reading.words import CATALOG, KINDS, METHODS, Refusal
from second_reading.ciphers import is_id
from second_reading.forms import appcred_form, document, login_form, made_form, password_form, secret_form, trust_form


def grant_routes():
    """The routes of grants: on a project or a domain, on the system, and of what their projects inherit."""
    for actor in ("user", "group"):
        bases = [(target, f"/v3/{target}s/{{}}/{actor}s/{{}}/roles", "", False) for target in ("project", "domain")]
        bases += [(target, f"/v3/OS-INHERIT/{target}s/{{}}/{actor}s/{{}}/roles", "/inherited_to_projects", True)
                  for target in ("project", "domain")]
        bases += [("system", f"/v3/system/{actor}s/{{}}/roles", "", False)]
        for target, base, tail, inherited in bases:
            about = (actor, target, inherited)
            if not inherited or target == "domain":
                yield "GET", base + tail, "grants_of", about
            for method, command in (("PUT", "grant"), ("HEAD", "is_granted"), ("DELETE", "ungrant")):
                yield method, base + "/{}" + tail, command, about


def routes_of_users():
    """The routes of application credentials, and of secrets of one-time codes."""
    for path, name in (("/v3/users/{}/application_credentials", "appcred"), ("/v3/credentials", "secret")):
        yield "GET", path, f"list_{name}s", None
        yield "POST", path, "create_" + name, None
        yield "GET", path + "/{}", "get_" + name, None
        yield "DELETE", path + "/{}", "delete_" + name, None


def all_routes():
    """Each method and pattern of a path, the command, and what the route says of it."""
    yield "GET", "/", "versions", None
    yield "GET", "/v3", "version", None
    yield "GET", "/v3/", "version", None
    for method, command in (("POST", "login"), ("GET", "validate"), ("HEAD", "check"), ("DELETE", "revoke_token")):
        yield method, "/v3/auth/tokens", command, None
    yield "GET", "/v3/auth/catalog", "show_catalog", None
    for kind in KINDS + CATALOG:
        yield "GET", f"/v3/{kind}s", "list", kind
        yield "POST", f"/v3/{kind}s", "create", kind
        for method, command in (("GET", "get"), ("PATCH", "update"), ("DELETE", "delete")):
            yield method, f"/v3/{kind}s/{{}}", command, kind
    yield "POST", "/v3/users/{}/password", "change_password", None
    yield "GET", "/v3/users/{}/groups", "groups_of", None
    yield "GET", "/v3/users/{}/projects", "projects_of", None
    yield from routes_of_users()
    yield "GET", "/v3/groups/{}/users", "members_of", None
    for method, command in (("PUT", "join"), ("HEAD", "is_in"), ("DELETE", "leave")):
        yield method, "/v3/groups/{}/users/{}", command, None
    yield "GET", "/v3/roles/{}/implies", "implied", None
    for method, command in (("PUT", "imply"), ("GET", "implication"), ("HEAD", "is_implied"), ("DELETE", "unimply")):
        yield method, "/v3/roles/{}/implies/{}", command, None
    yield from grant_routes()
    yield "GET", "/v3/role_assignments", "assignments", None
    yield "GET", "/v3/OS-TRUST/trusts", "list_trusts", None
    yield "POST", "/v3/OS-TRUST/trusts", "create_trust", None
    yield "GET", "/v3/OS-TRUST/trusts/{}", "get_trust", None
    yield "DELETE", "/v3/OS-TRUST/trusts/{}", "delete_trust", None
    yield "GET", "/v3/OS-TRUST/trusts/{}/roles", "roles_of_trust", None
    yield "GET", "/v3/OS-REVOKE/events", "events", None
    yield "POST", "/v3/OS-KS-KEYS/rotate", "rotate_keys", None
    yield "POST", "/v3/OS-KS-KEYS/load", "load_keys", None


ROUTES = list(all_routes())
ACTIONS = {
    "versions": None, "version": None, "login": None, "change_password": None, "show_catalog": None,
    "validate": "validate_token", "check": "check_token", "revoke_token": "revoke_token", "groups_of": "list_groups_for_user",
    "projects_of": "list_user_projects",
    "members_of": "list_users_in_group", "join": "add_user_to_group", "is_in": "check_user_in_group",
    "leave": "remove_user_from_group", "implied": "list_implied_roles", "imply": "create_implied_role",
    "implication": "get_implied_role", "is_implied": "check_implied_role", "unimply": "delete_implied_role",
    "assignments": "list_role_assignments", "create_trust": "create_trust", "list_trusts": "list_trusts",
    "get_trust": "get_trust", "delete_trust": "delete_trust", "roles_of_trust": "list_roles_for_trust",
    "events": "list_revoke_events", "rotate_keys": "rotate_keys", "load_keys": "load_keys",
    "create_appcred": "create_application_credential", "list_appcreds": "list_application_credentials",
    "get_appcred": "get_application_credential", "delete_appcred": "delete_application_credential",
    "create_secret": "create_credential", "list_secrets": "list_credentials", "get_secret": "get_credential",
    "delete_secret": "delete_credential",
}
GRANT_ACTIONS = {"grants_of": ("list", "grants"), "grant": ("create", "grant"), "is_granted": ("check", "grant"),
                 "ungrant": ("revoke", "grant")}
FILTERS = {"domain": ("name", "enabled"), "project": ("name", "domain_id", "parent_id", "enabled"),
           "user": ("name", "domain_id", "enabled"), "group": ("name", "domain_id"), "role": ("name",),
           "region": ("parent_region_id",), "service": ("type", "name"), "endpoint": ("service_id", "region_id", "interface")}
ASSIGNMENT_FILTERS = ("user.id", "group.id", "role.id", "scope.project.id", "scope.domain.id", "scope.system", "effective")
TRUST_FILTERS = ("trustor_user_id", "trustee_user_id")
DRAWING = ("login", "create", "change_password", "create_trust", "rotate_keys", "create_appcred", "create_secret")
FOR_ONESELF = ("revoke_token", "change_password", "delete_trust")


def ids_of(pattern, path):
    """The ids of a path that fits a pattern, else None."""
    parts, segments = pattern.split("/"), path.split("/")
    if len(parts) != len(segments):
        return None
    if any(part != segment and not (part == "{}" and is_id(segment)) for part, segment in zip(parts, segments)):
        return None
    return [segment for part, segment in zip(parts, segments) if part == "{}"]


def decoded(text):
    """A name or a value of a web form: `+` is a blank, escapes are decoded, what is not UTF-8 is replaced."""
    data = re.sub(rb"%([0-9A-Fa-f]{2})", lambda match: bytes([int(match[1], 16)]), text.replace(b"+", b" "))
    return data.decode("utf-8", "replace")


def query_fields(query):
    """The names of a query, each with its first value."""
    fields = {}
    for piece in query.encode().split(b"&"):
        name, _, value = piece.partition(b"=")
        if piece:
            fields.setdefault(decoded(name), decoded(value))
    return fields


def action_of(command, about):
    """The action of a command, without its prefix."""
    if command in ("create", "get", "update", "delete"):
        return f"{command}_{about}"
    if command == "list":
        return f"list_{about}s"
    if command in GRANT_ACTIONS:
        verb, noun = GRANT_ACTIONS[command]
        return f"{verb}_system_{noun}_for_{about[0]}" if about[1] == "system" else f"{verb}_{noun}"
    return ACTIONS[command]


class Call:
    """A request that has a command, and what the checks of a step add to it."""

    def __init__(self, command, about, ids, path, fields):
        self.command, self.about, self.ids, self.path = command, about, ids, path
        self.fields, self.body = fields, None
        self.auth, self.subject_text = None, None
        self.caller, self.subject = None, None
        self.draw, self.folder = None, None

    def filters(self):
        """The filters that the listing knows and the query gives."""
        known = {"assignments": ASSIGNMENT_FILTERS, "list_trusts": TRUST_FILTERS}.get(self.command) or FILTERS[self.about]
        return {name: self.fields[name] for name in known if name in self.fields}

    def is_late(self):
        """Whether a token past its expiry may be asked for."""
        given = self.fields.get("allow_expired", "0")
        return self.command in ("validate", "check") and given not in ("0", "false", "False")

    def is_effective(self):
        """Whether a listing of assignments asks for effective roles."""
        return self.fields.get("effective", "0") not in ("0", "false")


def body_in_form(command, about, data):
    """The body of a command that has a form; of others it is passed over."""
    forms = {"login": login_form, "change_password": password_form, "create_trust": trust_form, "create_appcred": appcred_form,
             "create_secret": secret_form}
    if command in forms:
        return forms[command](("", document(data)))
    return made_form(("", document(data)), about, command == "create") if command in ("create", "update") else None


def command_of(method, path, query, headers, data):
    """The command of a request, or the first of: no such route, no such method, what it lacks, a fault of its body."""
    fitting = [(route, ids_of(route[1], path)) for route in ROUTES if ids_of(route[1], path) is not None]
    if not fitting:
        raise Refusal("NoRoute")
    asked = [(route, ids) for route, ids in fitting if route[0] == method]
    if not asked:
        methods = [route[0] for route, _ in fitting]
        raise Refusal("NoMethod", ", ".join(name for name in METHODS if name in methods))
    (_, _, command, about), ids = asked[0]
    call = Call(command, about, ids, path, query_fields(query))
    given = {name.lower(): value for name, value in headers}
    call.auth, call.subject_text = given.get("x-auth-token"), given.get("x-subject-token")
    if command in ("validate", "check", "revoke_token") and call.subject_text is None:
        raise Refusal("Missing", "X-Subject-Token")
    if command == "assignments" and call.is_effective() and "user.id" not in call.fields:
        raise Refusal("Missing", "user.id")
    call.body = body_in_form(command, about, data)
    return call
