#!/usr/bin/env python3
"""Puts OpenStack's own `keystonemiddleware` before a WSGI application, and lets it ask a server over examples/cloud.json.

    tests/middleware.py [PROGRAM]

A valid token reaches the application with its roles and its catalog, a revoked one and one of nobody's do not, and one that has
expired does beside the token of a service. Where Debian's python3-keystonemiddleware is not installed (`apt-get install
python3-keystonemiddleware`), nothing is tried. The program is bin/ks of this repository; a word or the environment's KS names
another. The exit status is 1 where something is otherwise.
"""

import json
import os
import sys
import time

sys.dont_write_bytecode = True
from cloud import DEMO, SERVICE, call, log_in, require_module, try_application
from second_reading.ciphers import key_of, seal, spelling
from served import HOST, require

require_module("keystonemiddleware", "python3-keystonemiddleware")
from keystonemiddleware import auth_token

LIFE, WINDOW = 3600, 172800


def application(environ, start_response):
    """Tells who called it."""
    told = {name: environ.get(name) for name in ("HTTP_X_IDENTITY_STATUS", "HTTP_X_USER_NAME", "HTTP_X_PROJECT_NAME",
                                                 "HTTP_X_ROLES", "HTTP_X_SERVICE_CATALOG", "HTTP_X_SERVICE_ROLES")}
    start_response("200 OK", [("Content-Type", "application/json")])
    return [json.dumps(told).encode()]


def guarded(url):
    """The application behind the middleware, which asks as the user nova and keeps no answer."""
    return auth_token.AuthProtocol(application, {
        "auth_type": "password", "auth_url": url, "username": "nova", "password": "nova", "user_domain_id": "default",
        "project_name": "service", "project_domain_id": "default", "www_authenticate_uri": url, "token_cache_time": -1,
        "service_token_roles": "service", "service_token_roles_required": True})


def asked(app, token, service=None):
    """The status with which a request is answered, and what the application tells of its caller."""
    environ = {"REQUEST_METHOD": "GET", "PATH_INFO": "/", "SERVER_NAME": HOST, "SERVER_PORT": "80", "wsgi.url_scheme": "http",
               "wsgi.input": None, "wsgi.errors": sys.stderr}
    environ.update({"HTTP_X_AUTH_TOKEN": token} if token else {})
    environ.update({"HTTP_X_SERVICE_TOKEN": service} if service else {})
    statuses = []
    body = b"".join(app(environ, lambda status, _headers, _failure=None: statuses.append(int(status.split()[0]))))
    return statuses[0], json.loads(body) if statuses[0] == 200 else None


def expired(server, user, project, seconds):
    """A token that ended so many seconds ago, sealed with the server's own key."""
    indices = [int(name) for name in os.listdir(server.keys) if name.isdigit()]
    with open(os.path.join(server.keys, str(max(indices))), encoding="ascii") as file:
        key = key_of(file.read().strip())
    expires = int(time.time()) - seconds
    payload = dict.fromkeys(("domain", "trust", "credential", "chain"))
    payload.update(kind=2, methods=1, user=user, project=project, expires=expires, audit=os.urandom(16))
    return seal(key, expires - LIFE, os.urandom(16), spelling(payload))


def try_valid(server, app):
    """A valid token reaches the application with its user, its project, its roles and its catalog."""
    token, _ = log_in(server, "demo", "demo", DEMO)
    status, told = asked(app, token)
    require(status == 200, f"a valid token was answered {status}")
    seen = (told["HTTP_X_IDENTITY_STATUS"], told["HTTP_X_USER_NAME"], told["HTTP_X_PROJECT_NAME"])
    require(seen == ("Confirmed", "demo", "demo"), f"the application saw {seen}")
    require(sorted(told["HTTP_X_ROLES"].split(",")) == ["member", "reader"], f"the roles are {told['HTTP_X_ROLES']}")
    catalog = {service["type"]: service["endpoints"] for service in json.loads(told["HTTP_X_SERVICE_CATALOG"])}
    require(sorted(catalog) == ["compute", "identity", "image"], f"the catalog has {sorted(catalog)}")
    require(catalog["compute"][0]["publicURL"].endswith("/" + DEMO), f"the endpoint is {catalog['compute']}")


def try_root(server, _app):
    """The same where the server is named without the version, as the guides of most services name it."""
    try_valid(server, guarded(server.url.removesuffix("/v3")))


def try_refused(server, app):
    """No token, one that is none, and one that was revoked do not reach it."""
    for token in (None, "gAAAAA"):
        require(asked(app, token)[0] == 401, f"the token {token} was not refused")
    token, _ = log_in(server, "demo", "demo", DEMO)
    require(asked(app, token)[0] == 200, "a token was refused before it was revoked")
    status, _, _ = call(server, "DELETE", {"X-Auth-Token": token, "X-Subject-Token": token})
    require(status == 204 and asked(app, token)[0] == 401, "a revoked token was not refused")


def try_expired(server, app):
    """A token past its expiry reaches it beside the token of a service, within the window."""
    service, _ = log_in(server, "glance", "glance", SERVICE)
    other, user = log_in(server, "demo", "demo", DEMO)
    late = expired(server, user, DEMO, 60)
    require(asked(app, late)[0] == 401, "an expired token was taken by itself")
    require(asked(app, late, other)[0] == 401, "an expired token was taken beside one that is no service's")
    status, told = asked(app, late, service)
    require(status == 200 and told["HTTP_X_USER_NAME"] == "demo", f"an expired token beside a service's was answered {status}")
    require(told["HTTP_X_SERVICE_ROLES"] == "service", f"the roles of the service are {told['HTTP_X_SERVICE_ROLES']}")
    require(asked(app, expired(server, user, DEMO, WINDOW + 60), service)[0] == 401, "a token behind the window was taken")


if __name__ == "__main__":
    try_application("middleware", "keystonemiddleware", guarded, (try_valid, try_root, try_refused, try_expired))
