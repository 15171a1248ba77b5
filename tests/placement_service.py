#!/usr/bin/env python3
"""Lets a whole service of OpenStack, Placement, ask a server over examples/cloud.json about its callers.

    tests/placement_service.py [PROGRAM]

An administrator makes a resource provider and sees it listed; a member may not; a caller without a token, and one whose token was
revoked, are not let in. Where Debian's python3-placement is not installed (`apt-get install python3-placement`), nothing is tried. The
program is bin/ks of this repository; a word or the environment's KS names another. The exit status is 1 where something is otherwise.
"""

import io
import json
import os
import sys
import tempfile

sys.dont_write_bytecode = True
from cloud import ADMIN, DEMO, call, log_in, require_module, try_application
from served import HOST, require

require_module("placement", "python3-placement")

# Placement keeps no answer of the server's, so that each request is asked about.
SETTINGS = """\
[api]
auth_strategy = keystone
[keystone_authtoken]
www_authenticate_uri = {url}
auth_url = {url}
auth_type = v3password
username = nova
user_domain_id = default
password = nova
project_name = service
project_domain_id = default
token_cache_time = -1
[placement_database]
connection = sqlite:///{folder}/placement.db
sync_on_startup = True
"""


def placement(url, folder):
    """The service, as a WSGI application that asks the server at this URL."""
    with open(os.path.join(folder, "placement.conf"), "w", encoding="utf-8") as file:
        file.write(SETTINGS.format(url=url, folder=folder))
    os.environ["OS_PLACEMENT_CONFIG_DIR"] = folder
    from placement.wsgi import init_application

    return init_application()


def asked(app, method, token, body=None):
    """The status of a request about resource providers, and the body of its response."""
    data = json.dumps(body).encode() if body else b""
    environ = {"REQUEST_METHOD": method, "PATH_INFO": "/resource_providers", "SCRIPT_NAME": "", "QUERY_STRING": "", "SERVER_NAME": HOST,
               "SERVER_PORT": "80", "SERVER_PROTOCOL": "HTTP/1.1", "wsgi.url_scheme": "http", "wsgi.input": io.BytesIO(data),
               "wsgi.errors": sys.stderr, "CONTENT_TYPE": "application/json", "CONTENT_LENGTH": str(len(data)),
               "HTTP_OPENSTACK_API_VERSION": "placement 1.20", "HTTP_ACCEPT": "application/json"}
    environ.update({"HTTP_X_AUTH_TOKEN": token} if token else {})
    statuses = []
    told = b"".join(app(environ, lambda status, _headers, _failure=None: statuses.append(int(status.split()[0]))))
    return statuses[0], told


def try_administrator(server, app):
    """An administrator makes a provider, which is listed."""
    token, _ = log_in(server, "admin", "secret", ADMIN)
    status, told = asked(app, "POST", token, {"name": "host1"})
    require(status == 200, f"a provider was not made: {status} {told}")
    status, told = asked(app, "GET", token)
    names = [provider["name"] for provider in json.loads(told)["resource_providers"]] if status == 200 else None
    require(names == ["host1"], f"the providers are {names}, with status {status}")


def try_member(server, app):
    """A member of a project may neither make one nor see them."""
    token, _ = log_in(server, "demo", "demo", DEMO)
    for method, body in (("GET", None), ("POST", {"name": "host2"})):
        status, _ = asked(app, method, token, body)
        require(status == 403, f"{method} of a member was answered {status}")


def try_revoked(server, app):
    """Without a token nobody is let in, nor with one that was revoked."""
    require(asked(app, "GET", None)[0] == 401, "a caller without a token was let in")
    token, _ = log_in(server, "admin", "secret", ADMIN)
    require(asked(app, "GET", token)[0] == 200, "a token was refused before it was revoked")
    status, _, _ = call(server, "DELETE", {"X-Auth-Token": token, "X-Subject-Token": token})
    require(status == 204 and asked(app, "GET", token)[0] == 401, "a revoked token was let in")


if __name__ == "__main__":
    with tempfile.TemporaryDirectory() as folder:
        tries = (try_administrator, try_member, try_revoked)
        try_application("placement", "OpenStack's Placement", lambda url: placement(url, folder), tries)
