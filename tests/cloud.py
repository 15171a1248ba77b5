"""A server over examples/cloud.json, for the scripts that try it with OpenStack's own programs, where Debian's are installed."""

import contextlib
import http.client
import importlib.util
import json
import logging
import os
import sys
import tempfile

from served import HOST, TOP, Failure, Server, free_port, program_of, require, run

CLOUD = os.path.join(TOP, "examples", "cloud.json")
ADDRESS = "127.0.0.1:5000"

# The ids of its projects.
ADMIN, SERVICE, DEMO = (f"a{number:031}" for number in (1, 2, 3))

# Debian's Python, which finds Debian's modules; another one may stand before it on the PATH.
DEBIAN = "/usr/bin/python3"


def require_module(module, package):
    """Goes on where the module is found, if need be by Debian's Python; else says what is missing, and ends with status 0."""
    if importlib.util.find_spec(module) is not None:
        return
    if os.path.realpath(sys.executable) != os.path.realpath(DEBIAN) and os.access(DEBIAN, os.X_OK):
        os.execv(DEBIAN, [DEBIAN, *sys.argv])
    print(f"{os.path.basename(sys.argv[0])}: skipped, for want of {package} (apt-get install {package})")
    sys.exit(0)


@contextlib.contextmanager
def cloud(program):
    """The server, over new keys in its folder `keys` and a copy of the example in which its own port stands."""
    # What asks it goes to it, and to no proxy.
    os.environ["no_proxy"] = HOST
    with tempfile.TemporaryDirectory() as folder:
        keys, file, port = os.path.join(folder, "keys"), os.path.join(folder, "cloud.json"), free_port()
        os.mkdir(keys, 0o700)
        status, _, said = run(program, "setup", keys)
        require(status == 0, f"setup ended with status {status} and said {said}")
        with open(CLOUD, encoding="utf-8") as example, open(file, "w", encoding="utf-8") as out:
            out.write(example.read().replace(ADDRESS, f"{HOST}:{port}"))
        with Server(program, file, keys, 4, port=port) as server:
            server.url, server.keys = f"http://{HOST}:{port}/v3", keys
            yield server


def call(server, method, headers, body=None):
    """A call of `/v3/auth/tokens`: its status, its fields and its body."""
    connection = http.client.HTTPConnection(HOST, server.port)
    connection.request(method, "/v3/auth/tokens", json.dumps(body) if body else None, headers)
    response = connection.getresponse()
    data = response.read()
    connection.close()
    return response.status, response.headers, json.loads(data) if data else None


def log_in(server, name, password, project):
    """The token of a user on a project, and the user's id."""
    user = {"name": name, "domain": {"id": "default"}, "password": password}
    body = {"auth": {"identity": {"methods": ["password"], "password": {"user": user}}, "scope": {"project": {"id": project}}}}
    status, headers, told = call(server, "POST", {}, body)
    require(status == 201, f"the login of {name} was answered {status}")
    return headers["X-Subject-Token"], told["token"]["user"]["id"]


def try_application(name, what, application, tries):
    """Gives each try the server and the application that asks it, and says how many there were. The first failure ends the script."""
    logging.disable(logging.CRITICAL)
    try:
        with cloud(program_of(sys.argv[1:])) as server:
            app = application(server.url)
            for each in tries:
                each(server, app)
    except Failure as failure:
        sys.exit(f"{name}: {failure}")
    print(f"{name}: {len(tries)} tries of {what}")
