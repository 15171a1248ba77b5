#!/usr/bin/env python3
"""Runs commands of the stock client `openstack` against a server over examples/cloud.json, and compares what they print.

    tests/client.py [PROGRAM]

tests/client_commands.txt has the commands, with what each prints or how it is refused. Each is run by the client's own `main`, in
a process of its own that is forked from one which has loaded the client. The program is bin/ks of this repository; a word or the
environment's KS names another. The exit status is 1 where a command prints otherwise.
"""

import json
import math
import os
import shlex
import sys
import tempfile
import time

sys.dont_write_bytecode = True
from cloud import cloud, require_module
from second_reading.codes import base32_bytes, codes_at
from served import TOP, Failure, program_of
from tables import expanded, rows

require_module("openstackclient", "python3-openstackclient")
from openstackclient import shell

TABLE = os.path.join(TOP, "tests", "client_commands.txt")

# The secret of the codes of `demo`, in base32.
SECRET = "GEZDGNBVGY3TQOJQGEZDGNBVGY3TQOJQ"

# What the words for callers stand for: the environment of the client beside the address. <cred> is what the table has under this name,
# and <code> the code of the moment.
DEFAULT = {"OS_USER_DOMAIN_ID": "default", "OS_PROJECT_DOMAIN_ID": "default", "OS_IDENTITY_API_VERSION": "3"}
CALLERS = {
    "admin": {**DEFAULT, "OS_USERNAME": "admin", "OS_PASSWORD": "secret", "OS_PROJECT_NAME": "admin"},
    "system": {**DEFAULT, "OS_USERNAME": "admin", "OS_PASSWORD": "secret", "OS_SYSTEM_SCOPE": "all"},
    "unscoped": {**DEFAULT, "OS_USERNAME": "admin", "OS_PASSWORD": "secret"},
    "wrong": {**DEFAULT, "OS_USERNAME": "admin", "OS_PASSWORD": "wrong", "OS_PROJECT_NAME": "admin"},
    # Whose address has no version, so that the client asks at `/` which there are.
    "root": {**DEFAULT, "OS_AUTH_URL": "<address>", "OS_USERNAME": "admin", "OS_PASSWORD": "secret", "OS_PROJECT_NAME": "admin"},
    "slash": {**DEFAULT, "OS_AUTH_URL": "<address>/", "OS_USERNAME": "demo", "OS_PASSWORD": "demo", "OS_PROJECT_NAME": "demo"},
    "demo": {**DEFAULT, "OS_USERNAME": "demo", "OS_PASSWORD": "demo", "OS_PROJECT_NAME": "demo"},
    "nova": {**DEFAULT, "OS_USERNAME": "nova", "OS_PASSWORD": "nova", "OS_PROJECT_NAME": "service"},
    "eve": {"OS_USERNAME": "eve", "OS_PASSWORD": "e2", "OS_USER_DOMAIN_NAME": "apart", "OS_DOMAIN_NAME": "apart",
            "OS_IDENTITY_API_VERSION": "3"},
    "deploys": {"OS_AUTH_TYPE": "v3applicationcredential", "OS_APPLICATION_CREDENTIAL_ID": "<cred>",
                "OS_APPLICATION_CREDENTIAL_SECRET": "s3cret", "OS_IDENTITY_API_VERSION": "3"},
    "named": {"OS_AUTH_TYPE": "v3applicationcredential", "OS_APPLICATION_CREDENTIAL_NAME": "deploys", "OS_USERNAME": "demo",
              "OS_USER_DOMAIN_NAME": "Default", "OS_APPLICATION_CREDENTIAL_SECRET": "s3cret", "OS_IDENTITY_API_VERSION": "3"},
    "coded": {**DEFAULT, "OS_AUTH_TYPE": "v3totp", "OS_USERNAME": "demo", "OS_PASSCODE": "<code>", "OS_PROJECT_NAME": "demo"},
    # The client reads a list of methods from a file alone.
    "both": {"OS_CLOUD": "both", "OS_CLIENT_CONFIG_FILE": "<clouds>"},
}


def become_client(words, environment, out, err):
    """The child's part: runs the client, and ends with its status."""
    status = 70
    try:
        os.dup2(out.fileno(), 1)
        os.dup2(err.fileno(), 2)
        os.environ.update(environment)
        status = shell.main(words)
    except SystemExit as end:
        status = end.code
    finally:
        sys.stdout.flush()
        sys.stderr.flush()
        os._exit(status if isinstance(status, int) else 1)


def client(words, environment):
    """The status of a command, what it prints and what it says on the standard error."""
    with tempfile.TemporaryFile() as out, tempfile.TemporaryFile() as err:
        child = os.fork()
        if child == 0:
            become_client(words, environment, out, err)
        _, status = os.waitpid(child, 0)
        out.seek(0)
        err.seek(0)
        printed = "\n".join(line.rstrip() for line in out.read().decode().splitlines()).rstrip("\n")
        return os.waitstatus_to_exitcode(status), printed, err.read().decode()


def code_now():
    """The code of the moment, or of the 30 seconds before, which is taken as well."""
    return f"{codes_at(base32_bytes(SECRET), int(time.time()))[0]:06}"


def clouds(folder, url):
    """A file that tells the client of `both`, who shows a password and a code."""
    shown = {"auth_url": url, "auth_methods": ["v3password", "v3totp"], "username": "demo", "password": "demo",
             "passcode": code_now(), "user_domain_id": "default", "project_name": "demo", "project_domain_id": "default"}
    with open(os.path.join(folder, "clouds.yaml"), "w", encoding="utf-8") as file:
        json.dump({"clouds": {"both": {"auth_type": "v3multifactor", "auth": shown, "identity_api_version": "3"}}}, file)
    return file.name


def environment_of(caller, names, url):
    """The environment of the client for a caller."""
    told = {name: expanded(value.encode(), names).decode() for name, value in CALLERS[caller].items()}
    return told if "OS_CLOUD" in told else {"OS_AUTH_URL": url, **told}


def wait_for_next_second():
    """A token ends by a revocation of the very second of its issue."""
    time.sleep(math.floor(time.time()) + 1.01 - time.time())


def wrong_of(case, names, url):
    """What is otherwise with a command, or None; what it prints is kept under its name."""
    name, caller, command, status, wanted = (part.decode() for part in case)
    words = shlex.split(expanded(command.encode(), names).decode())
    ended, printed, said = client(words, environment_of(caller, names, url))
    if name:
        names[name] = printed.encode()
    told = expanded(wanted.encode(), names).decode()
    if str(ended) == status and (name or (printed == told if status == "0" else told in said)):
        return None
    ends = f"status {ended} for {status}, printed {printed!r} for {told!r}, said {said!r}"
    return f"{caller}: openstack {' '.join(words)}\n    {ends}"


def main():
    for name in [name for name in os.environ if name.startswith("OS_")]:
        del os.environ[name]
    cases, wrong, names, commands = rows(TABLE), [], {}, set()
    with cloud(program_of(sys.argv[1:])) as server, tempfile.TemporaryDirectory() as folder:
        names["address"] = server.url.removesuffix("/v3").encode()
        for case in cases:
            if not case[2]:
                wait_for_next_second()
                continue
            names.update(code=code_now().encode(), clouds=clouds(folder, server.url).encode())
            commands.add((case[1], case[2]))
            found = wrong_of(case, names, server.url)
            if found is not None:
                wrong.append(found)
                print(f"client: {found}", file=sys.stderr)
    print(f"client: {len(commands)} different commands of the stock client, {len(wrong)} otherwise")
    return 1 if wrong else 0


if __name__ == "__main__":
    try:
        sys.exit(main())
    except Failure as failure:
        sys.exit(f"client: {failure}")
