#!/usr/bin/env python3
"""The log of requests: a line for each, of fields that stay fields, without secrets, and for which no request waits.

    tests/log.py [PROGRAM]

PROGRAM is the built program; where it is left out, the environment's KS, or bin/ks. The exit status is 1 where a line is otherwise.
"""

import os
import re
import socket
import stat
import sys
import tempfile
import time

from served import HOST, TOP, Connection, Server, free_port, fresh, login, main_of, program_of, project_scope, request, require, run

O1 = os.path.join(TOP, "examples", "o1.json")

OPERATING = os.path.join(TOP, "docs", "OPERATING.md")

TOKENS = "/v3/auth/tokens"

ANN = "00112233445566778899aabbccddeeff"

DEMO = "a0000000000000000000000000000001"

LINE = re.compile(r"(?P<moment>\d+) (?P<client>\S+) (?P<connection>\d+\.\d+) (?P<request>\d+) "
                  r"(?P<method>GET|HEAD|POST|PATCH|PUT|DELETE|OTHER) (?P<path>\S+) (?P<status>\d{3}|-) (?P<user>\S+) (?P<scope>\S+) "
                  r"(?P<micros>\d+) (?P<cause>\S+)")

LOST = re.compile(r"\d+ lost (\d+)")

# Names that are no fields as they are, and how the log has them.
ODD = "an n\n\t@%\u00e9\u0007"

ODD_FIELD = "an%20n%0A%09%40%25%C3%A9%07@default"

# How many seconds a line has to come, and how many a request may take where the log is stalled.
PATIENCE, AT_ONCE = 10, 2

# How many requests are sent to a log that nobody reads, whose lines are more than a pipe holds.
STALLED = 1600


def shown(method, part):
    """The body of a login that shows this by a method."""
    return {"auth": {"identity": {"methods": [method], method: part}}}


def by_id(user, password):
    """The body of a login by the user's id."""
    return shown("password", {"user": {"id": user, "password": password}})


def lines_of(path, count):
    """The first lines of the log, once there are so many."""
    until = time.monotonic() + PATIENCE
    while True:
        with open(path, "rb") as file:
            lines = file.read().decode("ascii").splitlines()
        if len(lines) >= count:
            return lines
        require(time.monotonic() < until, f"the log has {len(lines)} lines, and not {count}")
        time.sleep(0.01)


def fields_of(line):
    """The fields of a line."""
    found = LINE.fullmatch(line)
    require(found, f"no line of the log: {line!r}")
    return found


def field_of(path):
    """A path as the log has it."""
    return "".join(chr(byte) if 0x21 <= byte <= 0x7E else f"%{byte:02X}" for byte in path.encode())


def require_line(line, *wanted):
    """Requires the method, the path, the status, the user, the scope and the cause of a line."""
    found = fields_of(line).group("method", "path", "status", "user", "scope", "cause")
    require(found == wanted, f"the log has {found}, and not {wanted}")


def require_time(line, before):
    """Requires that a line is of now, of this client, and tells how long the request took."""
    found = fields_of(line)
    now = time.time()
    require(int(before) <= int(found["moment"]) <= now, f"the moment {found['moment']} is not now")
    require(found["client"] == HOST, f"the client is {found['client']}")
    require(0 < int(found["micros"]) <= (now - before) * 1e6, f"a request took {found['micros']} microseconds")


def speak(connection):
    """Sends one request of each kind, and gives the tokens that came, with the lines that are due."""
    token = connection.ask("POST", TOKENS, login("ann", "secret", project_scope("demo"))).fields["X-Subject-Token"]
    bare = connection.ask("POST", TOKENS, by_id("bob", "hunter2")).fields["X-Subject-Token"]
    due = [("POST", TOKENS, "201", "ann@default", "-", "-"), ("POST", TOKENS, "201", "bob", "-", "-")]
    for method, path, body, auth, subject, line in [
            ("POST", TOKENS, login("ann", "wrong-word"), None, None, ("401", "ann@default", "-", "Credentials")),
            ("POST", TOKENS, login(ODD, "wrong-word"), None, None, ("401", ODD_FIELD, "-", "Credentials")),
            ("POST", TOKENS, by_id("nobody", "wrong-word"), None, None, ("401", "nobody", "-", "Credentials")),
            ("POST", TOKENS, shown("totp", {"user": {"id": "bob", "passcode": "000000"}}), None, None,
             ("401", "bob", "-", "Credentials")),
            ("POST", TOKENS, shown("application_credential", {"name": "none", "user": {"id": "bob"}, "secret": "wrong-word"}), None, None,
             ("401", "bob", "-", "Credentials")),
            ("POST", TOKENS, shown("application_credential", {"id": "none", "secret": "wrong-word"}), None, None,
             ("401", "-", "-", "Credentials")),
            ("POST", TOKENS, {"auth": 1}, None, None, ("400", "-", "-", "Shape(Kind)")),
            ("GET", TOKENS, None, token, token, ("200", ANN, f"project:{DEMO}", "-")),
            ("HEAD", TOKENS, None, token, bare, ("200", ANN, f"project:{DEMO}", "-")),
            ("GET", TOKENS, None, token, "no-token", ("404", ANN, f"project:{DEMO}", "SubjectToken(Text)")),
            ("GET", "/v3/users?name=bob", None, token, None, ("200", ANN, f"project:{DEMO}", "-")),
            ("GET", "/v3/users", None, bare, None, ("403", "bob", "-", "Rule(identity:list_users)")),
            ("GET", "/v3/users", None, None, None, ("401", "-", "-", "NoToken")),
            ("GET", "/v3/users", None, token[:-8] + "AAAAAAAA", None, ("401", "-", "-", "CallerToken(Key)")),
            ("GET", "/v3/users/absent", None, token, None, ("404", ANN, f"project:{DEMO}", "Absent(user)")),
            ("GET", "/v3/nowhere?token=hidden-word", None, token, None, ("404", "-", "-", "NoRoute")),
            ("PUT", "/v3/users", None, token, None, ("405", "-", "-", "NoMethod")),
            ("BREW", "/v3", None, None, None, ("405", "-", "-", "NoMethod")),
            ("GET", "/v3/a%20b%0a\"<'|\\x", None, None, None, ("404", "-", "-", "NoRoute")),
            ("GET", "/v3/caf\u00e9\u0085", None, None, None, ("404", "-", "-", "NoRoute")),
    ]:
        status = connection.ask(method, path, body, auth, subject).status
        require(str(status) == line[0], f"{method} {path} was answered {status}")
        due.append(("OTHER" if method == "BREW" else method, field_of(path.partition("?")[0]), *line))
    return [token, bare], due


def long_path(connection):
    """Asks for a path that is longer than a field, and gives its line."""
    path = "/" + "x" * 3000
    require(connection.ask("GET", path).status == 404, "a long path is somewhere")
    return ("GET", path[:998], "404", "-", "-", "NoRoute")


def require_failures(lines):
    """The filter of docs/OPERATING.md finds the failed logins, and nothing else."""
    with open(OPERATING, encoding="utf-8") as file:
        found = re.search(r"^failregex = (.*)$", file.read(), re.MULTILINE)
    require(found, "docs/OPERATING.md has no filter")
    failed = re.compile(found[1].replace("<ADDR>", r"(?P<client>[0-9A-Fa-f:.]+)"))
    for line in lines:
        is_failure = fields_of(line).group("method", "path", "status", "cause") == ("POST", TOKENS, "401", "Credentials")
        match = failed.search(re.sub(r"^\d+", "", line))
        require(bool(match) == is_failure, f"the filter is wrong of {line!r}")
        require(not match or match["client"] == HOST, f"the filter finds another client in {line!r}")


def try_file(program, folder):
    """A log in a file."""
    path, before = os.path.join(folder, "ks.log"), time.time()
    with Server(program, fresh(O1), folder, 2, options=["--log", path]) as server:
        with Connection(server.port) as connection:
            secrets, due = speak(connection)
            due.append(long_path(connection))
        lines = lines_of(path, len(due))
        require(len(lines) == len(due), f"the log has {len(lines)} lines, and not {len(due)}")
        for line, wanted in zip(lines, due):
            require_line(line, *wanted)
            require_time(line, before)
        require_failures(lines)
        text = "\n".join(lines)
        for secret in [*secrets, "secret", "hunter2", "wrong-word", "hidden-word"]:
            require(secret not in text, f"the log has {secret[:12]!r}")
        # A log that is copied and cut goes on at its front.
        os.truncate(path, 0)
        with Connection(server.port) as connection:
            connection.ask("GET", "/v3")
        require_line(lines_of(path, 1)[0], "GET", "/v3", "200", "-", "-", "-")
    mode = stat.S_IMODE(os.stat(path).st_mode)
    require(mode & ~0o640 == 0, f"the log has the mode {mode:o}")
    with Server(program, fresh(O1), folder, 1, options=[f"--log={path}"]) as server:
        with Connection(server.port) as connection:
            connection.ask("GET", "/v3")
        require(len(lines_of(path, 2)) == 2, "the log did not go on")
    return len(due)


def ask_often(port, count):
    """Sends so many requests one behind the other, none of which may wait."""
    with Connection(port) as connection:
        for _ in range(count):
            began = time.monotonic()
            connection.ask("GET", "/v3")
            require(time.monotonic() - began < AT_ONCE, "a request waited for the log")


def read_lines(pipe, count):
    """The lines that come from a pipe, until so many requests are told or lost."""
    text, until = b"", time.monotonic() + PATIENCE
    while True:
        try:
            text += os.read(pipe, 1 << 20)
        except BlockingIOError:
            time.sleep(0.01)
        lines = text.decode("ascii").splitlines() if text.endswith(b"\n") else []
        lost = sum(int(found[1]) for found in map(LOST.fullmatch, lines) if found)
        told = [line for line in lines if not LOST.fullmatch(line)]
        if len(told) + lost >= count:
            return told, lost
        require(time.monotonic() < until, f"{len(told)} requests were told and {lost} lost, of {count}")


def try_stalled(program, folder):
    """A log in a pipe whose reader stops."""
    path = os.path.join(folder, "pipe")
    os.mkfifo(path)
    with Server(program, fresh(O1), folder, 2, options=["--log", path]) as server:
        ask_often(server.port, STALLED)
        pipe = os.open(path, os.O_RDONLY | os.O_NONBLOCK)
        told, lost = read_lines(pipe, 1)
        require(lost == 0, "lines were lost before the pipe was full")
        ask_often(server.port, 1)
        later, lost = read_lines(pipe, STALLED + 1 - len(told))
        require(lost > 0, "no line was lost")
        for line in told + later:
            require_line(line, "GET", "/v3", "200", "-", "-", "-")
        os.close(pipe)
        ask_often(server.port, 1)
    return lost


def try_full(program, folder):
    """A log on a device that has no room."""
    with Server(program, fresh(O1), folder, 1, options=["--log", "/dev/full"]) as server:
        ask_often(server.port, 3)


def try_standard_error(program, folder):
    """A log on the standard error, beside what the server says there."""
    with Server(program, fresh(O1), folder, 1, options=["--log=-"]) as server:
        ask_often(server.port, 1)
        until = time.monotonic() + PATIENCE
        while len(server.lines) < 2:
            require(time.monotonic() < until, f"the standard error has {server.lines}")
            time.sleep(0.01)
        require_line(server.lines[1], "GET", "/v3", "200", "-", "-", "-")


def try_unusable(program, folder):
    """Logs that can't be opened."""
    place = f"{HOST}:{free_port()}"
    for path in [os.path.join(folder, "no", "such"), folder]:
        status, _, said = run(program, "serve", fresh(O1), folder, place, "--log", path)
        require(status == 4 and len(said) == 1 and said[0].startswith(f"ks: {path}: "), f"the log {path} gives {status} and {said}")
    for words in [["--log"], ["--log", "a", "--log", "b"], ["--log", "--workers"]]:
        status, _, _ = run(program, "serve", fresh(O1), folder, place, *words)
        require(status == 2, f"{words} give {status}")


def try_cut_request(program, folder):
    """Bytes that are no request have no line, and a client that is gone has one."""
    path = os.path.join(folder, "cut.log")
    with Server(program, fresh(O1), folder, 1, options=["--log", path]) as server:
        with Connection(server.port) as connection:
            connection.send(b"GET /v3\r\n\r\n")
            require(connection.response().status == 400, "no request was answered")
        gone = socket.create_connection((HOST, server.port))
        gone.sendall(request("GET", "/v3"))
        gone.close()
        require_line(lines_of(path, 1)[0], "GET", "/v3", "200", "-", "-", "-")


def body():
    """Tries all."""
    program = program_of(sys.argv[1:])
    with tempfile.TemporaryDirectory() as folder:
        count = try_file(program, folder)
        try_cut_request(program, folder)
        lost = try_stalled(program, folder)
        try_full(program, folder)
        try_standard_error(program, folder)
        try_unusable(program, folder)
    return f"{count} requests were told field by field, and {lost} of {STALLED} counted that a stalled reader lost"


if __name__ == "__main__":
    sys.exit(main_of("log", body))
