"""A server that `ks serve` runs, and connections to it, for the scripts that try it and measure it."""

import atexit
import contextlib
import json
import os
import random
import re
import shutil
import socket
import subprocess
import sys
import tempfile
import threading
import time

TOP = os.path.dirname(os.path.dirname(os.path.abspath(__file__)))

HOST = "127.0.0.1"

# How many seconds a server has to open or to end, and how many a response has to come.
PATIENCE = 60


class Failure(Exception):
    """Something is otherwise than it has to be."""


def require(holds, what):
    """Fails with what is wrong."""
    if not holds:
        raise Failure(what)


def program_of(words):
    """The program: the first of these words, the environment's KS, or bin/ks."""
    return words[0] if words else os.environ.get("KS") or os.path.join(TOP, "bin", "ks")


def free_port():
    """A port at which nobody listens now, below those that the system gives to connections, which could take it meanwhile."""
    for port in random.sample(range(10_000, 32_000), 100):
        with socket.socket() as found, contextlib.suppress(OSError):
            found.bind((HOST, port))
            return port
    raise Failure("no port is free")


def fresh(file):
    """A copy of an opening file, beside which nothing is kept yet. It goes when the script ends."""
    place = tempfile.mkdtemp()
    atexit.register(shutil.rmtree, place, ignore_errors=True)
    return shutil.copy(file, place)


def without_modes(lines):
    """The lines but for those that say what others may do with a file: those of a checkout they may read."""
    return [line for line in lines if not re.fullmatch(r"ks: .*: may be .* by others \(mode [0-7]{4}\)", line)]


def run(program, *words):
    """Runs a command to its end: its status, what it wrote, and the lines that it said on the standard error."""
    ended = subprocess.run([program, *words], stdin=subprocess.DEVNULL, stdout=subprocess.PIPE, stderr=subprocess.PIPE,
                           timeout=PATIENCE, check=False)
    return ended.returncode, ended.stdout.decode(), without_modes(ended.stderr.decode().splitlines())


class Server:
    """A server over an opening file and a folder of keys, which words before it may start, with further options. It is ended where
    a `with` ends."""

    def __init__(self, program, file, folder, workers, connections=0, before=(), port=None, options=()):
        self.port, self.lines = port or free_port(), []
        self.listening = f"ks: listening on {HOST}:{self.port} with {workers} worker{'' if workers == 1 else 's'}"
        words = [*before, program, "serve", file, folder, f"{HOST}:{self.port}", "--workers", str(workers)]
        words += ["--connections", str(connections)] if connections else []
        words += options
        self.process = subprocess.Popen(words, stdin=subprocess.DEVNULL, stdout=subprocess.DEVNULL, stderr=subprocess.PIPE)
        self.reader = threading.Thread(target=self.keep_lines, daemon=True)
        self.reader.start()

    def __enter__(self):
        try:
            self.wait_until_open()
        except BaseException:
            self.end()
            raise
        return self

    def __exit__(self, *_):
        self.end()

    def keep_lines(self):
        """Keeps what is said on the standard error."""
        for line in self.process.stderr:
            self.lines += without_modes([line.decode().rstrip("\n")])

    def wait_until_open(self):
        """Waits for the line that says that connections are taken."""
        until = time.monotonic() + PATIENCE
        while self.listening not in self.lines:
            if self.process.poll() is not None:
                self.reader.join()
                if self.listening in self.lines:
                    return
                raise Failure(f"the server ended with status {self.process.returncode} and said {self.lines}")
            require(time.monotonic() < until, f"the server did not say {self.listening!r}, but {self.lines}")
            time.sleep(0.01)

    def status(self):
        """The status with which the server ends by itself."""
        try:
            status = self.process.wait(PATIENCE)
        except subprocess.TimeoutExpired:
            raise Failure("the server does not end by itself") from None
        self.reader.join()
        return status

    def end(self):
        """Ends the server, where it has not ended."""
        if self.process.poll() is None:
            self.process.kill()
            self.process.wait()
        self.reader.join()
        self.process.stderr.close()

    def seconds(self):
        """The processor time that it has taken, in seconds."""
        with open(f"/proc/{self.process.pid}/stat", encoding="ascii") as file:
            fields = file.read().rpartition(")")[2].split()
        return sum(map(int, fields[11:13])) / os.sysconf("SC_CLK_TCK")

    def memory(self):
        """How many KiB of it are resident."""
        with open(f"/proc/{self.process.pid}/status", encoding="ascii") as file:
            return next(int(line.split()[1]) for line in file if line.startswith("VmRSS:"))


class Response:
    """A response: its status, its fields under their names, and its body."""

    def __init__(self, status, fields, body):
        self.status, self.fields, self.body = status, fields, body

    def told(self):
        """What the body says, or None where there is none."""
        return json.loads(self.body) if self.body else None


def request(method, path, body=None, auth=None, subject=None):
    """The bytes of a request."""
    data = json.dumps(body).encode() if body is not None else b""
    head = [f"{method} {path} HTTP/1.1", f"Host: {HOST}"]
    head += [f"Content-Length: {len(data)}"] if body is not None else []
    head += [f"X-Auth-Token: {auth}"] if auth is not None else []
    head += [f"X-Subject-Token: {subject}"] if subject is not None else []
    return "".join(line + "\r\n" for line in head + [""]).encode() + data


class Connection:
    """A connection to a server, on which requests are sent and responses read."""

    def __init__(self, port, patience=PATIENCE):
        self.socket = socket.create_connection((HOST, port), patience)
        self.socket.setsockopt(socket.IPPROTO_TCP, socket.TCP_NODELAY, 1)
        self.rest = b""

    def __enter__(self):
        return self

    def __exit__(self, *_):
        self.close()

    def close(self):
        """Closes this end."""
        self.socket.close()

    def send(self, data):
        """Sends some bytes."""
        self.socket.sendall(data)

    def more(self):
        """Reads the next piece."""
        piece = self.socket.recv(65536)
        require(piece, f"the connection was closed behind {self.rest[:80]!r}")
        self.rest += piece

    def response(self, method="GET"):
        """The next response, which answers this method."""
        while b"\r\n\r\n" not in self.rest:
            self.more()
        head, _, self.rest = self.rest.partition(b"\r\n\r\n")
        first, *lines = head.decode("latin-1").split("\r\n")
        fields = dict(line.split(": ", 1) for line in lines)
        length = int(fields.get("Content-Length", 0)) if method != "HEAD" else 0
        while len(self.rest) < length:
            self.more()
        body, self.rest = self.rest[:length], self.rest[length:]
        return Response(int(first.split()[1]), fields, body)

    def ask(self, method, path, body=None, auth=None, subject=None):
        """Sends a request, and reads its response."""
        self.send(request(method, path, body, auth, subject))
        return self.response(method)

    def seconds_until_closed(self):
        """How long it takes until the server closes the connection, on which nothing may come."""
        began = time.monotonic()
        try:
            piece = self.socket.recv(1)
        except ConnectionResetError:
            piece = b""
        except socket.timeout:
            raise Failure(f"the connection is not closed after {time.monotonic() - began:.0f} seconds") from None
        require(not piece and not self.rest, "bytes came where none were asked for")
        return time.monotonic() - began


def login(name, password, scope=None):
    """The body of a login by a password, at home in the default domain."""
    user = {"name": name, "domain": {"id": "default"}, "password": password}
    body = {"auth": {"identity": {"methods": ["password"], "password": {"user": user}}}}
    if scope is not None:
        body["auth"]["scope"] = scope
    return body


def exchange(token, scope):
    """The body of a login by a token."""
    return {"auth": {"identity": {"methods": ["token"], "token": {"id": token}}, "scope": scope}}


def project_scope(name):
    """A scope on a project of the default domain."""
    return {"project": {"name": name, "domain": {"id": "default"}}}


def measure_in_folder(name, measure):
    """Runs a measurement in a folder of its own: one line on the standard error and status 1 where something fails."""
    work = tempfile.mkdtemp()
    try:
        measure(work)
    except (Failure, OSError, subprocess.SubprocessError) as why:
        print(f"{name}: {why}", file=sys.stderr)
        return 1
    finally:
        shutil.rmtree(work, ignore_errors=True)
    return 0


def main_of(name, body):
    """Runs a script: one line on the standard error and status 1 where something is otherwise."""
    try:
        print(f"{name}: {body()}")
    except (Failure, OSError, subprocess.SubprocessError) as why:
        print(f"{name}: {why}", file=sys.stderr)
        return 1
    return 0
