#!/usr/bin/env python3
"""Keeps hundreds of connections at `ks serve` over four workers, beside clients that mean it harm, and sees that all are answered.

    tests/crowd.py [KS]

Each kept client validates its token once a second, or asks for the version, over one connection. Beside them are clients that send a
head or a body byte by byte, and clients that ask on and on and never read. Then more clients come than the process may have
descriptors; accepts fail for a while; and threads can't be had. It listens on free ports of 127.0.0.1, and takes about 20 seconds.
The program is bin/ks of this repository, the environment's KS, or the word. The exit status is 1 where it does otherwise.
"""

import collections
import json
import os
import resource
import select
import selectors
import shutil
import socket
import subprocess
import sys
import tempfile
import threading
import time

sys.dont_write_bytecode = True
from served import HOST, TOP, Connection, Failure, Server, fresh, login, main_of, program_of, project_scope, request, require, run

O1 = os.path.join(TOP, "examples", "o1.json")

WORKERS = 4
KEPT, SECONDS = 300, 6
SLOW_HEADS, SLOW_BODIES, NEVER_READ = 60, 60, 10

# How many seconds 99 of 100 responses may take at most. A machine that does other work beside is slow; a worker that is held is
# slower still: by 10 seconds at least.
P99 = 3

# How many descriptors the server may have where it may have few.
DESCRIPTORS = 128

# How many rounds of derivation a login takes at most: some 60 milliseconds of work.
MOST_ROUNDS = 100_000

# The user that owns nothing.
NOBODY = 65534


class Clients:
    """Kept connections, each of which asks once a second, and how long each response took."""

    def __init__(self, port, requests, count):
        self.waiting, self.times, self.closed = selectors.DefaultSelector(), [], 0
        self.due = collections.deque()
        began = time.monotonic()
        for number in range(count):
            one = socket.create_connection((HOST, port), 30)
            one.setsockopt(socket.IPPROTO_TCP, socket.TCP_NODELAY, 1)
            one.setblocking(False)
            self.waiting.register(one, selectors.EVENT_READ, number)
            self.due.append((began + number / count, one))
        self.requests, self.asked, self.heard = requests, {}, {}

    def ask(self, now):
        """Sends what is due."""
        while self.due and self.due[0][0] <= now:
            when, one = self.due.popleft()
            self.due.append((when + 1, one))
            # Who still waits asks a second later; how long it waits is in its time.
            if one not in self.asked:
                one.sendall(self.requests[one.fileno() % len(self.requests)][0])
                self.asked[one], self.heard[one] = now, b""

    def hear(self, now):
        """Reads what has come."""
        for key, _ in self.waiting.select(0.005):
            one = key.fileobj
            piece = one.recv(65536)
            require(piece, "a kept connection was closed between its requests")
            self.heard[one] += piece
            wanted = self.requests[one.fileno() % len(self.requests)][1]
            if len(self.heard[one]) < len(wanted):
                continue
            require(self.heard[one] == wanted, f"an answer is {self.heard[one][:200]!r} for {wanted[:200]!r}")
            self.times.append(time.monotonic() - self.asked.pop(one))

    def run(self, seconds):
        """Asks for so many seconds, and reads until all are answered."""
        until = time.monotonic() + seconds
        while (now := time.monotonic()) < until:
            self.ask(now)
            self.hear(now)
        until = now + 30
        while self.asked:
            require(time.monotonic() < until, f"{len(self.asked)} clients are not answered")
            self.hear(now)

    def close(self):
        """Closes all."""
        for key in list(self.waiting.get_map().values()):
            key.fileobj.close()
        self.waiting.close()


def answered(connection, data, method="GET"):
    """A request with the bytes of its whole response."""
    connection.send(data)
    before = b""
    while b"\r\n\r\n" not in before:
        before += connection.socket.recv(65536)
    head, _, body = before.partition(b"\r\n\r\n")
    length = next(int(line[16:]) for line in head.split(b"\r\n") if line.startswith(b"Content-Length: "))
    while len(body) < length:
        body += connection.socket.recv(65536)
    require(head.startswith(b"HTTP/1.1 200 "), f"an answer: {head[:100]!r}")
    return data, head + b"\r\n\r\n" + body


def token_of(connection):
    """A token of ann."""
    response = connection.ask("POST", "/v3/auth/tokens", login("ann", "secret", project_scope("demo")))
    require(response.status == 201, f"a login: {response.status}")
    return response.fields["X-Subject-Token"]


class Harm:
    """Clients that are slow or never read, in a thread of their own."""

    def __init__(self, port, token, heads, bodies, deaf):
        self.slow = [self.begun(port, b"GET /v3 HTTP/1.1\r\nX: ") for _ in range(heads)]
        self.slow += [self.begun(port, b"POST /v3/auth/tokens HTTP/1.1\r\nContent-Length: 1000\r\n\r\n") for _ in range(bodies)]
        self.deaf = [self.begun(port, b"", 4096) for _ in range(deaf)]
        question = request("GET", "/v3/auth/tokens", auth=token, subject=token)
        self.left = {one: question * 10_000 for one in self.deaf}
        self.is_over = False
        self.thread = threading.Thread(target=self.work, daemon=True)
        self.thread.start()

    @staticmethod
    def begun(port, data, room=None):
        """A connection on which this was sent."""
        one = socket.socket()
        if room:
            one.setsockopt(socket.SOL_SOCKET, socket.SO_RCVBUF, room)
        one.connect((HOST, port))
        one.sendall(data)
        one.setblocking(False)
        return one

    def work(self):
        """Sends a byte on each slow connection every half second, and requests on those that never read."""
        while not self.is_over:
            for one in self.slow:
                self.send(one, b"x")
            for one in self.deaf:
                self.left[one] = self.left[one][self.send(one, self.left[one][:65536]):]
            time.sleep(0.5)

    @staticmethod
    def send(one, data):
        """Sends what goes, and says how much that was."""
        try:
            return one.send(data)
        except OSError:
            return 0

    def end(self):
        """Ends them."""
        self.is_over = True
        self.thread.join()
        for one in self.slow + self.deaf:
            one.close()


def percentile(times, part):
    """How long so many of a hundred took at most."""
    return sorted(times)[len(times) * part // 100]


def questions(port):
    """A validation and the version, each with its answer, and the token."""
    with Connection(port) as first:
        token = token_of(first)
        return token, [answered(first, request("GET", "/v3/auth/tokens", auth=token, subject=token)), answered(first, request("GET", "/v3"))]


def a_crowd(server):
    """Hundreds of kept clients beside clients that mean harm."""
    token, asked = questions(server.port)
    clients = Clients(server.port, asked, KEPT)
    harm = Harm(server.port, token, SLOW_HEADS, SLOW_BODIES, NEVER_READ)
    try:
        clients.run(SECONDS)
    finally:
        harm.end()
        clients.close()
    p99 = percentile(clients.times, 99)
    require(len(clients.times) >= KEPT * SECONDS // 2, f"{len(clients.times)} answers came")
    require(p99 < P99, f"the slowest of 100 responses took {p99:.2f} seconds")
    return f"{len(clients.times)} answers, of which 99 of 100 took at most {p99 * 1000:.0f} ms"


def is_closed(connection):
    """Whether the server has closed a connection on which nothing is to come."""
    connection.socket.setblocking(False)
    try:
        return connection.socket.recv(1) == b""
    except BlockingIOError:
        return False
    except ConnectionResetError:
        return True


def a_head_has_ten_seconds(port):
    """A head that comes byte by byte is not waited for longer than 10 seconds."""
    with Connection(port) as slow:
        slow.send(b"GET /v3 HTTP/1.1\r\nX")
        began = time.monotonic()
        slow.socket.settimeout(0.4)
        while time.monotonic() - began < 20:
            try:
                slow.send(b"y")
                if slow.socket.recv(1) == b"":
                    break
            except socket.timeout:
                continue
            except OSError:
                break
        seconds = time.monotonic() - began
    require(9 <= seconds <= 14, f"a head is waited for {seconds:.1f} seconds")


def clients_that_do_not_close(port):
    """Clients whose connection is to be closed, and who send on, occupy no worker, and have 2 seconds."""
    slow = [Connection(port) for _ in range(2 * WORKERS)]
    for one in slow:
        one.send(f"GET /v3 HTTP/1.1\r\nHost: {HOST}\r\nConnection: close\r\n\r\n".encode())
        require(one.response().status == 200, "a last request")
    began, going = time.monotonic(), list(slow)
    with Connection(port) as other:
        while going and time.monotonic() - began < 10:
            asked = time.monotonic()
            require(other.ask("GET", "/v3").status == 200, "beside connections that are to be closed")
            require(time.monotonic() - asked < 1.5, "connections that are to be closed occupy workers")
            going = [one for one in going if takes(one)]
            time.sleep(0.2)
    seconds = time.monotonic() - began
    require(not going and 1.5 < seconds < 7, f"{len(going)} connections that are to be closed stand after {seconds:.1f} seconds")
    for one in slow:
        one.close()


def takes(connection):
    """Whether a connection still takes a byte."""
    try:
        connection.send(b"x")
        return True
    except OSError:
        return False


def heads_at_their_limits(port):
    """When a worker comes to a request is no matter of how it is cut, and what is no head is refused at once."""
    first, name = b"GET /v3 HTTP/1.1\r\n", b"X: "
    longest = first + name + b"y" * (16_384 - len(first) - len(name) - 4) + b"\r\n\r\n"
    longer = longest.replace(name, name + b"y")
    cases = [(longest, 200), (longer, 431), (first + b"X: y\r\n" * 64 + b"\r\n", 200), (first + b"X: y\r\n" * 65 + b"\r\n", 431),
             (b"\r\n\n" + first + b"\n", 200), (b"no request\n", 400), (b"GET /v3 HTTP/3.0\r\n", 505), (first + b"no field\r\n", 400)]
    for data, status in cases:
        with Connection(port, 8) as one:
            one.send(data)
            told = one.response().status
            require(told == status, f"{data[:40]!r} of {len(data)} bytes: {told}")
    with Connection(port, 8) as one:
        for byte in request("GET", "/v3") + request("GET", "/v3"):
            one.send(bytes([byte]))
        require([one.response().status for _ in range(2)] == [200, 200], "a request in single bytes")


def limited(program, folder, kind, most):
    """A server that may have so many of something."""
    before = resource.getrlimit(kind)
    resource.setrlimit(kind, (most, before[1]))
    try:
        return Server(program, fresh(O1), folder, WORKERS)
    finally:
        resource.setrlimit(kind, before)


def more_than_descriptors(program, folder):
    """More clients come than the server may have descriptors: each is answered, and those that have rested longest are closed."""
    with limited(program, folder, resource.RLIMIT_NOFILE, DESCRIPTORS) as server:
        kept = []
        for _ in range(3 * DESCRIPTORS):
            one = Connection(server.port, 10)
            require(one.ask("GET", "/v3").status == 200, "one client more than descriptors")
            kept.append(one)
        closed = [is_closed(one) for one in kept]
        require(closed == sorted(closed, reverse=True), "not those that have rested longest were closed")
        require(closed.count(False) == DESCRIPTORS - 64 - 3 * WORKERS, f"{closed.count(False)} connections are kept")
        require(server.lines == [server.listening], f"it said {server.lines}")
        for one in kept:
            one.close()


def no_descriptors_for_a_while(program, folder):
    """While the process has no descriptors no worker ends, and it says so once, and once that it is over."""
    with Server(program, fresh(O1), folder, WORKERS) as server:
        pid = server.process.pid
        with Connection(server.port) as kept:
            require(kept.ask("GET", "/v3").status == 200, "before descriptors are wanting")
            held = len(os.listdir(f"/proc/{pid}/fd"))
            hard = resource.prlimit(pid, resource.RLIMIT_NOFILE)[1]
            resource.prlimit(pid, resource.RLIMIT_NOFILE, (held - 1, hard))
            waiting = [Connection(server.port, 20) for _ in range(2 * WORKERS)]
            for one in waiting:
                one.send(request("GET", "/v3"))
            time.sleep(1.5)
            resource.prlimit(pid, resource.RLIMIT_NOFILE, (hard, hard))
            for one in waiting:
                require(one.response().status == 200, "a client that came while descriptors were wanting")
                one.close()
        with Connection(server.port) as later:
            require(later.ask("GET", "/v3").status == 200, "behind a want of descriptors")
        said = [line for line in server.lines if line != server.listening]
        until = time.monotonic() + 5
        while len(said) < 2 and time.monotonic() < until:
            time.sleep(0.1)
            said = [line for line in server.lines if line != server.listening]
        require(len(said) == 2 and said[0].startswith("ks: no connection can be accepted for now: "), f"it said {said}")
        require(said[1] == "ks: connections are accepted again", f"it said {said}")


def a_busy_worker(program, work, folder):
    """While a login keeps one of two workers busy the other answers the connections of both."""
    path = os.path.join(work, "slow.json")
    with open(O1, encoding="utf-8") as file:
        told = json.load(file)
    told["settings"]["rounds"] = MOST_ROUNDS
    with open(path, "w", encoding="utf-8") as file:
        json.dump(told, file)
    with Server(program, path, folder, 2) as server, Connection(server.port) as slow:
        others = [Connection(server.port) for _ in range(8)]
        for _ in range(5):
            slow.send(request("POST", "/v3/auth/tokens", login("ann", "secret", project_scope("demo"))))
            time.sleep(0.003)
            for one in others:
                one.send(request("GET", "/v3"))
            for one in others:
                require(one.response().status == 200, "beside a busy worker")
            early = select.select([slow.socket], [], [], 0)[0]
            require(not early, "connections of a busy worker waited for it")
            require(slow.response().status == 201, "a slow login")
        for one in others:
            one.close()


PRELOAD = r"""
#define _GNU_SOURCE
#include <dlfcn.h>
#include <errno.h>
#include <stdatomic.h>
#include <stdlib.h>
#include <sys/socket.h>
static atomic_int calls;
int accept4(int fd, struct sockaddr *address, socklen_t *length, int flags) {
    int (*real)(int, struct sockaddr *, socklen_t *, int) = dlsym(RTLD_NEXT, "accept4");
    if (atomic_fetch_add(&calls, 1) % 3 == 1) {
        errno = atoi(getenv("ACCEPT_FAILS"));
        return -1;
    }
    return real(fd, address, length, flags);
}
"""

# EMFILE, ENFILE, ENOBUFS, ENOMEM, EAGAIN and EIO.
PASSING = (24, 23, 105, 12, 11, 5)

# EBADF, EINVAL, ENOTSOCK and EOPNOTSUPP.
LASTING = (9, 22, 88, 95)


def accepts_that_fail(program, work, folder):
    """Each error of an accept that can pass ends no worker; each that can't ends the server with its status."""
    compiler, library = shutil.which("gcc") or shutil.which("cc"), os.path.join(work, "accepts.so")
    if not compiler:
        return "skipped failing accepts, for want of a C compiler"
    subprocess.run([compiler, "-shared", "-fPIC", "-o", library, "-x", "c", "-", "-ldl"], input=PRELOAD.encode(), check=True)
    servers, outcome = [], []
    os.environ["LD_PRELOAD"] = library
    try:
        for code in PASSING + LASTING:
            os.environ["ACCEPT_FAILS"] = str(code)
            servers.append((Server(program, fresh(O1), folder, WORKERS), code))
    finally:
        del os.environ["LD_PRELOAD"], os.environ["ACCEPT_FAILS"]
    tries = [threading.Thread(target=tell, args=(outcome, an_accept_that_fails, *each)) for each in servers]
    for each in tries:
        each.start()
    for each in tries:
        each.join()
    require(not outcome, "; ".join(outcome))
    return f"accepts failed by {len(servers)} errors"


def try_to_connect(port):
    """Connects, if somebody listens, and closes the connection a moment later."""
    try:
        with Connection(port, 5):
            time.sleep(0.05)
    except OSError:
        time.sleep(0.05)


def an_accept_that_fails(server, code):
    """Every third accept fails by this error."""
    with server:
        if code in LASTING:
            until = time.monotonic() + 20
            while server.process.poll() is None and time.monotonic() < until:
                try_to_connect(server.port)
            status = server.status()
            require(status == 10, f"behind the error {code} of an accept: status {status}")
            return
        clients = [Connection(server.port, 15) for _ in range(2 * WORKERS)]
        for one in clients:
            one.send(request("GET", "/v3"))
        for one in clients:
            require(one.response().status == 200, f"beside the error {code} of an accept")
            one.close()
        require(server.process.poll() is None, f"the error {code} of an accept ends the server")


def few_threads():
    """The process may have one thread alone. That does not hold for root, so it becomes nobody."""
    if os.getuid() == 0:
        os.setgid(NOBODY)
        os.setuid(NOBODY)
    resource.setrlimit(resource.RLIMIT_NPROC, (1, 1))


def threads_that_are_wanting(program, work, folder):
    """That threads can't be had is found out before it listens."""
    launcher, built = os.path.join(TOP, "bin", "ks"), os.path.join(TOP, "crates", "ks", "out", "ks")
    copy = os.path.join(work, "ks")
    shutil.copy(built if os.path.realpath(program) == os.path.realpath(launcher) else program, copy)
    os.chmod(work, 0o755)
    os.chmod(copy, 0o755)
    ended = subprocess.run([copy, "serve", fresh(O1), folder, f"{HOST}:0", "--workers", str(WORKERS)], stdin=subprocess.DEVNULL,
                           capture_output=True, timeout=30, check=False, preexec_fn=few_threads)
    wanted = (5, f"ks: the system has no threads for {WORKERS} workers\n")
    require((ended.returncode, ended.stderr.decode()) == wanted, f"without threads: status {ended.returncode}, {ended.stderr!r}")


def tried(program):
    """All of it."""
    work = tempfile.mkdtemp()
    try:
        folder = os.path.join(work, "keys")
        os.mkdir(folder, 0o700)
        run(program, "setup", folder)
        with Server(program, fresh(O1), folder, WORKERS) as server:
            slow = threading.Thread(target=lambda: tell(outcome, a_head_has_ten_seconds, server.port))
            outcome = []
            slow.start()
            said = a_crowd(server)
            heads_at_their_limits(server.port)
            clients_that_do_not_close(server.port)
            slow.join()
            require(not outcome, outcome[0] if outcome else "")
        a_busy_worker(program, work, folder)
        more_than_descriptors(program, folder)
        no_descriptors_for_a_while(program, folder)
        failing = accepts_that_fail(program, work, folder)
        threads_that_are_wanting(program, work, folder)
        return f"{said}; {failing}"
    finally:
        shutil.rmtree(work, ignore_errors=True)


def tell(outcome, body, *words):
    """Runs a part in a thread, and keeps why it fails."""
    try:
        body(*words)
    except (Failure, OSError) as why:
        outcome.append(str(why))


if __name__ == "__main__":
    sys.exit(main_of("crowd", lambda: tried(program_of(sys.argv[1:]))))
