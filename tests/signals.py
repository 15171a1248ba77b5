#!/usr/bin/env python3
"""Signals to a server: one that asks for the end ends it whole, a hangup does nothing.

    tests/signals.py [PROGRAM]

PROGRAM is the built program; where it is left out, the environment's KS, or bin/ks. The exit status is 1 where a server ends
otherwise. What the machine has nothing for, an `env` that holds signals back or a namespace of processes, is left out, and the
line at the end says so.
"""

import os
import shutil
import signal
import socket
import subprocess
import sys
import time
from concurrent.futures import ThreadPoolExecutor

from served import HOST, PATIENCE, TOP, Connection, Server, fresh, main_of, program_of, request, require

O1 = os.path.join(TOP, "examples", "o1.json")

# How the signals are held back: these stay pending, and the hangup does nothing.
HELD = ["env", "--block-signal=TERM,INT", "--ignore-signal=HUP"]

SAYS = "ks: a signal asks for the end: what is at work has 5 seconds"


class Held(Server):
    """A server from which the signals are held back."""

    def __init__(self, program, before=()):
        super().__init__(program, fresh(O1), "keys", 2, before=[*before, *HELD])

    def seconds_to_end(self, sent):
        """Sends a signal, and tells how long the server, which sees it within two seconds, then took to end whole."""
        self.process.send_signal(sent)
        until = time.monotonic() + PATIENCE
        while SAYS not in self.lines:
            require(time.monotonic() < until, f"the server said nothing of {sent.name}, but {self.lines}")
            time.sleep(0.01)
        began = time.monotonic()
        status = self.status()
        require(status == 0, f"{sent.name} ended the server with status {status}")
        return time.monotonic() - began


def require_version(connection):
    """A request on this connection is answered."""
    require(connection.ask("GET", "/v3").status == 200, "GET /v3 is not answered")


def require_closed(connection):
    """The other side has closed this connection, without a byte more."""
    connection.seconds_until_closed()


def idle(program):
    """A server at rest ends at SIGTERM, and its resting connections are closed."""
    with Held(program) as server, Connection(server.port) as resting:
        require_version(resting)
        require(server.seconds_to_end(signal.SIGTERM) < 4, "the server waited for a connection that rests")
        require_closed(resting)


def interrupted(program):
    """It ends so at SIGINT."""
    with Held(program) as server:
        server.seconds_to_end(signal.SIGINT)


def hangup(program):
    """A hangup does nothing."""
    with Held(program) as server:
        server.process.send_signal(signal.SIGHUP)
        time.sleep(2.5)
        with Connection(server.port) as connection:
            require_version(connection)
        require(server.process.poll() is None and SAYS not in server.lines, "a hangup ended the server")


def refuses(port):
    """Whether connections are refused here. One that comes as the listening ends may be reset, which says nothing of the next."""
    try:
        socket.create_connection((HOST, port), 5).close()
    except ConnectionRefusedError:
        return True
    except ConnectionResetError:
        return False
    return False


def at_work(program):
    """A request that is under way is answered, though no connection is accepted any more; then the connection is closed."""
    whole = request("GET", "/v3")
    with Held(program) as server, Connection(server.port) as slow:
        slow.send(whole[:10])
        time.sleep(0.5)
        server.process.send_signal(signal.SIGTERM)
        until = time.monotonic() + PATIENCE
        while not refuses(server.port):
            require(time.monotonic() < until, "connections are accepted behind SIGTERM")
            time.sleep(0.05)
        require(server.process.poll() is None, "the server ended while a request was under way")
        slow.send(whole[10:])
        require(slow.response().status == 200, "a request that was under way is not answered")
        require_closed(slow)
        require(server.status() == 0, "the server did not end whole")


def too_slow(program):
    """What is at work has 5 seconds, and no more."""
    with Held(program) as server, Connection(server.port) as slow:
        slow.send(request("GET", "/v3")[:10])
        time.sleep(0.5)
        took = server.seconds_to_end(signal.SIGTERM)
        require(4.5 < took < 8, f"what was at work had {took:.1f} seconds")


def not_held(program):
    """Where the signal is not held back it ends the server at once."""
    with Server(program, fresh(O1), "keys", 2) as server:
        server.process.send_signal(signal.SIGTERM)
        require(server.status() == -signal.SIGTERM, "SIGTERM did not end the server, which did not hold it back")


def first_process(program):
    """A server ends whole also as the first process of a container, to which the system sends no signal that it does not hold."""
    space = ["unshare", "--pid", "--fork", "--mount-proc", "--kill-child"]
    if subprocess.run([*space, "true"], stderr=subprocess.DEVNULL, check=False).returncode != 0:
        return ", but as the first process of a container it was not tried"
    with Held(program, space) as server:
        children = subprocess.run(["ps", "-o", "pid=", "--ppid", str(server.process.pid)], stdout=subprocess.PIPE, check=True)
        os.kill(int(children.stdout), signal.SIGTERM)
        require(server.status() == 0, "the first process did not end whole at SIGTERM")
        require(SAYS in server.lines, f"the first process said {server.lines}")
    return ", also as the first process of a container"


def main():
    """Tries each."""
    program = program_of(sys.argv[1:])
    if not shutil.which("env") or subprocess.run([*HELD, "true"], stderr=subprocess.DEVNULL, check=False).returncode != 0:
        return "skipped, for want of an env that holds signals back"
    # A program that bin/ks becomes holds them back itself.
    program = program if program != os.path.join(TOP, "bin", "ks") else os.path.join(TOP, "crates", "ks", "out", "ks")
    with ThreadPoolExecutor() as threads:
        tries = [threads.submit(each, program) for each in (idle, interrupted, hangup, at_work, too_slow, not_held)]
        as_first = first_process(program)
        for each in tries:
            each.result()
    return "SIGTERM and SIGINT end a server whole, with what is at work; SIGHUP does nothing" + as_first


if __name__ == "__main__":
    sys.exit(main_of("signals", main))
