#!/usr/bin/env python3
"""A server whose clock is set while it runs: a leap forward counts once it has stood for a minute, and is said.

    tests/clock.py [PROGRAM]

PROGRAM is the built program; where it is left out, the environment's KS, or bin/ks. A small library, made with the C compiler and
loaded before the others, adds to both clocks what a file says, so that no minute has to pass. The exit status is 1 where the clock
counts otherwise.
"""

import calendar
import os
import re
import shutil
import subprocess
import sys
import tempfile
import time

from served import TOP, Connection, Server, fresh, login, main_of, program_of, project_scope, require

O1 = os.path.join(TOP, "examples", "o1.json")

DAY = 86_400

# How many seconds a leap has to stand, and how far two readings may lie apart that are to be the same.
STANDS, NEAR = 60, 5

# How many seconds a line of the server is waited for, and how long there is to be no further one.
PATIENCE, QUIET = 5, 0.2

PRELOAD = r"""
#include <fcntl.h>
#include <stdio.h>
#include <stdlib.h>
#include <sys/syscall.h>
#include <time.h>
#include <unistd.h>
int clock_gettime(clockid_t clock, struct timespec *found) {
    int status = syscall(SYS_clock_gettime, clock, found);
    long wall = 0, steady = 0;
    char text[64] = {0};
    int file = open(getenv("CLOCKS"), O_RDONLY);
    if (file >= 0) {
        if (read(file, text, sizeof text - 1) > 0) sscanf(text, "%ld %ld", &wall, &steady);
        close(file);
    }
    if (status == 0 && clock == CLOCK_REALTIME) found->tv_sec += wall;
    if (status == 0 && clock == CLOCK_MONOTONIC) found->tv_sec += steady;
    return status;
}
"""


class Clocks:
    """What is added to the clocks of the server."""

    def __init__(self, path):
        self.path, self.wall, self.steady = path, 0, 0
        self.write()

    def write(self):
        """Gives it to the server, in one step."""
        with open(self.path + ".new", "w", encoding="ascii") as file:
            file.write(f"{self.wall} {self.steady}\n")
        os.replace(self.path + ".new", self.path)

    def leap(self, seconds):
        """The wall clock is set."""
        self.wall += seconds
        self.write()

    def pass_by(self, seconds):
        """Time goes by."""
        self.wall, self.steady = self.wall + seconds, self.steady + seconds
        self.write()


def logged_in(server):
    """A token, and how far the moment at which it was issued lies from now."""
    with Connection(server.port) as connection:
        response = connection.ask("POST", "/v3/auth/tokens", login("ann", "secret", project_scope("demo")))
    require(response.status == 201, f"a login is answered with {response.status}")
    issued = response.told()["token"]["issued_at"].partition(".")[0].rstrip("Z")
    return response.fields["X-Subject-Token"], calendar.timegm(time.strptime(issued, "%Y-%m-%dT%H:%M:%S")) - time.time()


def require_ahead(server, seconds, what):
    """Tokens are issued so many seconds ahead of now."""
    ahead = logged_in(server)[1]
    require(abs(ahead - seconds) <= NEAR, f"{what}: tokens are issued {ahead:.0f} seconds ahead, and not {seconds}")


def require_said(server, *lines):
    """The lines that the server said of its clock since it listened are of these forms, in this order."""
    until, said = time.monotonic() + PATIENCE, []
    while len(said) <= len(lines) and time.monotonic() < until:
        # What it said may still be on its way; it is to say no more, too.
        time.sleep(0.05)
        said = [line for line in server.lines if line.startswith("ks: the clock")]
        if len(said) == len(lines):
            until = min(until, time.monotonic() + QUIET)
    require(len(said) == len(lines) and all(map(re.fullmatch, lines, said)), f"it said {said}")


DOUBTED = r"ks: the clock leapt from \d+ to \d+ seconds since 1970: this counts once it has stood for 60 seconds"
BELIEVED = r"ks: the clock has stood, and counts: it shows \d+ seconds since 1970"
BACK = r"ks: the clock went back to \d+ seconds since 1970: time stands still until it is where it was"


def moves(server, clocks):
    """The clock is set in each way."""
    token, _ = logged_in(server)
    clocks.leap(STANDS - NEAR)
    require_ahead(server, STANDS - NEAR, "a small leap counts at once")
    require_said(server)
    clocks.leap(30 * DAY)
    for _ in range(2):
        require_ahead(server, STANDS - NEAR, "a leap of 30 days does not count")
    require_said(server, DOUBTED)
    with Connection(server.port) as connection:
        require(connection.ask("GET", "/v3/auth/tokens", auth=token, subject=token).status == 200, "a leap has ended a token")
    clocks.leap(-30 * DAY)
    require_ahead(server, STANDS - NEAR, "a leap that is taken back never counted")
    require_said(server, DOUBTED)
    clocks.leap(3_600)
    require_ahead(server, STANDS - NEAR, "a leap of an hour does not count")
    clocks.pass_by(STANDS - NEAR)
    require_ahead(server, 2 * (STANDS - NEAR), "time goes on while a leap is doubted")
    clocks.pass_by(2 * NEAR)
    ahead = 2 * STANDS + 3_600
    require_ahead(server, ahead, "a leap counts that has stood")
    require_said(server, DOUBTED, DOUBTED, BELIEVED)
    clocks.leap(-7_200)
    for _ in range(2):
        require_ahead(server, ahead, "the moment does not go back")
    require_said(server, DOUBTED, DOUBTED, BELIEVED, BACK)


def main():
    """Tries it."""
    program, compiler = program_of(sys.argv[1:]), shutil.which("gcc") or shutil.which("cc")
    if not compiler:
        return "skipped, for want of a C compiler"
    with tempfile.TemporaryDirectory() as folder:
        library = os.path.join(folder, "clocks.so")
        subprocess.run([compiler, "-shared", "-fPIC", "-o", library, "-x", "c", "-"], input=PRELOAD.encode(), check=True)
        os.environ["CLOCKS"] = os.path.join(folder, "clocks")
        clocks = Clocks(os.environ["CLOCKS"])
        os.environ["LD_PRELOAD"] = library
        try:
            server = Server(program, fresh(O1), "keys", 2)
        finally:
            del os.environ["LD_PRELOAD"]
        with server:
            moves(server, clocks)
    return "a leap of the clock counts once it has stood for a minute, and is said; one back changes nothing"


if __name__ == "__main__":
    sys.exit(main_of("clock", main))
