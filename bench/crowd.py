#!/usr/bin/env python3
"""What bench/crowd.sh runs: a server, and its crowds.

    crowd.py KS SECONDS
"""

import multiprocessing
import os
import resource
import shutil
import subprocess
import sys
import time

sys.dont_write_bytecode = True
TOP = os.path.dirname(os.path.dirname(os.path.abspath(__file__)))
sys.path.insert(0, os.path.join(TOP, "tests"))
from crowd import Clients, Harm, limited, percentile, questions
from served import Connection, Failure, Server, fresh, measure_in_folder, require, run

O1 = os.path.join(TOP, "examples", "o1.json")
WORKERS, PROCESSES = 4, 2
CROWD, IDLE = 2_000, 9_000
SLOW_HEADS, SLOW_BODIES, NEVER_READ = 300, 300, 50
DESCRIPTORS, TIMES = 256, 1_000


def part(port, asked, count, seconds, results):
    """A process with its part of the clients: how long their responses took."""
    try:
        clients = Clients(port, asked, count)
        clients.run(seconds)
        clients.close()
        results.put(clients.times)
    except (Failure, OSError) as why:
        results.put(str(why))


def crowd(port, asked, count, seconds):
    """So many clients ask once a second: how long the responses took."""
    results = multiprocessing.Queue()
    parts = [multiprocessing.Process(target=part, args=(port, asked, count // PROCESSES, seconds, results)) for _ in range(PROCESSES)]
    for each in parts:
        each.start()
    told = [results.get() for _ in parts]
    for each in parts:
        each.join()
    for each in told:
        require(isinstance(each, list), each)
    return sum(told, [])


def tell(what, times):
    """Prints a row."""
    p50, p99 = percentile(times, 50) * 1000, percentile(times, 99) * 1000
    print(f"{what}: {len(times)} answered; half of them in {p50:.2f} ms, 99 of 100 in {p99:.1f} ms, all in {max(times) * 1000:.0f} ms", flush=True)


def idle_crowd(server, asked, seconds):
    """Connections of which one in a hundred asks: the memory that is resident."""
    idle = [Connection(server.port) for _ in range(IDLE - IDLE // 100)]
    times = crowd(server.port, asked, IDLE // 100, seconds)
    tell(f"{IDLE} kept connections, of which one in a hundred asks", times)
    print(f"    resident then: {server.memory() / 1024:.0f} MiB", flush=True)
    for one in idle:
        one.close()


def beyond_descriptors(program, folder):
    """One client more than the descriptors, again and again."""
    with limited(program, folder, resource.RLIMIT_NOFILE, DESCRIPTORS) as server:
        kept, times = [], []
        for _ in range(DESCRIPTORS - 64 - 3 * WORKERS + TIMES):
            began = time.monotonic()
            one = Connection(server.port, 20)
            require(one.ask("GET", "/v3").status == 200, "a client beyond the descriptors")
            times.append(time.monotonic() - began)
            kept.append(one)
        tell(f"{TIMES} clients beyond {DESCRIPTORS} descriptors", times)
        for one in kept:
            one.close()


def by_wrk(server, work, asked, seconds):
    """The rate of validations over four connections."""
    if not shutil.which("wrk"):
        print("skipped wrk, which is not there")
        return
    head = asked[0][0].decode().split("\r\n")
    fields = [word for line in head[1:] if line for word in ("-H", line)]
    path = head[0].split()[1]
    said = subprocess.run(["wrk", "-t2", "-c4", f"-d{seconds}", *fields, f"http://127.0.0.1:{server.port}{path}"], capture_output=True, check=True)
    print("wrk, 4 connections:", " ".join(line.strip() for line in said.stdout.decode().splitlines() if "Requests/sec" in line or "Non-2xx" in line))


def measure(program, seconds, work):
    """All rows."""
    hard = resource.getrlimit(resource.RLIMIT_NOFILE)[1]
    resource.setrlimit(resource.RLIMIT_NOFILE, (min(hard, 20_000) if hard > 0 else 20_000, hard))
    folder = os.path.join(work, "keys")
    os.mkdir(folder, 0o700)
    run(program, "setup", folder)
    with Server(program, fresh(O1), folder, WORKERS) as server:
        token, asked = questions(server.port)
        tell(f"{CROWD} kept clients", crowd(server.port, asked[:1], CROWD, seconds))
        harm = Harm(server.port, token, SLOW_HEADS, SLOW_BODIES, NEVER_READ)
        tell("the same beside slow and deaf clients", crowd(server.port, asked[:1], CROWD, seconds))
        harm.end()
        by_wrk(server, work, asked, seconds)
    with Server(program, fresh(O1), folder, WORKERS) as server:
        idle_crowd(server, questions(server.port)[1], seconds)
    beyond_descriptors(program, folder)


def main():
    program, seconds = sys.argv[1], int(sys.argv[2])
    return measure_in_folder("crowd", lambda work: measure(program, seconds, work))


if __name__ == "__main__":
    sys.exit(main())
