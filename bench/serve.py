#!/usr/bin/env python3
"""What bench/serve.sh runs: servers, and the load on them.

    serve.py KS SECONDS [OTHER]
"""

import contextlib
import json
import multiprocessing
import os
import re
import shutil
import subprocess
import sys
import time

sys.dont_write_bytecode = True
TOP = os.path.dirname(os.path.dirname(os.path.abspath(__file__)))
sys.path.insert(0, os.path.join(TOP, "tests"))
from served import Connection, Failure, Server, exchange, login, measure_in_folder, project_scope, request, require, run

O1 = os.path.join(TOP, "examples", "o1.json")
WORKERS = (1, 4)
TOKENS, ROUNDS = 1000, 10_000
# How many requests a client that does not wait for each response sends at once.
DEPTH = 16
# How many clients a worker has in the row of more clients than workers.
CLIENTS = 16

# A script of wrk: each thread sends the requests of a file, from a place of its own on.
SCRIPT = """
local requests, place, threads = {}, 0, 0
function setup(thread)
  thread:set("start", threads)
  threads = threads + 1
end
function init(args)
  local file = io.open(args[1], "rb")
  local text = file:read("*a")
  file:close()
  for length, from in text:gmatch("(%d+) (%d+)\\n") do
    requests[#requests + 1] = text:sub(-tonumber(from), -tonumber(from) + tonumber(length) - 1)
  end
  place = start * 251
end
function request()
  place = place + 1
  return requests[(place - 1) % #requests + 1]
end
function done(summary, latency)
  local wrong = summary.errors.connect + summary.errors.read + summary.errors.write + summary.errors.status + summary.errors.timeout
  io.write(string.format("measured %d %d %f %f %d\\n", summary.requests, summary.duration, latency:percentile(50),
    latency:percentile(99), wrong))
end
"""


def script_file(work, requests):
    """Writes the requests with what wrk needs to find them: lengths, and places counted from the end."""
    path, rest = os.path.join(work, "requests"), sum(map(len, requests))
    with open(path, "wb") as file:
        for each in requests:
            file.write(f"{len(each)} {rest}\n".encode())
            rest -= len(each)
        file.write(b"".join(requests))
    return path


def by_wrk(work, port, workers, clients, requests, seconds):
    """Responses a second, the median and the 99th percentile in milliseconds."""
    script, path = os.path.join(work, "load.lua"), script_file(work, requests)
    with open(script, "w", encoding="ascii") as file:
        file.write(SCRIPT)
    words = ["wrk", "-t", str(workers), "-c", str(clients), "-d", f"{seconds}s", "-s", script, f"http://127.0.0.1:{port}", "--", path]
    ran = subprocess.run(words, stdout=subprocess.PIPE, stderr=subprocess.STDOUT, check=False)
    found = re.search(rb"measured (\d+) (\d+) ([\d.]+) ([\d.]+) (\d+)", ran.stdout)
    require(found is not None, f"wrk: {ran.stdout.decode()}")
    count, micros, half, most, wrong = (float(number) for number in found.groups())
    require(not wrong, f"wrk: {wrong:.0f} requests were answered otherwise: {ran.stdout.decode()}")
    return count / micros * 1e6, half / 1000, most / 1000


def client(port, requests, depth, start, until, results):
    """Sends requests in turn over one connection, so many in each piece, and hands on how long each piece took."""
    taken, place = [], start
    try:
        with Connection(port) as connection:
            while time.time() < until:
                began = time.perf_counter()
                connection.send(requests[place % len(requests)])
                statuses = [connection.response().status for _ in range(depth)]
                taken.append(time.perf_counter() - began)
                require(max(statuses) < 300, f"a request is answered with {max(statuses)}")
                place += 1
        results.put(taken)
    except (Failure, OSError) as why:
        results.put(str(why))


def by_python(port, clients, requests, depth, seconds):
    """The same, by a process for each connection."""
    results, until = multiprocessing.Queue(), time.time() + seconds
    processes = [multiprocessing.Process(target=client, args=(port, requests, depth, number * 251, until, results)) for number in range(clients)]
    for each in processes:
        each.start()
    told = [results.get(timeout=seconds + 60) for _ in processes]
    for each in processes:
        each.join()
    for part in told:
        require(not isinstance(part, str), part)
    taken = sorted(each for part in told for each in part)
    return depth * len(taken) / seconds, taken[len(taken) // 2] * 1000, taken[len(taken) * 99 // 100] * 1000


def opening(folder):
    """The opening file of the examples, with the rounds of a real one, and a folder of its own for its keys."""
    with open(O1, encoding="utf-8") as file:
        told = json.load(file)
    told["settings"]["rounds"] = ROUNDS
    os.makedirs(os.path.join(folder, "keys"), 0o700)
    path = os.path.join(folder, "opening.json")
    with open(path, "w", encoding="utf-8") as file:
        json.dump(told, file)
    return path, told["projects"][0]["id"]


def loads(port, project):
    """The rows: what each is, its pieces, how many requests each piece has, and how many clients each worker."""
    password = login("ann", "secret", project_scope("demo"))
    with Connection(port) as connection:
        first = connection.ask("POST", "/v3/auth/tokens", password).fields["X-Subject-Token"]
        others = [connection.ask("POST", "/v3/auth/tokens", exchange(first, project_scope("demo"))) for _ in range(TOKENS)]
    tokens = [response.fields["X-Subject-Token"] for response in others]
    require(len(set(tokens)) == TOKENS, "the tokens are not different")
    validations = [request("GET", "/v3/auth/tokens", auth=token, subject=token) for token in tokens]
    mixed = list(validations)
    for place in range(0, TOKENS, 100):
        body = {"project": {"description": f"change {place}"}}
        mixed[place] = request("PATCH", f"/v3/projects/{project}", body, tokens[place])
    at_once = [b"".join(validations[place:place + DEPTH]) for place in range(0, TOKENS - DEPTH, DEPTH)]
    return [
        ("GET /v3", [request("GET", "/v3")], 1, 1),
        (f"validations of {TOKENS:,} tokens", validations, 1, 1),
        (f"such validations of {CLIENTS} clients a worker", validations, 1, CLIENTS),
        (f"such validations, {DEPTH} sent at once", at_once, DEPTH, 1),
        (f"logins with {ROUNDS:,} rounds", [request("POST", "/v3/auth/tokens", password)], 1, 1),
        ("validations with a change in a hundred", mixed, 1, 1),
    ]


def named(workers):
    """So many workers in words."""
    return "1 worker" if workers == 1 else f"{workers} workers"


def measured(server, work, workers, clients, requests, depth, seconds):
    """A load on a server: the requests a second, those a second of each core that it had, and both in words."""
    began, worked = time.monotonic(), server.seconds()
    if shutil.which("wrk"):
        rate, half, most = by_wrk(work, server.port, workers, clients * workers, requests, seconds)
    else:
        rate, half, most = by_python(server.port, clients * workers, requests, depth, seconds)
    cores = (server.seconds() - worked) / (time.monotonic() - began)
    # Of requests that are sent at once, no client measures one alone.
    times = f"p50 {half:.3f} ms, p99 {most:.3f} ms, " if depth == 1 else ""
    return rate, rate / cores, f"{rate:,.0f} a second with {cores:.2f} cores, {times}{server.memory() / 1024:.1f} MiB resident"


def measure(programs, seconds, work):
    """Prints a line for each row and number of workers, with what the other program does beside it, where one is named."""
    folders = [os.path.join(work, str(number)) for number, _ in enumerate(programs)]
    opened, rates = [opening(folder) for folder in folders], {}
    for program, folder in zip(programs, folders):
        require(run(program, "setup", os.path.join(folder, "keys"))[0] == 0, "the keys cannot be set up")
    print("the load is " + ("wrk" if shutil.which("wrk") else "a client in Python for each connection"), flush=True)
    for workers in WORKERS:
        with contextlib.ExitStack() as ends:
            servers = [
                ends.enter_context(Server(program, file, os.path.join(folder, "keys"), workers))
                for program, folder, (file, _) in zip(programs, folders, opened)
            ]
            for rows in zip(*(loads(server.port, project) for server, (_, project) in zip(servers, opened))):
                for number, (server, (what, requests, depth, clients)) in enumerate(zip(servers, rows)):
                    beside = ", beside it" if number else ""
                    try:
                        rate, each, told = measured(server, work, workers, clients, requests, depth, seconds)
                    except Failure as why:
                        # A program that gives each connection a worker answers no further ones.
                        require(number and clients > 1, str(why))
                        told = "not all clients are answered"
                    else:
                        rates[what, workers, number] = rate, each
                    print(f"{what}, {named(workers)}{beside}: {told}", flush=True)
    least, most = WORKERS
    for what in dict.fromkeys(what for what, *_ in rates):
        (few, few_each), (many, many_each) = rates[what, least, 0], rates[what, most, 0]
        print(f"{what}: {named(most)} do {many / few:.2f} times what {named(least)} does; of its cores each does {few_each:,.0f} "
              f"with {named(least)} and {many_each:,.0f} with {named(most)}, {many_each / few_each:.2f} of that")
        for workers in WORKERS if len(programs) > 1 else ():
            if (what, workers, 1) in rates:
                ratio = rates[what, workers, 0][1] / rates[what, workers, 1][1]
                print(f"{what}: with {named(workers)} a core does {ratio:.2f} times what it does for the other program")


def main():
    programs, seconds = [sys.argv[1], *sys.argv[3:]], int(sys.argv[2])
    return measure_in_folder("serve", lambda work: measure(programs, seconds, work))


if __name__ == "__main__":
    sys.exit(main())
