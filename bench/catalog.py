#!/usr/bin/env python3
"""What bench/catalog.sh runs: the same requests over opening files with catalogs of several sizes.

    catalog.py KS REQUESTS [SERVICES,ENDPOINTS ..]
"""

import json
import sys
import tempfile

# Before talk, which names tests/, where another tables.py is.
from tables import asked, opened, request

import talk

SIZES = [(0, 0), (5, 15), (40, 120), (1_024, 8_192)]
URL = "http://cloud.example:8774/v2.1/$(project_id)s"


def opening(services, endpoints):
    """An opening like that of the examples, with so many services and endpoints, of the services in turn."""
    with open(talk.O1, encoding="utf-8") as file:
        told = json.load(file)
    ids = [f"{number:032x}" for number in range(services)]
    told["regions"] = [{"id": "RegionOne"}]
    told["services"] = [{"id": id, "type": f"type{number}", "name": f"name{number}"} for number, id in enumerate(ids)]
    told["endpoints"] = [
        {"id": f"{number:032x}", "service_id": ids[number % services], "region_id": "RegionOne", "url": URL,
         "interface": ("public", "internal", "admin")[number % 3]}
        for number in range(endpoints)
    ]
    return told


def measured(ks, path, count):
    """Microseconds of a core that a validation, a login and the version take."""
    token = talk.sealed()
    run = opened(ks, path, token)
    scope = {"project": {"name": "demo", "domain": {"id": "default"}}}
    login = {"auth": {"identity": {"methods": ["token"], "token": {"id": token}}, "scope": scope}}
    figures = {
        "validation": asked(run, [talk.validation(token)] * count, 200),
        "login by token": asked(run, [request("POST", "/v3/auth/tokens", "", login)] * count, 201),
        "the version": asked(run, [talk.REQUEST] * count, 200),
    }
    run.stdin.close()
    if run.wait() != 0:
        talk.fail("the program ended otherwise")
    return figures


def main(ks, count, sizes):
    rows = []
    for services, endpoints in sizes:
        with tempfile.NamedTemporaryFile("w", suffix=".json", encoding="utf-8") as file:
            json.dump(opening(services, endpoints), file, separators=(",", ":"))
            file.flush()
            # The clock of processes ticks a hundred times a second.
            rows.append(measured(ks, file.name, count if endpoints < 1_000 else max(count // 50, 100)))
    print("| Microseconds of a core | " + " | ".join(f"{s:,} services, {e:,} endpoints" for s, e in sizes) + " |")
    print("|---" * (len(sizes) + 1) + "|")
    for name in rows[0]:
        print(f"| {name} | " + " | ".join(f"{row[name]:,.1f}" for row in rows) + " |")


if __name__ == "__main__":
    given = [tuple(map(int, word.split(","))) for word in sys.argv[3:]]
    main(sys.argv[1], int(sys.argv[2]), given or SIZES)
