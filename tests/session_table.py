#!/usr/bin/env python3
"""Compares the responses of whole sessions, which the program ks_run_cases tries, with those of the plain reading of the server.

    tests/session_table.py [--write]

The tables of sessions are those that README.txt of crates/ks_run_cases/data names. With --write the responses, and the tokens
that are sealed by hand, are worked out anew and written into the tables: whoever adds a session writes its requests alone. The exit
status is 1 where a table says otherwise, or where the table of routes leaves out a method of a route's path.
"""

import os
import sys

sys.dont_write_bytecode = True
from tables import cell, expanded, is_case, rows, spelled, with_length
from second_reading.ciphers import key_of, seal
from second_reading.machine import Machine, wire
from second_reading.requests import Bad, requests
from second_reading.routes import DRAWING, ROUTES, command_of, ids_of
from second_reading.words import CAUSES_OF_BYTES, METHODS, OpeningRefused, REASONS, Refusal

TOP = os.path.dirname(os.path.dirname(os.path.abspath(__file__)))
DATA = os.path.join(TOP, "crates", "ks_run_cases", "data")
TABLES = ("logins", "tokens", "credentials", "factors", "rows", "relations", "trusts", "revocations", "keys", "routes", "wire", "faults",
          "bodies", "opened")
STATUSES = {"Shape": 7, "Policy": 7, "BadKey": 7, "Folder": 8, "Keys": 9, "Random": 10}
PIECE = 64


def path_of(name):
    """Where a table stands."""
    return os.path.join(DATA, name + ".txt")


def read(name):
    """The rows of a table, all cells as texts but those that hold bytes of a connection."""
    return [[part.decode("utf-8", "surrogateescape") for part in row] for row in rows(path_of(name))]


class Wrong(Exception):
    """A table that does not hold together."""


# The small tables.


def sealed_by_hand():
    """The tokens that are sealed by hand, under their names."""
    return {name: seal(key_of(key), int(issued), bytes.fromhex(iv), bytes.fromhex(payload.replace(" ", "")))
            for name, key, issued, iv, payload, _ in read("sealed")}


PARTS = dict(read("parts"))
SEALED = sealed_by_hand()
NAMES = {name: text.encode("utf-8", "surrogateescape") for name, text in {**PARTS, **SEALED}.items()}


def text_of(cell_text):
    """The bytes of a cell with what its names stand for."""
    return expanded(cell_text.encode("utf-8", "surrogateescape"), NAMES)


def files_of(cell_text):
    """The files of a folder, by their indices."""
    files = {}
    for file in text_of(cell_text).split(b", ") if cell_text else []:
        index, _, content = file.partition(b"=")
        files[int(index)] = content
    return files


def file_of(cell_text):
    """The bytes of an opening file: a file of the data, or the text itself."""
    if not cell_text.endswith(".json"):
        return text_of(cell_text)
    with open(os.path.join(DATA, cell_text), "rb") as file:
        return file.read()


class Faults:
    """The calls that fail, as `fill 3`: what fails and the number of the call, from 1."""

    def __init__(self, cell_text):
        self.what, _, number = cell_text.partition(" ")
        self.number, self.calls = int(number or 0), 0

    def fails(self, what):
        """Counts a call, and says whether it fails."""
        if what != self.what:
            return False
        self.calls += 1
        return self.calls == self.number


def reading_of(files, faults):
    """What a reading of a folder finds, or None where one of its calls fails: the list, then each file."""
    calls = [None] + (sorted(files) if len(files) <= 32 else [])
    return None if any(faults.fails("folder") for _ in calls) else files


class Opening:
    """What a server opens with."""

    def __init__(self, name, file, folder, passwords, fails, status):
        self.name, self.file, self.folder = name, file_of(file), files_of(folder)
        self.passwords, self.fails, self.status = int(passwords), fails, int(status)

    def machine(self):
        """The machine that it opens, and how many passwords were derived; or the status with which it is refused."""
        faults, derived = Faults(self.fails), []

        def salts():
            while not faults.fails("fill"):
                derived.append(None)
                yield bytes([len(derived)]) * 16

        if faults.what == "file":
            return 3, 0
        try:
            machine = Machine(self.file, salts(), reading_of(self.folder, faults))
        except OpeningRefused as refused:
            return STATUSES.get(refused.args[0], 7), len(derived)
        return machine, len(derived)


OPENINGS = {row[0]: Opening(*row) for row in read("openings")}
SETTINGS = {row[0]: row[1:] for row in read("sessions")}


def wrong_openings():
    """The openings that end otherwise than their table says."""
    for opening in OPENINGS.values():
        found, derived = opening.machine()
        status = found if isinstance(found, int) else 0
        if (status, derived) != (opening.status, opening.passwords):
            yield f"openings: {opening.name}: status {status}, {derived} passwords derived"


def untried_routes():
    """The methods that no request of the table of routes asks of a path which fits a route's pattern."""
    asked = set()
    for row in rows(path_of("routes")):
        method, target = row[4].replace(b"<login>", NAMES["login"]).decode().split(" ")[:2]
        path = target.partition("?")[0]
        asked.update((method, pattern) for _, pattern, _, _ in ROUTES if ids_of(pattern, path) is not None)
    for pattern in dict.fromkeys(route[1] for route in ROUTES):
        for method in METHODS:
            if (method, pattern) not in asked:
                yield f"routes: no request asks for {method} of {pattern}"


# Sessions.


def response_to_bad(status):
    """The response to bytes that are no request."""
    data = b'{"error":{"code":%d,"message":"%s","title":"%s"}}' % (
        status, CAUSES_OF_BYTES[status].encode(), REASONS[status].encode())
    fields = [("Content-Length", str(len(data))), ("Content-Type", "application/json"), ("Vary", "X-Auth-Token")]
    return wire((status, fields, data), True)


class Session:
    """A connection over an opening: its rows are played one by one."""

    def __init__(self, name):
        opening, folder, fails, status = SETTINGS.get(name, ("", "", "", ""))
        self.name, self.opening = name, OPENINGS[opening or "o1"]
        self.folder = files_of(folder.replace("none", "")) if folder else self.opening.folder
        self.status, self.faults = int(status or 0), Faults(fails)
        self.machine, derived = self.opening.machine()
        for _ in range(derived):
            self.faults.fails("fill")
        self.names, self.input, self.is_over = dict(NAMES), b"", False
        self.readable = PIECE * (self.faults.number - 1) if self.faults.what == "read" else None

    def wrong(self, why):
        """The session does not hold together."""
        raise Wrong(f"{self.name}: {why}")

    def call(self, request, reading, drawn):
        """The response to a request; what its row says of the clock and of random bytes must be what it needs."""
        given = (request.method, request.path, request.query, request.headers, request.body)
        try:
            call = command_of(*given)
        except Refusal:
            if reading or drawn:
                self.wrong(f"{request.method} {request.path} reads no clock and draws nothing")
            return wire(self.machine.call(*given), request.closes)
        draws = call.command in DRAWING or call.command == "update" and call.about == "user"
        if not reading or bool(drawn) != draws:
            self.wrong(f"{request.method} {request.path} reads the clock, and " + ("draws" if draws else "draws nothing"))
        draw = bytes.fromhex(drawn.replace(" ", "")).ljust(64, b"\0")
        if draws and self.faults.fails("fill"):
            draw = None
        folder = reading_of(self.folder, self.faults) if call.command == "load_keys" else None
        return wire(self.machine.call(*given, int(reading), draw, folder), request.closes)

    def answer(self, token, reading, drawn, cell_text):
        """The response to the request of a row; its token is known from now on."""
        given = with_length(expanded(cell_text.encode("utf-8", "surrogateescape"), self.names))
        self.input += given
        if self.readable is not None and len(self.input) > self.readable:
            self.is_over = True
        response = b"" if self.is_over else self.responses(given, reading, drawn)
        if token:
            self.names[token] = response.partition(b"X-Subject-Token: ")[2].partition(b"\r\n")[0]
        return response

    def responses(self, given, reading, drawn):
        """The responses to the requests that some bytes are."""
        response = b""
        try:
            for request in requests(given):
                response += self.call(request, reading, drawn)
                self.is_over = request.closes
        except Bad as bad:
            self.is_over = True
            response += response_to_bad(bad.args[0])
        return response


# The last cells of the tables, as they are worked out.


def last_of_sessions():
    """The response to each row of a table of sessions."""
    session = None

    def last(name, *row):
        nonlocal session
        session = Session(name) if name else session
        return session.answer(*row)

    return last


def last_of_cut(request):
    """The one response to a request that is cut behind any of its bytes."""
    given, found = with_length(text_of(request)), set()
    for place in range(1, len(given)):
        try:
            found.add(b"".join(b"a whole request" for _ in requests(given[:place])))
        except Bad as bad:
            found.add(response_to_bad(bad.args[0]))
    if len(found) != 1:
        raise Wrong(f"cuts: {found}")
    return found.pop()


def last_of_sealed(name, *_):
    """The token that is sealed by hand."""
    return SEALED[name].encode()


def last_of_many(name, reading, login, request, times):
    """The response behind so many requests that are granted."""
    session = Session(name)
    session.answer("caller", reading, "ff", login)
    for number in range(1, int(times) + 2):
        session.names["number"] = str(number).encode()
        response = session.answer("", reading, number.to_bytes(8, "big").hex(), request)
        if response.startswith(b"HTTP/1.1 201 ") != (number <= int(times)):
            raise Wrong(f"many: {name}: {number}: {response}")
    return response


def anew(name, last):
    """The lines of a table, each case with its last cell as it is worked out, and as it was where it stands for that."""
    lines, is_heading = [], True
    with open(path_of(name), encoding="utf-8") as file:
        for line in file:
            if is_case(line) and not is_heading:
                front, _, given = line.rstrip("\n").rpartition("|")
                parts = [cell(part).decode("utf-8", "surrogateescape") for part in front.split("|")]
                worked_out = last(*parts)
                if cell(given) != worked_out:
                    line = f"{front}| {spelled(worked_out)}".rstrip() + "\n"
            is_heading = is_heading and not is_case(line)
            lines.append(line)
    return lines


def main():
    tables = {name: anew(name, last_of_sessions()) for name in TABLES}
    tables.update(cuts=anew("cuts", last_of_cut), sealed=anew("sealed", last_of_sealed), many=anew("many", last_of_many))
    wrong, sessions, responses = [*wrong_openings(), *untried_routes()], 0, 0
    for name, lines in tables.items():
        with open(path_of(name), encoding="utf-8") as file:
            given = file.readlines()
        wrong += [f"{name}, line {place + 1}: {line}" for place, (line, other) in enumerate(zip(lines, given)) if line != other]
        if name in TABLES:
            cases = rows(path_of(name))
            sessions, responses = sessions + sum(row[0] != b"" for row in cases), responses + len(cases)
        if "--write" in sys.argv[1:]:
            with open(path_of(name), "w", encoding="utf-8") as file:
                file.writelines(lines)
    for line in wrong:
        print("session_table: " + line.rstrip("\n"), file=sys.stderr)
    print(f"session_table: {len(OPENINGS)} openings, {sessions} sessions, {responses} requests, {len(wrong)} otherwise")
    return 1 if wrong or not responses else 0


if __name__ == "__main__":
    sys.exit(main())
