#!/usr/bin/env python3
"""Drives `ks setup` and `ks rotate` over real folders, and compares what the built program writes and what is left there.

    tests/key_folder.py

The folders are made as Keystone's keystone-manage makes them: a file for each key, named by its index, whose content is the
key's 44 characters of base64url with no line feed. The program is bin/ks of this repository; the environment's KS names
another. The exit status is 1 where a run ends otherwise.
"""

import base64
import os
import pwd
import shutil
import subprocess
import sys
import tempfile

TOP = os.path.dirname(os.path.dirname(os.path.abspath(__file__)))
KS = os.environ.get("KS") or os.path.join(TOP, "bin", "ks")

FAILED = "the key folder could not be read or written; if there is none yet, make it first"
NO_KEYS = "the key folder has no key"
ALREADY_SET = "the key folder has keys already"
INDEX_END = "the key folder has a file 999999999, and none can follow it"
NO_OUTPUT = "ks: standard output could not be written"
USAGE = "usage: ks check | ks talk FILE FOLDER | ks serve FILE FOLDER ADDRESS [--workers N] [--connections N] [--log FILE] | ks setup FOLDER | ks rotate FOLDER [--max N] | ks password [--rounds N] | ks drill START COUNT"

wrong = []
runs = 0


def expect(what, got, wanted):
    """Notes where these differ."""
    if got != wanted:
        wrong.append(what)
        print(f"key_folder: {what}: {got!r} for {wanted!r}", file=sys.stderr)


def run(words, status, output="", error="", tracer=(), **options):
    """Runs the program, below a tracer if one is given, which is to end so: a line about the folder has its path."""
    global runs
    runs += 1
    options.setdefault("stdout", subprocess.PIPE)
    ended = subprocess.run([*tracer, KS, *words], stdin=subprocess.DEVNULL, stderr=subprocess.PIPE, umask=0o022, **options)
    expect(
        f"run {runs}, ks {' '.join(words)}",
        (ended.returncode, (ended.stdout or b"").decode(), ended.stderr.decode().rstrip("\n")),
        (status, output, f"ks: {words[1]}: {error}" if error.startswith("the key folder") else error),
    )


def files(folder):
    """The contents of a folder by their names."""
    held = {}
    for name in os.listdir(folder):
        with open(os.path.join(folder, name), "rb") as file:
            held[name] = file.read()
    return held


def key(content):
    """The bytes of a key file in the form that is written: 44 characters and no line feed."""
    expect(f"the length of {content!r}", len(content), 44)
    decoded = base64.urlsafe_b64decode(content)
    expect(f"the text of {content!r}", base64.urlsafe_b64encode(decoded), content)
    expect(f"the bytes of {content!r}", len(decoded), 32)
    return decoded


def lay_out(folder, indices):
    """Makes key files as keystone-manage does, and gives their contents by their names."""
    held = {str(index): base64.urlsafe_b64encode(os.urandom(32)) for index in indices}
    for name, content in held.items():
        with open(os.path.join(folder, name), "wb") as file:
            file.write(content)
    return held


def try_life(folder):
    """A setup and three rotations, each of which moves the keys on."""
    run(["setup", folder], 0, "keys 0 1\n")
    held = files(folder)
    expect("the files of a setup", sorted(held), ["0", "1"])
    expect("the keys of a setup differ", key(held["0"]) != key(held["1"]), True)
    for name in held:
        expect(f"who may read {name}", os.stat(os.path.join(folder, name)).st_mode & 0o777, 0o600)
    run(["setup", folder], 11, "", ALREADY_SET)
    expect("the files behind a refused setup", files(folder), held)
    for highest, indices in ((2, "0 1 2"), (3, "0 2 3"), (4, "0 3 4")):
        before = held
        os.chmod(os.path.join(folder, "0"), 0o644)
        run(["rotate", folder], 0, f"keys {indices}\n")
        held = files(folder)
        expect("the files of a rotation", sorted(held), indices.split())
        for name in held:
            expect(f"who may read {name} behind a rotation", os.stat(os.path.join(folder, name)).st_mode & 0o7777, 0o600)
        expect("the staged key became primary", held[str(highest)], before["0"])
        for name in indices.split()[1:-1]:
            expect(f"the key {name} stayed", held[name], before[name])
        expect("the new key is new", key(held["0"]) not in map(key, before.values()), True)


def try_layout(folder):
    """A folder of keystone-manage, with names beside those of keys."""
    held = lay_out(folder, (0, 3, 4, 12))
    others = {"0.tmp": b"x", "007": b"y", "keys": b"z", "4.new": b""}
    for name, content in others.items():
        with open(os.path.join(folder, name), "wb") as file:
            file.write(content)
    run(["rotate", folder, "--max", "4"], 0, "keys 0 4 12 13\n")
    now = files(folder)
    new = now.pop("0")
    key(new)
    expect("the folder of keystone-manage", now, {"4": held["4"], "12": held["12"], "13": held["0"], **others})
    run(["rotate", folder, "--max=2"], 0, "keys 0 14\n")
    now = files(folder)
    key(now.pop("0"))
    expect("the folder with two keys", now, {"14": new, **others})


def try_interrupted(folder):
    """A rotation that stopped between its steps is finished by the next one."""
    held = lay_out(folder, (2, 3, 4))
    run(["rotate", folder], 0, "keys 0 3 4\n")
    now = files(folder)
    key(now.pop("0"))
    expect("the finished rotation", now, {"3": held["3"], "4": held["4"]})


def try_end(folder):
    """Behind the last index of all there is none."""
    held = lay_out(folder, (0, 999999999))
    run(["rotate", folder], 12, "", INDEX_END)
    expect("the files at the last index", files(folder), held)


def try_refusals(work):
    """Folders that are empty, missing, none, or closed; an output that is full; and other words."""
    empty = os.path.join(work, "empty")
    os.mkdir(empty)
    run(["rotate", empty], 9, "", NO_KEYS)
    expect("the files of a refused rotation", files(empty), {})
    missing = os.path.join(work, "missing")
    run(["setup", missing], 8, "", FAILED)
    run(["rotate", missing], 8, "", FAILED)
    expect("a missing folder stays missing", os.path.exists(missing), False)
    plain = os.path.join(work, "plain")
    with open(plain, "wb"):
        pass
    run(["setup", plain], 8, "", FAILED)
    run(["rotate", plain], 8, "", FAILED)
    if os.path.exists("/dev/full"):
        full = os.path.join(work, "full")
        os.mkdir(full)
        with open("/dev/full", "wb") as output:
            run(["setup", full], 4, "", NO_OUTPUT, stdout=output)
        expect("the files behind an output that is full", sorted(files(full)), ["0", "1"])
    for words in (["setup"], ["setup", empty, empty], ["rotate"], ["rotate", empty, "--max", "1"], ["rotate", empty, "--max", "33"]):
        run(words, 2, "", USAGE)


def try_closed_streams(work):
    """Commands whose standard streams are closed: no key file gets the number of one, and is written in its place."""
    for number, closed in enumerate((">&-", "2>&-", "<&- >&- 2>&-")):
        folder = os.path.join(work, f"streams{number}")
        os.mkdir(folder)
        status = 0 if closed == "2>&-" else 4
        for words, names in ((f"setup {folder}", "0 1"), (f"rotate {folder}", "0 1 2")):
            words = ["sh", "-c", f'exec "$0" {words} {closed}', KS]
            ended = subprocess.run(words, stdin=subprocess.DEVNULL, capture_output=True, check=False)
            expect(f"the status of {words}", ended.returncode, status)
            held = files(folder)
            expect(f"the files of {words}", sorted(held), names.split())
            for content in held.values():
                key(content)


def try_closed(work):
    """A folder that may be read and not changed, as another user where this is the one that may do all."""
    options = {}
    if os.geteuid() == 0:
        nobody = pwd.getpwnam("nobody")
        options = {"user": nobody.pw_uid, "group": nobody.pw_gid, "extra_groups": []}
        try:
            subprocess.run([KS], stdin=subprocess.DEVNULL, stdout=subprocess.DEVNULL, stderr=subprocess.DEVNULL, **options)
        except PermissionError:
            print("key_folder: skipped: a folder without rights, since no other user may run the program")
            return
    closed = os.path.join(work, "closed")
    os.mkdir(closed)
    held = lay_out(closed, (0, 1))
    os.chmod(closed, 0o555)
    os.chmod(work, 0o755)
    run(["rotate", closed], 8, "", FAILED, **options)
    run(["setup", closed], 11, "", ALREADY_SET, **options)
    expect("the files of a closed folder", files(closed), held)
    bare = os.path.join(work, "bare")
    os.mkdir(bare, 0o555)
    run(["setup", bare], 8, "", FAILED, **options)
    expect("the files of a closed folder with none", files(bare), {})
    hidden = os.path.join(work, "hidden")
    os.mkdir(hidden)
    held = lay_out(hidden, (0, 1))
    os.chmod(hidden, 0o000)
    run(["setup", hidden], 8, "", FAILED, **options)
    run(["rotate", hidden], 8, "", FAILED, **options)
    os.chmod(hidden, 0o700)
    expect("the files of a hidden folder", files(hidden), held)
    os.chmod(closed, 0o700)
    os.chmod(bare, 0o700)


# A step of a command that the system refuses: the command, the indices of the folder, the call that is refused and why, the file
# that it is about, the indices afterwards and which of them have the content of which before, and what the next rotation leaves.
STOPS = (
    # a setup, whose two keys are written one after the other
    ("setup", (), "write", "ENOSPC", "1.new", {}, None),
    ("setup", (), "fsync", "EIO", "1.new", {}, None),
    ("setup", (), "rename", "EACCES", "1.new", {}, None),
    ("setup", (), "write", "ENOSPC", "0.new", {1: None}, "0 1"),
    ("setup", (), "rename", "EACCES", "0.new", {1: None}, "0 1"),
    # a rotation: the staged key becomes primary, the new one is written, and the oldest goes
    ("rotate", (0, 1, 2), "chmod,fchmodat", "EPERM", "0", {0: 0, 1: 1, 2: 2}, "0 2 3"),
    ("rotate", (0, 1, 2), "rename", "EACCES", "0", {0: 0, 1: 1, 2: 2}, "0 2 3"),
    ("rotate", (0, 1, 2), "write", "ENOSPC", "0.new", {1: 1, 2: 2, 3: 0}, "0 2 3"),
    ("rotate", (0, 1, 2), "rename", "EACCES", "0.new", {1: 1, 2: 2, 3: 0}, "0 2 3"),
    ("rotate", (0, 1, 2), "unlink", "EACCES", "1", {0: None, 1: 1, 2: 2, 3: 0}, "0 3 4"),
)


def try_stop(folder, command, indices, call, error, name, wanted, next_keys):
    """A command that is stopped at one step leaves the steps before it, and the next command goes on from there."""
    what = f"{command} without {call} of {name}"
    before = lay_out(folder, indices)
    tracer = ["strace", "-f", "-qq", "-o", "/dev/null", "-P", os.path.join(folder, name), "-e", f"inject={call}:error={error}"]
    run([command, folder], 8, "", FAILED, tracer=tracer)
    held = {name: content for name, content in files(folder).items() if name.isdecimal()}
    expect(f"the files of a {what}", sorted(held), sorted(map(str, wanted)))
    for index, old in wanted.items():
        if old is None:
            expect(f"the key {index} of a {what} is new", held.get(str(index)) and key(held[str(index)]) not in map(key, before.values()), True)
        else:
            expect(f"the key {index} of a {what}", held.get(str(index)), before[str(old)])
    if next_keys:
        run(["rotate", folder], 0, f"keys {next_keys}\n")
    else:
        run(["setup", folder], 0, "keys 0 1\n")
    expect(f"the files behind a {what}", sorted(files(folder)), (next_keys or "0 1").split())


def try_stops(work):
    """A stop at each step, by calls of the system that are refused for want of room or of rights."""
    probe = [*"strace -f -qq -o /dev/null -e inject=unlink:error=EIO".split(), sys.executable, "-c", "pass"]
    try:
        can_trace = subprocess.run(probe, stdin=subprocess.DEVNULL, capture_output=True).returncode == 0
    except FileNotFoundError:
        can_trace = False
    if not can_trace:
        print("key_folder: skipped: a stop at each step, for want of an strace that may trace")
        return
    for number, stop in enumerate(STOPS):
        folder = os.path.join(work, f"stop{number}")
        os.mkdir(folder)
        try_stop(folder, *stop)


def main():
    work = tempfile.mkdtemp()
    try:
        for number, part in enumerate((try_life, try_layout, try_interrupted, try_end)):
            folder = os.path.join(work, str(number))
            os.mkdir(folder)
            part(folder)
        try_refusals(work)
        try_stops(work)
        try_closed_streams(work)
        try_closed(work)
    finally:
        shutil.rmtree(work)
    print(f"key_folder: {runs} runs, {len(wrong)} otherwise")
    return 1 if wrong else 0


sys.exit(main())
