#!/bin/sh
# Prints what it costs to keep the changes in a book: how many changes a second `ks serve` makes, one after the other on one connection
# and on four at once, beside Python's sqlite3 that inserts as many entries singly with `synchronous=FULL` on the same disk; how large
# the book and its log are afterwards; validations alone and with a change in a hundred; and how long it takes to open with 100,000 and
# with 1,000,000 entries, until the first answer, and in how much memory.
#
#     bench/keep.sh [SECONDS [OTHER]]     for each row, by default 10; OTHER is a program that keeps nothing, whose rows stand beside
#
# The program is bin/ks of this repository; the environment's KS names another. The disk is that of the environment's TMPDIR.
set -e
. "$(dirname "$0")/built.sh"

# The program itself, since bin/ks is a script that becomes it.
exec python3 "$top/bench/keep.py" "${KS:-$top/crates/ks/out/ks}" "${1:-10}" "${2-}"
