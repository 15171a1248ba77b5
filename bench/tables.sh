#!/bin/sh
# Prints what requests cost among few and among many rows: by `ks talk`, pipelined over one connection, in microseconds of a core, for
# validations, logins by name, users made, found by name and deleted, grants made and listed by their user and by their project, and
# projects deleted; how long the opening takes; and each figure beside that among the fewest rows. All statuses are compared.
#
#     bench/tables.sh [REQUESTS]    for each figure, by default 500
#
# The program is bin/ks of this repository; the environment's KS names another.
set -e
top=$(cd "$(dirname "$0")/.." && pwd)
# bin/ks may have to build the program first, and is a script that becomes it.
[ -n "$KS" ] || "$top/bin/ks" check < "$top/examples/check.txt" > /dev/null
exec python3 "$top/bench/tables.py" "${KS:-$top/crates/ks/out/ks}" "${1:-500}"
