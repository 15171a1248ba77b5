#!/bin/sh
# Prints what the catalog costs in each token that is told: by `ks talk`, pipelined over one connection, in microseconds of a core,
# for validations, logins by a token, and the version, which tells none; with no service, with few and with all that may be. All
# statuses are compared.
#
#     bench/catalog.sh [REQUESTS]    for each figure, by default 20,000
#
# The program is bin/ks of this repository; the environment's KS names another.
set -e
top=$(cd "$(dirname "$0")/.." && pwd)
# bin/ks may have to build the program first, and is a script that becomes it.
[ -n "$KS" ] || "$top/bin/ks" check < "$top/examples/check.txt" > /dev/null
exec python3 "$top/bench/catalog.py" "${KS:-$top/crates/ks/out/ks}" "${1:-20000}"
