#!/bin/sh
# Prints how long a login by a password and one by an application credential take, one after the other on one connection, among 10 and
# among 65,536 credentials, with a single round of derivation; each row twice, in turn. It takes `wrk`.
#
#     bench/credentials.sh [SECONDS]     for each row, by default 5
#
# The program is bin/ks of this repository; the environment's KS names another.
set -e
. "$(dirname "$0")/built.sh"

# The program itself, since bin/ks is a script that becomes it.
exec python3 "$top/bench/credentials.py" "${KS:-$top/crates/ks/out/ks}" "${1:-5}"
