#!/bin/sh
# Prints how many requests a second `ks serve` answers over loopback with 1 and with 4 workers, each connection kept: for the version
# document, for validations of 1,000 different tokens, one after the other and 16 sent at once, for logins with 10,000 rounds, and for
# validations of which each hundredth request is a change; with the cores that the server had for it, the time that half of the
# responses and all but a hundredth of them take at most, and the memory that is resident then. There are as many connections as
# workers, and in one row 16 times as many. The load is `wrk`, where it is there, else a client in Python for each connection, which
# takes a good part of the machine itself.
#
#     bench/serve.sh [SECONDS [OTHER]]      for each row, by default 10; OTHER is another program, whose rows stand beside
#
# The program is bin/ks of this repository; the environment's KS names another.
set -e
. "$(dirname "$0")/built.sh"

exec python3 "$top/bench/serve.py" "$ks" "${1:-10}" ${2:+"$2"}
