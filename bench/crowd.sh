#!/bin/sh
# Prints how `ks serve` with four workers answers thousands of kept connections over loopback: 2,000 clients that validate a token
# once a second each; the same beside 300 clients that send a head byte by byte, 300 that send a body so, and 50 that ask on and on
# and never read; how much memory is resident with 9,000 connections of which one in a hundred asks; how one client more than the
# descriptors fares, 1,000 times; and how many validations a second `wrk` gets over four connections, where it is there. The clients
# are written in Python and take a good part of the machine themselves.
#
#     bench/crowd.sh [SECONDS]      for each row, by default 30
#
# It needs 10,000 descriptors (`ulimit -n`). The program is bin/ks of this repository; the environment's KS names another.
set -e
. "$(dirname "$0")/built.sh"

exec python3 "$top/bench/crowd.py" "$ks" "${1:-30}"
