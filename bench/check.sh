#!/bin/sh
# Prints how many tokens a second `ks check` answers, beside a plain Python program that does the same work, on
# one core; and how much memory it takes for 100,000 and for 1,000,000 lines. The answers of both are compared.
#
#     bench/check.sh [LINES [RUNS]]
#
# The program is bin/ks of this repository; the environment's KS names another.
set -e
top=$(cd "$(dirname "$0")/.." && pwd)
ks=${KS:-$top/bin/ks}
work=$(mktemp -d)
trap 'rm -rf "$work"' EXIT
one=
if command -v taskset > /dev/null; then one='taskset -c 0'; fi

if [ ! -x "$ks" ]; then
    echo "check: there is no program $ks"
    exit 1
fi
# bin/ks may have to build the program first.
"$ks" check < /dev/null > /dev/null 2>&1 || true

python3 "$top/bench/check.py" make "${1:-100000}" > "$work/lines"
$one python3 "$top/bench/check.py" compare "$work/lines" "${2:-5}" "$ks"

if ! /usr/bin/time -f %M true 2> /dev/null; then
    echo 'the memory is not measured, since there is no GNU time'
    exit 0
fi
for lines in 100000 1000000; do
    python3 "$top/bench/check.py" make "$lines" > "$work/lines"
    /usr/bin/time -f %M -o "$work/memory" "$ks" check < "$work/lines" > /dev/null
    echo "most memory for $lines lines: $(tail -1 "$work/memory") KiB"
done
