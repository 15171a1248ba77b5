#!/bin/sh
# Prints how many tokens a second `ks talk` validates on one connection where 10, 1,000 and 60,000 users stand, and how soon it gives
# its first answer there; how long it takes for 100,000 pipelined requests for the version document, and for the same where each
# request is sent once the response before it has come; and, where there is a valgrind, how many instructions a validation takes, and a
# request for the version among 1,000 and among 100,000, and where they go. All responses are compared.
#
#     bench/talk.sh [REQUESTS]
#
# The program is bin/ks of this repository; the environment's KS names another.
set -e
. "$(dirname "$0")/built.sh"
requests=${1:-100000}
work=$(mktemp -d)
trap 'rm -rf "$work"' EXIT

# The program itself, since bin/ks is a script that becomes it.
program=${KS:-$top/crates/ks/out/ks}

python3 "$top/bench/talk.py" make "$requests" > "$work/input"
python3 "$top/bench/talk.py" pipelined "$work/input" "$requests" "$program"
python3 "$top/bench/talk.py" in-turn "$requests" "$program"

for users in 10 1000 60000; do
    python3 "$top/bench/talk.py" opening "$users" "$work/opening.$users.json"
    echo "$users users"
    python3 "$top/bench/talk.py" validate "$requests" "$work/opening.$users.json" "$program"
done

if ! command -v valgrind > /dev/null; then
    echo 'the instructions are not counted, since there is no valgrind'
    exit 0
fi

# A copy of an opening file of which nothing is kept yet.
fresh() {
    place=$(mktemp -d -p "$work")
    cp "$1" "$place"
    echo "$place/${1##*/}"
}

# What N requests take, beside none.
instructions() {
    python3 "$top/bench/talk.py" make "$1" > "$work/input"
    valgrind --tool=callgrind --callgrind-out-file="$work/counts.$1" "$program" talk "$(fresh "$top/examples/o1.json")" keys \
        < "$work/input" > /dev/null 2> "$work/log"
    sed -n 's/^.*Collected : //p' "$work/log"
}

# What a validation takes where so many users stand.
validation() {
    for times in 100 1100; do
        python3 "$top/bench/talk.py" sealed "$times" "$work/input"
        valgrind --tool=callgrind --callgrind-out-file="$work/validations" "$program" talk "$(fresh "$work/opening.$1.json")" keys \
            < "$work/input" > /dev/null 2> "$work/log"
        sed -n 's/^.*Collected : //p' "$work/log" > "$work/taken.$times"
    done
    echo "instructions a validation where $1 users stand: $((($(cat "$work/taken.1100") - $(cat "$work/taken.100")) / 1000))"
}

validation 10
validation 1000
none=$(instructions 0)
few=$(instructions 1000)
many=$(instructions 100000)
echo "instructions a request among 1,000: $(((few - none) / 1000))"
echo "instructions a request among 100,000: $(((many - none) / 100000))"
callgrind_annotate "$work/counts.100000" 2> /dev/null | grep -E '^ *[0-9,]+ \(' | head -n 16
