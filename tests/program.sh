#!/bin/sh
# Runs the built program to each of its ends, and compares its status, what it writes, and the line that it says on the
# standard error.
#
#     tests/program.sh
#
# The program is bin/ks of this repository; the environment's KS names another. The exit status is 1 where a run ends
# otherwise.
set -eu
cd "$(dirname "$0")/.."
ks=${KS:-bin/ks}
umask 077
work=$(mktemp -d)
trap 'rm -rf "$work"' EXIT INT TERM
wrong=0
runs=0
copies=0

key=cw_0x689RpI-jtRR7oE8h_eQsKImvJapLeSbXpwF4e4=
usage='usage: ks check | ks talk FILE FOLDER | ks serve FILE FOLDER ADDRESS [--workers N] [--connections N] [--log FILE] | ks setup FOLDER | ks rotate FOLDER [--max N] | ks password [--rounds N] | ks drill START COUNT'

# is STATUS OUTPUT LINE: the run before ended so, with its status in $status.
is() {
    runs=$((runs + 1))
    printf "$2" >"$work/wanted"
    if [ "$status" != "$1" ] || ! cmp -s "$work/wanted" "$work/out" || [ "$(cat "$work/err")" != "$3" ]; then
        wrong=$((wrong + 1))
        echo "program: run $runs: status $status for $1, and on the standard error: $(cat "$work/err")" >&2
    fi
}

# run INPUT WORD..: the program on these bytes.
run() {
    input=$1
    shift
    status=0
    printf "$input" | "$ks" "$@" >"$work/out" 2>"$work/err" || status=$?
}

# serve WORD..: the program as a server.
serve() {
    status=0
    "$ks" serve "$@" </dev/null >"$work/out" 2>"$work/err" || status=$?
}

# fresh FILE: a copy of an opening file of which nothing is kept yet, in $fresh.
fresh() {
    copies=$((copies + 1))
    mkdir "$work/copy$copies"
    fresh=$work/copy$copies/${1##*/}
    cp "$1" "$fresh"
    chmod 600 "$fresh"
}

# Whole runs.
run "$key" check
is 0 '' ''
run "$key\\n1 a\\n2 b" check
is 0 'refused text\nrefused text\n' ''
fresh examples/o1.json
run '' talk "$fresh" keys
is 0 '' ''

# Words that are no command's, among them one that is not UTF-8 beside those of a command.
run "$key"
is 2 '' "$usage"
run "$key" chec
is 2 '' "$usage"
run "$key" check "$(printf '\377')"
is 2 '' "$usage"
run "$key" "$(printf '\377')" check
is 2 '' "$usage"
run '' talk o1.json "$(printf 'k\377')"
is 2 '' "$usage"
run '' talk o1.json
is 2 '' "$usage"

serve examples/o1.json keys
is 2 '' "$usage"
serve examples/o1.json keys 127.0.0.1:0 --workers 0
is 2 '' "$usage"
serve examples/o1.json keys 127.0.0.1:0 --connections 1000001
is 2 '' "$usage"

# Lines that are not in the grammar.
run '' check
is 6 '' 'ks: line 1 is not a Fernet key'
run "$key\\n1 a\\nx" check
is 6 'refused text\n' 'ks: line 3 is not a moment, one space and a token'
status=0
{ echo "$key" && yes '1 a' | head -n 1048576; } | "$ks" check >"$work/all" 2>"$work/err" || status=$?
tail -c 13 "$work/all" >"$work/out"
is 6 'refused text\n' 'ks: line 1048577 is behind the last that is read'

# Opening files and folders of keys that are refused: the line names the place.
run '' talk "$work/none.json" keys
is 3 '' "ks: $work/none.json: it could not be read"
printf '{"users":[{"id":"u","name":"ann"}]}' >"$work/o.json"
run '' talk "$work/o.json" keys
is 7 '' "ks: $work/o.json: users[0].domain_id: missing; an id of 1 to 64 of the characters 0-9 A-Z a-z _ - is wanted"
printf '{"keys":["%s"],"users":[{"id":"u","domain_id":"x","name":"ann"}]}' "$key" >"$work/o.json"
run '' talk "$work/o.json" keys
is 7 '' "ks: $work/o.json: users[0].domain_id: no domain has the id \"x\""
printf '{"users":[{"id":"u","domain_id":"default","name":"ann"}]}' >"$work/o.json"
run '' talk "$work/o.json" "$work/keys"
is 8 '' "ks: $work/keys: the key folder could not be read or written; if there is none yet, make it first"
mkdir "$work/keys"
run '' talk "$work/o.json" "$work/keys"
is 9 '' "ks: $work/keys: the key folder has no key"
printf 'x' >"$work/keys/5"
run '' talk "$work/o.json" "$work/keys"
is 9 '' "ks: $work/keys/5: not a Fernet key"

# What is no file is refused, and not waited for.
mkfifo "$work/fifo"
run '' talk "$work/fifo" keys
is 3 '' "ks: $work/fifo: it could not be read"
run '' talk /dev/zero keys
is 3 '' 'ks: /dev/zero: it could not be read'
mkdir "$work/pipes"
mkfifo "$work/pipes/0"
run '' talk "$work/o.json" "$work/pipes"
is 8 '' "ks: $work/pipes: the key folder could not be read or written; if there is none yet, make it first"

# A server that is refused does not say that it listens.
serve "$work/none.json" keys 127.0.0.1:0
is 3 '' "ks: $work/none.json: it could not be read"
serve "$work/o.json" "$work/keys" 127.0.0.1:0 --workers 1
is 9 '' "ks: $work/keys/5: not a Fernet key"

# It says what others may do with its files.
chmod 606 "$work/o.json"
chmod 602 "$work/keys/5"
serve "$work/o.json" "$work/keys" 127.0.0.1:0 --workers 1
is 9 '' "ks: $work/o.json: may be read and written by others (mode 0606)
ks: $work/keys/5: may be written by others (mode 0602)
ks: $work/keys/5: not a Fernet key"
chmod 600 "$work/o.json"
chmod 755 "$work/keys"
chmod 640 "$work/keys/5"
serve "$work/o.json" "$work/keys" 127.0.0.1:0 --workers 1
is 9 '' "ks: $work/keys: may be read by others (mode 0755)
ks: $work/keys/5: not a Fernet key"
printf '{"users":[{"id":"u","name":"ann"}]}' >"$work/o.json"
serve "$work/o.json" keys 127.0.0.1:0
is 7 '' "ks: $work/o.json: users[0].domain_id: missing; an id of 1 to 64 of the characters 0-9 A-Z a-z _ - is wanted"

# An address at which nobody can listen here.
fresh examples/o1.json
serve "$fresh" keys 192.0.2.1:5000
is 10 '' 'ks: 192.0.2.1:5000: Cannot assign requested address (os error 99)'

# One connection of one worker, at a port that the system chose.
runs=$((runs + 1))
fresh examples/o1.json
"$ks" serve "$fresh" keys 127.0.0.1:0 --workers 1 --connections 1 >"$work/out" 2>"$work/err" &
server=$!
port=
tries=0
while [ -z "$port" ] && [ "$tries" -lt 100 ]; do
    tries=$((tries + 1))
    sleep 0.1
    port=$(sed -n 's/^ks: listening on 127\.0\.0\.1:\([0-9]*\) with 1 worker$/\1/p' "$work/err")
done
answer=$(python3 -c '
import socket, sys
with socket.create_connection(("127.0.0.1", int(sys.argv[1]))) as link:
    link.sendall(b"GET /v3 HTTP/1.0\r\n\r\n")
    sys.stdout.buffer.write(link.makefile("rb").readline())
    link.makefile("rb").read()
' "$port" | tr -d '\r') || answer=none
status=0
wait "$server" || status=$?
if [ "$status" != 0 ] || [ "$answer" != 'HTTP/1.1 200 OK' ]; then
    wrong=$((wrong + 1))
    echo "program: run $runs: status $status, and the answer: $answer" >&2
fi

# An input that cannot be read, and an output that cannot be written.
status=0
"$ks" check </ >"$work/out" 2>"$work/err" || status=$?
is 3 '' 'ks: standard input could not be read'
status=0
fresh examples/o1.json
"$ks" talk "$fresh" keys </ >"$work/out" 2>"$work/err" || status=$?
is 3 '' 'ks: standard input could not be read'
: >"$work/out"
if [ -w /dev/full ]; then
    status=0
    printf '%s\n1 a\n' "$key" | "$ks" check >/dev/full 2>"$work/err" || status=$?
    is 4 '' 'ks: standard output could not be written'
    status=0
    "$ks" drill 0 1 >/dev/full 2>"$work/err" || status=$?
    is 4 '' 'ks: standard output could not be written'
    status=0
    fresh examples/o1.json
    printf 'GET /v3 HTTP/1.1\r\n\r\n' | "$ks" talk "$fresh" keys >/dev/full 2>"$work/err" || status=$?
    is 4 '' 'ks: standard output could not be written'
fi

# Standard streams that are closed. No file gets the number of one: what is said on the standard error stands in no log.
status=0
"$ks" check <&- >"$work/out" 2>"$work/err" || status=$?
is 3 '' 'ks: standard input could not be read'
: >"$work/out"
status=0
printf '%s\n1 a\n' "$key" | "$ks" check >&- 2>"$work/err" || status=$?
is 4 '' 'ks: standard output could not be written'
: >"$work/err"
status=0
fresh examples/o1.json
"$ks" serve "$fresh" keys 192.0.2.1:5000 --log "$work/log" </dev/null >/dev/null 2>&- || status=$?
cp "$work/log" "$work/out"
is 10 '' ''

echo "program: $runs runs, $wrong ended otherwise"
[ "$wrong" = 0 ]
