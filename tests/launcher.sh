#!/bin/sh
# Has bin/ks build a small tree by an `rt` that only waits, and compares what it says: each crate that it begins, and the chain
# of crates for which the program waited.
#
#     tests/launcher.sh
#
# The exit status is 1 where it says something else.
set -eu
top=$(CDPATH='' cd -- "$(dirname -- "$0")/.." && pwd)
work=$(mktemp -d)
trap 'rm -rf "$work"' EXIT INT TERM

# base, and on it quick and slow, which takes 2 seconds, and the program on both.
mkdir -p "$work/bin" "$work/kit" "$work/crates"
cp "$top/bin/ks" "$work/bin/ks"
echo 'Handles allowed: Threads.' >"$work/HANDLES"
printf 'base:\nquick: base\nslow: base\nks: quick slow\n' >"$work/crates.txt"
for crate in base quick slow ks; do
    mkdir -p "$work/crates/$crate/src"
    echo "// $crate" >"$work/crates/$crate/src/lib.rt"
done
cat >"$work/kit/rt" <<'RT'
#!/bin/sh
mkdir -p out/rlib
case $1:${PWD##*/} in
    lib:slow) sleep 2 ;;
    run:ks) printf '#!/bin/sh\necho "program $*"\n' >out/ks && chmod +x out/ks ;;
esac
RT
chmod +x "$work/kit/rt"

# said WANTED..: bin/ks ran, and said these lines, each a pattern.
said() {
    for wanted in "$@"; do
        grep -qx "$wanted" "$work/err" || {
            echo "launcher: no line is '$wanted', but:" >&2
            cat "$work/err" >&2
            exit 1
        }
    done
}

PATH=$work/kit:$PATH "$work/bin/ks" check >"$work/out" 2>"$work/err"
[ "$(cat "$work/out")" = 'program check' ]
said 'ks: proving 1 of 4: base' 'ks: proving 4 of 4: ks' \
    'ks: built in [0-9]* seconds, for which it waited for these crates, one behind the other:' \
    'ks: *[0-9]* seconds for base' \
    'ks: *[2-9] seconds for slow, begun [0-9]* seconds behind base' \
    'ks: *[0-9]* seconds for ks, begun [0-9]* seconds behind slow'
if grep -q 'for quick' "$work/err"; then
    echo 'launcher: the program did not wait for quick' >&2
    exit 1
fi

# What is built begins at once.
PATH=$work/kit:$PATH "$work/bin/ks" check >"$work/out" 2>"$work/err"
[ "$(cat "$work/out")" = 'program check' ]
[ ! -s "$work/err" ]
echo "launcher: a build and its chain"
