# What the scripts beside it share; they read it in. It is a program over some of the crates in a workspace of its
# own, which goes when the script ends, and a race of that program against Python.

top=$(cd "$(dirname "$0")/.." && pwd)
work=$(mktemp -d)
trap 'rm -rf "$work"' EXIT
one=
if command -v taskset > /dev/null; then one='taskset -c 0'; fi

# below NEEDS: the crates of the workspace among these, and all below them.
below() {
    awk -v needs="$1" '
        function visit(name,    words, count, i) {
            if (!(name in below) || seen[name]++) return
            count = split(below[name], words, " ")
            for (i = 1; i <= count; i++) visit(words[i])
            print name
        }
        !/^#/ { name = $1; sub(":", "", name); below[name] = substr($0, index($0, ":") + 1) }
        END { count = split(needs, words, " "); for (i = 1; i <= count; i++) visit(words[i]) }
    ' "$top/crates.txt"
}

# begin NAME NEEDS: begins a program that needs these crates and libraries, and goes to its folder, where src/main.rt
# is to be written.
begin() {
    name=$1
    needs=$2
    mkdir "$work/crates"
    : > "$work/crates.txt"
    cd "$work"
    rt new "crates/$name" start_io > /dev/null
    for crate in $(below "$needs"); do
        cp -r "$top/crates/$crate" "$work/crates/"
        grep "^$crate:" "$top/crates.txt" >> crates.txt
    done
    echo "$name: $needs" >> crates.txt
    cd "crates/$name"
    rm -rf src specs proofs stdin stdout args data
    mkdir src
}

# Proves, builds and runs the program; what it prints is the end of the file log.
run() {
    rt run > log 2>&1 || { tail -20 log; exit 1; }
}

# race FAULT: calls the functions ours and python in turn, each of which prints a time and what came out. It ends
# with this fault where different things came out; else the least times are $ours and $python.
race() {
    for _ in 1 2 3 4 5 6 7; do
        ours >> ours
        python >> python
    done
    if [ "$(cut -d' ' -f2 ours python | sort -u | wc -l)" != 1 ]; then
        echo "$(basename "$0" .sh): $1" >&2
        exit 1
    fi
    ours=$(sort -n ours | head -1 | cut -d' ' -f1)
    python=$(sort -n python | head -1 | cut -d' ' -f1)
}
