# What the scripts beside it that measure `ks` share; they read it in: the program, built. It is bin/ks of this repository; the
# environment's KS names another.

top=$(cd "$(dirname "$0")/.." && pwd)
ks=${KS:-$top/bin/ks}

if [ ! -x "$ks" ]; then
    echo "$(basename "$0" .sh): there is no program $ks" >&2
    exit 1
fi
# bin/ks may have to build the program first.
"$ks" check < "$top/examples/check.txt" > /dev/null
