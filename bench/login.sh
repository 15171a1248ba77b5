#!/bin/sh
# Prints how many instructions the crate ks_shape takes to read the body of a login of 189 bytes, and where they go,
# counted by valgrind's callgrind over 1,000 and over 11,000 bodies. The crate is measured from a program in a
# folder of its own, which goes afterwards; it is proved first, so a first run takes some minutes.
set -e
. "$(dirname "$0")/program.sh"

begin login_bench 'ks_base ks_shape anyhow'
cat > src/main.rt <<'END'
//! Reads the body of a login as often as the first word says.
#![tactic(auto)]

use ks_shape::{Form, read_body};
use std::alloc::Global;
use std::env;

const BODY: &[u8] = br#"{"auth":{"identity":{"methods":["password"],"password":{"user":{"domain":{"id":"default"},"name":"ann","password":"secret"}}},"scope":{"project":{"domain":{"id":"default"},"name":"demo"}}}}"#;

fn bodies_read(alloc: Global, n: u32) -> u32 {
    let mut count: u32 = 0;
    for _ in 0..n {
        if read_body(alloc, Form::Login, BODY).is_ok() {
            count = count.wrapping_add(1);
        }
    }
    count
}

fn main(rt: HostRuntime) -> anyhow::Result<()> {
    let alloc = rt.alloc();
    let mut args = env::args(&rt)?;
    let _program = args.next();
    let n = match args.next() {
        Some(word) => word.as_str().parse::<u32>().unwrap_or(0),
        None => 0,
    };
    let count = bodies_read(alloc, n);
    println!(rt; "{count}")?;
    Ok(())
}
END
run
program=$PWD/out/login_bench

# count N: the instructions of a run over N bodies.
count() {
    valgrind --tool=callgrind --callgrind-out-file="$work/counts.$1" "$program" "$1" 2>&1 > "$work/said.$1" \
        | sed -n 's/.*Collected : //p'
    [ "$(cat "$work/said.$1")" = "$1" ] || { echo "login: not all bodies were read" >&2; exit 1; }
}

few=$(count 1000)
many=$(count 11000)
echo "instructions for a body of a login: $(((many - few) / 10000))"
callgrind_annotate "$work/counts.11000" 2> /dev/null | grep -E '^ *[0-9,]+ \(' | head -n 16
