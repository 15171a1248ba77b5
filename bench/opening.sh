#!/bin/sh
# Prints how long the crate ks_setup takes to read an opening file of 60,000 users without passwords, and in how much
# memory, beside the size of the file. The crate is measured from a program in a folder of its own, which goes
# afterwards; it is proved first, so a first run takes some minutes.
set -e
. "$(dirname "$0")/program.sh"

python3 - > "$work/opening.json" <<'END'
import json

users = [{"id": f"u{n:032x}", "domain_id": "default", "name": f"user {n} ".ljust(160, "x"), "enabled": True}
         for n in range(60000)]
print(json.dumps({"users": users, "keys": ["cw_0x689RpI-jtRR7oE8h_eQsKImvJapLeSbXpwF4e4="]}), end="")
END

begin opening_bench 'ks_base ks_outside ks_setup anyhow'
cat > src/main.rt <<'END'
//! Reads the opening file on its standard input, and prints how many users it has.
#![tactic(auto)]

use ks_base::Memory;
use ks_outside::MemoryDesk;
use ks_setup::read_opening;
use std::alloc::Global;
use std::io::Read;

fn users_in(alloc: Global, text: &[u8]) -> Result<Option<usize>, Memory> {
    let mut desk = MemoryDesk::new(alloc, Vec::new(alloc), &[], &[], &[], &[])?;
    match read_opening(alloc, text, &[], &mut desk) {
        Ok(opening) => Ok(Some(opening.users.as_slice().len())),
        Err(_) => Ok(None),
    }
}

fn main(rt: HostRuntime) -> anyhow::Result<()> {
    let alloc = rt.alloc();
    let mut text = Vec::new(alloc);
    let _ = rt.stdin().read_to_end(&mut text)?;
    match users_in(alloc, text.as_slice()) {
        Ok(Some(users)) => println!(rt; "{users}")?,
        Ok(None) => println!(rt; "refused")?,
        Err(_) => println!(rt; "no memory")?,
    }
    Ok(())
}
END
run
python3 - "$PWD/out/opening_bench" "$work/opening.json" <<'END'
import os
import resource
import subprocess
import sys

program, file = sys.argv[1:]
best = None
for _ in range(3):
    before = resource.getrusage(resource.RUSAGE_CHILDREN).ru_utime
    with open(file) as text:
        said = subprocess.run([program], stdin=text, capture_output=True, check=True).stdout
    assert said == b"60000\n", said
    took = resource.getrusage(resource.RUSAGE_CHILDREN).ru_utime - before
    best = took if best is None else min(best, took)
size = os.path.getsize(file)
most = resource.getrusage(resource.RUSAGE_CHILDREN).ru_maxrss * 1024
print(f"a file of {size} bytes: {best:.2f} s, {most / size:.1f} times its size of memory")
END
