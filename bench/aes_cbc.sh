#!/bin/sh
# Prints how many MiB a second are sealed and opened in CBC, by the crate ks_aes_cbc and by plain C with
# tables of words. The crate is measured from a program in a folder of its own, which goes afterwards; it
# is proved first, so a first run takes some minutes.
set -e
. "$(dirname "$0")/program.sh"

${CC:-cc} -O2 -o "$work/aes_cbc" "$top/bench/aes_cbc.c"
"$work/aes_cbc"

begin aes_cbc_bench 'ks_aes_cbc anyhow'
cat > src/main.rt <<'END'
//! Times sealing and opening 200 times 1 MiB.
#![tactic(auto)]

use ks_aes_cbc::{cbc_open, cbc_seal};
use std::alloc::{AllocError, Global};
use std::time::CpuClock;

fn filled(alloc: Global, n: usize) -> Result<Vec<u8>, AllocError> {
    let mut v = Vec::with_capacity(alloc, n)?;
    for _ in 0..n {
        v.push(5u8)?;
    }
    Ok(v)
}

fn opened(alloc: Global, key: &[u8; 16], iv: &[u8; 16], sealed: &[u8], n: usize) -> Result<u64, AllocError> {
    let mut total: u64 = 0;
    for _ in 0..n {
        if cbc_open(alloc, key, iv, sealed)?.is_some() {
            total = total.wrapping_add(1);
        }
    }
    Ok(total)
}

fn sealed_times(alloc: Global, key: &[u8; 16], iv: &[u8; 16], plain: &[u8], n: usize) -> Result<u64, AllocError> {
    let mut total: u64 = 0;
    for _ in 0..n {
        total = total.wrapping_add(cbc_seal(alloc, key, iv, plain)?.len() as u64);
    }
    Ok(total)
}

fn main(rt: HostRuntime) -> anyhow::Result<()> {
    let key = [7u8; 16];
    let iv = [9u8; 16];
    let plain = filled(rt.alloc(), 1048575)?;
    let sealed = cbc_seal(rt.alloc(), &key, &iv, plain.as_slice())?;
    let start = rt.process_cpu_time()?.as_millis();
    let found = opened(rt.alloc(), &key, &iv, sealed.as_slice(), 200)?;
    let middle = rt.process_cpu_time()?.as_millis();
    let bytes = sealed_times(rt.alloc(), &key, &iv, plain.as_slice(), 200)?;
    let end = rt.process_cpu_time()?.as_millis();
    println!(rt; "{start} {middle} {end} {found} {bytes}")?;
    Ok(())
}
END
run
tail -1 log | awk '{ printf "ks_aes_cbc: seal %.1f MiB/s, open %.1f MiB/s\n", 200000 / ($3 - $2), 200000 / ($2 - $1) }'
