#!/bin/sh
# Prints how long a key of 10,000 rounds of PBKDF2 takes the crate ks_hmac and Python's hashlib, on one core
# and as the best of several runs in turn. The crate is measured from a program in a folder of its own, which
# goes afterwards; it is proved first, so a first run takes some minutes.
set -e
. "$(dirname "$0")/program.sh"

cat > "$work/derive.py" <<'END'
import hashlib
import time

total = 0
start = time.process_time_ns()
for i in range(10):
    key = hashlib.pbkdf2_hmac("sha256", b"correct horse battery staple", bytes([i]) * 16, 10000)
    total += int.from_bytes(key[:8], "big")
end = time.process_time_ns()
print(end - start, total % 2**64)
END

begin derive_bench 'ks_hmac anyhow'
cat > src/main.rt <<'END'
//! Times 10 keys of 10,000 rounds.
#![tactic(auto)]

use ks_hmac::pbkdf2;
use std::time::CpuClock;

fn derived() -> u64 {
    let mut total: u64 = 0;
    for i in 0u8..10 {
        let key = pbkdf2(b"correct horse battery staple", &[i; 16], 10000);
        if let Some((first, _rest)) = key.split_first_chunk::<8>() {
            total = total.wrapping_add(u64::from_be_bytes(*first));
        }
    }
    total
}

fn main(rt: HostRuntime) -> anyhow::Result<()> {
    let start = rt.process_cpu_time()?.as_nanos();
    let total = derived();
    let end = rt.process_cpu_time()?.as_nanos();
    println!(rt; "{start} {end} {total}")?;
    Ok(())
}
END
run

# Each prints a time and what the keys add up to.
ours() { $one out/derive_bench | awk '{ printf "%.0f %s\n", $2 - $1, $3 }'; }
python() { $one python3 "$work/derive.py"; }
race 'the keys differ'
echo "$ours $python" | awk '{
    printf "10,000 rounds: ks_hmac %.2f ms, hashlib %.2f ms; %.2f times its speed\n", $1 / 1e7, $2 / 1e7, $2 / $1
}'
