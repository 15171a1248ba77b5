#!/bin/sh
# Prints how many tokens of about 200 characters a second are opened by the crate ks_fernet and by Fernet.decrypt
# of Python's package cryptography, on one core and as the best of several runs in turn. The crate is measured
# from a program in a folder of its own, which goes afterwards; it is proved first, so a first run takes some
# minutes.
set -e
. "$(dirname "$0")/program.sh"

# The tokens: 16 texts with their padding, since Fernet.decrypt asks for it. Their plain texts are of 80 to 95
# bytes, as payloads are.
cat > "$work/tokens.py" <<'END'
import random

from cryptography.fernet import Fernet

KEY = b"cw_0x689RpI-jtRR7oE8h_eQsKImvJapLeSbXpwF4e4="
rng = random.Random(3)
fernet = Fernet(KEY)
TOKENS = [fernet._encrypt_from_parts(rng.randbytes(80 + i), 1700000000 + i, rng.randbytes(16)) for i in range(16)]
END
cat > "$work/open.py" <<'END'
import time

from tokens import TOKENS, fernet

total = 0
start = time.process_time_ns()
for _ in range(1250):
    for token in TOKENS:
        total += len(fernet.decrypt(token))
end = time.process_time_ns()
print((end - start) / 20000, total / 20000)
END
(cd "$work" && python3 -c '
from tokens import KEY, TOKENS
print("const KEY: &[u8] = b\"%s\";" % KEY.decode())
print("const TOKENS: [&[u8]; 16] = [")
for token in TOKENS:
    print("    b\"%s\"," % token.decode())
print("];")
') > "$work/consts"

begin open_bench 'ks_base ks_fernet anyhow'
cat > src/main.rt <<'END'
//! Times opening 16 tokens 12,500 times.
#![tactic(auto)]

use ks_base::{Key, Memory};
use ks_fernet::{KeyText, OpenAnswer, answer, read_key};
use std::alloc::Global;
use std::time::CpuClock;

END
cat "$work/consts" - >> src/main.rt <<'END'

fn opened(alloc: Global, key: &Key, tokens: &[&[u8]], n: usize) -> Result<u64, Memory> {
    let mut total: u64 = 0;
    for _ in 0..n {
        for token in tokens {
            if let OpenAnswer::Yes { time: _, plain } = answer(alloc, key, token)? {
                total = total.wrapping_add(plain.as_slice().len() as u64);
            }
        }
    }
    Ok(total)
}

fn main(rt: HostRuntime) -> anyhow::Result<()> {
    let KeyText::Key(key) = read_key(KEY) else {
        return Ok(());
    };
    let start = rt.process_cpu_time()?.as_nanos();
    let Ok(total) = opened(rt.alloc(), &key, &TOKENS, 12500) else {
        return Ok(());
    };
    let end = rt.process_cpu_time()?.as_nanos();
    println!(rt; "{start} {end} {total}")?;
    Ok(())
}
END
run

# Each prints a time and how long the plain texts are on average.
ours() { $one out/open_bench | awk '{ print ($2 - $1) / 200000, $3 / 200000 }'; }
python() { (cd "$work" && $one python3 open.py); }
race 'the plain texts differ'
echo "$ours $python" | awk '{
    printf "tokens opened a second: ks_fernet %.0f, Fernet.decrypt %.0f; ", 1e9 / $1, 1e9 / $2
    printf "%.2f times its speed\n", $2 / $1
}'
