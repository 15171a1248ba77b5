#!/bin/sh
# Prints how long the crate ks_revoke takes to test a token that no event revokes, so that all eight things of its
# holder are looked up: among 1,000 and among 262,144 greatest moments, on one core and as the best of several runs
# in turn, for 64 tokens and for 1,024 that are tested over and over. Each thing of a token is drawn from those that
# events name. Then how long it takes to make room for an event of a new thing and to add it, among 1,000 and among
# 260,144, the mean of 2,000 that come somewhere among the first fifth of the things. The crate is measured from a program in a folder of its own, which goes afterwards; it is proved first,
# so a first run takes some minutes.
set -e
. "$(dirname "$0")/program.sh"

begin revoke_bench 'ks_base ks_revoke anyhow'
cat > src/main.rt <<'END'
//! Times 1,024,000 tests among as many greatest moments as the first word says, of as many tokens as the second does,
//! and then as many events more as the third says.
#![tactic(auto)]
ghost use Rattle.std.specs.Prelude.{◌≡◌, IfOk};

use ks_base::{EventRow, Holder, Id, Revoke};
use ks_revoke::{RevokeFault, Revoked};
use std::alloc::Global;
use std::env;
use std::time::CpuClock;

const TESTS: u64 = 1_024_000;

/// The n-th of at most 53,000 ids of 32 hex digits, in their order and far apart.
fn id(n: u64) -> Option<Id> {
    let mut text = [b'0'; 32];
    let mut rest = n.wrapping_mul(0x0000_d3c5_0f1e_2b47);
    for place in (0usize..16).rev() {
        text[place] = b"0123456789abcdef"[(rest % 16) as usize];
        rest /= 16;
    }
    Id::read(&text).ok()
}

fn audit(n: u64) -> [u8; 16] {
    let mut bytes = [0u8; 16];
    bytes[..8].copy_from_slice(&n.wrapping_mul(0x0000_d3c5_0f1e_2b47).to_be_bytes());
    bytes
}

/// The i-th of as many things, in their order: a fifth of them of each kind.
fn thing(i: u64, count: u64) -> Option<Revoke> {
    let part = count / 5 + 1;
    let n = i % part;
    match i / part {
        0 => Some(Revoke::Audit(audit(n))),
        1 => Some(Revoke::User(id(n)?)),
        2 => Some(Revoke::Project(id(n)?)),
        3 => Some(Revoke::Domain(id(n)?)),
        _ => Some(Revoke::Trust(id(n)?)),
    }
}

fn filled(alloc: Global, count: u64) -> Result<Revoked, RevokeFault>
    ensures { IfOk result (λ revoked. revoked.high ≡ 1000) }
{
    let mut revoked = Revoked::new(alloc, 3600);
    revoked.advance(1000);
    for i in 0..count {
        let Some(what) = thing(i, count) else {
            continue;
        };
        revoked.room(1)?;
        revoked.add(EventRow { what, moment: 1000 });
    }
    Ok(revoked)
}

/// Adds so many events of things that none names yet, somewhere among the tokens that events end.
fn add_more(revoked: &mut Revoked, count: u64, more: u64) -> Result<(), RevokeFault>
    requires { revoked.old.high ≡ 1000 }
{
    for i in 0..more {
        let mut bytes = audit(i.wrapping_mul(0x9e37_79b9_7f4a_7c15) % (count / 5 + 1));
        bytes[8..].copy_from_slice(&i.wrapping_add(1).to_be_bytes());
        revoked.room(1)?;
        revoked.add(EventRow {
            what: Revoke::Audit(bytes),
            moment: 1000,
        });
    }
    Ok(())
}

/// The n-th of the holders, of things that events name.
fn holder(n: u64, count: u64) -> Option<Holder> {
    let part = count / 5 + 1;
    let at = |k: u64| {
        n.wrapping_mul(0x9e37_79b9_7f4a_7c15)
            .wrapping_add(k.wrapping_mul(0xbf58_476d_1ce4_e5b9))
            % part
    };
    Some(Holder {
        audit: audit(at(1)),
        user: id(at(2))?,
        trustor: id(at(3)),
        trustee: id(at(4)),
        project: id(at(5)),
        trust: id(at(6)),
        user_domain: id(at(7)),
        scope_domain: id(at(8)),
    })
}

fn holders(alloc: Global, count: u64, tokens: u64) -> Result<Vec<Holder>, RevokeFault> {
    let mut all = Vec::new(alloc);
    for n in 0..tokens {
        if let Some(holder) = holder(n, count) {
            let _user = &holder.user;
            if all.push(holder).is_err() {
                return Err(RevokeFault::Memory);
            }
        }
    }
    Ok(all)
}

fn count_revoked(revoked: &Revoked, holders: &[Holder], rounds: u64) -> u64 {
    let mut count: u64 = 0;
    for _ in 0..rounds {
        for holder in holders {
            if revoked.test(holder, 1001) {
                count = count.wrapping_add(1);
            }
        }
    }
    count
}

fn count_lent(revoked: &Revoked) -> u64 {
    let mut count: u64 = 0;
    for _ in revoked.marks() {
        count = count.wrapping_add(1);
    }
    count
}

/// The number that the word is, or 0.
fn number(word: Option<String>) -> u64 {
    match word {
        Some(word) => word.as_str().parse::<u64>().unwrap_or(0),
        None => 0,
    }
}

fn main(rt: HostRuntime) -> anyhow::Result<()> {
    let alloc = rt.alloc();
    let mut args = env::args(&rt)?;
    let _program = args.next();
    let count = number(args.next());
    let tokens = number(args.next());
    let more = number(args.next());
    let Ok(mut revoked) = filled(alloc, count) else {
        return Ok(());
    };
    let Ok(holders) = holders(alloc, count, tokens) else {
        return Ok(());
    };
    let rounds = TESTS.checked_div(tokens).unwrap_or(0);
    let start = rt.process_cpu_time()?.as_nanos();
    let found = count_revoked(&revoked, holders.as_slice(), rounds);
    let end = rt.process_cpu_time()?.as_nanos();
    let lent = count_lent(&revoked);
    let adding = rt.process_cpu_time()?.as_nanos();
    if add_more(&mut revoked, count, more).is_err() {
        return Ok(());
    }
    let added = rt.process_cpu_time()?.as_nanos();
    let all = count_lent(&revoked);
    println!(rt; "{start} {end} {lent} {} {found} {adding} {added} {all}", holders.len())?;
    Ok(())
}
END
for function in filled add_more; do
    mkdir -p "proofs/$function"
    cat > "proofs/$function/Invariants.antt" <<END
use Rattle.std.proofs.Common.{◌≡◌}
use Rattle.revoke_bench.proofs.$function.Given as goal

abbrev pub invariant-loop-i : goal.invariant-loop-i
invariant-loop-i l = l.revoked.high ≡ 1000
END
done
run
program=$PWD/out/revoke_bench

# time_of N TOKENS: the nanoseconds of a test among N greatest moments; nothing where there are not as many, or where a
# token is revoked.
time_of() {
    $one "$program" "$1" "$2" 0 | awk -v n="$1" -v tokens="$2" \
        '$3 == n && $4 == tokens && $5 == 0 { printf "%.0f\n", ($2 - $1) / 1024000 }'
}
for tokens in 64 1024; do
    : > few
    : > many
    for _ in 1 2 3 4 5; do
        time_of 1000 $tokens >> few
        time_of 262144 $tokens >> many
    done
    if [ "$(cat few many | wc -l)" != 10 ]; then
        echo 'revoke: an event is missing, or a token is revoked' >&2
        exit 1
    fi
    echo "$tokens $(sort -n few | head -1) $(sort -n many | head -1)" | awk '{
        printf "a test of one of %d tokens: %d ns among 1,000 greatest moments, %d ns among 262,144; ", $1, $2, $3
        printf "%.1f times as long\n", $3 / $2
    }'
done

# add_time_of N: the microseconds in which an event of a new thing finds room among N others and is added.
add_time_of() {
    $one "$program" "$1" 1 2000 | awk -v n="$1" '$3 == n && $8 == n + 2000 { printf "%.2f\n", ($7 - $6) / 2000000 }'
}
: > few
: > many
for _ in 1 2 3 4 5; do
    add_time_of 1000 >> few
    add_time_of 260144 >> many
done
if [ "$(cat few many | wc -l)" != 10 ]; then
    echo 'revoke: an event is missing' >&2
    exit 1
fi
echo "an event added: $(sort -n few | head -1) microseconds among 1,000, $(sort -n many | head -1) among 260,144"
