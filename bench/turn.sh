#!/bin/sh
# Prints how long it takes to take a turn of the crate ks_turn that nobody else wants and to give it back, beside a lock
# of std's Mutex; and how fast each passes on among four threads that hold it for a microsecond at a time, as the best
# of several runs. They are measured from a program in a folder of its own, which goes afterwards; it is proved first,
# so a first run takes some minutes.
set -e
. "$(dirname "$0")/program.sh"

begin turn_bench 'ks_machine ks_turn anyhow'
cat > src/main.rt <<'END'
//! Times turns beside a lock: uncontended, and with four threads that each hold for a microsecond.
#![tactic(auto)]

ghost use Rattle.std.specs.Prelude.{◌≡◌, ◌+◌, ◌≤◌};
ghost use Rattle.ks_turn.specs.Unnamed.{no_front};
ghost use Rattle.turn_bench.specs.Plain.{Stays};

use anyhow::Result;
use ks_turn::{First, Journaled, Pass, Turn};
use std::alloc::Global;
use std::marker::Brand;
use std::sync::{Mutex, Wait};
use std::thread;
use std::thread::Threads;
use std::time::{Clock, Instant};

const ROUNDS: u64 = 1_000_000;

const HOLDS: u64 = 20_000;

/// Words for which a front without changes stands.
#[derive(Drop)]
pub struct Words {
    pub words: [u64; 4],
}

impl Journaled for Words {
    ghost use Rattle.turn_bench.specs.Plain.{HasNone};

    ghost stands = { λ words. HasNone };

    ghost kept = { λ words. 0 };

    fn front(&self) -> (u64, u64) {
        (0, 0)
    }

    ghost keeps = { λ words f none. none.kept };
}

// One hold and one release.
fn pass_by<N: First, R: Wait>(turn: &Turn<Words, N>, rt: &R, pass: Pass<N>) -> Pass<N>
    requires { pass.turn ≡ turn.now }
    ensures { Stays pass result }
{
    let held = turn.hold(rt, pass);
    turn.release(held)
}

// The same, with work between.
fn work_by<N: First, R: Wait + Clock>(turn: &Turn<Words, N>, rt: &R, pass: Pass<N>) -> Pass<N>
    requires { pass.turn ≡ turn.now }
    ensures { Stays pass result }
{
    let held = turn.hold(rt, pass);
    work(rt);
    turn.release(held)
}

// Works for a microsecond.
fn work<R: Clock>(rt: &R) {
    if let Ok(start) = Instant::now(rt) {
        for _ in 0..10_000u32 {
            match start.elapsed(rt) {
                Ok(gone) if gone.as_nanos() < 1000 => (),
                _ => return,
            }
        }
    }
}

fn alone<N: First, R: Wait>(turn: &Turn<Words, N>, rt: &R, mut pass: Pass<N>) -> Pass<N>
    requires { pass.turn ≡ turn.now }
    ensures { Stays pass result }
{
    for _ in 0..ROUNDS {
        pass = pass_by(turn, rt, pass);
    }
    pass
}

fn turns<N: First, R: Wait + Clock>(turn: &Turn<Words, N>, rt: &R, mut pass: Pass<N>) -> Pass<N>
    requires { pass.turn ≡ turn.now }
    ensures { Stays pass result }
{
    for _ in 0..HOLDS {
        pass = work_by(turn, rt, pass);
    }
    pass
}

fn locks<R: Wait + Clock>(lock: &Mutex<Words>, rt: &R) {
    for _ in 0..HOLDS {
        let _guard = lock.lock(rt);
        work(rt);
    }
}

// The nanoseconds of a hold and a release that nobody contends for, and of each of the holds of four threads.
fn of_turn<N: First + Send + Sync, R: Wait + Threads + Clock + Sync>(
    rt: &R,
    alloc: Global,
) -> Result<Option<(u128, u128)>>
    requires { N.front ≡ no_front }
{
    let Ok((turn, pass)) = Turn::<Words, N>::new(alloc, Words { words: [0; 4] }) else {
        return Ok(None);
    };
    let start = Instant::now(rt)?;
    let pass = alone(&turn, rt, pass);
    let by_one = start.elapsed(rt)?.as_nanos();
    let shared = &turn;
    let start = Instant::now(rt)?;
    by_four(shared, rt, pass);
    let by_all = start.elapsed(rt)?.as_nanos();
    Ok(Some((by_one / 1_000_000, by_all / 80_000)))
}

fn by_four<N: First + Send + Sync, R: Wait + Threads + Clock + Sync>(
    turn: &Turn<Words, N>,
    rt: &R,
    pass: Pass<N>,
)
    requires own { pass.turn ≡ turn.now }
    requires weight { 4 ≤ pass.weight }
{
    let Ok((pass, second)) = turn.split(pass) else {
        unreachable!()
    };
    let Ok((pass, third)) = turn.split(pass) else {
        unreachable!()
    };
    let Ok((pass, fourth)) = turn.split(pass) else {
        unreachable!()
    };
    thread::join(
        rt,
        move ||
            requires { (pass.turn ≡ turn.now) × (second.turn ≡ turn.now) }
        { two(turn, rt, pass, second) },
        move ||
            requires { (third.turn ≡ turn.now) × (fourth.turn ≡ turn.now) }
        { two(turn, rt, third, fourth) },
    );
}

fn two<N: First + Send + Sync, R: Wait + Threads + Clock + Sync>(
    turn: &Turn<Words, N>,
    rt: &R,
    one: Pass<N>,
    other: Pass<N>,
)
    requires own { (one.turn ≡ turn.now) × (other.turn ≡ turn.now) }
{
    thread::join(
        rt,
        move ||
            requires { one.turn ≡ turn.now }
        {
            turns(turn, rt, one);
        },
        move ||
            requires { other.turn ≡ turn.now }
        {
            turns(turn, rt, other);
        },
    );
}

fn of_lock<R: Wait + Threads + Clock + Sync>(rt: &R) -> Result<(u128, u128)> {
    let lock = Mutex::new(Words { words: [0; 4] });
    let start = Instant::now(rt)?;
    for _ in 0..ROUNDS {
        let _guard = lock.lock(rt);
    }
    let by_one = start.elapsed(rt)?.as_nanos();
    let shared = &lock;
    let start = Instant::now(rt)?;
    thread::join(
        rt,
        move || {
            thread::join(rt, move || locks(shared, rt), move || locks(shared, rt));
        },
        move || {
            thread::join(rt, move || locks(shared, rt), move || locks(shared, rt));
        },
    );
    let by_all = start.elapsed(rt)?.as_nanos();
    Ok((by_one / 1_000_000, by_all / 80_000))
}

fn main(rt: HostRuntime) -> Result<()> {
    let alloc = rt.alloc();
    let Some((turn, turns)) = of_turn::<Brand, _>(&rt, alloc)? else {
        return Ok(());
    };
    let (lock, locks) = of_lock(&rt)?;
    println!(rt; "{turn} {turns} {lock} {locks}")?;
    Ok(())
}
END
mkdir -p specs proofs/pass_by proofs/work_by proofs/alone proofs/turns
cat > specs/Lib.antt <<'END'
pub mod Plain
END
cat > specs/Plain.antt <<'END'
-- Fronts without changes.
use Rattle.std.specs.Prelude.{◌≡◌, []}
use Rattle.ks_machine.specs.Fronts.{Front, IsSound}
use Rattle.ks_turn.specs.Passes.{Passed}

pub record HasNone (f : Front) : Type 0 where
  pub changes : f.changes ≡ []
  pub high : f.high ≡ 0
  pub kept : f.kept ≡ 0
  pub sound : IsSound f

-- a pass of the same turn, of the same weight
abbrev pub Stays : Passed → Passed → Type 0
Stays old new = (new.turn ≡ old.turn) × (new.weight ≡ old.weight)
END
cat > proofs/Lib.antt <<'END'
pub mod PlainLemmas
END
cat > proofs/PlainLemmas.antt <<'END'
-- A value without changes lands at what was held.
use Rattle.std.proofs.Common.{◌≡◌, sym, ap, subst, ◌∙◌}
use Rattle.ks_machine.specs.Fronts.{Front, ◌⊑◌}
use Rattle.ks_machine.proofs.FrontLemmas.{reflexive}
use Rattle.ks_turn.specs.Passes.{Lands, Passed, released}
use Rattle.turn_bench.specs.Plain.{HasNone, Stays}
use Rattle.turn_bench.specs.declared.Words.{Words}

abbrev Means : Words → Front → Type 0
Means words f = HasNone f

pub lands : (words : Words) (f : Front) → HasNone f → (g : Front) × Lands Means words f g
lands words f none = (
  f,
  record {
    later = reflexive f;
    stands = none;
    alone = λ g later theirs. λ i. record {
      opening = sym later.opening i;
      changes = (theirs.changes ∙ sym none.changes) i;
      high = (theirs.high ∙ sym none.high) i;
      kept = (theirs.kept ∙ sym none.kept) i;
    };
  },
)

pub stays : (old held result : Passed) → held ≡ record old { seen = held.seen } → HasNone held.seen
    → ((f : Front) → held.seen ⊑ f → HasNone f → result ≡ released held f) → Stays old result
stays old held result same none is =
    subst (λ (p : Passed). Stays old p) (sym (is held.seen (reflexive held.seen) none)) (ap (λ (p : Passed). p.turn) same, ap (λ (p : Passed). p.weight) same)
END
for name in pass_by work_by; do
    cat > "proofs/$name/Answers.antt" <<END
use Rattle.turn_bench.proofs.PlainLemmas.{lands, stays}
use Rattle.turn_bench.proofs.$name.Goals as goal

pub release-requires-clause-lands : goal.release-requires-clause-lands
release-requires-clause-lands g c = lands _ _ c.hold-held.ensures.stands

pub returns : goal.returns
returns g c = stays c.args.pass c.hold-held.result.pass c.release.result c.hold-held.ensures.pass c.hold-held.ensures.stands c.release.ensures
END
done
for name in alone turns; do
    cat > "proofs/$name/Invariants.antt" <<END
use Rattle.turn_bench.specs.Plain.{Stays}
use Rattle.turn_bench.proofs.$name.Given as goal

abbrev pub invariant-loop : goal.invariant-loop
invariant-loop g l = Stays l.fn.pass l.pass
END
done
run
program=$PWD/out/turn_bench

# Each run prints nanoseconds: a hold and a release of the turn, one of the holds of four threads, and the same of the
# lock.
for _ in 1 2 3 4 5 6 7 8 9; do
    "$program" >> times
done
least() { cut -d' ' -f"$1" times | sort -n | head -1; }
echo "$(least 1) $(least 2) $(least 3) $(least 4)" | awk '{
    printf "nobody else wants it: the turn %d ns, the lock %d ns\n", $1, $3
    printf "four threads hold it for a microsecond: the turn %d ns a hold, the lock %d ns; ", $2, $4
    printf "%.2f times its rate\n", $4 / $2
}'
