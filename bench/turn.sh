#!/usr/bin/env bash
# Times turns of turn_lock, and beside them std's Mutex over the same value: 100,000 turns by one thread alone, and 100,000
# by each of two threads at once. A turn takes the value, counts it and gives it back. It makes a temporary repository with
# a copy of the crate and a small program, proves that, builds it and runs it, which takes some minutes the first time.
# Each line has the nanoseconds of a turn, the best and the middle one of seven rounds by the wall clock; between two
# threads it is the time of both divided by their 200,000 turns. A word is handed on to `rt run`.
set -euo pipefail

source "$(dirname "$(readlink -f "${BASH_SOURCE[0]}")")/common.sh"

new_program turn_bench turn_lock
cat >"$work/crates/turn_bench/src/main.rt" <<'END'
//! Times turns of a turn lock and of a Mutex, alone and between two threads.
#![tactic(auto)]

ghost use Rattle.std.specs.Prelude.{◌≡◌, ◌≤◌, ℕ};
ghost use Rattle.turn_lock.specs.Passes.{IsPassOf, parts_of};

use std::alloc::Global;
use std::process::ExitCode;
use std::rt::Clock;
use std::sync::{Mutex, Wait};
use std::thread;
use std::thread::Threads;
use std::time::Duration;
use turn_lock::{Pass, TurnLock, Turned};

/// The turns of one thread in one round.
const TURNS: u32 = 100_000;

const ROUNDS: usize = 7;

#[derive(Drop)]
struct Count {
    turns: u64,
}

impl Turned for Count {
    ghost Name = { ℕ };

    ghost name = { λ _. 0 };

    ghost turn = { λ count. count.turns };

    fn turns(&self) -> u64 {
        self.turns
    }
}

/// So many turns, fewer where the lock has no ticket left.
fn take_turns<R: Wait>(rt: &R, lock: &TurnLock<Count>, mut pass: Pass<Count>) -> Pass<Count>
    requires { IsPassOf lock.now pass }
    ensures { IsPassOf lock.now result × (parts_of result ≡ parts_of pass) }
{
    for _ in 0..TURNS {
        pass = take_turn(rt, lock, pass);
    }
    pass
}

fn take_turn<R: Wait>(rt: &R, lock: &TurnLock<Count>, pass: Pass<Count>) -> Pass<Count>
    requires { IsPassOf lock.now pass }
    ensures { IsPassOf lock.now result × (parts_of result ≡ parts_of pass) }
{
    match lock.take(rt, pass) {
        Ok(mut held) => {
            held.value.turns += 1;
            lock.give(held)
        }
        Err(pass) => pass,
    }
}

fn take_turns_by_two<R: Threads + Wait + Sync>(
    rt: &R,
    lock: &TurnLock<Count>,
    pass: Pass<Count>,
) -> Pass<Count>
    requires { IsPassOf lock.now pass × (2 ≤ parts_of pass) }
    ensures { IsPassOf lock.now result × (parts_of result ≡ parts_of pass) }
{
    let (one, other) = lock.split(pass, 1);
    let (one, other) = thread::join(
        rt,
        move ||
            requires { IsPassOf lock.now one }
            ensures { IsPassOf lock.entry.now result × (parts_of result ≡ parts_of one) }
        { take_turns(rt, lock, one) },
        move ||
            requires { IsPassOf lock.now other }
            ensures { IsPassOf lock.entry.now result × (parts_of result ≡ parts_of other) }
        { take_turns(rt, lock, other) },
    );
    lock.join(one, other)
}

fn lock_turns<R: Wait>(rt: &R, lock: &Mutex<Count>) {
    for _ in 0..TURNS {
        let mut count = lock.lock(rt);
        count.turns = count.turns.wrapping_add(1);
    }
}

fn since<R: Clock>(rt: &R, from: Duration) -> Option<u64> {
    let time = rt.monotonic().ok()?.checked_sub(from)?;
    u64::try_from(time.as_nanos()).ok()
}

/// The nanoseconds of each round, alone and between two threads.
#[derive(Drop)]
struct Times {
    alone: [u64; ROUNDS],
    by_two: [u64; ROUNDS],
}

fn time_lock<R: Threads + Wait + Sync + Clock>(rt: &R, alloc: Global) -> Option<Times> {
    let (lock, mut pass) = TurnLock::new(alloc, Count { turns: 0 }).ok()?;
    let mut alone = [0u64; ROUNDS];
    let mut by_two = [0u64; ROUNDS];
    for round in 0..ROUNDS {
        let from = rt.monotonic().ok()?;
        pass = take_turns(rt, &lock, pass);
        alone[round] = since(rt, from)?;
        let from = rt.monotonic().ok()?;
        pass = take_turns_by_two(rt, &lock, pass);
        by_two[round] = since(rt, from)?;
    }
    let count = lock.close(pass).ok()?;
    if count.turns != 3 * u64::from(TURNS) * ROUNDS as u64 {
        return None;
    }
    Some(Times { alone, by_two })
}

fn time_mutex<R: Threads + Wait + Sync + Clock>(rt: &R) -> Option<Times> {
    let lock = Mutex::new(Count { turns: 0 });
    let shared = &lock;
    let mut alone = [0u64; ROUNDS];
    let mut by_two = [0u64; ROUNDS];
    for round in 0..ROUNDS {
        let from = rt.monotonic().ok()?;
        lock_turns(rt, shared);
        alone[round] = since(rt, from)?;
        let from = rt.monotonic().ok()?;
        thread::join(rt, || lock_turns(rt, shared), || lock_turns(rt, shared));
        by_two[round] = since(rt, from)?;
    }
    Some(Times { alone, by_two })
}

/// The best and the middle of the rounds, of so many turns each.
fn best_and_middle(mut times: [u64; ROUNDS], turns: u32) -> Option<(u64, u64)> {
    times.sort_unstable();
    let best = times[0].checked_div(u64::from(turns))?;
    let middle = times[ROUNDS / 2].checked_div(u64::from(turns))?;
    Some((best, middle))
}

fn print(rt: &HostRuntime, name: &str, times: &Times) -> Option<()> {
    let (best, middle) = best_and_middle(times.alone, TURNS)?;
    println!(rt; "{name} alone {best} {middle}").ok()?;
    let (best, middle) = best_and_middle(times.by_two, 2 * TURNS)?;
    println!(rt; "{name} of-two {best} {middle}").ok()
}

fn main(rt: HostRuntime) -> ExitCode {
    let Some(lock) = time_lock(&rt, rt.alloc()) else {
        let _ = eprintln!(rt; "turn_bench: no memory, no clock or a turn lost");
        return ExitCode::FAILURE;
    };
    let Some(mutex) = time_mutex(&rt) else {
        let _ = eprintln!(rt; "turn_bench: no clock");
        return ExitCode::FAILURE;
    };
    if print(&rt, "turn_lock", &lock).is_none() || print(&rt, "Mutex", &mutex).is_none() {
        return ExitCode::FAILURE;
    }
    ExitCode::SUCCESS
}
END

mkdir -p "$work/crates/turn_bench/proofs/take_turns" "$work/crates/turn_bench/proofs/time_lock"
cat >"$work/crates/turn_bench/proofs/take_turns/Invariants.antt" <<'END'
use Rattle.std.proofs.Common.{◌≡◌}
use Rattle.turn_lock.specs.Passes.{IsPassOf, parts_of}
use Rattle.turn_bench.proofs.take_turns.Given as goal

abbrev pub invariant-loop : goal.invariant-loop
invariant-loop g l = IsPassOf l.initial.lock l.pass × (parts_of l.pass ≡ parts_of l.initial.pass)
END

cat >"$work/crates/turn_bench/proofs/time_lock/Invariants.antt" <<'END'
use Rattle.std.proofs.Common.{◌≡◌}
use Rattle.turn_lock.specs.Passes.{IsPassOf, parts_of}
use Rattle.turn_bench.proofs.time_lock.Given as goal

abbrev pub invariant-loop-round : goal.invariant-loop-round
invariant-loop-round g l = IsPassOf l.lock l.pass × (parts_of l.pass ≡ 65536)
END

run_program turn_bench "$@"

"$work/crates/turn_bench/out/turn_bench" >"$work/out"
echo "lock       threads  best  middle  (ns a turn)"
awk '{ printf "%-10s %7d %5d %7d\n", $1, $2 == "alone" ? 1 : 2, $3, $4 }' "$work/out"
