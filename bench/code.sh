#!/usr/bin/env bash
# Times `encode` of a stripe of 1 MiB, and `rebuild` of as many blocks as the set has of parity, its first ones, from the
# others, for sets of 4, 8 and 16 drives of which half are parity. Beside it stands the same work by ISA-L, in the same run,
# where it is installed (Debian: apt-get install libisal-dev); both must give the same bytes. It makes a temporary
# repository with copies of the crates and of a small program, proves that, builds it and runs it, which takes some minutes
# the first time. It prints MB/s of the stripe (MB = 10^6 bytes) by the processor time of the mean of 50 calls. With a
# number: the mean of that many.
set -euo pipefail

source "$(dirname "$(readlink -f "${BASH_SOURCE[0]}")")/common.sh"
rounds="${1:-50}"
[[ "$rounds" =~ ^[1-9][0-9]{0,3}$ ]] || fail 2 "the number of calls is 1 to 9999"

new_program code_bench gf256 drive_base poly_code
mkdir "$work/crates/code_bench/proofs"
cat >"$work/crates/code_bench/src/main.rt" <<'END'
//! Times `encode` and `rebuild` of stripes of 1 MiB.
#![tactic(auto)]

ghost use Rattle.std.specs.Prelude.{◌≡◌, ◌≢◌, ℕ, ◌+◌, ◌*◌, ◌<◌, ◌≤◌, All, IsTrue, false, length, slice_index};
ghost use Rattle.drive_base.specs.Plan.{data_drives};
ghost use Rattle.poly_code.specs.Codeword.{AreDistinct};

use drive_base::SetPlan;
use poly_code::{encode, rebuild};
use std::alloc::{AllocError, Global};
use std::process::ExitCode;
use std::time::{CpuClock, Duration};

const ROUNDS: u32 = 50;

const STRIPE: usize = 1_048_576;

static ROWS: [u8; 16] = [0, 1, 2, 3, 4, 5, 6, 7, 8, 9, 10, 11, 12, 13, 14, 15];

fn main(rt: HostRuntime) -> ExitCode {
    for parity in [2, 4, 8] {
        if measure(&rt, parity).is_none() {
            let _ = eprintln!(rt; "code_bench: a call failed");
            return ExitCode::FAILURE;
        }
    }
    ExitCode::SUCCESS
}

/// Times a set of twice as many drives as it has of parity.
fn measure(rt: &HostRuntime, parity: u8) -> Option<()>
    requires some { 2 ≤ parity }
    requires few { parity ≤ 8 }
{
    let set = SetPlan::new([0; 16], parity + parity, parity);
    let width = STRIPE / parity as usize;
    let body = body_of(rt.alloc()).ok()?;
    let mut made = vec![in rt.alloc(); 0; STRIPE].ok()?;
    let encoding = time_encode(rt, set, body.as_slice(), width, &mut made)?;
    report(rt, "encode", parity, encoding, digest(made.as_slice()))?;
    let mut back = vec![in rt.alloc(); 0; STRIPE].ok()?;
    let rebuilding = time_rebuild(rt, set, made.as_slice(), width, &mut back)?;
    if back.as_slice() != body.as_slice() {
        return None;
    }
    report(rt, "rebuild", parity, rebuilding, digest(back.as_slice()))
}

fn body_of(alloc: Global) -> Result<Vec<u8>, AllocError> {
    let mut body = Vec::new(alloc);
    let mut state = 1u32;
    for _ in 0..STRIPE {
        state = state.wrapping_mul(1_664_525).wrapping_add(1_013_904_223);
        body.push((state >> 24) as u8)?;
    }
    Ok(body)
}

fn time_encode(rt: &HostRuntime, set: SetPlan, body: &[u8], width: usize, made: &mut [u8]) -> Option<Duration>
    requires { width ≤ 1048576 }
{
    let from = rt.thread_cpu_time().ok()?;
    for _ in 0..ROUNDS {
        if !is_encoded(set, body, width, made) {
            return None;
        }
    }
    rt.thread_cpu_time().ok()?.checked_sub(from)
}

fn is_encoded(set: SetPlan, blocks: &[u8], width: usize, out: &mut [u8]) -> bool
    requires { width ≤ 1048576 }
{
    if blocks.len() != set.read_quorum() as usize * width || out.len() != set.parity as usize * width {
        return false;
    }
    encode(set, blocks, out);
    true
}

/// Rebuilds the first blocks from the last.
fn time_rebuild(rt: &HostRuntime, set: SetPlan, have: &[u8], width: usize, back: &mut [u8]) -> Option<Duration>
    requires { width ≤ 1048576 }
{
    let from = rt.thread_cpu_time().ok()?;
    for _ in 0..ROUNDS {
        for which in 0..set.parity {
            let place = which as usize * width;
            if place + width > back.len() {
                return None;
            }
            if !is_rebuilt(set, have, which, &mut back[place..place + width]) {
                return None;
            }
        }
    }
    rt.thread_cpu_time().ok()?.checked_sub(from)
}

fn is_rebuilt(set: SetPlan, have: &[u8], which: u8, out: &mut [u8]) -> bool {
    let rows = &ROWS[set.parity as usize..set.drives as usize];
    if !are_below(rows, set.drives) || !are_distinct(rows) || out.len() > STRIPE {
        return false;
    }
    if rows.len() != set.read_quorum() as usize || have.len() != rows.len() * out.len() || which >= set.drives {
        return false;
    }
    rebuild(set, rows, have, which, out);
    true
}

fn are_below(rows: &[u8], drives: u8) -> bool
    ensures { IsTrue result → All (λ row. row < drives) rows.now }
{
    rows.iter().all(|row| *row < drives)
}

fn are_distinct(rows: &[u8]) -> bool
    ensures { IsTrue result → AreDistinct rows.now }
{
    for index in 0..rows.len() {
        if is_among(&rows[..index], rows[index]) {
            return false;
        }
    }
    true
}

fn is_among(rows: &[u8], row: u8) -> bool
    ensures { result ≡ false → (i : ℕ) → i < length rows.now → slice_index rows.now i ≢ row }
{
    for other in rows {
        if *other == row {
            return true;
        }
    }
    false
}

fn digest(bytes: &[u8]) -> u32 {
    let mut digest = 0u32;
    for byte in bytes {
        digest = digest.wrapping_mul(31).wrapping_add(*byte as u32);
    }
    digest
}

fn report(rt: &HostRuntime, name: &str, parity: u8, time: Duration, digest: u32) -> Option<()> {
    let nanoseconds = time.as_nanos() / ROUNDS as u128;
    let rate = (STRIPE as u128 * 1000).checked_div(nanoseconds)?;
    println!(rt; "{name} {parity} {rate} {digest}").ok()
}
END
sed -i "s/^const ROUNDS: u32 = 50;/const ROUNDS: u32 = $rounds;/" "$work/crates/code_bench/src/main.rt"

# The proofs that the tests of lengths and rows suffice for the two calls.
proofs="$work/crates/code_bench/proofs"
echo >"$proofs/Lib.antt"
mkdir -p "$proofs/is_encoded" "$proofs/are_distinct" "$proofs/is_among"
cat >"$proofs/is_encoded/Answers.antt" <<'END'
use Rattle.std.proofs.Common.{◌≡◌, ◌*◌, ◌∙◌, ap, ℕ, length, arith}
use Rattle.code_bench.proofs.is_encoded.Goals as goal

pub encode-requires : goal.encode-requires
encode-requires c =
    let long : length c.args.blocks.now ≡ c.read_quorum.result * c.args.width = omega arith in
    (c.args.width, (long ∙ ap (λ d. d * c.args.width) c.read_quorum.ensures.quorum, omega arith))
END
cat >"$proofs/is_among/Invariants.antt" <<'END'
use Rattle.std.proofs.Common.{◌≢◌, ◌<◌, ℕ, get_or}
use Rattle.code_bench.proofs.is_among.Given as goal

abbrev pub invariant-loop-other : goal.invariant-loop-other
invariant-loop-other l = (i : ℕ) → i < l.other-index → get_or l.rows i 0 ≢ l.row
END
cat >"$proofs/are_distinct/Invariants.antt" <<'END'
use Rattle.std.proofs.Common.{◌≢◌, ◌<◌, ℕ, get_or}
use Rattle.code_bench.proofs.are_distinct.Given as goal

abbrev pub invariant-loop-index : goal.invariant-loop-index
invariant-loop-index l = (i j : ℕ) → i < j → j < l.index → get_or l.rows i 0 ≢ get_or l.rows j 0
END

run_program code_bench

if ! cc -O2 -o "$work/isal" "$top/bench/code_isal.c" -lisal 2>"$work/cc.log" || ! "$work/isal" "$rounds" >"$work/beside"; then
    echo "code.sh: ISA-L is not there (apt-get install libisal-dev), so nothing stands beside" >&2
    : >"$work/beside"
fi
awk 'FILENAME == ARGV[1] { rate[$1, $2] = $3; digest[$1, $2] = $4; next }
    $1 == "encode" || $1 == "rebuild" {
        line = sprintf("%-7s N=%-2d P=%d %6d MB/s", $1, 2 * $2, $2, $3)
        if (($1, $2) in rate) line = line sprintf("   ISA-L %6d MB/s, %.2f of it", rate[$1, $2], $3 / rate[$1, $2])
        print line
        if (($1, $2) in rate && digest[$1, $2] != $4) { print "code.sh: the bytes differ" > "/dev/stderr"; failed = 1 }
    }
    END { exit failed }' "$work/beside" "$work/out"
