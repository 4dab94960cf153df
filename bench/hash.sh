#!/usr/bin/env bash
# Times SHA-256 of 1, 3, 4, 6, 8 and 12 blocks of 64 KiB and of 256 KiB: `hash_equal_blocks` and `hash_blocks` of
# hash_lanes, `sha2` block after block, and OpenSSL's one block after another. It makes a temporary repository with a
# copy of the crate and a small program, proves that, builds it and runs it, which takes some minutes the first time.
# Each line has MB/s (10^6 bytes of blocks in a second of processor time), each the best of several turns, and the
# ratios of hash_equal_blocks to `sha2` and to OpenSSL. A word is handed on to `rt run`, as in
# `bench/hash.sh --cpu=x86-64-v3`.
set -euo pipefail

source "$(dirname "$(readlink -f "${BASH_SOURCE[0]}")")/common.sh"

new_program hash_bench hash_lanes sha2
cat >"$work/crates/hash_bench/src/main.rt" <<'END'
//! Times the digests of several blocks, by hash_lanes and by sha2 block after block.
#![tactic(auto)]

ghost use Rattle.std.specs.Prelude.{◌≡◌, ◌*◌, ◌≤◌, length};

use hash_lanes::{hash_blocks, hash_equal_blocks};
use sha2::{Digest, Sha256};
use std::process::ExitCode;
use std::time::{CpuClock, Duration};

/// The most blocks, and the bytes of the longest.
const MOST: usize = 12;

const LONGEST: usize = 262_144;

/// The bytes that one measure hashes, or up to one call fewer.
const WORK: usize = 6_291_456;

/// How many turns each of the three has, one after another, of which the best counts.
const TURNS: usize = 15;

fn main(rt: HostRuntime) -> ExitCode {
    match measure(&rt) {
        Some(()) => ExitCode::SUCCESS,
        None => {
            let _ = eprintln!(rt; "hash_bench: no memory, no clock or another digest");
            ExitCode::FAILURE
        }
    }
}

fn measure(rt: &HostRuntime) -> Option<()> {
    let mut bytes = vec![in rt.alloc(); 7u8; MOST * LONGEST].ok()?;
    for i in 0..bytes.len() {
        bytes[i] = (i % 251) as u8;
    }
    for size in [65_536usize, LONGEST] {
        for count in [1usize, 3, 4, 6, 8, 12] {
            let total = size.checked_mul(count)?;
            let blocks = bytes.get(..total)?;
            measure_blocks(rt, blocks, size, count)?;
        }
    }
    Some(())
}

/// Prints the best times of the turns over `count` blocks of `size` bytes.
fn measure_blocks(rt: &HostRuntime, bytes: &[u8], size: usize, count: usize) -> Option<()>
    requires { length bytes.now ≡ size * count }
{
    if count > MOST {
        return None;
    }
    let mut digests = [[0u8; 32]; MOST];
    let mut others = [[0u8; 32]; MOST];
    let rounds = WORK.checked_div(bytes.len())?;
    let mut best = [u64::MAX; 3];
    for _ in 0..TURNS {
        best[0] = best[0].min(time_equal(rt, bytes, size, &mut digests[..count], rounds)?);
        best[1] = best[1].min(time_apart(rt, bytes, size, &mut others[..count], rounds)?);
        if digests != others {
            return None;
        }
        best[2] = best[2].min(time_single(rt, bytes, size, &mut others[..count], rounds)?);
        if digests != others {
            return None;
        }
    }
    let total = rounds as u64 * bytes.len() as u64;
    let [equal, apart, single] = best;
    let equal = rate(total, equal)?;
    let apart = rate(total, apart)?;
    let single = rate(total, single)?;
    println!(rt; "{count} {size} {equal} {apart} {single}").ok()
}

/// MB/s, of so many bytes in so many nanoseconds.
fn rate(bytes: u64, nanoseconds: u64) -> Option<u64> {
    bytes.checked_mul(1000)?.checked_div(nanoseconds)
}

/// The nanoseconds since this moment of the thread's clock.
fn since(rt: &HostRuntime, from: Duration) -> Option<u64> {
    let time = rt.thread_cpu_time().ok()?.checked_sub(from)?;
    u64::try_from(time.as_nanos()).ok()
}

fn time_equal(rt: &HostRuntime, bytes: &[u8], size: usize, digests: &mut [[u8; 32]], rounds: usize) -> Option<u64>
    requires { length bytes.now ≡ size * length digests.old }
{
    let from = rt.thread_cpu_time().ok()?;
    for _ in 0..rounds {
        hash_equal_blocks(bytes, size, digests);
    }
    since(rt, from)
}

fn time_apart(rt: &HostRuntime, bytes: &[u8], size: usize, digests: &mut [[u8; 32]], rounds: usize) -> Option<u64>
    requires long { length bytes.now ≡ size * length digests.old }
    requires most { length digests.old ≤ 12 }
{
    let count = digests.len();
    let mut blocks = [bytes; MOST];
    for i in 0..count {
        let from = size * i;
        blocks[i] = &bytes[from..from + size];
    }
    let from = rt.thread_cpu_time().ok()?;
    for _ in 0..rounds {
        hash_blocks(&blocks[..count], digests);
    }
    since(rt, from)
}

fn time_single(rt: &HostRuntime, bytes: &[u8], size: usize, digests: &mut [[u8; 32]], rounds: usize) -> Option<u64>
    requires { length bytes.now ≡ size * length digests.old }
{
    let from = rt.thread_cpu_time().ok()?;
    for _ in 0..rounds {
        for i in 0..digests.len() {
            let from = size * i;
            digests[i] = Sha256::digest(&bytes[from..from + size]);
        }
    }
    since(rt, from)
}
END

run_program hash_bench "$@"

# MB/s of OpenSSL over messages of so many bytes, the best of what the file of its speeds has of them.
best() {
    awk -v bytes="$1" '$1 == bytes && $2 > best { best = $2 } END { printf "%.0f", best }' "$work/openssl"
}

speeds() {
    for bytes in 65536 262144; do
        openssl speed -mr -seconds 1 -bytes "$bytes" -evp sha256 2>/dev/null |
            awk -F: -v bytes="$bytes" '$1 == "+F" { print bytes, $NF / 1e6 }' >>"$work/openssl"
    done
}

# OpenSSL is timed before the program and after it, so that a load on the machine bears on both.
speeds
"$work/crates/hash_bench/out/hash_bench" >"$work/out"
speeds
echo "blocks   bytes  hash_equal_blocks  hash_blocks  sha2  OpenSSL  to sha2  to OpenSSL"
awk -v small="$(best 65536)" -v large="$(best 262144)" '{
    openssl = $2 == 65536 ? small : large
    printf "%6d %7d %18d %12d %5d %8d %8.2f %11.2f\n", $1, $2, $3, $4, $5, openssl, $3 / $5, $3 / openssl
}' "$work/out"
