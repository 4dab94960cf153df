#!/usr/bin/env bash
# Times `read_complete` of s3_docs over a document of 10,000 parts, as the AWS SDKs write it, beside a plain copy of its
# bytes one by one in the same run. It makes a temporary repository with a copy of the crate and a small program, proves
# that, builds it and runs it, which takes some minutes the first time. The line has the document's bytes, MB/s of both
# (10^6 bytes in a second of processor time, each the best of several turns) and how many times as long the reading
# takes; above 20 times the script fails. A word is handed on to `rt run`, as in `bench/docs.sh --cpu=x86-64-v3`.
set -euo pipefail

source "$(dirname "$(readlink -f "${BASH_SOURCE[0]}")")/common.sh"

new_program docs_bench s3_docs call_types
cat >"$work/crates/docs_bench/src/main.rt" <<'END_OF_PROGRAM'
//! Times the reading of a long CompleteMultipartUpload.
#![tactic(auto)]

ghost use Rattle.std.specs.Prelude.{◌≡◌, length};

use s3_docs::read_complete;
use std::fmt::Write;
use std::process::ExitCode;
use std::time::{CpuClock, Duration};

/// The parts of the document.
const PARTS: u32 = 10_000;

/// How many turns both have, one after the other, of which the best counts, and the rounds of a turn.
const TURNS: usize = 15;

const ROUNDS: usize = 4;

fn main(rt: HostRuntime) -> ExitCode {
    match measure(&rt) {
        Some(()) => ExitCode::SUCCESS,
        None => {
            let _ = eprintln!(rt; "docs_bench: no memory, no clock or another answer");
            ExitCode::FAILURE
        }
    }
}

fn measure(rt: &HostRuntime) -> Option<()> {
    let document = document(rt).ok()?;
    let bytes = document.as_bytes();
    let mut copy = vec![in rt.alloc(); 0u8; bytes.len()].ok()?;
    let mut best = [u64::MAX; 2];
    for _ in 0..TURNS {
        best[0] = best[0].min(time_read(rt, bytes)?);
        best[1] = best[1].min(time_copy(rt, bytes, &mut copy)?);
    }
    let [read, copied] = best;
    let length = bytes.len();
    println!(rt; "{length} {read} {copied}").ok()
}

/// The document, with part numbers from 1 on.
fn document(rt: &HostRuntime) -> Result<String, std::fmt::Error> {
    let mut text = String::new(rt.alloc());
    text.write_str("<CompleteMultipartUpload xmlns=\"http://s3.amazonaws.com/doc/2006-03-01/\">")?;
    for number in 0..PARTS {
        let number = number + 1;
        write!(text, "<Part><ETag>\"d41d8cd98f00b204e9800998ecf8427e\"</ETag><PartNumber>{number}</PartNumber></Part>")?;
    }
    text.write_str("</CompleteMultipartUpload>")?;
    Ok(text)
}

/// The nanoseconds since this moment of the thread's clock.
fn since(rt: &HostRuntime, from: Duration) -> Option<u64> {
    let time = rt.thread_cpu_time().ok()?.checked_sub(from)?;
    u64::try_from(time.as_nanos()).ok()
}

fn time_read(rt: &HostRuntime, bytes: &[u8]) -> Option<u64> {
    let from = rt.thread_cpu_time().ok()?;
    for _ in 0..ROUNDS {
        let parts = read_complete(rt.alloc(), bytes).ok()?;
        if parts.len() != PARTS as usize {
            return None;
        }
    }
    since(rt, from)
}

fn time_copy(rt: &HostRuntime, bytes: &[u8], copy: &mut [u8]) -> Option<u64>
    requires { length copy.old ≡ length bytes.now }
{
    let from = rt.thread_cpu_time().ok()?;
    for _ in 0..ROUNDS {
        for i in 0..bytes.len() {
            copy[i] = bytes[i];
        }
    }
    since(rt, from)
}
END_OF_PROGRAM

run_program docs_bench "$@"
"$work/crates/docs_bench/out/docs_bench" >"$work/out"
awk '{
    read = $1 * 4000 / $2; copy = $1 * 4000 / $3
    printf "%d bytes: read_complete %.0f MB/s, byte by byte copy %.0f MB/s, %.1f times as long\n", $1, read, copy, copy / read
    if (copy > 20 * read) exit 1
}' "$work/out" || fail 1 "reading takes more than 20 times as long as the copy"
