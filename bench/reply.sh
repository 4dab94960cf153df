#!/usr/bin/env bash
# Times `document` of s3_reply for a page of 1,000 keys of 30 bytes, beside a copy of the same bytes row by row in the same run. It makes a temporary
# repository with a copy of the crate and a small program, proves that, builds it and runs it, which takes some minutes the first time. The line has the
# document's bytes, MB/s of both (10^6 bytes in a second of processor time, each the best of several turns) and how many times as long the writing takes;
# above the number of times that is given, 25 without one, the script fails. Further words are handed on to `rt run`, as in `bench/reply.sh 25 --cpu=x86-64-v3`.
set -euo pipefail

source "$(dirname "$(readlink -f "${BASH_SOURCE[0]}")")/common.sh"
most="${1:-25}"
[[ "$most" =~ ^[1-9][0-9]?$ ]] || fail 2 "the number of times is 1 to 99"
shift || true

new_program reply_bench s3_reply call_types desk_base seal_file
cat >"$work/crates/reply_bench/src/main.rt" <<'END_OF_PROGRAM'
//! Times the writing of a long listing.
#![tactic(auto)]

use call_types::{Etag, PageCut, PageRow, PageRows, Reply};
use desk_base::{Call, ListAsk};
use s3_reply::document;
use seal_file::Text;
use std::alloc::AllocError;
use std::process::ExitCode;
use std::time::{CpuClock, Duration};

/// The rows of the page.
const ROWS: u32 = 1_000;

/// How many turns both have, one after the other, of which the best counts, and the rounds of a turn.
const TURNS: usize = 15;

const ROUNDS: usize = 20;

fn main(rt: HostRuntime) -> ExitCode {
    match measure(&rt) {
        Some(()) => ExitCode::SUCCESS,
        None => {
            let _ = eprintln!(rt; "reply_bench: no memory, no clock or another answer");
            ExitCode::FAILURE
        }
    }
}

fn measure(rt: &HostRuntime) -> Option<()> {
    let call = call(rt)?;
    with_call(rt, &call)
}

fn with_call(rt: &HostRuntime, call: &Call) -> Option<()> {
    let reply = page(rt)?;
    with_reply(rt, call, &reply)
}

fn with_reply(rt: &HostRuntime, call: &Call, reply: &Reply) -> Option<()> {
    let bytes = document(rt.alloc(), None, Some(call), reply).ok()?;
    report(rt, call, reply, &bytes)
}

/// Prints the bytes of the document and the best time of each.
fn report(rt: &HostRuntime, call: &Call, reply: &Reply, bytes: &[u8]) -> Option<()> {
    let mut best = [u64::MAX; 2];
    for _ in 0..TURNS {
        best[0] = best[0].min(time_written(rt, call, reply)?);
        best[1] = best[1].min(time_copied(rt, bytes)?);
    }
    let [written, copied] = best;
    let length = bytes.len();
    println!(rt; "{length} {written} {copied}").ok()
}

fn text(rt: &HostRuntime, bytes: &[u8]) -> Option<Text> {
    Text::from_slice(rt.alloc(), bytes).ok()
}

/// A page of keys that differ in their last digits.
fn page(rt: &HostRuntime) -> Option<Reply> {
    let mut rows = Vec::new(rt.alloc());
    for number in 0..ROWS {
        let key = format!(in rt.alloc(); "photos/2026/november/img{number:06}").ok()?;
        let row = PageRow::Object {
            key: text(rt, key.as_bytes())?,
            modified: 1_700_000_000 + number as u64,
            length: 1_000_000 + number as u64,
            etag: Etag {
                md5: [(number % 256) as u8; 16],
                parts: 0,
            },
        };
        rows.push(row).ok()?;
    }
    let cut = PageCut {
        truncated: false,
        next: None,
        next_id: None,
    };
    Some(Reply::Page(PageRows::from_vec(rows), cut))
}

fn call(rt: &HostRuntime) -> Option<Call> {
    let page = ListAsk {
        prefix: text(rt, b"photos/")?,
        delimiter: text(rt, b"")?,
        most: 1_000,
        encoded: false,
        start_after: None,
        token: None,
    };
    let bucket = text(rt, b"pictures")?;
    Some(Call::List2 { bucket, page })
}

/// The nanoseconds since this moment of the thread's clock.
fn since(rt: &HostRuntime, from: Duration) -> Option<u64> {
    let time = rt.thread_cpu_time().ok()?.checked_sub(from)?;
    u64::try_from(time.as_nanos()).ok()
}

fn time_written(rt: &HostRuntime, call: &Call, reply: &Reply) -> Option<u64> {
    let from = rt.thread_cpu_time().ok()?;
    for _ in 0..ROUNDS {
        let bytes = document(rt.alloc(), None, Some(call), reply).ok()?;
        if bytes.is_empty() {
            return None;
        }
    }
    since(rt, from)
}

/// Copies the bytes in as many pieces as there are rows.
fn copy(rt: &HostRuntime, bytes: &[u8]) -> Result<Vec<u8>, AllocError> {
    let mut out = Vec::with_capacity(rt.alloc(), bytes.len())?;
    for piece in bytes.chunks(bytes.len() / ROWS as usize + 1) {
        out.extend_from_slice(piece)?;
    }
    Ok(out)
}

fn time_copied(rt: &HostRuntime, bytes: &[u8]) -> Option<u64> {
    let from = rt.thread_cpu_time().ok()?;
    for _ in 0..ROUNDS {
        let out = copy(rt, bytes).ok()?;
        if out.len() != bytes.len() {
            return None;
        }
    }
    since(rt, from)
}
END_OF_PROGRAM

run_program reply_bench "$@"
"$work/crates/reply_bench/out/reply_bench" >"$work/out"
awk -v most="$most" '{
    wrote = $1 * 20000 / $2; copied = $1 * 20000 / $3
    printf "%d bytes: document %.0f MB/s, copy row by row %.0f MB/s, %.1f times as long\n", $1, wrote, copied, copied / wrote
    if (copied > most * wrote) exit 1
}' "$work/out" || fail 1 "writing takes more than $most times as long as the copy"
