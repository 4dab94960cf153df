#!/usr/bin/env bash
# Times three calls of version_list on a key with 10,000 versions, whose spelling has 1,260,008 bytes: `apply` of a PUT
# in mode Suspended, which replaces the version `null`, `write` and `read`. It makes a temporary repository with copies
# of the crates and of a small program, proves that, builds it and runs it, which takes some minutes the first time.
# It prints the processor time of one call in microseconds, with what it makes let go, and the bytes of the spelling in
# that time (MB = 10^6 bytes). With a number: the mean of that many calls, in place of 200.
set -euo pipefail

source "$(dirname "$(readlink -f "${BASH_SOURCE[0]}")")/common.sh"
rounds="${1:-200}"
[[ "$rounds" =~ ^[1-9][0-9]{0,3}$ ]] || fail 2 "the number of calls is 1 to 9999"

new_program versions_bench stamp_id seal_file field_reader call_types version_list
cat >"$work/crates/versions_bench/src/main.rt" <<'END'
//! Times `apply`, `write` and `read` of a key with 10,000 versions.
#![tactic(auto)]

ghost use Rattle.std.specs.Prelude.{◌≡◌, false};
ghost use Rattle.std.specs.List.{list_any};
ghost use Rattle.version_list.specs.State.{IsCanonical};
ghost use Rattle.version_list.specs.Naming.{has_id, has_name, is_upload};

use call_types::{Act, Mode, Upload, Version, VersionName};
use field_reader::{put_bytes, put_short_text, put_u8, put_u16, put_u32, put_u64};
use seal_file::Text;
use stamp_id::VersionId;
use std::alloc::{AllocError, Global};
use std::process::ExitCode;
use std::time::{CpuClock, Duration};
use version_list::{Applied, KeyState, apply, read, write};

const ROUNDS: u32 = 200;

const VERSIONS: u32 = 10_000;

const MOMENT: u64 = 784_111_777;

fn main(rt: HostRuntime) -> ExitCode {
    match measure(&rt) {
        Some(()) => ExitCode::SUCCESS,
        None => {
            let _ = eprintln!(rt; "versions_bench: a call failed");
            ExitCode::FAILURE
        }
    }
}

fn measure(rt: &HostRuntime) -> Option<()> {
    let content = spelled(rt.alloc()).ok()?;
    let Ok(state) = read(rt.alloc(), content.as_slice()) else {
        return None;
    };
    let id = VersionId::parse("00000000-0002-8000-8000-000000000001").ok()?;
    if is_taken(&state, id) {
        return None;
    }
    let change = time_apply(rt, &state, id)?;
    report(rt, "apply", change, content.len())?;
    let writing = time_write(rt, &state)?;
    report(rt, "write", writing, content.len())?;
    let reading = time_read(rt, content.as_slice())?;
    report(rt, "read", reading, content.len())
}

/// Whether a version or an upload has this id.
fn is_taken(state: &KeyState, id: VersionId) -> bool
    ensures { result ≡ has_id id state.now }
{
    if is_version(state.versions.as_slice(), VersionName::Id(id)) {
        return true;
    }
    is_opened(state.uploads.as_slice(), id)
}

fn is_version(versions: &[Version], name: VersionName) -> bool
    ensures { result ≡ list_any (has_name name) versions.now }
{
    versions.iter().any(|version| version.id == name)
}

fn is_opened(uploads: &[Upload], id: VersionId) -> bool
    ensures { result ≡ list_any (is_upload id) uploads.now }
{
    uploads.iter().any(|upload| upload.id == id)
}

/// The spelling of a state of objects with ids of their own, but for the first one, which is `null`.
fn spelled(alloc: Global) -> Result<Vec<u8>, AllocError> {
    let mut content = Vec::new(alloc);
    put_u32(&mut content, VERSIONS)?;
    for count in 0..VERSIONS {
        if count == 0 {
            put_bytes(&mut content, [0; 16].as_slice())?;
        } else {
            put_id(&mut content, count)?;
        }
        put_object(&mut content, count)?;
    }
    put_u32(&mut content, 0)?;
    Ok(content)
}

fn put_id(content: &mut Vec<u8>, count: u32) -> Result<(), AllocError> {
    put_u64(content, 0x1_8000)?;
    put_u64(content, 0xbfff_ffff_ffff_ffff - count as u64)
}

fn put_object(content: &mut Vec<u8>, count: u32) -> Result<(), AllocError> {
    put_u8(content, 1)?;
    put_u64(content, MOMENT)?;
    put_id(content, count)?;
    put_bytes(content, [7; 32].as_slice())?;
    put_u64(content, 5)?;
    put_bytes(content, [9; 16].as_slice())?;
    put_u16(content, 0)?;
    put_bytes(content, [0; 16].as_slice())?;
    put_short_text(content, b"text/plain".as_slice())
}

fn put(alloc: Global, state: &KeyState, id: VersionId) -> Option<Applied>
    requires canonical { IsCanonical state.now }
    requires fresh { has_id id state.now ≡ false }
{
    let Ok(kind) = Text::from_slice(alloc, b"text/plain".as_slice()) else {
        return None;
    };
    let act = Act::Put {
        data_id: id,
        print: [8; 32],
        length: 6,
        md5: [6; 16],
        kind,
    };
    apply(alloc, state, Mode::Suspended, &act, id, MOMENT + 1).ok()
}

fn time_apply(rt: &HostRuntime, state: &KeyState, id: VersionId) -> Option<Duration>
    requires canonical { IsCanonical state.now }
    requires fresh { has_id id state.now ≡ false }
{
    let from = rt.thread_cpu_time().ok()?;
    for _ in 0..ROUNDS {
        let applied = put(rt.alloc(), state, id)?;
        if applied.state.is_none() || applied.gone.len() != 16 {
            return None;
        }
    }
    rt.thread_cpu_time().ok()?.checked_sub(from)
}

fn time_write(rt: &HostRuntime, state: &KeyState) -> Option<Duration>
    requires { IsCanonical state.now }
{
    let from = rt.thread_cpu_time().ok()?;
    for _ in 0..ROUNDS {
        let content = write(rt.alloc(), state).ok()?;
        if content.is_empty() {
            return None;
        }
    }
    rt.thread_cpu_time().ok()?.checked_sub(from)
}

fn time_read(rt: &HostRuntime, content: &[u8]) -> Option<Duration> {
    let from = rt.thread_cpu_time().ok()?;
    for _ in 0..ROUNDS {
        let state = read(rt.alloc(), content).ok()?;
        if state.versions.is_empty() {
            return None;
        }
    }
    rt.thread_cpu_time().ok()?.checked_sub(from)
}

fn report(rt: &HostRuntime, name: &str, time: Duration, bytes: usize) -> Option<()> {
    let nanoseconds = time.as_nanos() / ROUNDS as u128;
    let rate = (bytes as u128 * 1000).checked_div(nanoseconds)?;
    let microseconds = nanoseconds / 1000;
    println!(rt; "{name:5} {microseconds:8} microseconds {rate:6} MB/s").ok()
}
END
sed -i "s/^const ROUNDS: u32 = 200;/const ROUNDS: u32 = $rounds;/" "$work/crates/versions_bench/src/main.rt"

run_program versions_bench
grep -E '^(apply|write|read) ' "$work/out"
