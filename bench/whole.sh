#!/usr/bin/env bash
# Puts bodies of 16 MiB and of 256 MiB through a `Stage` and gets them back through a `Reader`, one drive call a step, over
# drives in memory: a set of six with two of parity, and a set of four with two. It prints MB/s of the body (MB = 10^6
# bytes) by processor time, the best of five runs of 16 MiB and of two of 256 MiB. Beside it stands the speed that their
# parts alone would have together, measured in the same run over stripes of 1 MiB: SHA-256 of the blocks in four lanes,
# MD5, and the code. Then come what part of that speed is reached, and the share of the time that each of these parts
# takes; what is left are copies, the drives' own work and blocks that fill no lanes.
#
# PUTs to drives that keep nothing come besides, which leave out the drives' own work.
#
# Then the same over folders, of which TMPDIR says on which disk: processor time, the system's share of it among it, and the
# time by the clock of the wall, which has the fsyncs. The files that a GET reads were just written, so the system has them in memory.
#
# The most resident memory (VmHWM) is that of a process that does nothing else, as GNU time tells it: of a GET of 256 MiB from
# folders on 4+2, and of PUTs of 256 MiB to drives that keep nothing, on 4+2, on 3+2, whose windows are the longest, and on 8+8.
#
# The program is proved and built in a temporary repository with copies of the crates; the first time that takes some
# minutes.
set -euo pipefail

source "$(dirname "$(readlink -f "${BASH_SOURCE[0]}")")/common.sh"

new_program whole_bench fault_base drive_base drive_memory drive_file stamp_id call_types poly_code hash_lanes put_stage get_read md5 hex
take_libraries
cat >"$work/crates/whole_bench/src/main.rt" <<'END'
//! Times PUT and GET of bodies over drives in memory and over folders, by one drive call a step, and their parts alone.
//! With words it does one work alone: `folders`, `get PRINT` of what that put, or `sinks DRIVES PARITY`.
#![tactic(auto)]

mod bodies;
mod feed;
mod folders;
mod parts;
mod sinks;

use bodies::{time_bodies, time_sinks};
use folders::{get_again, time_folders};
use parts::time_parts;
use std::env;
use std::process::ExitCode;
use std::time::Duration;

/// The bytes of a small body.
pub const SMALL: u64 = 16_777_216;

/// The bytes of a large one.
pub const LARGE: u64 = 268_435_456;

fn main(rt: HostRuntime) -> ExitCode {
    let words = words(&rt).unwrap_or(Vec::new(rt.alloc()));
    match measure(&rt, words.as_slice()) {
        Some(()) => ExitCode::SUCCESS,
        None => {
            let _ = eprintln!(rt; "whole_bench: no memory, no clock, a failed call or another body");
            ExitCode::FAILURE
        }
    }
}

/// The words behind the program's name.
fn words(rt: &HostRuntime) -> Option<Vec<String>> {
    let mut words = Vec::new(rt.alloc());
    let mut all = env::args(rt).ok()?;
    let _name = all.next();
    for word in all {
        words.push(word).ok()?;
    }
    Some(words)
}

fn measure(rt: &HostRuntime, words: &[String]) -> Option<()> {
    let Some(first) = words.first() else {
        return measure_all(rt);
    };
    if first.as_str() == "folders" {
        return measure_folders(rt);
    }
    let second = words.get(1)?;
    if first.as_str() == "get" {
        return get_again(rt, second.as_str());
    }
    sink_alone(rt, second.as_str().parse().ok()?, words.get(2)?.as_str().parse().ok()?)
}

fn measure_all(rt: &HostRuntime) -> Option<()> {
    time_parts(rt)?;
    for drives in [6u8, 4] {
        time_bodies(rt, drives, SMALL, 5)?;
        time_bodies(rt, drives, LARGE, 2)?;
    }
    for drives in [6u8, 4, 5] {
        time_sinks(rt, drives, 2, SMALL, 5)?;
        time_sinks(rt, drives, 2, LARGE, 2)?;
    }
    Some(())
}

/// A PUT on 2+2 and then on 4+2, whose files are left.
fn measure_folders(rt: &HostRuntime) -> Option<()> {
    for drives in [4u8, 6] {
        time_folders(rt, drives, SMALL)?;
        time_folders(rt, drives, LARGE)?;
    }
    Some(())
}

fn sink_alone(rt: &HostRuntime, drives: u8, parity: u8) -> Option<()> {
    if drives < 4 || drives > 16 || parity < 1 || parity > drives / 2 {
        return None;
    }
    time_sinks(rt, drives, parity, LARGE, 1)
}

/// Prints the MB/s of so many bytes in a time.
pub fn report(rt: &HostRuntime, name: &str, drives: u8, bytes: u64, time: Duration) -> Option<()> {
    let rate = (bytes as u128 * 1000).checked_div(time.as_nanos())?;
    println!(rt; "{name} {drives} {bytes} {rate}").ok()
}
END
cat >"$work/crates/whole_bench/src/feed.rt" <<'END'
//! A body whose bytes repeat.

ghost use Rattle.std.specs.Prelude.{◌≡◌, ◌≤◌, None};

use call_types::{Cut, Feed};
use std::alloc::{AllocError, Global};

/// How many bytes repeat.
pub const PERIOD: usize = 1_000_003;

/// The body, and how much of it is given.
#[derive(Drop)]
pub struct Repeats {
    period: Vec<u8>,
    stated: u64,
    given: u64,
    pub ghost at_most: { given ≤ stated },
}

/// The bytes that repeat.
pub fn period(alloc: Global) -> Result<Vec<u8>, AllocError> {
    let mut bytes = Vec::new(alloc);
    let mut state = 1u32;
    for _ in 0..PERIOD {
        state = state.wrapping_mul(1_664_525).wrapping_add(1_013_904_223);
        bytes.push((state >> 24) as u8)?;
    }
    Ok(bytes)
}

impl Repeats {
    /// A body of so many bytes.
    pub fn new(period: Vec<u8>, stated: u64) -> Repeats
        ensures stated { (⟦<Repeats as Feed>⟧.seen result).stated ≡ stated }
        ensures given { (⟦<Repeats as Feed>⟧.seen result).given ≡ 0 }
    {
        Repeats {
            period,
            stated,
            given: 0,
        }
    }
}

impl Feed for Repeats {
    ghost seen = { λ feed. record { stated = feed.stated; given = feed.given; left = None } };

    ghost faults = { λ feed. 0 };

    fn take(&mut self, into: &mut [u8]) -> Result<usize, Cut> {
        let wanted = (into.len() as u64).min(self.stated - self.given) as usize;
        if wanted == 0 {
            return Ok(0);
        }
        let at = (self.given % PERIOD as u64) as usize;
        if at >= self.period.len() {
            return Err(Cut::BodyCut {
                read: self.given,
                stated: self.stated,
            });
        }
        let count = wanted.min(self.period.len() - at);
        into[..count].copy_from_slice(&self.period.as_slice()[at..at + count]);
        self.given += count as u64;
        Ok(count)
    }
}
END
cat >"$work/crates/whole_bench/src/sinks.rt" <<'END'
//! Drives that keep nothing.

ghost use Rattle.std.specs.Prelude.{◌≡◌, IfOk, false, length};
ghost use Rattle.drive_base.specs.Files.{no_files};

use drive_base::{Drive, DriveFault};
use std::alloc::{AllocError, Global};

/// A drive that takes what it is given and keeps none of it. It tells nothing.
#[derive(Drop)]
pub struct Sink {}

/// So many drives.
pub fn sinks(alloc: Global, count: u8) -> Result<Vec<Sink>, AllocError>
    ensures { IfOk result (λ drives. length drives.items ≡ count) }
{
    let mut drives = Vec::new(alloc);
    for _ in 0..count {
        drives.push(Sink {})?;
    }
    Ok(drives)
}

impl Drive for Sink {
    ghost tells = { λ drive. false };

    ghost files = { λ drive. no_files };

    ghost count = { λ drive. 0 };

    fn size(&mut self, _name: &str) -> Result<u64, DriveFault> {
        Err(DriveFault::Absent)
    }

    fn read(&mut self, _name: &str, _at: u64, _into: &mut [u8]) -> Result<usize, DriveFault> {
        Err(DriveFault::Absent)
    }

    fn append(&mut self, _loose: &str, _bytes: &[u8]) -> Result<(), DriveFault> {
        Ok(())
    }

    fn sync(&mut self, _loose: &str) -> Result<(), DriveFault> {
        Ok(())
    }

    fn rename(&mut self, _loose: &str, _name: &str) -> Result<(), DriveFault> {
        Ok(())
    }

    fn discard(&mut self, _loose: &str) -> Result<(), DriveFault> {
        Ok(())
    }

    fn remove(&mut self, _name: &str) -> Result<(), DriveFault> {
        Ok(())
    }

    fn names(&mut self, _alloc: Global, _from: &str, _most: u32) -> Result<Vec<String>, DriveFault> {
        Err(DriveFault::NoMemory)
    }

    fn faults(&self) -> u64 {
        0
    }
}
END
cat >"$work/crates/whole_bench/src/bodies.rt" <<'END'
//! Bodies put and got.

ghost use Rattle.std.specs.Prelude.{◌≡◌, ◌+◌, ◌≤◌, ◌<◌, ◌^◌, IfOk, length};

use crate::feed::{PERIOD, Repeats, period};
use crate::report;
use crate::sinks::sinks;
use call_types::{Feed, Span};
use drive_base::{Drive, SetPlan};
use drive_memory::MemDrive;
use get_read::{ReadStep, Reader};
use put_stage::{Stage, StageNext};
use stamp_id::{Ballot, ChangeId, VersionId};
use std::alloc::{AllocError, Global};
use std::time::{CpuClock, Duration};

/// Prints the best times of a PUT and of a GET over so many drives, two of them parity.
pub fn time_bodies(rt: &HostRuntime, drives: u8, size: u64, runs: u32) -> Option<()>
    requires enough { 4 ≤ drives }
    requires few { drives ≤ 16 }
    requires size { size ≤ 5368709120 }
{
    let mut puts = Duration::MAX;
    let mut gets = Duration::MAX;
    for _ in 0..runs {
        let (put, get) = time_body(rt, drives, size)?;
        puts = puts.min(put);
        gets = gets.min(get);
    }
    report(rt, "put", drives, size, puts)?;
    report(rt, "get", drives, size, gets)
}

/// Prints the best time of a PUT to so many drives that keep nothing.
pub fn time_sinks(rt: &HostRuntime, drives: u8, parity: u8, size: u64, runs: u32) -> Option<()>
    requires enough { 4 ≤ drives }
    requires few { drives ≤ 16 }
    requires some { 1 ≤ parity }
    requires half { parity + parity ≤ drives }
    requires size { size ≤ 5368709120 }
{
    let set = SetPlan::new([0; 16], drives, parity);
    let mut puts = Duration::MAX;
    for _ in 0..runs {
        puts = puts.min(time_sink(rt, set, size)?);
    }
    report(rt, "sink", drives, size, puts)
}

/// The time of a PUT to drives that keep nothing.
fn time_sink(rt: &HostRuntime, set: SetPlan, size: u64) -> Option<Duration>
    requires size { size ≤ 5368709120 }
{
    let mut drives = sinks(rt.alloc(), set.drives).ok()?;
    let feed = Repeats::new(period(rt.alloc()).ok()?, size);
    let from = rt.thread_cpu_time().ok()?;
    let _print = put(rt.alloc(), set, size, feed, drives.as_mut_slice())?;
    rt.thread_cpu_time().ok()?.checked_sub(from)
}

/// The times of a PUT and of a GET.
fn time_body(rt: &HostRuntime, drives: u8, size: u64) -> Option<(Duration, Duration)>
    requires enough { 4 ≤ drives }
    requires few { drives ≤ 16 }
    requires size { size ≤ 5368709120 }
{
    let set = SetPlan::new([0; 16], drives, 2);
    let mut drives = fresh(rt.alloc(), set.drives).ok()?;
    let feed = Repeats::new(period(rt.alloc()).ok()?, size);
    let from = rt.thread_cpu_time().ok()?;
    let print = put(rt.alloc(), set, size, feed, drives.as_mut_slice())?;
    let put_time = rt.thread_cpu_time().ok()?.checked_sub(from)?;
    let bytes = period(rt.alloc()).ok()?;
    let from = rt.thread_cpu_time().ok()?;
    get(rt.alloc(), set, print, size, bytes.as_slice(), drives.as_mut_slice())?;
    let get_time = rt.thread_cpu_time().ok()?.checked_sub(from)?;
    Some((put_time, get_time))
}

/// So many drives without a file.
fn fresh(alloc: Global, count: u8) -> Result<Vec<MemDrive>, AllocError>
    ensures { IfOk result (λ drives. length drives.items ≡ count) }
{
    let mut drives = Vec::new(alloc);
    for _ in 0..count {
        drives.push(MemDrive::new(alloc))?;
    }
    Ok(drives)
}

fn id() -> VersionId {
    VersionId::from_parts(ChangeId(Ballot { term: 1, seq: 7 }), 5)
}

/// Puts a body, and tells its print.
pub fn put<D: Drive>(alloc: Global, set: SetPlan, size: u64, feed: Repeats, drives: &mut [D]) -> Option<[u8; 32]>
    requires drives { length drives.old ≡ set.drives }
    requires size { size ≤ 5368709120 }
    requires stated { (⟦<Repeats as Feed>⟧.seen feed).stated ≡ size }
    requires given { (⟦<Repeats as Feed>⟧.seen feed).given ≡ 0 }
{
    let stage = Stage::new(alloc, set, id(), "k/pic/a", size, None).ok()?;
    finish(alloc, stage, feed, drives)
}

/// Runs a stage to its end.
fn finish<D: Drive>(alloc: Global, stage: Stage, feed: Repeats, drives: &mut [D]) -> Option<[u8; 32]>
    requires drives { length drives.old ≡ stage.load.set.drives }
    requires feed { (⟦<Repeats as Feed>⟧.seen feed).given + stage.load.left ≡ (⟦<Repeats as Feed>⟧.seen feed).stated }
{
    let mut stage = stage;
    let mut feed = feed;
    for round in 0..u64::MAX {
        match stage.next() {
            StageNext::Fill => stage.fill(alloc, &mut feed).ok()?,
            StageNext::Step => stage.step(drives),
            StageNext::Finish => return stage.finish().ok().map(|staged| staged.print),
        }
    }
    None
}

/// Gets a body, and looks at the first byte of each piece.
pub fn get<D: Drive>(
    alloc: Global,
    set: SetPlan,
    print: [u8; 32],
    size: u64,
    period: &[u8],
    drives: &mut [D],
) -> Option<()>
    requires drives { length drives.old ≡ set.drives }
    requires size { size ≤ 5368709120 }
{
    let span = Span { at: 0, length: size };
    let reader = Reader::new(alloc, &set, print, id(), span).ok()?;
    read_on(alloc, reader, size, period, drives)
}

fn read_on<D: Drive>(alloc: Global, reader: Reader, size: u64, period: &[u8], drives: &mut [D]) -> Option<()>
    requires drives { length drives.old ≡ reader.asked.wanted.set.drives }
{
    let mut reader = reader;
    let mut at = 0u64;
    for round in 0..u64::MAX {
        match reader.step(alloc, drives).ok()? {
            ReadStep::More => (),
            ReadStep::Piece => {
                let piece = reader.piece();
                if piece.first() != period.get((at % PERIOD as u64) as usize) {
                    return None;
                }
                at = at.saturating_add(piece.len() as u64);
            }
            ReadStep::Done => return if at == size { Some(()) } else { None },
        }
    }
    None
}
END
cat >"$work/crates/whole_bench/src/folders.rt" <<'END'
//! Bodies put to folders and got from there.

ghost use Rattle.std.specs.Prelude.{◌≡◌, ◌+◌, ◌≤◌, IfSome, length};

use crate::LARGE;
use crate::bodies::{get, put};
use crate::feed::{Repeats, period};
use crate::report;
use drive_base::SetPlan;
use drive_file::FileDrive;
use std::rt::Clock;
use std::time::{CpuClock, Duration};

/// The drives over the folders `0`, `1`, .., one each.
fn folders(rt: &HostRuntime, count: u8) -> Option<Vec<FileDrive<HostRuntime>>>
    ensures { IfSome result (λ drives. length drives.items ≡ count) }
{
    let mut drives = Vec::new(rt.alloc());
    for number in 0..count {
        let path = format!(in rt.alloc(); "{number}").ok()?;
        let drive = FileDrive::open(*rt, rt.alloc(), path.as_str()).ok()?;
        drives.push(drive).ok()?;
    }
    Some(drives)
}

/// The processor time of this process so far, and the time by the wall.
fn now(rt: &HostRuntime) -> Option<(Duration, Duration)> {
    Some((rt.thread_cpu_time().ok()?, rt.monotonic().ok()?))
}

/// Prints MB/s by processor time and by the wall since a moment.
fn report_both(
    rt: &HostRuntime,
    (name, wall_name): (&str, &str),
    drives: u8,
    size: u64,
    from: (Duration, Duration),
) -> Option<()> {
    let (cpu, wall) = now(rt)?;
    report(rt, name, drives, size, cpu.checked_sub(from.0)?)?;
    report(rt, wall_name, drives, size, wall.checked_sub(from.1)?)
}

/// Prints the times of a PUT to folders and of a GET from there, two of the drives parity, and the print.
pub fn time_folders(rt: &HostRuntime, count: u8, size: u64) -> Option<()>
    requires enough { 4 ≤ count }
    requires few { count ≤ 16 }
    requires size { size ≤ 5368709120 }
{
    let set = SetPlan::new([0; 16], count, 2);
    let mut drives = folders(rt, set.drives)?;
    let feed = Repeats::new(period(rt.alloc()).ok()?, size);
    let from = now(rt)?;
    let print = put(rt.alloc(), set, size, feed, drives.as_mut_slice())?;
    report_both(rt, ("folder_put", "wall_put"), count, size, from)?;
    let bytes = period(rt.alloc()).ok()?;
    let from = now(rt)?;
    get(rt.alloc(), set, print, size, bytes.as_slice(), drives.as_mut_slice())?;
    report_both(rt, ("folder_get", "wall_get"), count, size, from)?;
    let digits = hex::encode(rt.alloc(), print).ok()?;
    println!(rt; "print {} {} {}", count, size, digits).ok()
}

/// Gets the large body on 4+2 that was put before, which has this print.
pub fn get_again(rt: &HostRuntime, digits: &str) -> Option<()> {
    let mut print = [0; 32];
    hex::decode_to_slice(digits.as_bytes(), &mut print).ok()?;
    let set = SetPlan::new([0; 16], 6, 2);
    let mut drives = folders(rt, set.drives)?;
    let bytes = period(rt.alloc()).ok()?;
    get(rt.alloc(), set, print, LARGE, bytes.as_slice(), drives.as_mut_slice())
}
END
cat >"$work/crates/whole_bench/src/parts.rt" <<'END'
//! The parts alone.

use crate::report;
use drive_base::SetPlan;
use hash_lanes::hash_equal_blocks;
use md5::{Digest as _, Md5};
use poly_code::{encode, rebuild};
use std::alloc::Global;
use std::time::{CpuClock, Duration};

const ROUNDS: u32 = 64;

const STRIPE: usize = 1_048_576;

/// The bytes of a block where a stripe has two.
const HALF: usize = 524_288;

/// The bytes of a block where a stripe has four.
const QUARTER: usize = 262_144;

pub fn time_parts(rt: &HostRuntime) -> Option<()> {
    let stripe = filled(rt.alloc(), STRIPE)?;
    let mut half = filled(rt.alloc(), HALF)?;
    let mut parity = filled(rt.alloc(), STRIPE)?;
    if stripe.len() != STRIPE || half.len() != HALF || parity.len() != STRIPE {
        return None;
    }
    time_digests(rt, stripe.as_slice())?;
    let from = rt.thread_cpu_time().ok()?;
    for _ in 0..ROUNDS {
        encoded(SetPlan::new([0; 16], 4, 2), stripe.as_slice(), parity.as_mut_slice(), HALF)?;
    }
    report(rt, "encode", 4, STRIPE as u64, since(rt, from)?)?;
    let from = rt.thread_cpu_time().ok()?;
    for _ in 0..ROUNDS {
        encoded(SetPlan::new([0; 16], 6, 2), stripe.as_slice(), half.as_mut_slice(), QUARTER)?;
    }
    report(rt, "encode", 6, STRIPE as u64, since(rt, from)?)?;
    let set = SetPlan::new([0; 16], 4, 2);
    let from = rt.thread_cpu_time().ok()?;
    for _ in 0..ROUNDS {
        rebuild(set, &[0, 1], stripe.as_slice(), 0, half.as_mut_slice());
        rebuild(set, &[0, 1], stripe.as_slice(), 1, half.as_mut_slice());
    }
    report(rt, "rebuild", 4, STRIPE as u64, since(rt, from)?)
}

fn time_digests(rt: &HostRuntime, stripe: &[u8]) -> Option<()> {
    if stripe.len() != STRIPE {
        return None;
    }
    let mut digests = [[0u8; 32]; 4];
    let from = rt.thread_cpu_time().ok()?;
    for _ in 0..ROUNDS {
        hash_equal_blocks(stripe, QUARTER, &mut digests);
    }
    report(rt, "lanes", 0, STRIPE as u64, since(rt, from)?)?;
    let from = rt.thread_cpu_time().ok()?;
    let mut tag = [0u8; 16];
    for _ in 0..ROUNDS {
        tag = Md5::digest(stripe);
    }
    report(rt, "md5", tag[0] / 255, STRIPE as u64, since(rt, from)?)
}

/// Makes the parity of a stripe, where the lengths are those of the set.
fn encoded(set: SetPlan, stripe: &[u8], parity: &mut [u8], block: usize) -> Option<()> {
    if block > STRIPE {
        return None;
    }
    if stripe.len() != set.read_quorum() as usize * block || parity.len() != set.parity as usize * block {
        return None;
    }
    encode(set, stripe, parity);
    Some(())
}

/// So many bytes, not all the same.
fn filled(alloc: Global, size: usize) -> Option<Vec<u8>> {
    let mut bytes = Vec::new(alloc);
    for i in 0..size {
        bytes.push((i % 251) as u8).ok()?;
    }
    Some(bytes)
}

/// The mean time of a round since this moment of the thread's clock.
fn since(rt: &HostRuntime, from: Duration) -> Option<Duration> {
    rt.thread_cpu_time().ok()?.checked_sub(from)?.checked_div(ROUNDS)
}
END

# The proofs that the loops keep what the calls ask for.
proofs="$work/crates/whole_bench/proofs"
mkdir -p "$proofs/bodies/finish" "$proofs/bodies/fresh" "$proofs/bodies/read_on" "$proofs/sinks/sinks" "$proofs/folders/folders"
echo >"$proofs/Lib.antt"
cat >"$proofs/bodies/finish/Invariants.antt" <<'END'
use Rattle.std.proofs.Common.{◌≡◌, ◌+◌, length}
use Rattle.whole_bench.proofs.bodies.finish.Given as goal

abbrev pub invariant-loop-round : goal.invariant-loop-round
invariant-loop-round g l = record {
  drives : length l.drives ≡ l.stage.load.set.drives;
  feed : l.feed.given + l.stage.load.left ≡ l.feed.stated;
}
END
cat >"$proofs/bodies/fresh/Invariants.antt" <<'END'
use Rattle.std.proofs.Common.{◌≡◌, length}
use Rattle.whole_bench.proofs.bodies.fresh.Given as goal

abbrev pub invariant-loop : goal.invariant-loop
invariant-loop l = length l.drives.items ≡ l.counter
END
sed 's/bodies.fresh/sinks.sinks/' "$proofs/bodies/fresh/Invariants.antt" >"$proofs/sinks/sinks/Invariants.antt"
cat >"$proofs/folders/folders/Invariants.antt" <<'END'
use Rattle.std.proofs.Common.{◌≡◌, length}
use Rattle.whole_bench.proofs.folders.folders.Given as goal

abbrev pub invariant-loop-number : goal.invariant-loop-number
invariant-loop-number l = length l.drives.items ≡ l.number-counter
END
cat >"$proofs/bodies/read_on/Invariants.antt" <<'END'
use Rattle.std.proofs.Common.{◌≡◌, length}
use Rattle.whole_bench.proofs.bodies.read_on.Given as goal

abbrev pub invariant-loop-round : goal.invariant-loop-round
invariant-loop-round g l = length l.drives ≡ l.reader.asked.wanted.set.drives
END
run_program whole_bench
awk '
    function share(name, work, rate) { return sprintf("  %s %.0f %%", name, 100 * work / alone[name] * rate) }
    $1 == "lanes" || $1 == "md5" || $1 == "rebuild" { alone[$1] = $4 }
    $1 == "encode" { alone[$1, $2] = $4 }
    $1 == "put" || $1 == "get" || $1 == "sink" {
        drives = $2; data = drives - 2; blocks = $1 != "get" ? drives / data : 1
        if (!(("encode", drives) in alone)) next
        time = blocks / alone["lanes"]
        if ($1 != "get") time += 1 / alone["md5"] + 1 / alone["encode", drives]
        else time += 1 / alone["rebuild"]
        what = $1 == "sink" ? "PUT to drives that keep nothing" : toupper($1)
        line = sprintf("%s of %3d MiB on %d+2 %8d MB/s, the parts alone %4.0f, %.2f of it:", what, $3 / 1048576, data, $4, 1 / time, $4 * time)
        line = line share("lanes", blocks, $4)
        if ($1 != "get") { alone["encode"] = alone["encode", drives]; line = line share("md5", 1, $4) share("encode", 1, $4) }
        else line = line share("rebuild", 1, $4)
        print line
    }
    END { printf "alone: SHA-256 in lanes %d MB/s of blocks, MD5 %d, encode %d on 4+2 and %d on 2+2, rebuild of blocks at hand %d\n", \
        alone["lanes"], alone["md5"], alone["encode", 6], alone["encode", 4], alone["rebuild"] }' "$work/out"
program="$work/crates/whole_bench/out/whole_bench"

# Over folders, by processor time and by the wall.
mkdir "$work/root"
(cd "$work/root" && "$program" folders) >"$work/folders" || fail 1 "the bodies over folders"
awk '
    function mib(bytes) { return sprintf("%3d MiB", bytes / 1048576) }
    $1 == "folder_put" || $1 == "folder_get" { cpu = $4 }
    $1 == "wall_put" { printf "PUT of %s on %d+2 over folders %8d MB/s by processor time, %d by the wall\n", mib($3), $2 - 2, cpu, $4 }
    $1 == "wall_get" { printf "GET of %s on %d+2 over folders %8d MB/s by processor time, %d by the wall\n", mib($3), $2 - 2, cpu, $4 }' "$work/folders"

# The most resident memory of a process, in KiB: most_memory WORD..
most_memory() {
    (cd "$work/root" && /usr/bin/time -o "$work/memory" -f %M "$program" "$@") >"$work/alone" || fail 1 "$*"
    cat "$work/memory"
}
print="$(awk '$1 == "print" && $2 == 6 { digits = $4 } END { print digits }' "$work/folders")"
echo "most resident memory of a GET of 256 MiB on 4+2 from folders: $(most_memory get "$print") KiB"
for set in "6 2" "5 2" "16 8"; do
    read -r drives parity <<<"$set"
    echo "most resident memory of a PUT of 256 MiB on $((drives - parity))+$parity to drives that keep nothing: $(most_memory sinks "$drives" "$parity") KiB"
done
