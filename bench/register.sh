#!/usr/bin/env bash
# Times one change of a register over four memory drives with parity 2: `look`, `draft`, `propose` and `mark`, for contents
# of 100, 10,000 and 1,000,000 bytes, and counts the calls of the drives. It makes a temporary repository with copies of the
# crates and of a small program, proves that, builds it and runs it, which takes some minutes the first time. Each line has
# the bytes of the content, the calls that one change makes on all four drives, and the processor time of each call in
# microseconds: the mean of 200 changes, each over the value of the one before.
set -euo pipefail

source "$(dirname "$(readlink -f "${BASH_SOURCE[0]}")")/common.sh"

new_program register_bench stamp_id seal_file call_types drive_base drive_memory register_file register_core
cat >"$work/crates/register_bench/src/main.rt" <<'END'
//! Times the calls of one change of a register over four memory drives, and counts the calls of the drives.
#![tactic(auto)]

ghost use Rattle.std.specs.Prelude.{None, IfSome};
ghost use Rattle.register_file.specs.Record.{IsCanonicalNext};

mod counted;

use counted::Counted;
use drive_base::SetPlan;
use register_core::{ContentFault, ContentRule, Draft, Looked, draft_change, look, mark, propose};
use register_file::Next;
use seal_file::Bytes;
use stamp_id::{Ballot, ChangeId};
use std::alloc::Global;
use std::process::ExitCode;
use std::time::{CpuClock, Duration};

const ROUNDS: u32 = 200;

const NAME: &str = "k/pic/k";

/// A rule that every content meets.
#[derive(Drop)]
struct Anything;

impl ContentRule for Anything {
    ghost fault_in = { λ _ _. None };

    fn check(&mut self, _alloc: Global, _content: &[u8]) -> Result<(), ContentFault> {
        Ok(())
    }
}

/// The processor time of each call, over all changes.
#[derive(Clone, Copy)]
struct Times {
    look: Duration,
    draft: Duration,
    propose: Duration,
    mark: Duration,
}

/// The lanes, the data drives and the numbers drawn.
#[derive(Drop)]
struct World {
    lanes: Vec<Counted>,
    disks: Vec<Counted>,
    seq: u64,
    count: u64,
}

fn main(rt: HostRuntime) -> ExitCode {
    for bytes in [100u32, 10_000, 1_000_000] {
        if measure(&rt, bytes).is_none() {
            let _ = eprintln!(rt; "register_bench: a call failed");
            return ExitCode::FAILURE;
        }
    }
    ExitCode::SUCCESS
}

/// Four drives on which no call was made.
fn four(alloc: Global) -> Option<Vec<Counted>> {
    let mut drives = Vec::new(alloc);
    for _ in 0..4u8 {
        drives.push(Counted::new(alloc)).ok()?;
    }
    Some(drives)
}

/// Times changes with a content of so many bytes, and prints the line.
fn measure(rt: &HostRuntime, bytes: u32) -> Option<()> {
    let alloc = rt.alloc();
    let mut world = World {
        lanes: four(alloc)?,
        disks: four(alloc)?,
        seq: 0,
        count: 0,
    };
    let content = vec![in alloc; 7; bytes as usize].ok()?;
    change(rt, &mut world, content.as_slice())?;
    let before = calls(world.lanes.as_slice());
    let mut times = change(rt, &mut world, content.as_slice())?;
    let after = calls(world.lanes.as_slice());
    for _ in 1..ROUNDS {
        let more = change(rt, &mut world, content.as_slice())?;
        times = sum(times, more)?;
    }
    println!(rt;
        "{} bytes: {} calls, look {} us, draft {} us, propose {} us, mark {} us",
        bytes,
        after.saturating_sub(before),
        mean(times.look),
        mean(times.draft),
        mean(times.propose),
        mean(times.mark)
    )
    .ok()
}

/// The calls on all drives.
fn calls(drives: &[Counted]) -> u64 {
    let mut all = 0u64;
    for drive in drives {
        all = all.saturating_add(drive.calls);
    }
    all
}

/// The times of two changes, together.
fn sum(a: Times, b: Times) -> Option<Times> {
    Some(Times {
        look: a.look.checked_add(b.look)?,
        draft: a.draft.checked_add(b.draft)?,
        propose: a.propose.checked_add(b.propose)?,
        mark: a.mark.checked_add(b.mark)?,
    })
}

/// The mean of all changes, in microseconds.
fn mean(time: Duration) -> u128 {
    time.as_micros() / u128::from(ROUNDS)
}

/// One change, whose calls are timed.
fn change(rt: &HostRuntime, world: &mut World, content: &[u8]) -> Option<Times> {
    let start = rt.thread_cpu_time().ok()?;
    let looked = looked(rt.alloc(), world)?;
    let seen = rt.thread_cpu_time().ok()?;
    let next = next_over(rt.alloc(), world, &looked, content)?;
    let begun = rt.thread_cpu_time().ok()?;
    let mut draft = drafted(rt.alloc(), &looked, &next)?;
    let drafted = rt.thread_cpu_time().ok()?;
    let proposed = write(rt, world, &mut draft)?;
    let end = rt.thread_cpu_time().ok()?;
    Some(Times {
        look: seen.checked_sub(start)?,
        draft: drafted.checked_sub(begun)?,
        propose: proposed.checked_sub(drafted)?,
        mark: end.checked_sub(proposed)?,
    })
}

/// What a look finds, where nothing is pending.
fn looked(alloc: Global, world: &mut World) -> Option<Looked> {
    let set = SetPlan::new([0; 16], 4, 2);
    if world.lanes.len() != 4 || world.disks.len() != 4 {
        return None;
    }
    let lanes = world.lanes.as_mut_slice();
    let disks = world.disks.as_mut_slice();
    let looked = look(alloc, lanes, disks, 0, set, NAME, &mut Anything).ok()?;
    if looked.pending.is_some() {
        return None;
    }
    Some(looked)
}

/// Draws a number of term 1.
fn draw(world: &mut World) -> Option<Ballot> {
    if world.seq >= 1_000_000 {
        return None;
    }
    world.seq += 1;
    Some(Ballot {
        term: 1,
        seq: world.seq,
    })
}

/// A change over what a look found.
fn next_over(alloc: Global, world: &mut World, looked: &Looked, content: &[u8]) -> Option<Next>
    ensures { IfSome result (IsCanonicalNext looked.now.base.change) }
{
    if content.len() > 1_000_000 {
        return None;
    }
    let change = ChangeId(draw(world)?);
    Some(Next {
        ballot: draw(world)?,
        change,
        parent: looked.base.change,
        adds: None,
        content: Bytes::from_slice(alloc, content).ok()?,
    })
}

/// The draft of a change.
fn drafted(alloc: Global, looked: &Looked, next: &Next) -> Option<Draft>
    requires { IsCanonicalNext looked.now.base.change next.now }
{
    if looked.base.content.len() > 1_000_000 {
        return None;
    }
    draft_change(alloc, looked, next).ok()
}

/// Writes both files of a draft, and answers the processor time between the two.
fn write(rt: &HostRuntime, world: &mut World, draft: &mut Draft) -> Option<Duration> {
    let drives = draft.set.drives as usize;
    if world.lanes.len() != drives || draft.letters.len() != drives {
        return None;
    }
    if draft.name.len() > 1129 || world.count > 1_000_000 {
        return None;
    }
    let lanes = world.lanes.as_mut_slice();
    let prepared = propose(lanes, 0, draft, 1, &mut world.count).ok()?;
    let between = rt.thread_cpu_time().ok()?;
    if world.lanes.len() != drives || prepared.whys.len() != drives || world.count > 2_000_000 {
        return None;
    }
    let lanes = world.lanes.as_mut_slice();
    mark(lanes, draft, prepared, 1, &mut world.count).ok()?;
    Some(between)
}
END

cat >"$work/crates/register_bench/src/counted.rt" <<'END'
//! A drive that counts the calls and passes them on.

ghost use Rattle.std.specs.Prelude.{◌≡◌};

use drive_base::{Drive, DriveFault};
use drive_memory::MemDrive;
use std::alloc::Global;

/// A drive that counts the calls and passes them on.
#[derive(Drop)]
pub struct Counted {
    drive: MemDrive,
    /// How many calls were made.
    pub calls: u64,
}

impl Counted {
    /// A memory drive without a file, on which no call was made.
    pub fn new(alloc: Global) -> Counted {
        Counted {
            drive: MemDrive::new(alloc),
            calls: 0,
        }
    }

    fn count_call(&mut self)
        ensures { self.new.drive ≡ self.old.drive }
    {
        self.calls = self.calls.saturating_add(1);
    }
}

impl Drive for Counted {
    ghost tells = { λ counted. ⟦<MemDrive as Drive>⟧.tells counted.drive };

    ghost files = { λ counted. ⟦<MemDrive as Drive>⟧.files counted.drive };

    ghost count = { λ counted. ⟦<MemDrive as Drive>⟧.count counted.drive };

    fn size(&mut self, name: &str) -> Result<u64, DriveFault> {
        self.count_call();
        self.drive.size(name)
    }

    fn read(&mut self, name: &str, at: u64, into: &mut [u8]) -> Result<usize, DriveFault> {
        self.count_call();
        self.drive.read(name, at, into)
    }

    fn append(&mut self, loose: &str, bytes: &[u8]) -> Result<(), DriveFault> {
        self.count_call();
        self.drive.append(loose, bytes)
    }

    fn sync(&mut self, loose: &str) -> Result<(), DriveFault> {
        self.count_call();
        self.drive.sync(loose)
    }

    fn rename(&mut self, loose: &str, name: &str) -> Result<(), DriveFault> {
        self.count_call();
        self.drive.rename(loose, name)
    }

    fn discard(&mut self, loose: &str) -> Result<(), DriveFault> {
        self.count_call();
        self.drive.discard(loose)
    }

    fn remove(&mut self, name: &str) -> Result<(), DriveFault> {
        self.count_call();
        self.drive.remove(name)
    }

    fn names(&mut self, alloc: Global, from: &str, most: u32) -> Result<Vec<String>, DriveFault> {
        self.count_call();
        self.drive.names(alloc, from, most)
    }

    fn faults(&self) -> u64 {
        self.drive.faults()
    }
}
END

run_program register_bench
grep -E ' bytes: ' "$work/out"
