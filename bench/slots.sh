#!/usr/bin/env bash
# Prints what the sections of a slot cost over memory drives, for sets of four drives and of six, two of them parity:
#   - the processor time in microseconds, and the calls of the lanes and of the data drives by their kinds, of a put (the look
#     at its bucket, begin_put, commit), of a read (begin_read, end_read), of the delete of that version by its id (a commit,
#     too), and of take_trash, which finds one id. The bucket's mode is Enabled. Before the put the key has 1 version, or
#     9,999, so that it then has 10,000, the most. Times are the best of 500 rounds, and of 30 with many versions; each has
#     one reading of the clock in it, whose time is printed. The calls are those of the first round
#   - what a section does on a key of 10,000 versions, each part alone in the same rounds: version_list reads the state
#     ("decode"), applies the put and writes the state ("encode"); and a look at a register of as many bytes, and a change of
#     it, whose rule reads nothing of the content. What a commit takes beyond such a change, and a begin_read beyond such a
#     look, the middle one of the rounds' differences, is printed as the sum of those parts and a rest: where a section
#     decoded the state twice, the rest would have a decode more. Beside other processes the rest of a begin_read was 0.1 to
#     0.4 ms, where a decode took 3. That of a commit was 0.5 to 0.9 ms over four drives, but 2.6 to 3.9 over six, where it
#     can't tell: the cause isn't known, and a decode would be the same for both sets
#   - commits a second of one slot: each begins a put of a key, commits it in place of its one version (mode Never) and takes
#     the trash, over one key and over 1,000 keys in turn
# It makes a temporary repository with copies of the crates and of a small program, which it proves, builds and runs. The
# libraries that this checkout has built are used: `rt lib` in crates/slot_core builds those that are lacking, of which
# slot_core alone takes some 20 processor minutes. Without them each run proves all that it doesn't find on this machine.
# Over them the program takes some eight processor minutes to prove, and half a minute to run. (`rt try` needs no proof, but
# it runs checked code: version_list's `apply` took 113 ms by it, and 0.9 ms as bench/versions.sh builds it.)
set -euo pipefail

source "$(dirname "$(readlink -f "${BASH_SOURCE[0]}")")/common.sh"

new_program slots_bench stamp_id seal_file field_reader call_types drive_base drive_memory version_list audit_trail \
    register_core register_caller slot_history slot_core
cat >"$work/crates/slots_bench/src/main.rt" <<'END'
//! Times the sections of a slot over memory drives, and counts the calls of the drives.
#![tactic(auto)]

mod acts;
mod alone;
mod counts;
mod deeds;
mod earlier;
mod meter;
mod opened;
mod parts;
mod rate;
mod rounds;
mod sections;
mod show;
mod world;

use crate::rate::time_commits;
use crate::rounds::{time_few, time_many};
use std::process::ExitCode;
use std::time::{CpuClock, Duration};

/// The most versions of a key.
const MOST: u32 = 10_000;

fn main(rt: HostRuntime) -> ExitCode {
    match measure(&rt) {
        Some(()) => ExitCode::SUCCESS,
        None => {
            let _ = eprintln!(rt; "slots_bench: a call failed");
            ExitCode::FAILURE
        }
    }
}

fn measure(rt: &HostRuntime) -> Option<()> {
    time_clock(rt)?;
    for drives in [4u8, 6] {
        time_few(rt, drives)?;
        time_many(rt, drives, MOST)?;
        time_commits(rt, drives, 1)?;
        time_commits(rt, drives, 1_000)?;
    }
    Some(())
}

/// Prints the time of one reading of the clock.
fn time_clock(rt: &HostRuntime) -> Option<()> {
    let mut least = Duration::MAX;
    for _ in 0..1_000u32 {
        let from = rt.thread_cpu_time().ok()?;
        let time = rt.thread_cpu_time().ok()?.checked_sub(from)?;
        least = least.min(time);
    }
    let least = least.as_nanos();
    println!(rt; "clock {least}").ok()
}
END
cat >"$work/crates/slots_bench/src/world.rt" <<'END'
//! A slot over drives that count their calls.

ghost use Rattle.std.specs.Prelude.{◌≡◌};
ghost use Rattle.slot_core.specs.Views.{numbers_of};

use audit_trail::MemAudit;
use drive_base::SetPlan;
use drive_memory::ScriptedDrive;
use slot_core::Slot;

/// A slot, and the data drives of its set.
#[derive(Drop)]
pub struct World {
    pub slot: Slot<ScriptedDrive, MemAudit>,
    pub set: SetPlan,
    pub disks: Vec<ScriptedDrive>,
    pub ghost of_set: { (numbers_of slot).set ≡ set },
}
END
cat >"$work/crates/slots_bench/src/earlier.rt" <<'END'
//! What an earlier life wrote: the state of a key, and its register.

ghost use Rattle.std.specs.Prelude.{◌≡◌, ◌≤◌, ◌^◌, ◌<◌, IfOk, None, length};

use drive_base::{DriveSet, SetPlan};
use drive_memory::{Script, ScriptedDrive, Voice};
use field_reader::{put_bytes, put_short_text, put_u8, put_u16, put_u32, put_u64};
use register_caller::{Numbers, Place, put};
use register_core::{ContentFault, ContentRule};
use stamp_id::{Ballot, ChangeId};
use std::alloc::{AllocError, Global};

/// The moment of the versions and of the changes, in Unix seconds.
pub const MOMENT: u64 = 784_111_777;

/// A rule that every content meets.
#[derive(Drop)]
pub struct Anything;

impl ContentRule for Anything {
    ghost fault_in = { λ _ _. None };

    ghost most_bytes = { λ _. 18446744073709551615 };

    ghost has_read = { λ _ _. Unit {0} };

    fn longest(&self) -> u64 {
        u64::MAX
    }

    fn check(&mut self, _alloc: Global, _content: &[u8]) -> Result<(), ContentFault> {
        Ok(())
    }
}

/// The set of so many drives, two of them parity.
pub fn set_of(drives: u8) -> SetPlan {
    let drives = if drives == 6 { 6 } else { 4 };
    SetPlan::new([7; 16], drives, 2)
}

/// So many drives on which no call was made.
pub fn fresh_drives(alloc: Global, count: u8) -> Result<Vec<ScriptedDrive>, AllocError> {
    let mut drives = Vec::new(alloc);
    for _ in 0..count {
        drives.push(ScriptedDrive::new(alloc, Voice::Tells, Script::Pass))?;
    }
    Ok(drives)
}

/// The spelling of a state of so many objects with ids of their own.
pub fn spelled(alloc: Global, versions: u32) -> Result<Vec<u8>, AllocError> {
    let mut content = Vec::new(alloc);
    put_u32(&mut content, versions)?;
    for count in 0..versions {
        put_id(&mut content, count)?;
        put_object(&mut content, count)?;
    }
    put_u32(&mut content, 0)?;
    Ok(content)
}

/// An id of term 1 in slot 28.
fn put_id(content: &mut Vec<u8>, count: u32) -> Result<(), AllocError> {
    put_u64(content, 0x1_801c)?;
    put_u64(content, 0xbfff_ffff_ffff_ffff - count as u64)
}

fn put_object(content: &mut Vec<u8>, count: u32) -> Result<(), AllocError> {
    put_u8(content, 1)?;
    put_u64(content, MOMENT)?;
    put_id(content, count)?;
    put_bytes(content, [7; 32].as_slice())?;
    put_u64(content, 5)?;
    put_bytes(content, [9; 16].as_slice())?;
    put_u16(content, 0)?;
    put_bytes(content, [0; 16].as_slice())?;
    put_short_text(content, b"text/plain".as_slice())
}

/// The ballot of this number of term 2.
fn number(seq: u64) -> Ballot
    requires { seq < 2 ^ 62 }
{
    Ballot { term: 2, seq }
}

/// Looks at a register and writes this content, under three numbers of term 2 from this one on.
pub fn write_register(
    alloc: Global,
    lanes: &mut [ScriptedDrive],
    disks: &mut [ScriptedDrive],
    set: SetPlan,
    name: &str,
    content: &[u8],
    seq: u64,
) -> Option<()> {
    if lanes.len() != set.drives as usize || disks.len() != set.drives as usize {
        return None;
    }
    if name.len() > 100 || content.len() > 4_000_000 || seq > 1_000_000 {
        return None;
    }
    let at = Place {
        name,
        set,
        out: DriveSet::none(),
        term: 2,
    };
    let numbers = Numbers {
        change: ChangeId(number(seq)),
        again: number(seq + 1),
        own: number(seq + 2),
    };
    let mut count = seq * 100;
    let done = put(
        alloc,
        lanes,
        disks,
        &at,
        &mut Anything,
        &numbers,
        content,
        &mut count,
    );
    if done.is_err() {
        return None;
    }
    Some(())
}
END
cat >"$work/crates/slots_bench/src/opened.rt" <<'END'
//! A slot that is opened over what an earlier life wrote.

ghost use Rattle.std.specs.Prelude.{◌≡◌, ◌≤◌, ◌<◌, ◌^◌, IfSome};
ghost use Rattle.slot_core.specs.Views.{numbers_of};

use crate::deeds::{commit, make_bucket, set_mode};
use crate::earlier::{fresh_drives, set_of, spelled, write_register};
use crate::world::World;
use audit_trail::MemAudit;
use drive_base::SetPlan;
use drive_memory::ScriptedDrive;
use slot_core::{Slot, SlotParts};
use std::alloc::Global;

/// Slot 28 in term 3 over these lanes.
fn open(
    alloc: Global,
    lanes: Vec<ScriptedDrive>,
    set: SetPlan,
) -> Option<Slot<ScriptedDrive, MemAudit>>
    ensures { IfSome result (λ slot. (numbers_of slot).set ≡ set) }
{
    if lanes.len() != set.drives as usize {
        return None;
    }
    let audit = MemAudit::new(alloc);
    let Ok(slot) = Slot::open(alloc, SlotParts { lanes, audit }, set, 28, 3) else {
        return None;
    };
    Some(slot)
}

/// A slot whose key `a` of the bucket `pic`, of mode Enabled, has so many versions.
pub fn world_of(alloc: Global, drives: u8, versions: u32) -> Option<World> {
    let set = set_of(drives);
    let mut lanes = fresh_drives(alloc, drives).ok()?;
    let mut disks = fresh_drives(alloc, drives).ok()?;
    let content = spelled(alloc, versions).ok()?;
    write_register(
        alloc,
        lanes.as_mut_slice(),
        disks.as_mut_slice(),
        set,
        "k/pic/a",
        content.as_slice(),
        1,
    )?;
    let slot = open(alloc, lanes, set)?;
    let mut world = World { slot, set, disks };
    commit(alloc, &mut world, &make_bucket(alloc)?, None)?;
    commit(alloc, &mut world, &set_mode(alloc)?, None)?;
    Some(world)
}
END
cat >"$work/crates/slots_bench/src/acts.rt" <<'END'
//! What is done to a key.

ghost use Rattle.std.specs.Prelude.{IfSome};
ghost use Rattle.version_list.specs.Lawful.{IsLawful};

use call_types::Act;
use seal_file::Text;
use stamp_id::VersionId;
use std::alloc::Global;

/// The act of a put of data of this id.
pub fn put_of(alloc: Global, data_id: VersionId) -> Option<Act>
    ensures { IfSome result (λ act. IsLawful act) }
{
    let kind = Text::from_slice(alloc, "text/plain".as_bytes()).ok()?;
    Some(Act::Put {
        data_id,
        print: [8; 32],
        length: 6,
        md5: [6; 16],
        kind,
    })
}
END
cat >"$work/crates/slots_bench/src/deeds.rt" <<'END'
//! Deeds of a slot.

ghost use Rattle.std.specs.Prelude.{◌≡◌, ◌≤◌, IfSome, IsUtf8, length};
ghost use Rattle.slot_history.specs.Names.{key_name};
ghost use Rattle.version_list.specs.Lawful.{IsLawful};
ghost use Rattle.slot_core.specs.Deeds.{IsCommit};

use crate::acts::put_of;
use crate::earlier::MOMENT;
use crate::world::World;
use call_types::{Act, Key, Mode, Pick};
use seal_file::Text;
use slot_core::{Commit, Flight, Turn};
use stamp_id::VersionId;
use std::alloc::Global;

/// More sections than are done.
pub const MOST_TURNS: u64 = 1_000_000_000;

/// A key of the bucket `pic`.
pub fn key(alloc: Global, name: &str) -> Option<Key>
    ensures named { IfSome result (λ at. IsUtf8 at.bucket × IsUtf8 at.key) }
    ensures short { IfSome result (λ at. length (key_name at) ≤ 1129) }
{
    if name.len() > 100 {
        return None;
    }
    let bucket = Text::from_slice(alloc, "pic".as_bytes()).ok()?;
    let key = Text::from_slice(alloc, name.as_bytes()).ok()?;
    Some(Key { bucket, key })
}

/// The making of that bucket.
pub fn make_bucket(alloc: Global) -> Option<Commit>
    ensures { IfSome result (λ deed. IsCommit deed) }
{
    let bucket = Text::from_slice(alloc, "pic".as_bytes()).ok()?;
    Some(Commit::MakeBucket(bucket))
}

/// That bucket's mode is Enabled from now on.
pub fn set_mode(alloc: Global) -> Option<Commit>
    ensures { IfSome result (λ deed. IsCommit deed) }
{
    let bucket = Text::from_slice(alloc, "pic".as_bytes()).ok()?;
    Some(Commit::SetMode(bucket, Mode::Enabled))
}

/// A change of a key.
pub fn change(alloc: Global, name: &str, mode: Mode, act: Act) -> Option<Commit>
    requires { IsLawful act }
    ensures { IfSome result (λ deed. IsCommit deed) }
{
    let at = key(alloc, name)?;
    Some(Commit::Key { at, mode, act })
}

/// A put of a key.
pub fn put(alloc: Global, name: &str, mode: Mode, data_id: VersionId) -> Option<Commit>
    ensures { IfSome result (λ deed. IsCommit deed) }
{
    let act = put_of(alloc, data_id)?;
    change(alloc, name, mode, act)
}

/// A delete of one version of a key.
pub fn delete(alloc: Global, name: &str, mode: Mode, id: VersionId) -> Option<Commit>
    ensures { IfSome result (λ deed. IsCommit deed) }
{
    change(alloc, name, mode, Act::Delete(Pick::Id(id)))
}

/// Does a deed.
pub fn commit(alloc: Global, world: &mut World, deed: &Commit, flight: Option<Flight>) -> Option<()>
    requires { IsCommit deed.now }
{
    if world.disks.len() != world.set.drives as usize || world.slot.turns() > MOST_TURNS {
        return None;
    }
    let Turn { answer, .. } = world
        .slot
        .commit(alloc, world.disks.as_mut_slice(), deed, flight, MOMENT);
    if answer.is_err() {
        return None;
    }
    Some(())
}
END
cat >"$work/crates/slots_bench/src/meter.rt" <<'END'
//! What a section costs, metered.

ghost use Rattle.std.specs.Prelude.{◌≡◌};

use crate::counts::{difference, sum};
use crate::show::show;
use crate::world::World;
use drive_base::Trouble;
use drive_memory::{Calls, ScriptedDrive};
use std::time::{CpuClock, Duration};

/// The calls before a section, and the moment.
#[derive(Clone, Copy)]
pub struct Before {
    lanes: Calls,
    disks: Calls,
    from: Duration,
}

/// What adds up the calls of the lanes that it is handed.
#[derive(Drop)]
struct Meter {
    calls: Calls,
}

impl Trouble<ScriptedDrive> for Meter {
    ghost befalls = { λ _ _ _ _. Unit {0} };

    /// It leaves the drive as it is.
    fn strike(&mut self, drive: &mut ScriptedDrive) -> bool {
        self.calls = sum(self.calls, drive.calls());
        true
    }
}

/// Adds the calls of one lane.
fn meter_lane(world: &mut World, meter: &mut Meter, index: u8) {
    if index < world.set.drives {
        let _ = world.slot.trouble(index, meter);
    }
}

/// The calls of all lanes.
fn lane_calls(world: &mut World) -> Calls {
    let mut meter = Meter {
        calls: Calls::default(),
    };
    for index in 0..16u8 {
        meter_lane(world, &mut meter, index);
    }
    meter.calls
}

/// The calls of all data drives.
fn disk_calls(world: &World) -> Calls {
    let mut calls = Calls::default();
    for disk in world.disks.as_slice() {
        calls = sum(calls, disk.calls());
    }
    calls
}

/// The moment before a section.
pub fn begun(rt: &HostRuntime, world: &mut World) -> Option<Before> {
    let lanes = lane_calls(world);
    let disks = disk_calls(world);
    let from = rt.thread_cpu_time().ok()?;
    Some(Before { lanes, disks, from })
}

/// Prints what a section cost that ended at this moment.
pub fn tell(
    rt: &HostRuntime,
    world: &mut World,
    label: u32,
    name: &str,
    before: Before,
    to: Duration,
) -> Option<()> {
    let lanes = difference(lane_calls(world), before.lanes);
    let disks = difference(disk_calls(world), before.disks);
    let time = to.checked_sub(before.from)?;
    show(rt, world.set.drives, label, name, time, lanes, disks)
}
END
cat >"$work/crates/slots_bench/src/counts.rt" <<'END'
//! Counts of calls.

use drive_memory::Calls;

/// Both together.
pub fn sum(a: Calls, b: Calls) -> Calls {
    Calls {
        size: a.size.saturating_add(b.size),
        read: a.read.saturating_add(b.read),
        append: a.append.saturating_add(b.append),
        sync: a.sync.saturating_add(b.sync),
        rename: a.rename.saturating_add(b.rename),
        discard: a.discard.saturating_add(b.discard),
        remove: a.remove.saturating_add(b.remove),
        names: a.names.saturating_add(b.names),
    }
}

/// The first without the second.
pub fn difference(a: Calls, b: Calls) -> Calls {
    Calls {
        size: a.size.saturating_sub(b.size),
        read: a.read.saturating_sub(b.read),
        append: a.append.saturating_sub(b.append),
        sync: a.sync.saturating_sub(b.sync),
        rename: a.rename.saturating_sub(b.rename),
        discard: a.discard.saturating_sub(b.discard),
        remove: a.remove.saturating_sub(b.remove),
        names: a.names.saturating_sub(b.names),
    }
}
END
cat >"$work/crates/slots_bench/src/sections.rt" <<'END'
//! The sections, each timed alone.

ghost use Rattle.std.specs.Prelude.{◌≡◌, ◌≤◌, IfSome, length};
ghost use Rattle.slot_core.specs.Deeds.{IsCommit};

use crate::deeds::{MOST_TURNS, delete, key, put};
use crate::earlier::MOMENT;
use crate::meter::{begun, tell};
use crate::world::World;
use call_types::{Mode, Pick};
use slot_core::{Commit, Flight, Pin, ReadStart, Turn};
use stamp_id::VersionId;
use std::time::CpuClock;

/// A look at the bucket.
pub fn look(rt: &HostRuntime, world: &mut World, label: u32) -> Option<()> {
    let before = begun(rt, world)?;
    if world.disks.len() != world.set.drives as usize || world.slot.turns() > MOST_TURNS {
        return None;
    }
    let Turn { answer, .. } = world
        .slot
        .peek(rt.alloc(), world.disks.as_mut_slice(), "b/pic");
    let to = rt.thread_cpu_time().ok()?;
    if answer.is_err() {
        return None;
    }
    tell(rt, world, label, "look", before, to)
}

/// The begin of a put of a key.
pub fn begin_put(rt: &HostRuntime, world: &mut World, label: u32) -> Option<Flight> {
    let at = key(rt.alloc(), "a")?;
    let before = begun(rt, world)?;
    if world.slot.turns() > MOST_TURNS {
        return None;
    }
    let Turn { answer, .. } = world.slot.begin_put(rt.alloc(), &at);
    let to = rt.thread_cpu_time().ok()?;
    let Ok(flight) = answer else {
        return None;
    };
    tell(rt, world, label, "begin_put", before, to)?;
    Some(flight)
}

/// A commit, which is printed by this name.
fn commit(
    rt: &HostRuntime,
    world: &mut World,
    label: u32,
    name: &str,
    deed: &Commit,
    flight: Option<Flight>,
) -> Option<()>
    requires { IsCommit deed.now }
{
    let before = begun(rt, world)?;
    if world.disks.len() != world.set.drives as usize || world.slot.turns() > MOST_TURNS {
        return None;
    }
    let Turn { answer, .. } = world.slot.commit(
        rt.alloc(),
        world.disks.as_mut_slice(),
        deed,
        flight,
        MOMENT,
    );
    let to = rt.thread_cpu_time().ok()?;
    if answer.is_err() {
        return None;
    }
    tell(rt, world, label, name, before, to)
}

/// The commit of a put that was begun.
pub fn commit_put(rt: &HostRuntime, world: &mut World, label: u32, flight: Flight) -> Option<()> {
    let deed = put(rt.alloc(), "a", Mode::Enabled, flight.id())?;
    commit(rt, world, label, "commit", &deed, Some(flight))
}

/// The commit of a delete of one version.
pub fn commit_delete(rt: &HostRuntime, world: &mut World, label: u32, id: VersionId) -> Option<()> {
    let deed = delete(rt.alloc(), "a", Mode::Enabled, id)?;
    commit(rt, world, label, "delete", &deed, None)
}

/// The begin of a read of a key's current version.
pub fn begin_read(rt: &HostRuntime, world: &mut World, label: u32) -> Option<Pin> {
    let at = key(rt.alloc(), "a")?;
    let before = begun(rt, world)?;
    if world.disks.len() != world.set.drives as usize || world.slot.turns() > MOST_TURNS {
        return None;
    }
    let Turn { answer, .. } = world.slot.begin_read(
        rt.alloc(),
        world.disks.as_mut_slice(),
        &at,
        Mode::Enabled,
        &Pick::Current,
    );
    let to = rt.thread_cpu_time().ok()?;
    let Ok(ReadStart { pin, .. }) = answer else {
        return None;
    };
    tell(rt, world, label, "begin_read", before, to)?;
    Some(pin)
}

/// The end of a read.
pub fn end_read(rt: &HostRuntime, world: &mut World, label: u32, pin: Pin) -> Option<()> {
    let before = begun(rt, world)?;
    if world.slot.turns() > MOST_TURNS {
        return None;
    }
    let _ = world.slot.end_read(pin);
    let to = rt.thread_cpu_time().ok()?;
    tell(rt, world, label, "end_read", before, to)
}

/// The taking of trash, of which there is one id.
pub fn take_trash(rt: &HostRuntime, world: &mut World, label: u32) -> Option<()> {
    let before = begun(rt, world)?;
    if world.slot.turns() > MOST_TURNS {
        return None;
    }
    let Turn { answer, .. } = world.slot.take_trash(rt.alloc(), 16);
    let to = rt.thread_cpu_time().ok()?;
    let Ok(ids) = answer else {
        return None;
    };
    if ids.len() != 1 {
        return None;
    }
    tell(rt, world, label, "take_trash", before, to)
}
END
cat >"$work/crates/slots_bench/src/rounds.rt" <<'END'
//! Rounds of all sections on one key, and of their parts alone.

ghost use Rattle.std.specs.Prelude.{◌≡◌};

use crate::alone::{change, fresh_register};
use crate::earlier::spelled;
use crate::opened::world_of;
use crate::parts::{Spelled, time_parts};
use crate::sections::{
    begin_put, begin_read, commit_delete, commit_put, end_read, look, take_trash,
};
use crate::world::World;
use stamp_id::VersionId;

/// The rounds of a key with few versions, and with many.
const FEW_ROUNDS: u32 = 500;

const MANY_ROUNDS: u32 = 30;

fn put(rt: &HostRuntime, world: &mut World, label: u32) -> Option<VersionId> {
    look(rt, world, label)?;
    let flight = begin_put(rt, world, label)?;
    let id = flight.id();
    commit_put(rt, world, label, flight)?;
    Some(id)
}

fn read(rt: &HostRuntime, world: &mut World, label: u32) -> Option<()> {
    let pin = begin_read(rt, world, label)?;
    end_read(rt, world, label, pin)
}

/// Puts a version, reads it, and deletes it again.
fn one_round(rt: &HostRuntime, world: &mut World, label: u32) -> Option<()> {
    let id = put(rt, world, label)?;
    read(rt, world, label)?;
    commit_delete(rt, world, label, id)?;
    take_trash(rt, world, label)
}

/// Prints what the sections cost on a key with one version before the put.
pub fn time_few(rt: &HostRuntime, drives: u8) -> Option<()> {
    let mut world = world_of(rt.alloc(), drives, 1)?;
    for _ in 0..FEW_ROUNDS {
        one_round(rt, &mut world, 1)?;
    }
    Some(())
}

/// Prints what the sections cost on a key that has so many versions after the put, and what their parts cost alone.
pub fn time_many(rt: &HostRuntime, drives: u8, versions: u32) -> Option<()> {
    let alloc = rt.alloc();
    let spelled = Spelled {
        before: spelled(alloc, versions.saturating_sub(1)).ok()?,
        after: spelled(alloc, versions).ok()?,
    };
    let mut world = world_of(alloc, drives, versions.saturating_sub(1))?;
    let mut register = fresh_register(alloc, drives)?;
    change(rt, &mut register, spelled.before.as_slice())?;
    for _ in 0..MANY_ROUNDS {
        one_round(rt, &mut world, versions)?;
        time_parts(rt, drives, &mut register, &spelled)?;
    }
    Some(())
}
END
cat >"$work/crates/slots_bench/src/show.rt" <<'END'
//! The lines that are printed.

use drive_memory::Calls;
use std::time::Duration;

/// Prints what a section costs: its time in nanoseconds, and the calls of the lanes and of the data drives.
pub fn show(
    rt: &HostRuntime,
    drives: u8,
    versions: u32,
    name: &str,
    time: Duration,
    lanes: Calls,
    disks: Calls,
) -> Option<()> {
    let time = time.as_nanos();
    print!(rt; "section {drives} {versions} {name} {time}").ok()?;
    show_calls(rt, lanes)?;
    show_calls(rt, disks)?;
    println!(rt; "").ok()
}

fn show_calls(rt: &HostRuntime, calls: Calls) -> Option<()> {
    print!(rt;
        " {} {} {} {} {} {} {} {}",
        calls.size,
        calls.read,
        calls.append,
        calls.sync,
        calls.rename,
        calls.discard,
        calls.remove,
        calls.names
    )
    .ok()
}

/// Prints the time of a part, in nanoseconds.
pub fn show_time(rt: &HostRuntime, drives: u8, name: &str, time: Duration) -> Option<()> {
    let time = time.as_nanos();
    println!(rt; "part {drives} {name} {time}").ok()
}

/// Prints the commits in a second, where so many took this time.
pub fn show_rate(
    rt: &HostRuntime,
    drives: u8,
    keys: u32,
    commits: u32,
    time: Duration,
) -> Option<()> {
    let rate = (commits as u128 * 1_000_000_000).checked_div(time.as_nanos())?;
    println!(rt; "rate {drives} {keys} {rate}").ok()
}
END
cat >"$work/crates/slots_bench/src/alone.rt" <<'END'
//! A register alone, without the state of a key.

ghost use Rattle.std.specs.Prelude.{◌≡◌};

use crate::earlier::{Anything, fresh_drives, set_of, write_register};
use drive_base::{DriveSet, SetPlan};
use drive_memory::ScriptedDrive;
use register_core::look;
use std::alloc::Global;
use std::time::{CpuClock, Duration};

/// A register over lanes and data drives, and the next number.
#[derive(Drop)]
pub struct Register {
    set: SetPlan,
    lanes: Vec<ScriptedDrive>,
    disks: Vec<ScriptedDrive>,
    seq: u64,
}

/// A register of which no lane has a file.
pub fn fresh_register(alloc: Global, drives: u8) -> Option<Register> {
    Some(Register {
        set: set_of(drives),
        lanes: fresh_drives(alloc, drives).ok()?,
        disks: fresh_drives(alloc, drives).ok()?,
        seq: 1,
    })
}

/// The time of a look at the register and a change to this content.
pub fn change(rt: &HostRuntime, register: &mut Register, content: &[u8]) -> Option<Duration> {
    if register.seq > 100_000 {
        return None;
    }
    let from = rt.thread_cpu_time().ok()?;
    write_register(
        rt.alloc(),
        register.lanes.as_mut_slice(),
        register.disks.as_mut_slice(),
        register.set,
        "k/pic/a",
        content,
        register.seq,
    )?;
    register.seq += 3;
    rt.thread_cpu_time().ok()?.checked_sub(from)
}

/// The time of a look at the register.
pub fn time_look(rt: &HostRuntime, register: &mut Register) -> Option<Duration> {
    let drives = register.set.drives as usize;
    if register.lanes.len() != drives || register.disks.len() != drives {
        return None;
    }
    let from = rt.thread_cpu_time().ok()?;
    let looked = look(
        rt.alloc(),
        register.lanes.as_mut_slice(),
        register.disks.as_mut_slice(),
        DriveSet::none(),
        register.set,
        "k/pic/a",
        &mut Anything,
    )
    .ok()?;
    if looked.pending.is_some() {
        return None;
    }
    rt.thread_cpu_time().ok()?.checked_sub(from)
}
END
cat >"$work/crates/slots_bench/src/parts.rt" <<'END'
//! What is done in a section, each alone.

use crate::acts::put_of;
use crate::alone::{Register, change, time_look};
use crate::earlier::MOMENT;
use crate::show::show_time;
use call_types::Mode;
use stamp_id::VersionId;
use std::time::{CpuClock, Duration};
use version_list::{apply, names_id, read, write};

/// The spellings of a key's state before and after a put.
#[derive(Drop)]
pub struct Spelled {
    pub before: Vec<u8>,
    pub after: Vec<u8>,
}

fn time_decode(rt: &HostRuntime, content: &[u8]) -> Option<Duration> {
    let from = rt.thread_cpu_time().ok()?;
    let state = read(rt.alloc(), content).ok()?;
    if state.versions.is_empty() {
        return None;
    }
    drop(state);
    rt.thread_cpu_time().ok()?.checked_sub(from)
}

fn time_encode(rt: &HostRuntime, content: &[u8]) -> Option<Duration> {
    let state = read(rt.alloc(), content).ok()?;
    let from = rt.thread_cpu_time().ok()?;
    let content = write(rt.alloc(), &state).ok()?;
    if content.is_empty() {
        return None;
    }
    drop(content);
    rt.thread_cpu_time().ok()?.checked_sub(from)
}

fn time_apply(rt: &HostRuntime, content: &[u8], id: VersionId) -> Option<Duration> {
    let state = read(rt.alloc(), content).ok()?;
    if names_id(&state, id) {
        return None;
    }
    let act = put_of(rt.alloc(), id)?;
    let from = rt.thread_cpu_time().ok()?;
    let applied = apply(rt.alloc(), &state, Mode::Enabled, &act, id, MOMENT).ok()?;
    if applied.state.is_none() {
        return None;
    }
    drop(applied);
    rt.thread_cpu_time().ok()?.checked_sub(from)
}

/// Prints what each part costs of a put that makes the second spelling of the first, and of a read of the second. The register has the first one before
/// and after.
pub fn time_parts(
    rt: &HostRuntime,
    drives: u8,
    register: &mut Register,
    spelled: &Spelled,
) -> Option<()> {
    let before = spelled.before.as_slice();
    let after = spelled.after.as_slice();
    let id = VersionId::parse("00000000-0003-801c-8000-000000000001").ok()?;
    show_time(rt, drives, "decode", time_decode(rt, before)?)?;
    show_time(rt, drives, "apply", time_apply(rt, before, id)?)?;
    show_time(rt, drives, "encode", time_encode(rt, after)?)?;
    show_time(rt, drives, "change", change(rt, register, after)?)?;
    show_time(rt, drives, "register_look", time_look(rt, register)?)?;
    change(rt, register, before)?;
    Some(())
}
END
cat >"$work/crates/slots_bench/src/rate.rt" <<'END'
//! Commits in a second.

ghost use Rattle.std.specs.Prelude.{◌≡◌};

use crate::deeds::{MOST_TURNS, commit, key, put};
use crate::opened::world_of;
use crate::show::show_rate;
use crate::world::World;
use call_types::Mode;
use slot_core::{Flight, Turn};
use std::alloc::Global;
use std::time::CpuClock;

/// The commits that are timed.
const COMMITS: u32 = 10_000;

fn begin(alloc: Global, world: &mut World, name: &str) -> Option<Flight> {
    let at = key(alloc, name)?;
    if world.slot.turns() > MOST_TURNS {
        return None;
    }
    let Turn { answer, .. } = world.slot.begin_put(alloc, &at);
    match answer {
        Ok(flight) => Some(flight),
        Err(_) => None,
    }
}

fn take(alloc: Global, world: &mut World) -> Option<()> {
    if world.slot.turns() > MOST_TURNS {
        return None;
    }
    let Turn { answer, .. } = world.slot.take_trash(alloc, 16);
    if answer.is_err() {
        return None;
    }
    Some(())
}

/// Puts a key whose one version it replaces, and takes the trash.
fn replace(alloc: Global, world: &mut World, number: u32) -> Option<()> {
    let name = format!(in alloc; "b{number}").ok()?;
    let flight = begin(alloc, world, name.as_str())?;
    let deed = put(alloc, name.as_str(), Mode::Never, flight.id())?;
    commit(alloc, world, &deed, Some(flight))?;
    take(alloc, world)
}

/// Prints the commits in a second, over so many keys in turn.
pub fn time_commits(rt: &HostRuntime, drives: u8, keys: u32) -> Option<()> {
    let alloc = rt.alloc();
    let mut world = world_of(alloc, drives, 1)?;
    for number in 0..keys {
        replace(alloc, &mut world, number)?;
    }
    let from = rt.thread_cpu_time().ok()?;
    for count in 0..COMMITS {
        replace(alloc, &mut world, count.checked_rem(keys)?)?;
    }
    let time = rt.thread_cpu_time().ok()?.checked_sub(from)?;
    show_rate(rt, drives, keys, COMMITS, time)
}
END
take_libraries
run_program slots_bench
awk '
    function calls(from,   all, text, k) {
        all = 0; text = ""
        for (k = 0; k < 8; k++) if ($(from + k)) { all += $(from + k); text = text (text ? ", " : ": ") $(from + k) " " kinds[k + 1] }
        return all text
    }
    function us(nanoseconds) { return sprintf("%.1f", nanoseconds / 1000) }
    # the middle one of the values of this name
    function middle(name,   n, i, j, v, sorted) {
        n = count[name]
        for (i = 1; i <= n; i++) {
            v = value[name, i]
            for (j = i - 1; j > 0 && sorted[j] > v; j--) sorted[j + 1] = sorted[j]
            sorted[j + 1] = v
        }
        return sorted[int((n + 1) / 2)]
    }
    function keep(name, v) { value[name, ++count[name]] = v }
    function beyond(name, parts,   rest, text, k, names) {
        rest = middle(name); text = us(rest) " ="
        for (k = 1; k <= split(parts, names, " "); k++) { rest -= middle(names[k]); text = text " " names[k] " " us(middle(names[k])) " +" }
        return text " " us(rest)
    }
    function show_set(   k) {
        printf "%d drives, 2 of them parity\n", set
        for (k = 1; k <= rows; k++) {
            if (k == 1 || versions[k] != versions[k - 1])
                printf "  %-16s %12s  %-50s %s\n", versions[k] (versions[k] > 1 ? " versions" : " version"), "microseconds",
                    "calls of the lanes", "of the data drives"
            printf "    %-14s %12s  %-50s %s\n", names[k], us(best[versions[k], names[k]]), lanes[k], disks[k]
        }
        printf "  %d versions, middle times: a register alone: change %s, look %s\n", versions[rows], us(middle("change")), us(middle("register_look"))
        printf "    commit beyond the change: %s\n", beyond("commit", "decode apply encode")
        printf "    begin_read beyond the look: %s\n", beyond("begin_read", "decode")
        rows = 0; split("", best); split("", count)
    }
    BEGIN { split("size read append sync rename discard remove names", kinds, " ") }
    $1 == "clock" { printf "a reading of the clock: %s microseconds\n", us($2) }
    $1 == "section" {
        set = $2; last[$4] = $5
        if (!(($3, $4) in best)) { versions[++rows] = $3; names[rows] = $4; lanes[rows] = calls(6); disks[rows] = calls(14); best[$3, $4] = $5 }
        if ($5 < best[$3, $4]) best[$3, $4] = $5
    }
    $1 == "part" { keep($3, $4) }
    $1 == "part" && $3 == "change" { keep("commit", last["commit"] - $4) }
    $1 == "part" && $3 == "register_look" { keep("begin_read", last["begin_read"] - $4) }
    $1 == "rate" && rows { show_set() }
    $1 == "rate" { printf "  %d commits a second, of %d key%s with 1 version\n", $4, $3, ($3 > 1 ? "s" : "") }
' "$work/out"
