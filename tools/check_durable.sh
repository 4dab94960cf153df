#!/usr/bin/env bash
# Shows that a drive over a folder has synced all that it has to before it answers. It makes a temporary repository with copies of
# the crates and of a program that opens a drive and writes one file with a long name, for which a folder is made; proves,
# builds and runs that under strace (Debian: apt-get install strace); and looks through the calls of the system that it makes:
# the file is synced after its last write and before its rename, and after the rename each folder with a new entry is synced
# before the answer. It prints these calls. With --left-out it runs a copy of the crate that leaves each fsync out in the file that
# passes calls on to the system, and fails unless that is found out.
set -euo pipefail

source "$(dirname "$(readlink -f "${BASH_SOURCE[0]}")")/../bench/common.sh"
left_out="${1:-}"

[[ "$left_out" == "" || "$left_out" == "--left-out" ]] || fail 2 "the only option is --left-out"
command -v strace >/dev/null || fail 2 "strace is not installed"

new_program durable_write drive_base drive_file
if [[ "$left_out" == "--left-out" ]]; then
    system="$work/crates/drive_file/src/system.rt"
    grep -q '\.and_then(|file| file\.sync_all())' "$system" || fail 1 "system.rt syncs in other words"
    sed -i 's/\.and_then(|file| file\.sync_all())/.map(|_file| ())/' "$system"
fi
cat >"$work/crates/durable_write/src/main.rt" <<'END_OF_PROGRAM'
//! Writes one file on a drive over a folder, between two lines of output.
#![tactic(auto)]

ghost use Rattle.std.specs.Prelude.{◌≤◌, length};

use drive_base::{Drive, LONGEST_NAME};
use drive_file::{FileDrive, SystemFolder};
use std::process::ExitCode;

/// The bytes of the file's name, which has two groups of digits.
const LENGTH: usize = 101;

fn main(rt: HostRuntime) -> ExitCode {
    match write(&rt) {
        Some(()) => ExitCode::SUCCESS,
        None => {
            let _ = eprintln!(rt; "durable_write: no memory or a failed call");
            ExitCode::FAILURE
        }
    }
}

fn write(rt: &HostRuntime) -> Option<()> {
    let mut drive = FileDrive::open(SystemFolder::new(*rt), rt.alloc(), "drive").ok()?;
    let mut name = String::new(rt.alloc());
    for _ in 0..LENGTH {
        name.push('n').ok()?;
    }
    if name.len() > LONGEST_NAME {
        return None;
    }
    println!(rt; "begins").ok()?;
    drive.append("w1", b"first").ok()?;
    drive.append("w1", b"second").ok()?;
    drive.sync("w1").ok()?;
    drive.rename("w1", name.as_str()).ok()?;
    println!(rt; "answered").ok()
}
END_OF_PROGRAM

run_program durable_write
mkdir "$work/disk"
(cd "$work/disk" && strace -f -y -s 200 -o "$work/trace" "$work/crates/durable_write/out/durable_write") >/dev/null

cat >"$work/look.py" <<'END_OF_PROGRAM'
"""Looks through a trace for what was not synced before the answer: look.py TRACE FOLDER"""
import os
import re
import sys

trace, here = sys.argv[1], os.path.realpath(sys.argv[2])
seen, unsynced, made, missing = [], set(), [], []
begun = answered = renamed = False


def full(path):
    return os.path.normpath(os.path.join(here, path))


for line in open(trace):
    call = re.sub(r"^\d+\s+", "", line.rstrip("\n"))
    if re.match(r'write\(1<.*"begins', call):
        begun = True
        continue
    if not begun:
        continue
    if re.match(r'write\(1<.*"answered', call):
        answered = True
        break
    done = re.search(r"= 0$", call)
    if found := re.match(r"p?write(?:v|64)?\(\d+<([^>]*)>", call):
        unsynced.add(("file", found[1]))
    elif found := re.match(r"f(?:data)?sync\(\d+<([^>]*)>\)", call):
        if done:
            unsynced -= {("file", found[1]), ("folder", found[1])}
    elif found := re.match(r'mkdir(?:at)?\((?:AT_FDCWD(?:<[^>]*>)?, )?"([^"]*)"', call):
        if done:
            unsynced.add(("folder", os.path.dirname(full(found[1]))))
    elif found := re.match(r'rename(?:at2?)?\((?:AT_FDCWD(?:<[^>]*>)?, )?"([^"]*)", (?:AT_FDCWD(?:<[^>]*>)?, )?"([^"]*)"', call):
        old, new = full(found[1]), full(found[2])
        if ("file", old) in unsynced:
            missing.append(f"the file was renamed before it was synced: {old}")
        if done:
            renamed = True
            unsynced.add(("folder", os.path.dirname(new)))
    else:
        continue
    seen.append(call)

for call in seen:
    print(call.replace(here + "/", "")[:150])
if not (answered and renamed):
    missing.append("no rename and no answer were seen")
missing += [f"the {kind} was not synced before the answer: {path}" for kind, path in sorted(unsynced)]
for what in missing:
    print(what.replace(here + "/", ""))
sys.exit(1 if missing else 0)
END_OF_PROGRAM

if python3 "$work/look.py" "$work/trace" "$work/disk"; then
    [[ "$left_out" == "" ]] || fail 1 "each fsync was left out, and it was not found out"
    echo "all was synced before the answer"
else
    [[ "$left_out" == "--left-out" ]] || fail 1 "something was not synced before the answer"
    echo "it was found out that each fsync was left out"
fi
