#!/usr/bin/env bash
# Times a drive over a folder beside a small C program that makes the same calls of the system on the same disk in the same
# run: an append of 4,096 bytes to a new loose file, its sync, its rename into place with the folder's fsync, and a read of
# 4,096 bytes of a file in place. It makes a temporary repository with copies of the crates and of a small program, proves
# that, builds it and runs it, which takes some minutes the first time. TMPDIR says on which disk. The two take turns in 20
# rounds of ten slices of 20 files each; a line has calls a second of both by the wall clock, from the middle one of the
# slices' middle times, since other work disturbs many calls, and the first as a part of the second. Where a part is below 0.8
# the script fails. With a number: that many rounds.
set -euo pipefail

source "$(dirname "$(readlink -f "${BASH_SOURCE[0]}")")/common.sh"
rounds="${1:-20}"
[[ "$rounds" =~ ^[1-9][0-9]?$ ]] || fail 2 "the number of rounds is 1 to 99"

new_program folder_bench drive_base drive_file
cat >"$work/crates/folder_bench/src/main.rt" <<'END_OF_PROGRAM'
//! Times the calls of a drive over a folder.
#![tactic(auto)]

ghost use Rattle.std.specs.Prelude.{◌≤◌, length};

use drive_base::{Drive, LONGEST_NAME};
use drive_file::FileDrive;
use std::alloc::{AllocError, Global};
use std::process::ExitCode;
use std::rt::Clock;
use std::time::Duration;

/// The files of one slice, whose calls of a kind come one after another.
const FILES: usize = 20;

const SLICES: u64 = 10;

fn main(rt: HostRuntime) -> ExitCode {
    match measure(&rt) {
        Some(()) => ExitCode::SUCCESS,
        None => {
            let _ = eprintln!(rt; "folder_bench: no memory, no clock or a failed call");
            ExitCode::FAILURE
        }
    }
}

/// Prints the middle time of each kind of call in each slice.
fn measure(rt: &HostRuntime) -> Option<()> {
    let mut drive = FileDrive::open(*rt, rt.alloc(), "drive").ok()?;
    for slice in 0..SLICES {
        let names = names(rt.alloc(), slice).ok()?;
        let append = middle(time_appends(rt, &mut drive, &names)?);
        let sync = middle(time_syncs(rt, &mut drive, &names)?);
        let rename = middle(time_renames(rt, &mut drive, &names)?);
        let read = middle(time_reads(rt, &mut drive, &names)?);
        println!(rt; "append {append}\nsync {sync}\nrename {rename}\nread {read}").ok()?;
    }
    Some(())
}

/// The names of the files of a slice.
fn names(alloc: Global, slice: u64) -> Result<Vec<String>, AllocError> {
    let mut names = Vec::new(alloc);
    for number in 0..FILES {
        let Ok(name) = format!(in alloc; "k/pic/{slice}/{number}") else {
            return Err(AllocError);
        };
        names.push(name)?;
    }
    Ok(names)
}

fn middle(mut times: [u64; FILES]) -> u64 {
    times.sort_unstable();
    times[FILES / 2]
}

fn time_appends<D: Drive, R: Clock>(rt: &R, drive: &mut D, names: &[String]) -> Option<[u64; FILES]> {
    let block = [7u8; 4096];
    let mut times = [0u64; FILES];
    for (time, name) in times.iter_mut().zip(names) {
        let from = rt.monotonic().ok()?;
        drive.append(name.as_str(), &block).ok()?;
        *time = since(rt, from)?;
    }
    Some(times)
}

fn time_syncs<D: Drive, R: Clock>(rt: &R, drive: &mut D, names: &[String]) -> Option<[u64; FILES]> {
    let mut times = [0u64; FILES];
    for (time, name) in times.iter_mut().zip(names) {
        let from = rt.monotonic().ok()?;
        drive.sync(name.as_str()).ok()?;
        *time = since(rt, from)?;
    }
    Some(times)
}

fn time_renames<D: Drive, R: Clock>(rt: &R, drive: &mut D, names: &[String]) -> Option<[u64; FILES]> {
    let mut times = [0u64; FILES];
    for (time, name) in times.iter_mut().zip(names) {
        if name.len() > LONGEST_NAME {
            return None;
        }
        let from = rt.monotonic().ok()?;
        drive.rename(name.as_str(), name.as_str()).ok()?;
        *time = since(rt, from)?;
    }
    Some(times)
}

fn time_reads<D: Drive, R: Clock>(rt: &R, drive: &mut D, names: &[String]) -> Option<[u64; FILES]> {
    let mut into = [0u8; 4096];
    let mut times = [0u64; FILES];
    for (time, name) in times.iter_mut().zip(names) {
        let from = rt.monotonic().ok()?;
        let count = drive.read(name.as_str(), 0, &mut into).ok()?;
        *time = since(rt, from)?;
        if count != into.len() {
            return None;
        }
    }
    Some(times)
}

/// The nanoseconds since this moment.
fn since<R: Clock>(rt: &R, from: Duration) -> Option<u64> {
    let time = rt.monotonic().ok()?.checked_sub(from)?;
    u64::try_from(time.as_nanos()).ok()
}
END_OF_PROGRAM

cat >"$work/folder.c" <<'END_OF_PROGRAM'
// The calls of the system that a drive over a folder makes, in C.
#define _GNU_SOURCE
#include <fcntl.h>
#include <stdio.h>
#include <stdlib.h>
#include <sys/stat.h>
#include <time.h>
#include <unistd.h>

enum { FILES = 20, SLICES = 10, BLOCK = 4096 };

static char block[BLOCK], loose[FILES][64], placed[FILES][64];

static void must(int done) {
    if (!done) { perror("folder"); exit(1); }
}

static long now(void) {
    struct timespec time;
    clock_gettime(CLOCK_MONOTONIC, &time);
    return time.tv_sec * 1000000000L + time.tv_nsec;
}

static void sync_path(const char *path) {
    int file = open(path, O_RDONLY | O_CLOEXEC);
    must(file >= 0 && fsync(file) == 0 && close(file) == 0);
}

static void append(int i) {
    int file = open(loose[i], O_WRONLY | O_APPEND | O_CREAT | O_CLOEXEC, 0666);
    must(file >= 0 && write(file, block, BLOCK) == BLOCK && close(file) == 0);
}

static void place(int i) {
    struct stat found;
    must(stat(loose[i], &found) == 0 && rename(loose[i], placed[i]) == 0);
    sync_path("plain");
}

static void read_one(int i) {
    int file = open(placed[i], O_RDONLY | O_CLOEXEC);
    must(file >= 0 && lseek(file, 0, SEEK_SET) == 0 && read(file, block, BLOCK) == BLOCK && close(file) == 0);
}

static void name_files(int slice) {
    for (int i = 0; i < FILES; i++) {
        char name[32];
        int length = snprintf(name, sizeof name, "k/pic/%d/%d", slice, i);
        char *a = loose[i] + sprintf(loose[i], "plain/loose/"), *b = placed[i] + sprintf(placed[i], "plain/");
        for (int k = 0; k < length; k++) { a += sprintf(a, "%02x", name[k]); b += sprintf(b, "%02x", name[k]); }
    }
}

static int is_above(const void *one, const void *other) {
    long a = *(const long *)one, b = *(const long *)other;
    return (a > b) - (a < b);
}

// Prints the middle time of a call on each file.
static void measure(const char *kind, void call(int)) {
    long times[FILES];
    for (int i = 0; i < FILES; i++) {
        long from = now();
        call(i);
        times[i] = now() - from;
    }
    qsort(times, FILES, sizeof times[0], is_above);
    printf("%s %ld\n", kind, times[FILES / 2]);
}

static void sync_one(int i) { sync_path(loose[i]); }

int main(void) {
    must(mkdir("plain", 0777) == 0 && mkdir("plain/loose", 0777) == 0);
    for (int slice = 0; slice < SLICES; slice++) {
        name_files(slice);
        measure("append", append);
        measure("sync", sync_one);
        measure("rename", place);
        measure("read", read_one);
    }
}
END_OF_PROGRAM

cc -O2 -o "$work/plain_bench" "$work/folder.c"
run_program folder_bench
drive_lines() { "$work/crates/folder_bench/out/folder_bench" | sed 's/^/drive /'; }
c_lines() { "$work/plain_bench" | sed 's/^/C /'; }
# Each round has a folder of its own, since the removal of files goes on in the background, and the two take turns in being first.
for ((round = 0; round < rounds; round++)); do
    mkdir "$work/disk$round"
    cd "$work/disk$round"
    if ((round % 2 == 0)); then
        drive_lines
        c_lines
    else
        c_lines
        drive_lines
    fi
done >"$work/times"
sort -k1,1 -k2,2 -k3,3n "$work/times" | awk '
    { key = $1 " " $2; time[key, ++slices[key]] = $3 }
    END {
        bad = 0
        split("append sync rename read", kinds)
        for (k = 1; k <= 4; k++) {
            ours = "drive " kinds[k]; theirs = "C " kinds[k]
            place = int((slices[ours] + 1) / 2)
            part = time[theirs, place] / time[ours, place]
            printf "%-7s drive_file %9.0f a second, C %9.0f a second, part %.2f\n", kinds[k], 1e9 / time[ours, place], 1e9 / time[theirs, place], part
            if (part < 0.8) bad = 1
        }
        exit bad
    }' || fail 1 "a call has less than 0.8 of the speed in C"
