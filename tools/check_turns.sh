#!/usr/bin/env bash
# Runs the tests of turn_lock with 100,000 turns for each of two threads and of four, in a copy: every ticket is another one. The gate runs them with
# fewer turns, since each turn waits for the next thread to run, which a loaded machine lets wait.
set -euo pipefail

top="$(cd "$(dirname "$(readlink -f "${BASH_SOURCE[0]}")")/.." && pwd)"
copy="$(mktemp -d)"
trap 'rm -rf "$copy"' EXIT

mkdir -p "$copy/crates"
cp "$top/HANDLES" "$copy/"
grep '^turn_lock:' "$top/crates.txt" >"$copy/crates.txt"
cp -r "$top/crates/turn_lock" "$copy/crates/"
rm -rf "$copy/crates/turn_lock/out"

tests="$copy/crates/turn_lock/src/tests.rt"
sed -i -e 's/5, false, 3_000/5, false, 100_000/' -e 's/\[6_000, 6_000, 6_005, 6_005, 18_027_000\]/[200_000, 200_000, 200_005, 200_005, 20_000_900_000]/' \
    -e 's/0, true, 2_000/0, true, 100_000/' -e 's/\[8_000, 8_000, 8_000, 8_000, 31_996_000\]/[400_000, 400_000, 400_000, 400_000, 79_999_800_000]/' "$tests"
changed="$(diff "$top/crates/turn_lock/src/tests.rt" "$tests" | grep -c '^>' || true)"
if [[ "$changed" != 4 ]]; then
    echo "check_turns: the tests have other numbers than this script knows" >&2
    exit 1
fi
cd "$copy/crates/turn_lock"
RT_SECONDS=600 rt test
