# What the checks of the built program share; each sources this file. A check runs the program as a user does, from any folder, and compares its exit
# status, what it gives and what it says on standard error. Texts are compared with every moment in them replaced by a dash.

top="$(cd "$(dirname "$(readlink -f "${BASH_SOURCE[0]}")")/../.." && pwd)"
program="${OSTORE:-$("$top/ostore" --program)}"
work="$(mktemp -d)"
trap 'rm -rf "$work"' EXIT
passed=0
failed=0

# Counts a case that failed, and says why: fails TEXT
fails() {
    failed=$((failed + 1))
    echo "$(basename "$0"): $1" >&2
}

# Replaces the moments in a text
without_moments() {
    LC_ALL=C sed -E 's/^(Date|Last-Modified): [A-Z][a-z]{2}, .* GMT/\1: -/; s/<(CreationDate|LastModified)>[^<]*</<\1>-</g'
}

# Prints a file of words on standard error without those of an opening: unopened FILE
unopened() {
    sed -E '/^ostore: (opened set .*|drive [0-9]+ is out|the drives were new, .*|no --root: .*)$/d' "$1"
}

# Runs the program, and leaves what it gave in "$work/replies", its words in "$work/said", these without its opening's in "$work/errors", and its status in
# "$status": run WORD..
run() {
    (cd / && "$program" "$@") >"$work/replies" 2>"$work/said"
    status=$?
    unopened "$work/said" >"$work/errors"
}

# Standard input is that of the program: check NAME STATUS REPLIES ERRORS WORD..
check() {
    local name="$1" wanted="$2" replies="$3" errors="$4"
    shift 4
    run "$@"
    if [[ $status != "$wanted" ]]; then
        fails "$name: status $status, wanted $wanted: $(head -c 200 "$work/errors")"
    elif ! cmp -s <(without_moments <"$work/replies") <(printf '%b' "$replies"); then
        fails "$name: other replies: $(head -c 400 "$work/replies")"
    elif ! cmp -s "$work/errors" <(printf '%b' "$errors"); then
        fails "$name: other words on standard error: $(head -c 200 "$work/errors")"
    else
        passed=$((passed + 1))
    fi
}

# Counts a case that passed where the command does: holds NAME COMMAND..
holds() {
    local name="$1"
    shift
    if "$@"; then passed=$((passed + 1)); else fails "$name"; fi
}

# Turns the lowest bit of the byte at a place of a file: flip FILE PLACE
flip() {
    local byte
    byte="$(od -An -tu1 -j "$2" -N 1 "$1")"
    printf "\\$(printf '%03o' $((byte ^ 1)))" | dd of="$1" bs=1 seek="$2" conv=notrunc status=none
}

# Prints the files of a kind in a folder, each with a zero byte behind it. The kind is the four letters at a file's front, or `shard` for a file with none of
# these: files_of FOLDER KIND
files_of() {
    local file kind
    while IFS= read -r -d '' file; do
        kind="$(head -c 4 "$file" | LC_ALL=C tr -cd 'A-Z')"
        [[ "$kind" =~ ^(OREG|OFMT|OMAN)$ ]] || kind=shard
        [[ "$kind" != "$2" ]] || printf '%s\0' "$file"
    done < <(find "$1" -type f -print0)
}

# Flips a bit in the middle of each file of a kind in a folder, and fails where there is none: flip_kind FOLDER KIND
flip_kind() {
    local file found=1
    while IFS= read -r -d '' file; do
        flip "$file" $(($(stat -c %s "$file") / 2))
        found=0
    done < <(files_of "$1" "$2")
    return $found
}

# Prints the sums of all files of a folder, in the order of their names: sums_of FOLDER
sums_of() {
    (cd "$1" && find . -type f -print0 | sort -z | xargs -0 -r sha256sum)
}

# Says how many cases passed, and ends
finish() {
    echo "$passed passed, $failed failed"
    [[ $failed == 0 ]]
    exit
}

run pipe </dev/null
if [[ $status != 0 ]]; then
    fails "the program does not run: $(head -c 400 "$work/said")"
    finish
fi
