# What the measurements share; each sources this file. A measuring program is proved, built and run in a temporary
# repository, "$work", with copies of the crates that it stands on. That takes some minutes the first time.

top="$(cd "$(dirname "$(readlink -f "${BASH_SOURCE[0]}")")/.." && pwd)"
work="$(mktemp -d)"
trap 'rm -rf "$work"' EXIT

# Says what is wrong, and ends with this status: fail STATUS TEXT
fail() {
    echo "$(basename "$0"): $2" >&2
    exit "$1"
}

# Copies a crate and what it stands on. What isn't a crate of the repository is the kit's: copy_crate CRATE
copy_crate() {
    local line part below
    line="$(grep -E "^$1:" "$top/crates.txt")" || return 0
    [[ ! -d "$work/crates/$1" ]] || return 0
    mkdir -p "$work/crates/$1"
    for part in src specs proofs; do
        [[ ! -d "$top/crates/$1/$part" ]] || cp -r "$top/crates/$1/$part" "$work/crates/$1/"
    done
    echo "$line" >>"$work/crates.txt"
    for below in ${line#*:}; do copy_crate "$below"; done
}

# Makes the folder of a program that stands on these crates: new_program NAME CRATE..
new_program() {
    local name="$1" crate
    shift
    for crate in "$@"; do copy_crate "$crate"; done
    echo "$name: $*" >>"$work/crates.txt"
    cp "$top/HANDLES" "$work/"
    mkdir -p "$work/crates/$name/src"
}

# Takes the libraries that this checkout has built; rt uses those that are of the same text, and builds the others.
take_libraries() {
    local folder crate
    for folder in "$top"/crates/*/out/rlib; do
        crate="$(basename "${folder%/out/rlib}")"
        [[ -d "$folder" && -d "$work/crates/$crate" ]] || continue
        mkdir -p "$work/crates/$crate/out/rlib"
        cp -rl "$folder/." "$work/crates/$crate/out/rlib/" 2>/dev/null || cp -r "$folder/." "$work/crates/$crate/out/rlib/"
    done
}

# Proves, builds and runs a program, and leaves what it prints in "$work/out": run_program NAME [FLAG..]
run_program() {
    local name="$1"
    shift
    if ! (cd "$work/crates/$name" && rt run "$@") >"$work/out" 2>"$work/log"; then
        cat "$work/out" "$work/log" >&2
        fail 1 "the program was not proved, built or run"
    fi
}
