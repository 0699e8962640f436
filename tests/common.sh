# shellcheck shell=bash disable=SC2034
# What the scripts in tests/ share; each starts with it. It goes to the repository's root, and builds what a script asks for.
set -euo pipefail
cd "$(dirname "${BASH_SOURCE[0]}")/.."
export CARGO_TARGET_DIR="${CARGO_TARGET_DIR:-$PWD/build/cargo}"

# The programs' crates.
listing_program=listing_main
plan_program=plan_main
table_program=table_main
cursor_program=cursor_main

# A folder for what a script makes; gone when it ends.
work=$(mktemp -d)
trap 'rm -rf "$work"' EXIT

fail() {
    echo "$(basename "$0"): $*" >&2
    exit 1
}

# Where rt leaves a program.
binary() { # CRATE
    echo "crates/$1/out/$1"
}

# Proves and builds programs, where something has changed, and runs each: rt builds a program only to run it. It writes what its crate says.
# A second rt in the same crates waits for the first.
build_programs() { # CRATE...
    local crate input
    for crate; do
        input=/dev/null
        [ ! -e "crates/$crate/stdin" ] || input=$PWD/crates/$crate/stdin
        if ! (cd "crates/$crate" && rt run < "$input" > "$work/ran") 2> "$work/said"; then
            cat "$work/said" >&2
            fail "not proved, built and run: $crate"
        fi
        [ -x "$(binary "$crate")" ] || fail "rt run made no $(binary "$crate")"
        same "crates/$crate/stdout" "$work/ran" "$crate's input"
    done
}

# Builds the second program; its commands are $reference/reference-*.
reference=$CARGO_TARGET_DIR/release
build_reference() {
    cargo build --quiet --release --manifest-path reference/Cargo.toml
}

# Sets $streams to the stored streams. Each has a listing beside it, and each listing a stream.
find_streams() {
    local listings=(reference/vectors/*.listing) stream
    streams=(reference/vectors/*.syx)
    for stream in "${streams[@]}"; do
        if [ ! -e "$stream" ] || [ ! -s "${stream%.syx}.listing" ]; then fail "$stream, or its listing, is not there"; fi
    done
    [ "${#streams[@]}" -eq "${#listings[@]}" ] || fail 'a stored listing has no stream'
}

# Holds what was printed against what is expected, which must not be empty.
same() { # EXPECTED PRINTED OF-WHAT
    [ -s "$1" ] || fail "nothing is expected of $3"
    cmp -s "$1" "$2" || { diff "$1" "$2" | head -n 10 >&2 || true; fail "what was printed of $3 is not what is expected"; }
}

# What a fresh clone has: all but what .gitignore names.
fresh_copy() { # FOLDER
    mkdir -p "$1"
    tar -c --exclude=target --exclude=build --exclude=out --exclude=.git . | tar -x -C "$1"
}
