# shellcheck shell=bash disable=SC2034,SC2154
# What the commands ./listing and ./plan share; each starts with it. Before, a command says who it is:
#   name     its own
#   program  the crate in crates.txt
#   takes    how long proving and building that takes from nothing
#   here     the repository
# The program is proved and built on first use, and anew when a crate has changed.
most=65536 # bytes that programs take of a file

note() { echo "$name: $*" >&2 || true; }
stop() {
    note "$*"
    exit 1
}

# A closed descriptor would be given to the next file or pipe that is opened.
{ : 3>&1; } 2> /dev/null || stop 'standard output is closed'

# Prints the command's help, which is all that it does then.
print_help() {
    help || stop 'the help was not written whole'
    exit
}

# Makes a file standard input.
open_file() { # FILE
    [ -e "$1" ] || stop "there is no file $1"
    [ ! -d "$1" ] || stop "$1 is a directory; a file is needed"
    [ -r "$1" ] || stop "$1 cannot be read: you lack the permission"
    exec < "$1" || stop "$1 cannot be opened"
}

# Prints a text, all of it.
print() { # FORMAT TEXT WHAT
    local written=0
    # shellcheck disable=SC2059
    printf "$1" "$2" | cat || written=$?
    if [ "$written" -eq 141 ]; then
        exit 141 # the reader has gone, as with `./listing FILE | head`
    elif [ "$written" -ne 0 ]; then
        stop "$3 was not written whole"
    fi
}

made=$here/crates/$program/out
binary=$made/$program
stamp=$binary.stamp # rt writes it once the program is proved and built

# rt's own work in out/ is no part of a crate; it comes and goes, and the crate's folder is newer then.
changed() { # prints what is newer than the stamp
    cd "$here" && find crates crates.txt -path 'crates/*/out' -prune -o \( -type f -o -path 'crates/*/*' \) -newer "$stamp" -print -quit
}
stale() {
    [ ! -x "$binary" ] || [ ! -e "$stamp" ] || [ -n "$(changed)" ]
}

# The crates that the program is made of, bottom up: each uses only those above it in the list.
crates_needed() {
    tac "$here/crates.txt" | awk -F: -v program="$program" '
        BEGIN { needed[program] }
        $1 in needed { print $1; split($2, uses, " "); for (i in uses) needed[uses[i]] }' | tac
}

# Ends the builder and all that it has started: they are a session of their own, and what sh starts beside itself ignores Ctrl-C.
end_build() { # STATUS
    set +u
    kill -TERM -- "$!" "-$!" 2> /dev/null || true
    note 'stopped; the crates that are proved stay proved'
    exit "$1"
}

build() {
    local why='the program is not built yet' began of needed line checked=none said=''
    local -A place=()
    [ ! -x "$binary" ] || [ ! -e "$stamp" ] || why='a crate has changed since the program was built'
    command -v rt > /dev/null || stop "$why, and the Rattle kit that builds it is not here (no rt in PATH)"
    if ! mkdir -p "$made" 2> /dev/null || [ ! -w "$made" ]; then
        stop "$why, and you may not write in $here; whoever may, runs ./$name there once"
    fi
    note "$why: proving and building it takes up to about $takes"
    while read -r needed; do
        place[$needed]=$((${#place[@]} + 1))
    done < <(crates_needed)
    of=${#place[@]}
    began=$(date +%s.%N)
    trap 'end_build 129' HUP
    trap 'end_build 130' INT
    trap 'end_build 143' TERM
    # rt builds a program only to run it: on its crate's own input, of which it is to print what its crate says.
    # shellcheck disable=SC2016
    exec {builder}< <(cd "$here/crates/$program" && exec setsid flock ../../crates.txt \
        sh -c 'rt run < stdin 2>&1 > out/printed && cmp out/printed stdout' < /dev/null 2>&1)
    while IFS= read -r line <&"$builder"; do
        said+=$line$'\n'
        # rt names a crate that it has checked, and behind it says whether it is proved; of one that was proved before it says nothing.
        if [[ $line =~ ^crate\ ([a-z0-9_]+): ]]; then
            checked=${BASH_REMATCH[1]}
        elif [[ $line == 'logic=proved '* ]]; then
            note "${place[$checked]-?} of $of: $checked proved"
        fi
    done
    if ! wait "$!" || [ ! -x "$binary" ]; then
        rm -f "$stamp"
        printf '%s' "$said" >&2
        stop 'the program could not be built; above is what rt said'
    fi
    exec {builder}<&-
    trap - HUP INT TERM
    # What was changed meanwhile is newer than this.
    [ ! -e "$stamp" ] || touch -d "@$began" "$stamp"
}

# Builds the program unless it is there and no older than its crates.
need_program() {
    if stale; then
        build
    fi
}
