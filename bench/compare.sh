# Sourced by the benches, which set $here. It sets $top, and $work, a folder that goes when the bench ends.
#
# copy_crates NAME..      puts crates there to build a program over
# build_diecast           builds the program and sets $diecast
# build_both NAME         builds the crate bench_NAME that was put there, and NAME.c as NAME_c
# one_guest RAM RATE      puts an experiment with one guest there, as a.toml
# image FILE WORD..       puts an image of these words there (eight hex digits each), low byte first
# command_of NAME WORD..  puts a program NAME there that runs a command
# took COMMAND            prints the user time and the system time of a command in microseconds, and the most memory that it had
#                         in KiB; what it says goes to $work/said
# best COMMAND            sets $least to the least user time of five runs, in microseconds
# in_turn ONE OTHER       does so for two programs in turn, and sets $one and $other; what they say has to be the same
# compare NAME OURS C MOST  prints both times and the goal on their ratio
# goal WHAT VALUE MOST    prints a measured value, the most that it is to be, and whether that is met; bench/all keeps it for its table
set -e
top=$(cd "$here/../.." && pwd)
work=$(mktemp -d)
trap 'rm -rf "$work"' EXIT
gcc -O2 -o "$work/took" "$top/bench/took.c"

copy_crates() {
    local crate
    for crate in "$@"; do
        mkdir -p "$work/crates/$crate"
        cp -r "$top/crates/$crate/src" "$top/crates/$crate/specs" "$top/crates/$crate/proofs" "$work/crates/$crate/" 2>/dev/null || true
    done
}

build_diecast() {
    (cd "$top/crates/diecast" && rt run -- plan none > "$work/log" 2>&1) || true
    diecast=$top/crates/diecast/out/diecast
    [ -x "$diecast" ] || { cat "$work/log"; exit 1; }
}

build_both() {
    gcc -O2 -o "$work/$1_c" "$here/$1.c"
    (cd "$work/crates/bench_$1" && rt run > "$work/log" 2>&1) || { tail -5 "$work/log"; exit 1; }
}

one_guest() {
    cat > "$work/a.toml" <<FILE
version = 1
factor = 1
[[slot]]
capacity = $2
[[guest]]
name = "a"
image = "a.bin"
format = "flat"
ram = $1
rate = $2
FILE
}

image() {
    local file=$1 hex
    shift
    for hex in "$@"; do
        printf "\\x${hex:6:2}\\x${hex:4:2}\\x${hex:2:2}\\x${hex:0:2}"
    done > "$work/$file"
}

command_of() {
    local name=$1
    shift
    printf '#!/bin/sh\nexec %s\n' "$*" > "$work/$name"
    chmod +x "$work/$name"
}

took() { "$work/took" "$work/said" "$@"; }

best() {
    local user system peak
    least=
    for _ in 1 2 3 4 5; do
        read -r user system peak <<< "$(took "$@")"
        if [ -z "$least" ] || [ "$user" -lt "$least" ]; then least=$user; fi
    done
}

in_turn() {
    local user system peak
    one="" other=""
    for _ in 1 2 3 4 5; do
        read -r user system peak <<< "$(took "$1")"
        if [ -z "$one" ] || [ "$user" -lt "$one" ]; then one=$user; fi
        mv "$work/said" "$work/one.said"
        read -r user system peak <<< "$(took "$2")"
        if [ -z "$other" ] || [ "$user" -lt "$other" ]; then other=$user; fi
        cmp "$work/one.said" "$work/said"
    done
}

ratio() { awk "BEGIN { printf \"%.2f\", $1 / $2 }"; }

compare() {
    in_turn "$2" "$3"
    echo "$1: $one us, C $other us"
    goal "$1, by C" "$(ratio "$one" "$other")" "$4"
}

goal() {
    awk -v what="$1" -v got="$2" -v most="$3" \
        'BEGIN { printf "%-66s %9s  at most %-7s %s\n", what, got, most, got + 0 <= most + 0 ? "met" : "not met" }' | tee -a "${table:-/dev/null}"
}
