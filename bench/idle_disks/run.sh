#!/usr/bin/env bash
# Prints how much processor time diecast takes for a virtual tick of a guest with two disks that have no request in flight, as a
# multiple of that with one disk. The guest jumps in place. Needs rt. Arguments: ticks (2000) and rate (1000).
# It is to be at most 1.2.
set -eu
ticks=${1:-2000}
rate=${2:-1000}
here=$(cd "$(dirname "$0")" && pwd)
. "$here/../compare.sh"

one_guest 4096 "$rate"
image a.bin 0000006f
with_disks() { # how many disks the guest of a.toml has, in a file of its own
    cp "$work/a.toml" "$work/disks$1.toml"
    for ((d = 0; d < $1; d++)); do printf '[[disk]]\nguest = "a"\nsectors = 64\nbase = 1\n' >> "$work/disks$1.toml"; done
}
with_disks 1
with_disks 2

build_diecast

cd "$work"
run() {
    best "$diecast" run "$1" --host-ticks "$ticks" --view journal
    made=$(grep -c instr said)
    [ "$made" -eq $((ticks * rate)) ] || { echo "$made steps, and not $((ticks * rate))"; exit 1; }
}
run disks1.toml; one=$least
run disks2.toml; more=$least
goal "a tick with two idle disks, by one with one" "$(ratio "$more" "$one")" 1.2
