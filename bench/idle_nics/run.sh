#!/usr/bin/env bash
# Prints how much processor time diecast takes for a virtual tick of a guest with four nics that no frame comes to or leaves, as a
# multiple of that with one nic. The guest jumps in place. Needs rt. Arguments: ticks (2000) and rate (1000).
# It is to be at most 1.2.
set -eu
ticks=${1:-2000}
rate=${2:-1000}
here=$(cd "$(dirname "$0")" && pwd)
. "$here/../compare.sh"

one_guest 4096 "$rate"
image a.bin 0000006f
for nics in 1 4; do # the guest is the last table of a.toml
    { cat "$work/a.toml"; echo "nics = $nics"; } > "$work/nics$nics.toml"
done

build_diecast

cd "$work"
run() {
    best "$diecast" run "$1" --host-ticks "$ticks" --view journal
    made=$(grep -c instr said)
    [ "$made" -eq $((ticks * rate)) ] || { echo "$made steps, and not $((ticks * rate))"; exit 1; }
}
run nics1.toml; one=$least
run nics4.toml; more=$least
goal "a tick with four idle nics, by one with one" "$(ratio "$more" "$one")" 1.2
