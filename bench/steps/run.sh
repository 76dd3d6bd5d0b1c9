#!/usr/bin/env bash
# Prints how many steps of a guest diecast makes in a second in the journal view, and its time as a multiple of that
# of a C interpreter (steps.c, gcc -O2) that prints the same lines. Arguments: host ticks (10000) and rate (1000).
host_ticks=${1:-10000}
rate=${2:-1000}
here=$(cd "$(dirname "$0")" && pwd)
. "$here/../compare.sh"
. "$here/../loop.sh"

one_guest 65536 "$rate"
image a.bin ${words//0x/}
gcc -O2 "-DPROGRAM=$words" -o "$work/steps" "$here/steps.c"
build_diecast

cd "$work"
command_of ours "$diecast" run a.toml --host-ticks "$host_ticks" --view journal
command_of theirs ./steps "$host_ticks" "$rate"
compare "steps in the journal, by printf" ./ours ./theirs 3
echo "$((host_ticks * rate)) steps, $(awk "BEGIN { printf \"%.0f\", $host_ticks * $rate * 1000000 / $one }") a second"
