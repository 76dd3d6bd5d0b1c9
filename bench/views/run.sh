#!/usr/bin/env bash
# Prints what each view costs, and how its memory grows with the run: see README.md. Needs rt and gcc. Arguments: host
# ticks (10000) and rate (1000).
set -eu
host_ticks=${1:-10000}
rate=${2:-1000}
here=$(cd "$(dirname "$0")" && pwd)
. "$here/../compare.sh"
. "$here/../loop.sh"

one_guest 65536 "$rate"
image a.bin ${words//0x/}
gcc -O2 "-DPROGRAM=$words" -o "$work/counts" "$here/counts.c"
build_diecast

cd "$work"
for view in summary events journal traces; do
    command_of "$view" "$diecast" run a.toml --host-ticks "$host_ticks" --view "$view"
done
command_of counting ./counts "$host_ticks" "$rate"
compare "summary, that only counts" ./summary ./counting 1.2
best ./events; goal "events, by the summary" "$(ratio "$least" "$one")" 1.1
best ./journal; journal=$least
best ./traces; goal "traces, by the journal" "$(ratio "$least" "$journal")" 1

# the most memory that a run had, in KiB, for so many host ticks
peak() { took "$diecast" run a.toml --host-ticks "$2" --view "$1" | cut -d ' ' -f 3; }
for view in journal events summary; do
    short=$(peak "$view" $((100000 / rate))) long=$(peak "$view" $((10000000 / rate)))
    echo "$view: $short KiB for 100,000 steps, $long KiB for 10,000,000"
    goal "$view: memory of 10^7 steps, by that of 10^5" "$(ratio "$long" "$short")" 1.1
done
