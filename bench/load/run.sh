#!/usr/bin/env bash
# Prints what a step and a frame of the generated load of 32 guests cost. The summary says how many there were: instructions, and frames that
# were sent or received. It checks that each run prints the same. Needs rt. Arguments: guests (32) and host ticks (1000).
set -eu
guests=${1:-32}
host_ticks=${2:-1000}
here=$(cd "$(dirname "$0")" && pwd)
. "$here/../compare.sh"
build_diecast

cd "$work"
run() { best "$diecast" gen "$guests" --host-ticks "$host_ticks"; }
run; cp said first
run; cmp said first
awk -v us="$least" '/ instr / { for (i = 1; i < NF; i++) { if ($i == "instr") steps += $(i + 1); if ($i == "sent" || $i == "recv") frames += $(i + 1) } }
    END { printf "%d us: %d instructions, %.1f ns each; %d frames sent or received, %.2f us each, with all else in it\n", us, steps, 1e3 * us / steps, frames, us / frames }' said
