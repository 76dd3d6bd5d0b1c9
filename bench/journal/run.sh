#!/usr/bin/env bash
# Prints how long diecast takes for a journal of many lines, as a multiple of the time of two C programs that print the same
# lines: one by printf, and one that formats by hand into a buffer. Needs rt and gcc. Arguments: host ticks (10000) and rate (1000).
set -eu
host_ticks=${1:-10000}
rate=${2:-1000}
here=$(cd "$(dirname "$0")" && pwd)
. "$here/../compare.sh"

one_guest 4096 "$rate"
image a.bin 0000006f
gcc -O2 -o "$work/journal" "$here/journal.c"
gcc -O2 -o "$work/by_hand" "$here/by_hand.c"
build_diecast

cd "$work"
command_of ours "$diecast" run a.toml --host-ticks "$host_ticks" --view journal
command_of printf_c ./journal "$host_ticks" "$rate"
command_of by_hand_c ./by_hand "$host_ticks" "$rate"
compare "journal, printf" ./ours ./printf_c 3
compare "journal, formatted by hand" ./ours ./by_hand_c 0.9
