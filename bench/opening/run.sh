#!/usr/bin/env bash
# Prints the processor time that diecast takes to open a run of one guest of 16 MiB, and of 32, and to make one host tick of it. Needs rt.
set -eu
here=$(cd "$(dirname "$0")" && pwd)
. "$here/../compare.sh"

image jump.bin 0000006f
for guests in 1 32; do
    {
        printf 'version = 1\nfactor = 1\n'
        for ((g = 0; g < guests; g++)); do printf '[[slot]]\ncapacity = 1\n'; done
        for ((g = 0; g < guests; g++)); do
            printf '[[guest]]\nname = "g%s"\nimage = "jump.bin"\nformat = "flat"\nram = 16777216\nrate = 1\nslot = %s\n' "$g" "$g"
        done
    } > "$work/open$guests.toml"
done
build_diecast

cd "$work"
for guests in 1 32; do
    least=
    for _ in 1 2 3 4 5; do
        read -r user system peak <<< "$(took "$diecast" run "open$guests.toml" --host-ticks 1 --view summary)"
        if [ -z "$least" ] || [ "$((user + system))" -lt "$least" ]; then least=$((user + system)); fi
    done
    goal "opening $guests x 16 MiB, processor time in ms" "$(awk "BEGIN { printf \"%.1f\", $least / 1000 }")" $((20 * guests))
    echo "memory: $((peak / 1024)) MiB"
done
