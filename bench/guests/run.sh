#!/usr/bin/env bash
# Prints how much processor time diecast takes for a step of 32 guests on eight slots, as a multiple of
# that for a step of one guest on one slot. Needs rt. Arguments: steps (1920000), a multiple of 32 times the
# rate, and rate (1000).
set -eu
steps=${1:-1920000}
rate=${2:-1000}
here=$(cd "$(dirname "$0")" && pwd)
. "$here/../compare.sh"

# an experiment: a file, guests, slots; each slot has the capacity of the rate, and as many guests as the factor
experiment() {
    {
        echo "version = 1"
        echo "factor = $(($2 / $3))"
        for ((s = 0; s < $3; s++)); do printf '[[slot]]\ncapacity = %s\n' "$rate"; done
        for ((g = 0; g < $2; g++)); do
            printf '[[guest]]\nname = "g%s"\nimage = "jump.bin"\nformat = "flat"\nram = 4096\nrate = %s\nslot = %s\n' \
                "$g" "$rate" "$((g % $3))"
        done
    } > "$1"
}
experiment "$work/one.toml" 1 1
experiment "$work/many.toml" 32 8
image jump.bin 0000006f

build_diecast

cd "$work"
run() { # an experiment, host ticks
    best "$diecast" run "$1" --host-ticks "$2" --view journal
    made=$(grep -c instr said)
    [ "$made" -eq "$steps" ] || { echo "$made steps, and not $steps"; exit 1; }
}
run one.toml "$((steps / rate))"; one=$least
run many.toml "$((steps / rate / 8))"; many=$least
awk "BEGIN { printf \"steps %d  rate %d  one guest %.1f ns a step  32 guests %.1f ns a step\n\", $steps, $rate, 1000 * $one / $steps, 1000 * $many / $steps }"
goal "a step of 32 guests on 8 slots, by one of one guest" "$(ratio "$many" "$one")" 1.2
