#!/usr/bin/env bash
# Prints what links cost: see README.md. Needs rt and riscv64-unknown-elf-gcc. Arguments: ticks (1000) and rate (100).
set -eu
ticks=${1:-1000}
rate=${2:-100}
here=$(cd "$(dirname "$0")" && pwd)
. "$here/../compare.sh"

# flat images: one jumps in place, the others send on so many nics
image silent.bin 0000006f
for nics in 2 4; do
    riscv64-unknown-elf-gcc -march=rv32im_zicsr -mabi=ilp32 -nostdlib -Wa,--defsym,NICS="$nics" -Wl,-Ttext=0x80000000 -Wl,--build-id=none \
        "$here/sends.S" -o "$work/sends.elf"
    riscv64-unknown-elf-objcopy -O binary -j .text "$work/sends.elf" "$work/sends$nics.bin"
done

# an experiment: a file, an image, guests, nics a guest, links a guest (0: the same guests unlinked). Each guest has a slot of its own.
# Nics 0 and 1 join each guest to the next one, nics 2 and 3 to the next but one.
experiment() {
    local g
    {
        printf 'version = 1\nfactor = 1\n'
        for ((g = 0; g < $3; g++)); do printf '[[slot]]\ncapacity = %s\n' "$rate"; done
        for ((g = 0; g < $3; g++)); do
            printf '[[guest]]\nname = "g%s"\nimage = "%s.bin"\nformat = "flat"\nram = 16384\nrate = %s\nslot = %s\nnics = %s\n' "$g" "$2" "$rate" "$g" "$4"
        done
        for ((l = 1; l <= $5; l++)); do
            for ((g = 0; g < $3; g++)); do
                printf '[[link]]\na = "g%s"\na_nic = %s\nb = "g%s"\nb_nic = %s\nbandwidth = 1000\ndelay = 1\nqueue = 10\n' \
                    "$g" "$((2 * l - 2))" "$(((g + l) % $3))" "$((2 * l - 1))"
            done
        done
    } > "$work/$1"
}
experiment silent.toml silent 32 4 0
experiment ring.toml silent 32 4 1
experiment graph.toml silent 32 4 2
experiment four.toml sends4 4 4 2
experiment many.toml sends4 32 4 2
experiment few_ring.toml sends2 4 2 1
experiment many_ring.toml sends2 32 2 1

build_diecast

cd "$work"
run() { best "$diecast" run "$1" --host-ticks "$ticks" --view journal; }
run silent.toml; unlinked=$least
run ring.toml; goal "a step of 32 silent guests with 32 links, by one without" "$(ratio "$least" "$unlinked")" 1.3
run graph.toml; goal "a step of 32 silent guests with 64 links, by one without" "$(ratio "$least" "$unlinked")" 1.3

# what a frame costs: the time of a run, and what of it 32 guests take that run as many steps and send nothing, is not told apart; the
# steps of a frame are the same in both experiments
frames() { # microseconds a frame that was sent
    run "$1"
    sent=$(grep -c '^[0-9]* [0-9]* sent ' said || true)
    got=$(grep -c '^[0-9]* [0-9]* recv ' said || true)
    [ "$sent" -gt 0 ] && [ "$got" -gt 0 ] || { echo "no frame was sent in $1, or none received"; head -n 5 said; exit 1; }
    took=$(awk "BEGIN { printf \"%.2f\", $least / $sent }")
    echo "$1: $sent frames sent, $got received, $took us a frame"
}
frames four.toml; few=$took
frames many.toml; goal "a frame of 32 guests, by one of 4, each linked to four" "$(ratio "$took" "$few")" 1.3
frames few_ring.toml; few=$took
frames many_ring.toml; goal "a frame of 32 guests, by one of 4, in a ring" "$(ratio "$took" "$few")" 1.3
