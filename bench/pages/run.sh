#!/usr/bin/env bash
# Prints how much memory and time diecast takes for 32 guests of 512 KiB with two disks of 16 MiB each, of which every guest writes 16 KiB:
# 1 MiB of disk in all. The memory is to be at most 1.5 times that of RAM, images, that MiB, and 4 MiB for the process and its tables.
# Then what a quantum costs with 32 guests on one slot, by one with two guests. Needs rt and riscv64-unknown-elf-gcc.
set -eu
here=$(cd "$(dirname "$0")" && pwd)
. "$here/../compare.sh"

riscv64-unknown-elf-gcc -march=rv32im_zicsr -mabi=ilp32 -nostdlib -Wl,-Ttext=0x80000000 -Wl,--build-id=none "$here/writes.S" -o "$work/writes.elf"
riscv64-unknown-elf-objcopy -O binary -j .text "$work/writes.elf" "$work/writes.bin"
{
    printf 'version = 1\nfactor = 1\n'
    for ((g = 0; g < 32; g++)); do printf '[[slot]]\ncapacity = 1000\n'; done
    for ((g = 0; g < 32; g++)); do
        printf '[[guest]]\nname = "g%s"\nimage = "writes.bin"\nformat = "flat"\nram = 524288\nrate = 1000\nslot = %s\n' "$g" "$g"
    done
    for ((d = 0; d < 64; d++)); do printf '[[disk]]\nguest = "g%s"\nsectors = 32768\nbase = 1\n' "$((d / 2))"; done
} > "$work/disks.toml"

# guests on one slot that jump in place, with as much capacity as they take
image jump.bin 0000006f
for rate in 1 10; do
    for guests in 2 32; do
        {
            printf 'version = 1\nfactor = 1\n[[slot]]\ncapacity = %s\n' "$((guests * rate))"
            for ((g = 0; g < guests; g++)); do printf '[[guest]]\nname = "g%s"\nimage = "jump.bin"\nformat = "flat"\nram = 4096\nrate = %s\n' "$g" "$rate"; done
        } > "$work/slot$guests.$rate.toml"
    done
done

build_diecast

cd "$work"
least=
for _ in 1 2 3 4 5; do
    read -r user system peak <<< "$(took "$diecast" run disks.toml --host-ticks 4 --view summary)"
    if [ -z "$least" ] || [ "$((user + system))" -lt "$least" ]; then least=$((user + system)); fi
done
[ "$(grep -c ' disk 2 ' said)" -eq 32 ] || { cat said; exit 1; }
mib=$(awk "BEGIN { printf \"%.1f\", $peak / 1024 }")
goal "32 guests with 64 disks: MiB of memory, of 21 for what is there" "$mib" 31.5
goal "32 guests with 64 disks: processor time in ms" "$(awk "BEGIN { printf \"%.1f\", $least / 1000 }")" 50

for rate in 1 10; do
    best "$diecast" run "slot2.$rate.toml" --host-ticks 320000 --view summary; two=$least
    best "$diecast" run "slot32.$rate.toml" --host-ticks 20000 --view summary
    goal "a quantum of 32 guests on a slot, by one of 2, at rate $rate" "$(ratio "$least" "$two")" 1.3
done
