#!/usr/bin/env bash
# Compiles one guest with the kit, which stands in guests/kit. A source whose first line has the word `picolibc` gets that library too.
# It needs a compiler for RISC-V without an operating system; on Debian: apt-get install gcc-riscv64-unknown-elf
#
# usage: guests/compile.sh SOURCE.c IMAGE.elf
set -eu

[ $# = 2 ] || { echo "usage: guests/compile.sh SOURCE.c IMAGE.elf" >&2; exit 2; }
source=$1
image=$2
kit=$(cd "$(dirname "$0")/kit" && pwd)
compiler=riscv64-unknown-elf-gcc
files=("$kit"/start.S "$kit"/*.c)

# Debian's compiler has libraries for `rv32im`, and takes those for 64 bits where the letters are others. So the one that it needs itself (for
# divisions of 64 bits) is named, and with picolibc the instructions for CSRs are had by the older standard, in which they are part of `i`.
if head -n 1 "$source" | grep -q picolibc; then
    files+=("$kit"/picolibc/stdio.c)
    kind=(-march=rv32im -misa-spec=2.2 -mabi=ilp32 --specs=picolibc.specs -nostartfiles)
    library=()
else
    kind=(-march=rv32im_zicsr -mabi=ilp32 -ffreestanding -nostdlib)
    library=("$("$compiler" -march=rv32im -mabi=ilp32 -print-libgcc-file-name)")
fi
"$compiler" "${kind[@]}" -Os -Wall -Wextra -s -ffunction-sections -fdata-sections -fno-tree-loop-distribute-patterns \
    -Wl,--gc-sections,-n,--build-id=none,--no-warn-rwx-segments -T "$kit/guest.ld" -I "$kit" \
    "${files[@]}" "$source" "${library[@]}" -o "$image"
