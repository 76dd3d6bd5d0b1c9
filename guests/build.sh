#!/usr/bin/env bash
# Builds every guest of the repository: each C file of examples/ and of guests/programs/ becomes an ELF file of the same name. A flat image
# is made too where one stands beside the source. They are stored in the repository, so this is needed only after a change.
#
# usage: guests/build.sh             puts each beside its source
#        guests/build.sh FOLDER      puts them into a folder that is laid out as the repository is
set -eu

cd "$(dirname "$0")/.."
to=${1:-.}
for source in examples/*/*.c guests/programs/*.c; do
    name=${source%.c}
    mkdir -p "$to/$(dirname "$source")"
    guests/compile.sh "$source" "$to/$name.elf"
    if [ -e "$name.bin" ]; then
        riscv64-unknown-elf-objcopy -O binary "$to/$name.elf" "$to/$name.bin"
    fi
done
if [ "$to" = . ]; then
    riscv64-unknown-elf-gcc --version | head -n 1 > guests/compiler.txt
fi
