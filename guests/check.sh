#!/usr/bin/env bash
# Says whether the images of the guests in the repository are what their sources give. The gate does not run it: it needs the compiler
# that guests/compiler.txt names, since another one may give other images.
#
# usage: guests/check.sh
set -u

cd "$(dirname "$0")/.."
command -v riscv64-unknown-elf-gcc > /dev/null || { echo "riscv64-unknown-elf-gcc is not installed" >&2; exit 2; }
here=$(riscv64-unknown-elf-gcc --version | head -n 1)
wanted=$(cat guests/compiler.txt)
[ "$here" = "$wanted" ] || echo "note: the images were built with '$wanted', and this is '$here'"
room=$(mktemp -d) || exit 2
trap 'rm -rf "$room"' EXIT
guests/build.sh "$room" || exit 2
failed=0

while read -r image; do
    if cmp -s "$room/$image" "$image"; then
        echo "ok: $image"
    else
        echo "FAILED: $image is not what its source gives"
        failed=1
    fi
done < <(cd "$room" && find . -type f | sed 's,^\./,,' | sort)

# An image without a source is left over.
for image in examples/*/*.elf guests/programs/*.elf; do
    [ -e "${image%.elf}.c" ] || { echo "FAILED: $image has no source"; failed=1; }
done

exit "$failed"
