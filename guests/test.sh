#!/usr/bin/env bash
# Runs the programs of guests/programs, which try the kit, on diecast, and compares what they say with what stands beside them.
# It builds nothing: `rt run` in crates/diecast leaves the program where this looks for it. The gate does not run it.
#
# usage: guests/test.sh [PROGRAM]
set -u

top=$(cd "$(dirname "$0")/.." && pwd)
program=$(realpath "${1:-$top/crates/diecast/out/diecast}") || exit 2
[ -x "$program" ] || { echo "no program at $program" >&2; exit 2; }
cd "$top/guests/programs" || exit 2
room=$(mktemp -d) || exit 2
trap 'rm -rf "$room"' EXIT
failed=0

# A program with an experiment of its own has it beside it; the others share one.
for text in *.txt; do
    name=${text%.txt}
    cp "$name.elf" "$room/program.elf" && cp one.toml "$room/experiment.toml" || exit 2
    if [ -e "$name.toml" ]; then
        sed "s/$name\.elf/program.elf/" "$name.toml" >"$room/experiment.toml"
    fi
    (cd "$room" && "$program" run experiment.toml --host-ticks 3000 --view journal) >"$room/journal"
    if [ "$?" = 0 ] && "$top/tools/uart" "$room/journal" | diff "$text" -; then
        echo "ok: $name"
    else
        echo "FAILED: $name"
        failed=1
    fi
done

exit "$failed"
