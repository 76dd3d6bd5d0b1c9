#!/usr/bin/env bash
# Runs the examples on diecast and by the model, and compares the records of all guests. It takes some seconds for each.
# It builds nothing: `rt run` in crates/diecast leaves the program where this looks for it. The gate does not run it.
#
# usage: tools/model/compare.sh [PROGRAM]
set -u

top=$(cd "$(dirname "$0")/../.." && pwd)
program=$(realpath "${1:-$top/crates/diecast/out/diecast}") || exit 2
[ -x "$program" ] || { echo "no program at $program" >&2; exit 2; }
cd "$top" || exit 2
room=$(mktemp -d) || exit 2
trap 'rm -rf "$room"' EXIT
failed=0

# An experiment of a folder of the repository, and for how many virtual ticks it runs.
same() {
    local folder=$1 file=$2 ticks=$3 factor
    factor=$(awk '$1 == "factor" { print $3 }' "$folder/$file")
    (cd "$folder" && "$program" run "$file" --host-ticks $((factor * ticks)) --view journal) | tools/traces - >"$room/diecast"
    tools/model/run "$folder/$file" "$ticks" >"$room/model"
    if cmp "$room/diecast" "$room/model"; then
        echo "ok: $folder/$file: $ticks ticks"
    else
        echo "FAILED: $folder/$file: $ticks ticks"
        failed=1
    fi
}

same examples/one-guest a.toml 20
same examples/two-slots fits.toml 20
same examples/hello-uart hello.toml 5
same examples/compiled-c flat.toml 14
same examples/compiled-c elf.toml 14
same examples/timer timer.toml 520
same examples/disk disk.toml 170
same examples/log log.toml 160
same examples/echo two-slots.toml 160
same examples/echo one-slot.toml 160
same examples/dilation eight-slots.toml 260
same examples/dilation one-slot.toml 260
same examples/ring ring.toml 100
same examples/lossy lossy.toml 210
same examples/gossip gossip.toml 30
same guests/programs handlers.toml 40
same guests/programs store.toml 120

# Most programs of the kit share one experiment.
for image in arithmetic csrs default_trap library traps; do
    cp guests/programs/$image.elf "$room/program.elf" && cp guests/programs/one.toml "$room" || exit 2
    echo "$image:"
    same "$room" one.toml 600
done

# The load of `gen` as an experiment of its own, and the summary of both, where the program makes loads.
for count in 2 4 32; do
    tools/model/load "$count" "$room"
    echo "load of $count guests:"
    same "$room" load.toml 60
    if "$program" gen "$count" --host-ticks 240 >"$room/gen" 2>/dev/null; then
        if (cd "$room" && "$program" run load.toml --host-ticks 240) | cmp - "$room/gen"; then
            echo "ok: gen $count"
        else
            echo "FAILED: gen $count"
            failed=1
        fi
    fi
done

exit "$failed"
