#!/bin/bash
# Runs the examples with the built program, and compares what they print with what stands beside them.
# It builds nothing: `rt run` in crates/diecast leaves the program where this looks for it.
#
# The journal of one-guest, the plans of two-slots, the text of hello-uart and all lines of messages were worked
# out by hand. The journal of two-slots, both files of compiled-c and the sum of disk are the output of a run that was
# kept, so they show only that it has not changed. The texts of disk, log and timer are what their guests say on qemu, and the
# times that the requests of disk take were worked out by hand. The texts of the linked guests are what examples/expected.py
# works out of their experiments, and the files of their frames and the table of sweep are what tools/model/run
# prints of them.
#
# It needs python3, for the tools that look at journals.
#
# usage: tools/examples.sh [PROGRAM]
set -u

top=$(cd "$(dirname "$0")/.." && pwd)
program=$(realpath "${1:-$top/crates/diecast/out/diecast}") || exit 2
[ -x "$program" ] || { echo "no program at $program" >&2; exit 2; }
cd "$top/examples" || exit 2
room=$(mktemp -d) || exit 2
trap 'rm -rf "$room"' EXIT
failed=0
name=

tell() {
    if [ "$1" = 0 ]; then
        echo "ok: $name: $2"
    else
        echo "FAILED: $name: $2"
        failed=1
    fi
}

# Runs a command in a folder. It must end with this exit status, and tell this line.
run() {
    local folder=$1 status=$2 line=$3
    shift 3
    name="$folder: $*"
    (cd "$folder" && "$program" "$@" >"$room/out" 2>"$room/msg")
    [ "$?" = "$status" ] && [ "$(cat "$room/msg")" = "$line" ]
    tell "$?" "exit status $status and the line '$line'"
}

# What the last command put, or what a filter makes of it, must be what stands in a file.
puts() {
    local wanted=$1
    shift
    "${@:-cat}" <"$room/out" | diff "$wanted" -
    tell "$?" "$wanted"
}

uart() {
    "$top/tools/uart" - "$@"
}

traces() {
    "$top/tools/traces" -
}

# What happened but for instructions and the bytes of the UART.
events() {
    grep -E '^[0-9]+ [0-9]+ (disk|trap|broken|sent|drop|bad|recv|lost|halt)( |$)'
}

run one-guest 0 "" run a.toml --host-ticks 4 --view journal
puts one-guest/a.journal

sed 's/rate = 2/rate = 3/' one-guest/a.toml >"$room/over.toml"
run one-guest 1 "diecast: overload: slot 0 needs 3, has 2" run "$room/over.toml" --host-ticks 4 --view journal
puts /dev/null

run two-slots 0 "" plan fits.toml
puts two-slots/fits.plan

over="diecast: overload: slot 0 needs 8, has 4"
run two-slots 1 "$over" plan over.toml
puts two-slots/over.plan

run two-slots 0 "" run fits.toml --host-ticks 4 --view journal
puts two-slots/fits.journal

run two-slots 1 "$over" run over.toml --host-ticks 4 --view journal
puts /dev/null

# Both images of the compiled guest do the same, and the guest turns its power off where its sum is right.
for image in elf flat; do
    run compiled-c 0 "" run "$image.toml" --host-ticks 15 --view journal
    puts compiled-c/crc.events grep -v ' instr '
    puts compiled-c/crc.sum sha256sum
done

run hello-uart 0 "" run hello.toml --host-ticks 10 --view journal
puts hello-uart/hello.txt uart

run timer 0 "" run timer.toml --host-ticks 1200 --view journal
puts timer/timer.txt uart

run disk 0 "" run disk.toml --host-ticks 340 --view journal
puts disk/disk.events events
puts disk/disk.txt uart
puts disk/disk.sum sha256sum

run log 0 "" run log.toml --host-ticks 1000 --view journal
puts log/log.txt uart

# What was sent, received and dropped, guest by guest, with the first bytes of each frame.
frames() {
    traces | events | cut -c 1-80
}

# The guests do the same at every factor and on any slots: the second of two experiments has the same records as the first.
run echo 0 "" run two-slots.toml --host-ticks 160 --view journal
puts echo/echo.txt uart each
puts echo/echo.frames frames
traces <"$room/out" >"$room/first"
run echo 0 "" run one-slot.toml --host-ticks 320 --view journal
puts echo/echo.txt uart each
puts "$room/first" traces

run dilation 0 "" run eight-slots.toml --host-ticks 260 --view journal
puts dilation/dilation.txt uart each
traces <"$room/out" >"$room/first"
run dilation 0 "" run one-slot.toml --host-ticks 2080 --view journal
puts dilation/dilation.txt uart each
puts "$room/first" traces

run ring 0 "" run ring.toml --host-ticks 400 --view journal
puts ring/ring.txt uart each

run lossy 0 "" run lossy.toml --host-ticks 840 --view journal
puts lossy/lossy.txt uart each
puts lossy/lossy.frames frames

run gossip 0 "" run gossip.toml --host-ticks 240 --view journal
puts gossip/gossip.txt uart each

name="sweep: sweep.sh"
sweep/sweep.sh "$program" | diff sweep/sweep.txt -
tell "$?" sweep/sweep.txt

exit "$failed"
