#!/bin/bash
# Runs the built program with streams that fail, and with one place for both of its streams.
# It builds nothing: `rt run` in crates/diecast leaves the program where this looks for it.
#
# usage: tools/streams.sh [PROGRAM]
set -u

top=$(cd "$(dirname "$0")/.." && pwd)
program=$(realpath "${1:-$top/crates/diecast/out/diecast}") || exit 2
[ -x "$program" ] || { echo "no program at $program" >&2; exit 2; }
[ -e /dev/full ] || { echo "no /dev/full here" >&2; exit 2; }
cd "$top/examples" || exit 2
room=$(mktemp -d) || exit 2
trap 'rm -rf "$room"' EXIT
failed=0

# What a command ended with, and its line, must be these.
expect() {
    local name=$1 code=$2 line=$3 got=$4
    if [ "$got" = "$code" ] && [ "$(cat "$room/msg")" = "$line" ]; then
        echo "ok: $name"
    else
        echo "FAILED: $name: exit status $got, not $code, or a line that is not '$line':"
        cat "$room/msg"
        failed=1
    fi
}

full() {
    "$program" "$@" >/dev/full 2>"$room/msg"
    expect "$* into a full device" 6 "diecast: write fault" $?
}

shut() {
    "$program" "$@" >&- 2>"$room/msg"
    expect "$* with standard output shut" 6 "diecast: write fault" $?
}

# The reader has gone before the program starts, and the signal that says so is ignored.
unread() {
    exec 3> >(exec true)
    wait $!
    (trap '' PIPE; exec "$program" "$@" >&3 2>"$room/msg")
    expect "$* into a pipe that nobody reads" 6 "diecast: write fault" $?
    exec 3>&-
}

for command in "plan two-slots/fits.toml" "plan two-slots/over.toml"; do
    for way in full shut unread; do
        # shellcheck disable=SC2086
        $way $command
    done
done

# A short journal fits into the buffer and fails at the end, a long one while it is printed.
cd one-guest || exit 2
for ticks in 4 100000; do
    for way in full shut unread; do
        $way run a.toml --host-ticks "$ticks" --view journal
    done
done
cd ../two-slots || exit 2

over="diecast: overload: slot 0 needs 8, has 4"

# Both streams go to one place: the line stands behind the plan that it speaks of.
"$program" plan over.toml >"$room/msg" 2>&1
expect "plan over.toml with both streams in one file" 1 "plan factor 1 slots 2 guests 3
slot 0 need 8 have 4
slot 1 need 4 have 3
guest 0 web slot 0 rate 5
guest 1 db slot 1 rate 4
guest 2 cli slot 0 rate 3
least 2 slot 0
over 0 need 8 have 4
$over" $?

# A line that cannot be written changes no status.
"$program" plan over.toml 2>/dev/full >/dev/null
code=$?
: >"$room/msg"
expect "plan over.toml with a full standard error" 1 "" "$code"

exit "$failed"
