#!/usr/bin/env bash
# Tries what is completed at each place.
#
# usage: completions/test.sh
set -u

cd "$(dirname "$0")" || exit 2
. ./diecast.bash
room=$(mktemp -d) || exit 2
trap 'rm -rf "$room"' EXIT
cd "$room" || exit 2
mkdir folder
touch a.toml b.toml image.elf
failed=0

# The words so far, of which the last is completed, and what is wanted.
expect() {
    local wanted=$1 got
    shift
    COMP_WORDS=(diecast "$@")
    COMP_CWORD=$#
    _diecast
    got=$(printf '%s\n' "${COMPREPLY[@]}" | sort | tr '\n' ' ' | sed 's/ $//')
    if [ "$got" = "$wanted" ]; then
        echo "ok: $*: $wanted"
    else
        echo "FAILED: $*: '$got', not '$wanted'"
        failed=1
    fi
}

expect "gen plan run" ""
expect "run" r
expect "a.toml b.toml folder" run ""
expect "a.toml" plan a
expect "--host-ticks --view" run a.toml ""
expect "" run a.toml --host-ticks ""
expect "--view" run a.toml --host-ticks 10 ""
expect "events journal summary traces" run a.toml --host-ticks 10 --view ""
expect "summary" run a.toml --view s
expect "--host-ticks" run a.toml --view journal ""
expect "" plan a.toml ""
expect "" gen ""
expect "--host-ticks" gen 4 ""
expect "" gen 4 --host-ticks ""

exit "$failed"
