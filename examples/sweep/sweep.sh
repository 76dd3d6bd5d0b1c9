#!/usr/bin/env bash
# Runs the work queue of examples/lossy with twenty lengths of the queue at each end of its link, as many side by side as there are processors,
# and prints one table. A run reads files and prints, so anything that starts programs can do this.
#
# usage: examples/sweep/sweep.sh [PROGRAM]
set -u

here=$(cd "$(dirname "$0")" && pwd)
program=$(realpath "${1:-$here/../../crates/diecast/out/diecast}") || exit 2
[ -x "$program" ] || { echo "no program at $program" >&2; exit 2; }
room=$(mktemp -d) || exit 2
trap 'rm -rf "$room"' EXIT
cd "$here/../lossy" || exit 2

# One run, and its row. The client is guest 0, and ends when all its jobs are answered.
one() {
    sed "s/^queue = .*/queue = $1/" lossy.toml >"$room/$1.toml"
    "$program" run "$room/$1.toml" --host-ticks 1400 --view journal | awk -v queue="$1" '
        $3 == "sent" && $2 == 0 { jobs++ }
        $3 == "drop" { dropped[$2]++ }
        $3 == "halt" && $2 == 0 { tick = $1 }
        END { printf "%5d %9d %12d %15d %12s\n", queue, jobs, dropped[0], dropped[1], tick }'
}

export -f one
export program room
echo "queue jobs sent jobs dropped answers dropped done in tick"
seq 2 21 | xargs -P "$(nproc)" -I{} bash -c 'one {}' | sort -n
