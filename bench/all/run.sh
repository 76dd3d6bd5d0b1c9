#!/usr/bin/env bash
# Runs every bench but those of the gate and of reading, and prints one table: what was measured, the value, the most that it is to be, and
# whether that is met. Each value is the least of five runs; where two programs are compared they run in turn. It takes about ten minutes on
# a machine that does nothing else. Needs rt, gcc and riscv64-unknown-elf-gcc. Words: the benches to run (all).
set -eu
here=$(cd "$(dirname "$0")" && pwd)
benches=${*:-hart ram record journal steps views guests quiet opening pages idle_disks idle_nics links load disk net}
table=$(mktemp)
export table
trap 'rm -f "$table"' EXIT
for bench in $benches; do
    echo "== $bench"
    "$here/../$bench/run.sh" || echo "$bench did not run" | tee -a "$table"
done
echo "== all"
cat "$table"
