#!/usr/bin/env bash
# Prints how long diecast takes to read experiment files of 256 KiB, 512 KiB and 1 MiB in several shapes, and the
# file with the most guests, disks and links. The time is to grow as the size does. Needs rt and python3.
set -eu
here=$(cd "$(dirname "$0")" && pwd)
. "$here/../compare.sh"
build_diecast

cd "$work"
python3 "$here/reading.py" "$diecast"
