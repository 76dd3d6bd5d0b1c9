#!/usr/bin/env bash
# Makes the disk's first content, disk.img, which stands here already. The first sector begins with a line, and the second is full of one
# letter. The disk is longer than this: the rest of it is zero.
set -eu
cd "$(dirname "$0")"
{ printf 'hello from the disk\n' | dd bs=512 conv=sync status=none; printf '%512s' '' | tr ' ' x; } > disk.img
