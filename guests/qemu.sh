#!/usr/bin/env bash
# Runs guests on qemu, and compares what they say with what stands beside them, which is what they say on diecast too. Those that poll run as
# they are. qemu has no line register, so of those that wait for the interrupt of a device a copy is built that polls.
# It needs qemu for RISC-V, 7.2 or so, and the compiler; on Debian: apt-get install qemu-system-misc gcc-riscv64-unknown-elf
#
# usage: guests/qemu.sh
set -u

top=$(cd "$(dirname "$0")/.." && pwd)
command -v qemu-system-riscv32 >/dev/null || { echo "qemu-system-riscv32 is not installed" >&2; exit 2; }
room=$(mktemp -d) || exit 2
trap 'rm -rf "$room"' EXIT
cd "$top/examples" || exit 2
failed=0

# Devices are put into the slots from the first on by their `bus`, which qemu fills from the last down.
qemu() {
    local image=$1
    shift
    timeout 60 qemu-system-riscv32 -M virt -bios none -m 64 -display none -monitor none -serial stdio \
        -global virtio-mmio.force-legacy=false -kernel "$image" "$@" </dev/null
}

# What a guest has said must be what stands in a file.
said() {
    local wanted=$1 name=${2:-$1}
    if diff "$wanted" "$room/out"; then
        echo "ok: $name"
    else
        echo "FAILED: $name"
        failed=1
    fi
}

# A copy of a guest that polls.
polling() {
    mkdir -p "$room/$1"
    cp "$1"/*.[ch] "$room/$1"
    sed -i 's/BY_INTERRUPT/BY_POLLING/' "$room/$1/$2.c"
    "$top/guests/compile.sh" "$room/$1/$2.c" "$room/$1/$2.elf"
}

disk() {
    echo "-drive file=$1,format=raw,if=none,id=disk -device virtio-blk-device,drive=disk,bus=virtio-mmio-bus.0"
}

qemu hello-uart/guest.elf >"$room/out"
said hello-uart/hello.txt

qemu timer/guest.elf >"$room/out"
said timer/timer.txt

# The disk of four sectors, and what the guest says of it at the end against what is in it then.
cp disk/disk.img "$room/disk.img"
truncate -s 2048 "$room/disk.img"
# shellcheck disable=SC2046
qemu disk/guest.elf $(disk "$room/disk.img") >"$room/out"
said disk/disk.txt
awk '$1 == "sum" { print $2 + 0 }' disk/disk.txt >"$room/wanted"
sum "$room/disk.img" | awk '{ print $1 + 0 }' >"$room/out"
said "$room/wanted" "the sum of the disk"

polling log guest
truncate -s 4096 "$room/log.img"
# shellcheck disable=SC2046
qemu "$room/log/guest.elf" $(disk "$room/log.img") >"$room/out"
said log/log.txt

# Client and server on two machines whose nics are joined by a socket. Their times are the host's, so the numbers of ticks are left out. The server
# never ends.
polling echo client
polling echo server
one=$((20000 + $$ % 20000))
two=$((one + 1))
nic="-device virtio-net-device,netdev=link,bus=virtio-mmio-bus.0"
# shellcheck disable=SC2086
qemu "$room/echo/server.elf" -netdev socket,id=link,udp=127.0.0.1:$two,localaddr=127.0.0.1:$one $nic -pidfile "$room/pid" >"$room/server" &
sleep 2
# shellcheck disable=SC2086
qemu "$room/echo/client.elf" -netdev socket,id=link,udp=127.0.0.1:$one,localaddr=127.0.0.1:$two $nic >"$room/client"
kill "$(cat "$room/pid")"
wait
{ echo "guest 0"; sed 's/: .*//' "$room/client"; echo "guest 1"; cat "$room/server"; } >"$room/out"
sed 's/: .*//' echo/echo.txt >"$room/wanted"
said "$room/wanted" echo/echo.txt

cd "$top/guests/programs" || exit 2
for name in traps default_trap arithmetic library; do
    qemu "$name.elf" >"$room/out"
    said "$name.txt"
done

exit "$failed"
