"""The machine of a guest: its memory map, and a tick of it, as docs/FORMATS.md has them."""

import struct

from hart import Hart
from instructions import Trap

RAM, VIRTIO = 0x80000000, 0x10001000
NEVER = (1 << 64) - 1


class Ram:
    def __init__(self, size):
        self.bytes = bytearray(size)

    def holds(self, address, length):
        return RAM <= address and address + length <= RAM + len(self.bytes)

    def bytes_at(self, address, length):
        return bytes(self.bytes[address - RAM : address - RAM + length])

    def number(self, address, size):
        return int.from_bytes(self.bytes_at(address, size), "little")

    def put(self, address, data):
        self.bytes[address - RAM : address - RAM + len(data)] = data


def loaded(image, form, size):
    """RAM and entry of an image that is right."""
    ram = Ram(size)
    if form == "flat":
        ram.put(RAM, image)
        return ram, RAM
    entry, headers = struct.unpack_from("<II", image, 24)
    for place in range(struct.unpack_from("<H", image, 44)[0]):
        kind, offset, _, address, in_file, in_memory = struct.unpack_from("<6I", image, headers + 32 * place)
        if kind == 1 and in_memory:
            ram.put(address, image[offset : offset + in_file].ljust(in_memory, b"\0"))
    return ram, entry


class Machine:
    def __init__(self, rate, image, form, size, devices):
        self.rate, self.devices = rate, devices
        self.ram, entry = loaded(image, form, size)
        self.hart = Hart(entry)
        self.tick, self.halted = 0, False
        self.software, self.compare = 0, NEVER

    def lines(self):
        external = any(device.interrupt for device in self.devices)
        return self.software << 3 | (self.tick >= self.compare) << 7 | external << 11

    def fetch(self, address):
        if address & 3 or not self.ram.holds(address, 4):
            raise Trap(1, address)
        return self.ram.number(address, 4)

    def load(self, address, size):
        if address % size:
            raise Trap(4, address)
        if self.ram.holds(address, size):
            return self.ram.number(address, size)
        return self.register(address, size) & (1 << 8 * size) - 1

    def register(self, address, size):
        if 0x00100000 <= address < 0x00101000:
            return 0
        if 0x02000000 <= address < 0x02010000 and size == 4:
            values = {0: self.software, 0x4000: self.compare, 0x4004: self.compare >> 32, 0xBFF8: self.tick, 0xBFFC: self.tick >> 32}
            return values.get(address - 0x02000000, 0)
        if 0x03000000 <= address < 0x03001000:
            return sum(1 << device.slot for device in self.devices if device.interrupt) if address == 0x03000000 and size == 4 else 0
        if 0x10000000 <= address < 0x10001000:
            return 0x60 if address == 0x10000005 and size == 1 else 0
        slot, offset = divmod(address - VIRTIO, 0x1000)
        if 0 <= slot < 6 and (offset >= 0x100 or size == 4):
            empty = {0: 0x74726976, 4: 2}.get(offset, 0)
            return self.devices[slot].load(offset, size) if slot < len(self.devices) else empty
        raise Trap(5, address)

    def store(self, address, size, value):
        """Answers the records that a store gives."""
        if address % size:
            raise Trap(6, address)
        if self.ram.holds(address, size):
            self.ram.put(address, value.to_bytes(size, "little"))
            return []
        if 0x10000000 <= address < 0x10001000:
            return [f"uart {value}"] if address == 0x10000000 and size == 1 else []
        if 0x00100000 <= address < 0x00101000:
            self.halted = address == 0x00100000 and size == 4 and value == 0x5555
            return ["halt"] if self.halted else []
        if 0x03000000 <= address < 0x03001000:
            return []
        if 0x02000000 <= address < 0x02010000 and size == 4:
            self.set_clint(address - 0x02000000, value)
            return []
        slot, offset = divmod(address - VIRTIO, 0x1000)
        if 0 <= slot < 6 and (offset >= 0x100 or size == 4):
            if slot < len(self.devices) and offset < 0x100:
                self.devices[slot].store(offset, value)
            return []
        raise Trap(7, address)

    def set_clint(self, offset, value):
        if offset == 0:
            self.software = value & 1
        if offset == 0x4000:
            self.compare = self.compare & ~0xFFFFFFFF | value
        if offset == 0x4004:
            self.compare = self.compare & 0xFFFFFFFF | value << 32

    def make_tick(self, arrivals):
        """A whole tick. Answers its records, and for each device the records of its end and the frames that it offers."""
        records = [line for device, frames in zip(self.devices, arrivals) for line in device.begin(self.tick, self.ram, frames)]
        for made in range(self.rate):
            lines = self.hart.step(self)
            if lines is None:
                self.hart.steps += self.rate - made - 1
                break
            records += lines
        ends = [device.end(self.tick, self.ram) for device in self.devices]
        self.tick += 1
        return records, ends
