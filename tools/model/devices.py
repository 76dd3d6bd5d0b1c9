"""A disk and a nic, as docs/FORMATS.md has them."""

import struct

from queues import Broken, room, stream, write
from virtio import Virtio


class Disk(Virtio):
    def __init__(self, slot, number, table, content):
        super().__init__(slot, 2, 0x200, 1, struct.pack("<Q", table["sectors"]))
        self.number, self.table = number, table
        self.content = bytearray(content.ljust(512 * table["sectors"], b"\0"))
        self.head = self.free = 0
        self.flying = []

    def forget(self, queues):
        self.flying = []

    def admit(self, tick, sector, count):
        """When it is served."""
        table = self.table
        way = abs(sector - self.head) * table.get("seek_num", 0) // table.get("seek_den", 1)
        self.free = max(tick, self.free) + table["base"] + way + table.get("per_sector", 0) * count
        self.head = sector + count
        return self.free

    def begin(self, tick, ram, frames):
        records = []
        while self.flying and self.flying[0][0] <= tick:
            records.append(self.complete(ram, *self.flying.pop(0)[1:]))
        return records

    def complete(self, ram, head, ranges, kind, sector, length, status):
        capacity, read = room(ranges), kind == 0 and status == 0
        if read:
            write(ram, ranges, 0, bytes(self.content[512 * sector : 512 * sector + length]))
        if kind == 1 and status == 0:
            self.content[512 * sector : 512 * sector + length] = stream(ram, ranges, False)[16:]
        write(ram, ranges, capacity - 1, bytes([status]))
        if self.queues[0].give_back(ram, head, capacity if read or capacity == 1 else 0):
            self.interrupt |= 1
        return f"disk {self.number} {kind} {sector} {length} {status}"

    def end(self, tick, ram):
        """Takes the requests that are there. Answers the records and the frames, of which there are none."""
        if not (self.is_live() and self.queues[0].ready and 0 in self.notified):
            return [], []
        self.notified.clear()
        try:
            while self.take(tick, ram):
                pass
        except Broken as fault:
            return [self.break_it(tick, fault)], []
        return [], []

    def take(self, tick, ram):
        chain = self.queues[0].take(ram)
        if chain is None:
            return False
        head, ranges = chain
        readable = stream(ram, ranges, False)
        if len(readable) < 16 or room(ranges) == 0:
            raise Broken("short-request")
        kind, _, sector = struct.unpack("<IIQ", readable[:16])
        length = {0: room(ranges) - 1, 1: len(readable) - 16}.get(kind, 0)
        fits = kind in (0, 1) and length % 512 == 0 and sector + length // 512 <= self.table["sectors"]
        status = 0 if fits or kind == 4 else 1 if kind in (0, 1) else 2
        finish = self.admit(tick, sector, length // 512) if fits else self.admit(tick, self.head, 0)
        self.flying.append((finish, head, ranges, kind, sector, length, status))
        return True


class Nic(Virtio):
    def __init__(self, slot, guest, number):
        super().__init__(slot, 1, 0x20, 2, bytes([2, 0, 0, 0, guest, number]))
        self.number = number
        self.backlog = []

    def begin(self, tick, ram, frames):
        records = []
        for frame in frames:
            if len(self.backlog) < 64:
                self.backlog.append(frame)
            else:
                records.append(f"lost {self.number} {len(frame)}")
        try:
            while self.backlog and self.is_live() and self.queues[0].ready and self.deliver(ram, self.backlog[0]):
                frame = self.backlog.pop(0)
                records.append(f"recv {self.number} {len(frame)} {frame.hex()}")
        except Broken as fault:
            records.append(self.break_it(tick, fault))
        return records

    def deliver(self, ram, frame):
        chain = self.queues[0].take(ram)
        if chain is None:
            return False
        head, ranges = chain
        if room(ranges) < 12 + len(frame):
            raise Broken("short-buffer")
        write(ram, ranges, 0, bytes(10) + b"\1\0" + frame)
        if self.queues[0].give_back(ram, head, 12 + len(frame)):
            self.interrupt |= 1
        return True

    def end(self, tick, ram):
        """Takes the frames that are there. Answers the records, and the frames that are offered to the link."""
        records, frames = [], []
        if not (self.is_live() and self.queues[1].ready and 1 in self.notified):
            return records, frames
        self.notified.discard(1)
        try:
            while (chain := self.queues[1].take(ram)) is not None:
                frame = stream(ram, chain[1], False)[12:]
                if 14 <= len(frame) <= 1514:
                    frames.append(frame)
                else:
                    records.append(f"bad {self.number} {len(frame)}")
                if self.queues[1].give_back(ram, chain[0], 0):
                    self.interrupt |= 1
        except Broken as fault:
            records.append(self.break_it(tick, fault))
        return records, frames
