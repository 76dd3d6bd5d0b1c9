"""Split queues in the RAM of a guest, as virtio 1.2, section 2.7, has them, and docs/FORMATS.md what a malformed one is ("A disk")."""

import struct


class Broken(Exception):
    """A queue or a request is malformed; the word says how."""


class Queue:
    def __init__(self):
        self.size, self.ready = 64, False
        self.at = {"table": 0, "available": 0, "used": 0}
        self.start()

    def start(self):
        self.taken = self.given = 0
        self.out = set()

    def take(self, ram):
        """The next chain: its head and its ranges, each with whether the device writes it. None where there is none."""
        spans = (("table", 16 * self.size), ("available", 4 + 2 * self.size), ("used", 4 + 8 * self.size))
        if not all(ram.holds(self.at[part], length) for part, length in spans):
            raise Broken("ring-outside")
        ahead = ram.number(self.at["available"] + 2, 2) - self.taken & 0xFFFF
        if ahead == 0:
            return None
        if ahead > self.size:
            raise Broken("index-ahead")
        head = ram.number(self.at["available"] + 4 + 2 * (self.taken % self.size), 2)
        if head >= self.size:
            raise Broken("head-range")
        if head in self.out:
            raise Broken("head-out")
        ranges = self.walk(ram, head)
        self.taken = self.taken + 1 & 0xFFFF
        self.out.add(head)
        return head, ranges

    def walk(self, ram, head):
        ranges, met, place = [], set(), head
        while True:
            if place in met:
                raise Broken("loop")
            met.add(place)
            address, length, flags, following = struct.unpack("<QIHH", ram.bytes_at(self.at["table"] + 16 * place, 16))
            if flags & 4:
                raise Broken("indirect")
            if not ram.holds(address, length):
                raise Broken("range-outside")
            if not flags & 2 and any(writes for _, _, writes in ranges):
                raise Broken("order-wrong")
            ranges.append((address, length, bool(flags & 2)))
            if not flags & 1:
                return ranges
            if following >= self.size:
                raise Broken("next-range")
            place = following

    def give_back(self, ram, head, length):
        """Says whether the driver wants an interrupt for it."""
        ram.put(self.at["used"] + 4 + 8 * (self.given % self.size), struct.pack("<II", head, length))
        self.given = self.given + 1 & 0xFFFF
        ram.put(self.at["used"] + 2, struct.pack("<H", self.given))
        self.out.discard(head)
        return not ram.number(self.at["available"], 2) & 1


def stream(ram, ranges, writable):
    return b"".join(ram.bytes_at(at, length) for at, length, writes in ranges if writes == writable)


def room(ranges):
    return sum(length for _, length, writes in ranges if writes)


def write(ram, ranges, place, data):
    """Puts bytes into the writable ranges, from a place in their stream on."""
    for at, length, writes in ranges:
        if writes:
            part = data[: max(length - place, 0)]
            if part:
                ram.put(at + place, part)
                data = data[len(part) :]
            place = max(place - length, 0)
