"""What a disk and a nic have in common: the registers of virtio over MMIO (virtio 1.2, section 4.2.2), as docs/FORMATS.md has them ("A disk")."""

from queues import Queue

VERSION_1 = 1


class Virtio:
    """A device. What it does at the begin and at the end of a tick is told by its kind."""

    def __init__(self, slot, kind, offered, queues, config):
        self.slot, self.kind, self.offered, self.config = slot, kind, offered, config
        self.queue_count = queues
        self.reset()

    def reset(self):
        self.status = self.interrupt = self.selected = 0
        self.feature_select = self.driver_select = 0
        self.driver = [0, 0]
        self.queues = [Queue() for _ in range(self.queue_count)]
        self.notified = set()

    def is_live(self):
        return self.status & 0x4C == 12

    def break_it(self, tick, why):
        self.status |= 64
        self.interrupt |= 2
        self.forget(range(self.queue_count))
        return f"broken {self.slot} {why}"

    def forget(self, queues):
        """Requests in flight of these queues are forgotten."""

    def load(self, offset, size):
        if offset >= 0x100:
            return int.from_bytes((self.config + bytes(256))[offset - 0x100 : offset - 0x100 + size], "little") if offset < 0x200 else 0
        queue = self.queues[self.selected] if self.selected < self.queue_count else None
        features = {0: self.offered, 1: VERSION_1}.get(self.feature_select, 0)
        values = {0: 0x74726976, 4: 2, 8: self.kind, 0xC: 0x54534344, 0x10: features, 0x60: self.interrupt, 0x70: self.status}
        values.update({0x34: 64 if queue else 0, 0x44: int(queue.ready) if queue else 0})
        return values.get(offset, 0)

    def store(self, offset, value):
        queue = self.queues[self.selected] if self.selected < self.queue_count else None
        addresses = {0x80: "table", 0x90: "available", 0xA0: "used"}
        if offset == 0x14:
            self.feature_select = value
        elif offset == 0x24:
            self.driver_select = value
        elif offset == 0x20 and self.driver_select < 2 and not self.status & 8:
            self.driver[self.driver_select] = value
        elif offset == 0x30:
            self.selected = value
        elif offset == 0x50 and value < self.queue_count and self.queues[value].ready:
            self.notified.add(value)
        elif offset == 0x64:
            self.interrupt &= ~value
        elif offset == 0x70:
            self.set_status(value)
        elif offset == 0x44 and queue:
            self.set_ready(queue, bool(value & 1))
        elif offset == 0x38 and queue and not queue.ready and value in (1, 2, 4, 8, 16, 32, 64):
            queue.size = value
        elif offset & ~4 in addresses and queue and not queue.ready:
            name, shift = addresses[offset & ~4], 32 if offset & 4 else 0
            queue.at[name] = queue.at[name] & ~(0xFFFFFFFF << shift) | value << shift

    def set_ready(self, queue, ready):
        if ready and not queue.ready:
            queue.start()
        if not ready and queue.ready:
            queue.start()
            self.forget([self.selected])
        queue.ready = ready

    def set_status(self, value):
        if value == 0:
            self.forget(range(self.queue_count))
            self.reset()
            return
        agreed = self.driver[1] == VERSION_1 and not self.driver[0] & ~self.offered
        features_ok = value & 8 if self.status & 8 or agreed else 0
        self.status = value & 0x87 | features_ok | self.status & 64
