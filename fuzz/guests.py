"""Hostile guests: images of small programs that drive their virtio devices wrongly."""

import struct
from dataclasses import dataclass, field
from random import Random

RAM = 0x8000_0000
POWER = 0x0010_0000
CLINT = 0x0200_0000
LINES = 0x0300_0000
UART = 0x1000_0000
SLOTS = 0x1000_1000
MASK = 0xFFFF_FFFF

STATUS, NOTIFY, READY, SELECT, SIZE = 0x70, 0x50, 0x44, 0x30, 0x38
REGISTERS = [
    0x00, 0x04, 0x08, 0x0C, 0x10, 0x14, 0x20, 0x24, 0x30, 0x34, 0x38, 0x44, 0x50, 0x60, 0x64,
    0x70, 0x80, 0x84, 0x90, 0x94, 0xA0, 0xA4, 0xB0, 0xC0, 0xFC, 0x100, 0x104, 0x106, 0x200, 0xFFC,
]
CSRS = [0x300, 0x301, 0x304, 0x305, 0x310, 0x340, 0x341, 0x342, 0x343, 0x344, 0xC00, 0xC01, 0xC02, 0xC80, 0xF14, 0x3A0]

# Where a guest keeps the three parts of a queue, and its buffers: a page for each queue, from the second page on.
DESCRIPTORS, AVAILABLE, USED, BUFFERS, PAGE = 0x000, 0x400, 0x600, 0x800, 0x1000


def lui(rd: int, value: int) -> int:
    return (value & 0xFFFF_F000) | rd << 7 | 0x37


def immediate(opcode: int, funct: int, rd: int, rs1: int, value: int) -> int:
    return (value & 0xFFF) << 20 | rs1 << 15 | funct << 12 | rd << 7 | opcode


def addi(rd: int, rs1: int, value: int) -> int:
    return immediate(0x13, 0, rd, rs1, value)


def load(funct: int, rd: int, rs1: int, offset: int) -> int:
    return immediate(0x03, funct, rd, rs1, offset)


def store(funct: int, rs1: int, rs2: int, offset: int) -> int:
    low, high = offset & 0x1F, offset >> 5 & 0x7F
    return high << 25 | rs2 << 20 | rs1 << 15 | funct << 12 | low << 7 | 0x23


def csr(funct: int, rd: int, rs1: int, address: int) -> int:
    return immediate(0x73, funct, rd, rs1, address)


def jump(rd: int, offset: int) -> int:
    bits = (offset >> 20 & 1) << 19 | (offset >> 1 & 0x3FF) << 9 | (offset >> 11 & 1) << 8 | offset >> 12 & 0xFF
    return bits << 12 | rd << 7 | 0x6F


def put(rd: int, value: int) -> list[int]:
    """Sets a register to a value."""
    value &= MASK
    return [lui(rd, value + 0x800), addi(rd, rd, value)]


def put_at(address: int, value: int, funct: int = 2) -> list[int]:
    """Stores a value, by default a word."""
    return put(5, address) + put(6, value) + [store(funct, 5, 6, 0)]


WFI = 0x1050_0073
FIXED = [0x0000_0073, 0x0010_0073, 0x3020_0073, WFI, 0x0000_100F, 0x0FF0_000F]


def random_instruction(rng: Random) -> int:
    """An instruction of RV32IM of any kind, or any word at all."""
    kind = rng.randrange(10)
    rd, rs1, rs2 = rng.randrange(32), rng.randrange(32), rng.randrange(32)
    funct = rng.randrange(8)
    if kind == 0:
        return rng.getrandbits(32)
    if kind == 1:
        return rng.choice(FIXED)
    if kind == 2:
        return csr(rng.choice([1, 2, 3, 5, 6, 7]), rd, rs1, rng.choice(CSRS + [rng.randrange(4096)]))
    if kind == 3:
        return rng.choice([0, 1, 0x20]) << 25 | rs2 << 20 | rs1 << 15 | funct << 12 | rd << 7 | 0x33
    if kind == 4:
        return immediate(0x13, funct, rd, rs1, rng.getrandbits(12))
    if kind == 5:
        return load(rng.choice([0, 1, 2, 4, 5]), rd, rs1, rng.getrandbits(12))
    if kind == 6:
        return store(rng.choice([0, 1, 2]), rs1, rs2, rng.getrandbits(12))
    if kind == 7:
        return rng.getrandbits(7) << 25 | rs2 << 20 | rs1 << 15 | funct << 12 | rng.randrange(32) << 7 | 0x63
    if kind == 8:
        return rng.getrandbits(20) << 12 | rd << 7 | rng.choice([0x17, 0x37])
    return jump(rd, 4 * rng.randrange(-64, 64))


@dataclass
class Queue:
    """A queue of a device: its slot, its number, its size, and where its parts stand."""

    slot: int
    number: int
    size: int
    base: int
    # what the three registers of its parts are told
    parts: tuple[int, int, int] = field(init=False)

    def __post_init__(self) -> None:
        self.parts = (self.base + DESCRIPTORS, self.base + AVAILABLE, self.base + USED)

    @property
    def device(self) -> int:
        return SLOTS + 0x1000 * self.slot


@dataclass
class Machine:
    """What a guest has: bytes of RAM, disks and nics."""

    ram: int
    disks: int
    nics: int


def hostile_number(rng: Random, bits: int) -> int:
    """A number of so many bits, often at an end of its range."""
    top = (1 << bits) - 1
    return rng.choice([0, 1, 2, 3, top, top - 1, 1 << bits - 1, rng.getrandbits(bits)]) & top


def hostile_address(rng: Random, machine: Machine) -> int:
    """An address at an end of RAM, of memory, or of what stands beside RAM."""
    end = RAM + machine.ram
    return rng.choice(
        [RAM, RAM + 1, RAM - 1, end, end - 1, end - 2, end - 16, end - 4, 0, MASK, (1 << 64) - 1, (1 << 64) - 2, 1 << 63,
         1 << 32, (1 << 32) + RAM, UART, SLOTS, CLINT, RAM + rng.randrange(machine.ram)]
    )


def chains(rng: Random, queue: Queue, machine: Machine) -> tuple[bytes, list[int]]:
    """The descriptors of a queue and the heads of their chains: right chains for its device, a field of some of them made wrong."""
    buffers = queue.base + BUFFERS
    table: list[list[int]] = []
    heads = []
    while len(table) < queue.size:
        at = len(table)
        heads.append(at)
        if queue.slot < machine.disks:
            length = 512 * rng.choice([0, 1, 1, 1, 2, 3]) + rng.choice([0] * 8 + [1, 511])
            chain = [(buffers + 64 * rng.randrange(4), 16, 0), (buffers + 256, length, rng.choice([0, 2])), (buffers + 320, 1, 2)]
        elif queue.number == 0:
            chain = [(buffers, rng.choice([128, 1526, 1526, 72, 71, 12, 0]), 2)]
        else:
            chain = [(buffers, rng.choice([26, 72, 76, 128, 1526, 1527, 25, 12, 11, 0]), 0)]
        chain = chain[: queue.size - at]
        for place, (address, length, flags) in enumerate(chain):
            last = place + 1 == len(chain)
            table.append([address, length, flags | (0 if last else 1), 0 if last else at + place + 1])
    for _ in range(rng.choice([0, 0, 0, 0, 1, 1, 2, 5])):
        entry = rng.choice(table)
        which = rng.randrange(4)
        if which == 0:
            entry[0] = hostile_address(rng, machine)
        elif which == 1:
            entry[1] = hostile_number(rng, 32)
        elif which == 2:
            entry[2] = rng.randrange(8)
        else:
            entry[3] = rng.choice([0, 1, queue.size - 1, queue.size, hostile_number(rng, 16)])
    return b"".join(struct.pack("<QIHH", a & (1 << 64) - 1, n & MASK, f, x) for a, n, f, x in table), heads


def ring(rng: Random, queue: Queue, heads: list[int]) -> bytes:
    """An available ring of these chains, sometimes with an index that is too far ahead or with heads that are wrong."""
    index = rng.choice([0, 1, 1, 1, 2, min(len(heads), queue.size)] * 3 + [queue.size, queue.size + 1, rng.getrandbits(16)])
    entries = [heads[place % len(heads)] for place in range(queue.size)]
    if rng.random() < 0.2:
        entries[rng.randrange(queue.size)] = hostile_number(rng, 16)
    return struct.pack("<HH", rng.choice([0, 0, 0, 1, hostile_number(rng, 16)]), index) + struct.pack(f"<{queue.size}H", *entries)


def requests(rng: Random) -> bytes:
    """What stands in the buffers: headers of four requests of a disk, or a frame behind its header."""
    headers = b""
    for _ in range(4):
        kind = rng.choice([0, 0, 0, 1, 1, 4, 8, hostile_number(rng, 32)])
        sector = rng.choice([0, 0, 0, 1, 2, 63, 64, 32767, 32768, hostile_number(rng, 64)])
        headers += struct.pack("<IIQ", kind, rng.getrandbits(32), sector) + rng.randbytes(48)
    return headers


def bring_up(rng: Random, queue: Queue, machine: Machine, wrong: float) -> list[int]:
    """The driver's stores of virtio 1.2, section 3.1.1, each with this chance left out or made another one."""
    nic = queue.slot >= machine.disks
    stores = [
        (STATUS, 3), (0x20, 0x20 if nic else 0x200), (0x24, 1), (0x20, 1), (STATUS, 11), (SELECT, queue.number), (SIZE, queue.size),
        (0x80, queue.parts[0]), (0x84, queue.parts[0] >> 32), (0x90, queue.parts[1]), (0x94, queue.parts[1] >> 32),
        (0xA0, queue.parts[2]), (0xA4, queue.parts[2] >> 32), (READY, 1), (STATUS, 15),
    ]
    words = []
    for offset, value in stores:
        if rng.random() < wrong:
            change = rng.randrange(4)
            if change == 0:
                continue
            if change == 1:
                value = hostile_address(rng, machine)
            elif change == 2:
                value = hostile_number(rng, 32)
            else:
                offset = rng.choice(REGISTERS)
        words += put_at(queue.device + offset, value)
    return words


def action(rng: Random, queues: list[Queue], machine: Machine) -> list[int]:
    """One thing that a hostile driver does next."""
    kind = rng.randrange(16)
    if not queues or kind == 0:
        return [random_instruction(rng) for _ in range(rng.randrange(1, 8))]
    queue = rng.choice(queues)
    if kind in (1, 2, 3):
        return put_at(queue.device + NOTIFY, rng.choice([queue.number, queue.number, hostile_number(rng, 32)]))
    if kind in (4, 5):
        # one more chain is available
        return put(5, queue.base + AVAILABLE) + [load(5, 6, 5, 2), addi(6, 6, rng.choice([1, 1, 1, 2, queue.size])), store(1, 5, 6, 2)]
    if kind == 6:
        return put_at(queue.device + rng.choice(REGISTERS), hostile_number(rng, 32), rng.choice([0, 1, 2, 2, 2]))
    if kind == 7:
        return put(5, queue.device + rng.choice(REGISTERS)) + [load(rng.choice([0, 1, 2, 4, 5]), 7, 5, rng.choice([0, 0, 1, 2, 3]))]
    if kind == 8:
        address = queue.base + rng.choice([DESCRIPTORS, AVAILABLE, USED, BUFFERS]) + 2 * rng.randrange(64)
        return put_at(address, hostile_number(rng, 16), 1)
    if kind == 9:
        # the driver begins anew, with an available ring that is empty or not
        index = put_at(queue.base + AVAILABLE + 2, rng.choice([0, 1, 2]), 1)
        return put_at(queue.device + STATUS, 0) + index + (bring_up(rng, queue, machine, 0.02) if rng.random() < 0.8 else [])
    if kind == 10:
        return put_at(queue.device + SELECT, queue.number) + put_at(queue.device + READY, rng.choice([0, 0, 1]))
    if kind == 11:
        return put_at(queue.device + 0x64, 3)
    if kind == 12:
        # the machine waits for the timer or a device
        when = rng.choice([1, 2, 5, 50, hostile_number(rng, 32)])
        lines = rng.choice([0x880, 0x80, 0x800, 0x8])
        return put_at(CLINT + 0x4004, 0) + put_at(CLINT + 0x4000, when) + put(5, lines) + [csr(1, 0, 5, 0x304), WFI]
    if kind == 13:
        return put_at(rng.choice([UART, UART + 5, LINES, CLINT, POWER, POWER + 4]), hostile_number(rng, 32), rng.choice([0, 1, 2]))
    if kind == 14:
        return put_at(hostile_address(rng, machine), hostile_number(rng, 32), rng.choice([0, 1, 2]))
    return [addi(0, 0, 0)] * rng.randrange(1, 40)


def hostile_image(rng: Random, machine: Machine) -> bytes:
    """A flat image: code that brings queues up and then goes round in hostile actions, and in the pages behind it these queues."""
    queues = []
    for slot in range(min(6, machine.disks + machine.nics)):
        numbers = [0] if slot < machine.disks else [0, 1]
        for number in numbers:
            base = RAM + PAGE * (4 + len(queues))
            if base + PAGE <= RAM + machine.ram:
                queue = Queue(slot, number, rng.choice([1, 2, 4, 4, 8, 16, 32, 64]), base)
                if rng.random() < 0.1:
                    parts = list(queue.parts)
                    parts[rng.randrange(3)] = hostile_address(rng, machine)
                    queue.parts = (parts[0], parts[1], parts[2])
                queues.append(queue)
    # behind a jump over it the handler of traps, which goes on behind the instruction that trapped
    words = [jump(0, 20), csr(2, 31, 0, 0x341), addi(31, 31, 4), csr(1, 0, 31, 0x341), 0x3020_0073]
    for queue in queues:
        words += bring_up(rng, queue, machine, rng.choice([0, 0, 0, 0, 0.1]))
    start = len(words)
    handler = rng.choice([4] * 7 + [4 * start] * 2 + [0])
    words += put(5, RAM + handler) + [csr(1, 0, 5, 0x305)]
    for queue in queues:
        words += put_at(queue.device + NOTIFY, queue.number)
    for _ in range(rng.randrange(5, 60)):
        words += action(rng, queues, machine)
    words = words[: PAGE - 1]
    words.append(jump(0, 4 * (min(start, len(words)) - len(words))))
    image = bytearray(struct.pack(f"<{len(words)}I", *words))
    for queue in queues:
        page = bytearray(PAGE)
        descriptors, heads = chains(rng, queue, machine)
        for offset, part in [(DESCRIPTORS, descriptors), (AVAILABLE, ring(rng, queue, heads)), (BUFFERS, requests(rng))]:
            page[offset : offset + len(part)] = part
        at = queue.base - RAM
        image = image[:at].ljust(at, b"\0") + page
    return bytes(image[: machine.ram])


def friendly_image(machine: Machine) -> bytes:
    """A flat image that brings each queue up with right chains, reads a sector, sends four frames, and jumps in place."""
    rng = Random(0)
    words = []
    pages = b""
    for slot in range(machine.disks + machine.nics):
        for number in [0] if slot < machine.disks else [0, 1]:
            queue = Queue(slot, number, 4, RAM + PAGE + len(pages))
            buffers = queue.base + BUFFERS
            if slot < machine.disks:
                table = [(buffers, 16, 1, 1), (buffers + 64, 512, 3, 2), (buffers + 32, 1, 2, 0), (0, 0, 0, 0)]
                heads = [0]
            else:
                table = [(buffers, 128, 2 if number == 0 else 0, 0)] * 4
                heads = [0, 1, 2, 3]
            page = b"".join(struct.pack("<QIHH", *entry) for entry in table).ljust(AVAILABLE, b"\0")
            page += struct.pack(f"<HH{len(heads)}H", 0, len(heads), *heads)
            pages += page.ljust(PAGE, b"\0")
            words += bring_up(rng, queue, machine, 0) + put_at(queue.device + NOTIFY, number)
    words.append(jump(0, 0))
    return (struct.pack(f"<{len(words)}I", *words).ljust(PAGE, b"\0") + pages)[: machine.ram]


def random_image(rng: Random, machine: Machine) -> bytes:
    """Instructions without any plan."""
    count = rng.choice([0, 1, 2, 16, 200, machine.ram // 4])
    return b"".join(struct.pack("<I", random_instruction(rng)) for _ in range(count)) + rng.randbytes(rng.randrange(4))
