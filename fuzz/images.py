"""ELF files that are right, and what is done to them."""

import struct
from pathlib import Path
from random import Random

EXAMPLES = Path(__file__).resolve().parent.parent / "examples"

# offsets and sizes of the fields of the header, and of those of a program header
HEADER = [(4, 1), (5, 1), (6, 1), (16, 2), (18, 2), (20, 4), (24, 4), (28, 4), (32, 4), (40, 2), (42, 2), (44, 2), (46, 2)]
SEGMENT = [(0, 4), (4, 4), (8, 4), (12, 4), (16, 4), (20, 4), (24, 4), (28, 4)]


def hand_made() -> bytes:
    """Two program headers, the second of four bytes, a jump in place, that are loaded to 0x8000_0000."""
    header = b"\x7fELF\x01\x01\x01".ljust(16, b"\0") + struct.pack("<HHIIIIIHHHHHH", 2, 243, 1, 0x8000_0000, 52, 0, 0, 52, 32, 2, 0, 0, 0)
    first = struct.pack("<8I", 0x7000_0003, 0, 0, 0, 0, 0, 0, 0)
    second = struct.pack("<8I", 1, 116, 0, 0x8000_0000, 4, 4096, 0, 0)
    return header + first + second + struct.pack("<I", 0x6F)


def elf_files() -> list[bytes]:
    found = [path.read_bytes() for path in sorted(EXAMPLES.glob("*/*.elf"))]
    return [hand_made()] + found


def number(rng: Random, size: int, file: bytes) -> int:
    """A number for a field, often one that fits somewhere else in the file or in RAM."""
    top = (1 << 8 * size) - 1
    return rng.choice([
        0, 1, 2, 3, 4, 31, 32, 33, 52, 116, top, top - 1, 1 << 8 * size - 1, len(file), len(file) - 1, len(file) + 1, 0x8000_0000, 0x8000_0001,
        0x8000_1000, 0x7FFF_FFFF, 0x8100_0000, rng.getrandbits(8 * size),
    ]) & top


def hostile_elf(rng: Random, files: list[bytes]) -> bytes:
    """An ELF file in which a few fields are other ones, or bytes are missing or more."""
    file = bytearray(rng.choice(files))
    headers = struct.unpack_from("<I", file, 28)[0]
    count = struct.unpack_from("<H", file, 44)[0]
    for _ in range(rng.choice([0, 1, 1, 1, 2, 3])):
        if rng.random() < 0.4:
            at, size = rng.choice(HEADER)
        else:
            offset, size = rng.choice(SEGMENT)
            at = headers + 32 * rng.randrange(max(1, count)) + offset
        if at + size <= len(file):
            file[at : at + size] = number(rng, size, bytes(file)).to_bytes(size, "little")
    if rng.random() < 0.3:
        del file[rng.randrange(len(file) + 1) :]
    if rng.random() < 0.2:
        file += rng.randbytes(rng.choice([1, 32, 4096]))
    return bytes(file)


def disk_image(rng: Random, sectors: int) -> bytes:
    """The first content of a disk, sometimes a byte too long."""
    room = 512 * min(sectors, 64)
    return rng.randbytes(rng.choice([0, 1, 512, room] * 8 + [room + 1]))
