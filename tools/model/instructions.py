"""The instructions of RV32IM, Zicsr and Zifencei, and those of machine mode, as the manuals of RISC-V have them. FENCE and FENCE.I do nothing."""

WORD = 0xFFFFFFFF
MIE, MPIE = 1 << 3, 1 << 7


class Trap(Exception):
    """An exception: its cause, and the value of mtval."""

    def __init__(self, cause, value=0):
        super().__init__(cause, value)
        self.cause, self.value = cause, value


def signed(word, bits=32):
    word &= (1 << bits) - 1
    return word - (1 << bits) if word >> (bits - 1) else word


def divided(a, b):
    """The quotient and the rest, rounded towards zero."""
    if b == 0:
        return -1, a
    quotient = abs(a) // abs(b)
    quotient = -quotient if (a < 0) != (b < 0) else quotient
    return quotient, a - quotient * b


ARITHMETIC = {
    (0, 0): lambda a, b: a + b,
    (0, 32): lambda a, b: a - b,
    (1, 0): lambda a, b: a << (b & 31),
    (2, 0): lambda a, b: int(signed(a) < signed(b)),
    (3, 0): lambda a, b: int(a < b),
    (4, 0): lambda a, b: a ^ b,
    (5, 0): lambda a, b: a >> (b & 31),
    (5, 32): lambda a, b: signed(a) >> (b & 31),
    (6, 0): lambda a, b: a | b,
    (7, 0): lambda a, b: a & b,
    (0, 1): lambda a, b: a * b,
    (1, 1): lambda a, b: signed(a) * signed(b) >> 32,
    (2, 1): lambda a, b: signed(a) * b >> 32,
    (3, 1): lambda a, b: a * b >> 32,
    (4, 1): lambda a, b: divided(signed(a), signed(b))[0],
    (5, 1): lambda a, b: a // b if b else WORD,
    (6, 1): lambda a, b: divided(signed(a), signed(b))[1],
    (7, 1): lambda a, b: a % b if b else a,
}

BRANCHES = {
    0: lambda a, b: a == b,
    1: lambda a, b: a != b,
    4: lambda a, b: signed(a) < signed(b),
    5: lambda a, b: signed(a) >= signed(b),
    6: lambda a, b: a < b,
    7: lambda a, b: a >= b,
}

LOADS = {0: (1, 8), 1: (2, 16), 2: (4, 0), 4: (1, 0), 5: (2, 0)}  # bytes, and the bits of a signed one


def execute(hart, word, bus):
    """Does an instruction, or raises its trap. Answers the records that come after that of the instruction."""
    x, pc = hart.x, hart.pc
    opcode, rd, funct3, funct7 = word & 0x7F, word >> 7 & 31, word >> 12 & 7, word >> 25
    a, b, immediate = x[word >> 15 & 31], x[word >> 20 & 31], signed(word >> 20, 12)
    following, value, more = pc + 4 & WORD, None, []
    if opcode == 0x13 and (funct3 not in (1, 5) or funct7 in (0, 32 if funct3 == 5 else 0)):
        value = ARITHMETIC[funct3, funct7 if funct3 in (1, 5) else 0](a, immediate & WORD)
    elif opcode == 0x33 and (funct3, funct7) in ARITHMETIC:
        value = ARITHMETIC[funct3, funct7](a, b)
    elif opcode == 0x03 and funct3 in LOADS:
        size, bits = LOADS[funct3]
        value = bus.load(a + immediate & WORD, size)
        value = signed(value, bits) if bits else value
    elif opcode == 0x23 and funct3 < 3:
        more = bus.store(a + signed(funct7 << 5 | rd, 12) & WORD, 1 << funct3, b & (1 << (8 << funct3)) - 1)
        rd = 0
    elif opcode == 0x63 and funct3 in BRANCHES:
        far = signed(word >> 31 << 12 | (word >> 7 & 1) << 11 | (word >> 25 & 63) << 5 | (word >> 8 & 15) << 1, 13)
        following = target(pc + far) if BRANCHES[funct3](a, b) else following
        rd = 0
    elif opcode in (0x37, 0x17):
        value = (word & 0xFFFFF000) + (pc if opcode == 0x17 else 0)
    elif opcode == 0x6F:
        far = signed(word >> 31 << 20 | (word >> 12 & 255) << 12 | (word >> 20 & 1) << 11 | (word >> 21 & 1023) << 1, 21)
        value, following = following, target(pc + far)
    elif opcode == 0x67 and funct3 == 0:
        value, following = following, target(a + immediate & ~1)
    elif opcode == 0x0F and funct3 < 2:
        pass
    elif opcode == 0x73:
        value, following = system(hart, word, bus, following)
    else:
        raise Trap(2, word)
    if value is not None and rd:
        x[rd] = value & WORD
    hart.pc = following
    return more


def target(address):
    """Where a jump goes, which must be a multiple of four."""
    address &= WORD
    if address & 3:
        raise Trap(0, address)
    return address


def system(hart, word, bus, following):
    """The instructions of the opcode SYSTEM: the new value of rd, None where it has none, and the next address."""
    if word == 0x00000073:
        raise Trap(11)
    if word == 0x00100073:
        raise Trap(3)
    if word == 0x10500073:
        hart.waits = True
        return None, following
    if word == 0x30200073:
        status = hart.csrs["mstatus"]
        hart.csrs["mstatus"] = MPIE | (MIE if status & MPIE else 0)
        return None, hart.csrs["mepc"]
    funct3, source, number = word >> 12 & 7, word >> 15 & 31, word >> 20
    before = hart.read_csr(number, bus) if funct3 & 3 else None
    writes = funct3 & 3 == 1 or source != 0
    if before is None or (writes and number >> 10 == 3):
        raise Trap(2, word)
    if writes:
        value = source if funct3 & 4 else hart.x[source]
        hart.write_csr(number, {1: value, 2: before | value, 3: before & ~value}[funct3 & 3])
    return before, following
