"""Images of random instructions."""

HANDLER, BODY = 0x40, 0x80
POINTERS = (0x80001400, 0x80001000, 0x80001FFC, 0x02000000, 0x02004000, 0x0200BFF8, 0x03000000, 0x10000000, 0x10001000, 0x10001100, 0x00100100, 0x0)
CSRS = (0x300, 0x301, 0x304, 0x305, 0x310, 0x340, 0x341, 0x342, 0x343, 0x344, 0xC00, 0xC01, 0xC02, 0xC80, 0xC82, 0xF11, 0xF14, 0x306, 0xB00)


def upper_and_add(register, value):
    """lui and addi: a register gets a value."""
    low = (value & 0xFFF) - (0x1000 if value & 0x800 else 0)
    return [(value - low) & 0xFFFFF000 | register << 7 | 0x37, (low & 0xFFF) << 20 | register << 15 | register << 7 | 0x13]


def branch(source, rng):
    """A branch or a jump forward by a few words."""
    far = 4 * rng.choice((1, 2, 3, 4)) + (2 if rng.random() < 0.05 else 0)
    if rng.random() < 0.3:
        return far << 20 | rng.choice((0, 5)) << 7 | 0x6F
    bits = (far >> 12 & 1) << 31 | (far >> 5 & 63) << 25 | (far >> 1 & 15) << 8 | (far >> 11 & 1) << 7
    return bits | source << 15 | rng.randrange(32) << 20 | rng.choice((0, 1, 4, 5, 6, 7)) << 12 | 0x63


def instruction(rng):
    source, rd = rng.randrange(32), rng.choice([0] + list(range(1, 20)))
    operands = rng.randrange(32) << 20 | source << 15 | rd << 7
    pointer = rng.randrange(20, 32) << 15 | rng.choice((0, 0, 4, 8, 1, 2, 16, 0x7F0)) << 20
    kind = rng.random()
    if kind < 0.3:
        return operands | rng.randrange(8) << 12 | rng.choice((0, 0, 1, 1, 1, 32)) << 25 | 0x33
    if kind < 0.5:
        return operands | rng.randrange(8) << 12 | rng.choice((0, 0, 0, 32, rng.randrange(128))) << 25 | 0x13
    if kind < 0.6:
        return pointer | rng.choice((0, 1, 2, 2, 4, 5, 3)) << 12 | rd << 7 | 0x03
    if kind < 0.7:
        return rng.randrange(20, 32) << 15 | rng.randrange(20) << 20 | rng.choice((0, 1, 2, 2, 3)) << 12 | rng.choice((0, 4, 8, 1)) << 7 | 0x23
    if kind < 0.82:
        return branch(source, rng)
    if kind < 0.92:
        number, way = rng.choice(CSRS), rng.choice((1, 2, 3, 5, 6, 7, 2, 2))
        # what stands at mtvec is only read, so that traps go on coming in there
        return number << 20 | (0 if number == 0x305 else source) << 15 | (2 if number == 0x305 else way) << 12 | rd << 7 | 0x73
    if kind < 0.95:
        return rng.getrandbits(20) << 12 | rd << 7 | rng.choice((0x37, 0x17))
    if kind < 0.9505:
        return 0x10500073  # few guests wake again
    return rng.choice((0x00000073, 0x00100073, 0x0000000F, 0x0000100F, 0x0, 0xFFFFFFFF, rng.getrandbits(32)))


def image(rng):
    start = upper_and_add(5, 0x80000000 + HANDLER) + [0x305 << 20 | 5 << 15 | 1 << 12 | 0x73, 0x0]
    jump = BODY - 12
    start[3] = jump << 20 | 0x6F
    # csrr x3, mepc; addi x3, x3, 4; csrw mepc, x3; mret
    handler = [0x341 << 20 | 2 << 12 | 3 << 7 | 0x73, 4 << 20 | 3 << 15 | 3 << 7 | 0x13, 0x341 << 20 | 3 << 15 | 1 << 12 | 0x73, 0x30200073]
    body = [word for register in range(20, 32) for word in upper_and_add(register, rng.choice(POINTERS))]
    body += [instruction(rng) for _ in range(700)]
    back = -4 * len(body) & 0x1FFFFF
    body.append((back >> 20) << 31 | (back >> 1 & 1023) << 21 | (back >> 11 & 1) << 20 | (back >> 12 & 255) << 12 | 0x6F)
    words = start + [0] * (HANDLER // 4 - len(start)) + handler
    words += [0] * (BODY // 4 - len(words)) + body
    return b"".join(word.to_bytes(4, "little") for word in words)
