"""A hart with machine mode alone: its control and status registers, its traps, and a step of it, as docs/FORMATS.md has them ("What a guest
finds") and the manuals of RISC-V."""

from instructions import MIE, MPIE, WORD, Trap, execute

COUNT = (1 << 64) - 1
LINES = ((11, 0x8000000B), (3, 0x80000003), (7, 0x80000007))  # a bit of mip, and its cause: the first that is up is taken


class Hart:
    def __init__(self, entry):
        self.x = [0] * 32
        self.pc = entry
        self.csrs = {"mstatus": 0, "mie": 0, "mtvec": 0, "mscratch": 0, "mepc": 0, "mcause": 0, "mtval": 0}
        self.waits = False
        self.steps = self.retired = 0

    def read_csr(self, number, bus):
        """Its value, or None where there is none of this number."""
        plain = {0x304: "mie", 0x305: "mtvec", 0x340: "mscratch", 0x341: "mepc", 0x342: "mcause", 0x343: "mtval"}
        counters = {0xC00: self.steps, 0xC01: bus.tick, 0xC02: self.retired}
        if number in plain:
            return self.csrs[plain[number]]
        if number == 0x300:
            return self.csrs["mstatus"] | 3 << 11
        if number & ~0x80 in counters:
            return counters[number & ~0x80] >> (32 if number & 0x80 else 0) & WORD
        others = {0x301: 0x40001100, 0x310: 0, 0x344: bus.lines()}
        return others.get(number, 0 if 0xF11 <= number <= 0xF15 else None)

    def write_csr(self, number, value):
        masks = {0x300: ("mstatus", MIE | MPIE), 0x304: ("mie", 0x888), 0x305: ("mtvec", ~2), 0x340: ("mscratch", WORD)}
        masks.update({0x341: ("mepc", ~3), 0x342: ("mcause", WORD), 0x343: ("mtval", WORD)})
        if number in masks:
            name, mask = masks[number]
            self.csrs[name] = value & mask & WORD

    def take(self, cause, value):
        """A trap is taken."""
        status, vector = self.csrs["mstatus"], self.csrs["mtvec"]
        self.csrs.update(mepc=self.pc, mcause=cause, mtval=value, mstatus=MPIE if status & MIE else 0)
        self.pc = vector & ~3
        if vector & 1 and cause >> 31:
            self.pc = (self.pc + 4 * (cause & 0x7FFFFFFF)) & WORD

    def step(self, bus):
        """One step: its records, None where it is idle. A counter reads what was counted before the step."""
        records = self.stepped(bus)
        self.steps = self.steps + 1 & COUNT
        self.retired = self.retired + (records is not None and records[0].startswith("instr")) & COUNT
        return records

    def is_idle(self, bus):
        return bus.halted or (self.waits and not bus.lines() & self.csrs["mie"])

    def stepped(self, bus):
        if self.is_idle(bus):
            return None
        self.waits = False
        at = self.pc
        up = bus.lines() & self.csrs["mie"] if self.csrs["mstatus"] & MIE else 0
        for bit, cause in LINES:
            if up >> bit & 1:
                self.take(cause, 0)
                return [f"trap {cause:08x} {at:08x}"]
        try:
            word = bus.fetch(at)
            more = execute(self, word, bus)
        except Trap as trap:
            self.take(trap.cause, trap.value)
            return [f"trap {trap.cause:08x} {at:08x}"]
        return [f"instr {at:08x} {word:08x}"] + more
