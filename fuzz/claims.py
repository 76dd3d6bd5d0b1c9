"""What a run of the program must keep, by docs/FORMATS.md."""

import re
from dataclasses import dataclass

import oracle

# More than this many units of work may take longer than the seconds below.
UNITS = 10_000_000
SECONDS = 10.0

NUMBER = r"(?:0|[1-9][0-9]*)"
NAME = "[a-z0-9_-]{1,32}"
KEY = r"[!-~]{1,32}"
FILE = rf"(?:experiment|image {NUMBER}|disk {NUMBER})"
WHY = "not-toml|missing|unknown|wrong-kind|range|twice|no-such-guest|nic-taken|nic-range|no-guest|no-slot"
ELF = rf"not-elf|truncated|wrong-kind|bad-segment {NUMBER}|outside-ram {NUMBER}|bad-entry"
USAGE = "[a-z]+(?:-[a-z]+)*"

# The lines of each exit status.
LINES = {
    1: [rf"overload: slot {NUMBER} needs {NUMBER}, has {NUMBER}"],
    2: [rf"usage: {USAGE}"],
    3: [rf"experiment: (?:{WHY}) (?:top|slot|guest|disk|link) {NUMBER} {KEY}"],
    4: [
        rf"image {NUMBER}: (?:too-long|{ELF})",
        rf"disk {NUMBER}: {NUMBER} bytes, room {NUMBER}",
        rf"stock: (?:clint|uart|blk|net) wanted {NUMBER}, had {NUMBER}",
        rf"too long: {FILE}",
    ],
    5: [rf"read fault: {FILE}"],
    6: ["write fault"],
    7: ["out of memory"],
}
MESSAGES = {code: [re.compile(rf"diecast: {line}\n".encode()) for line in lines] for code, lines in LINES.items()}

HEX = "[0-9a-f]{8}"
BROKEN = "ring-outside|index-ahead|head-range|head-out|loop|indirect|range-outside|order-wrong|next-range|short-request|short-buffer"
RECORD = re.compile(
    rf"{NUMBER} {NUMBER} (?:instr {HEX} {HEX}|trap {HEX} {HEX}|uart {NUMBER}|disk [01] {NUMBER} {NUMBER} {NUMBER} [012]"
    rf"|(?:sent|recv) [0-3] {NUMBER} (?:[0-9a-f]{{2}})+|(?:drop|bad|lost) [0-3] {NUMBER}|broken [0-5] (?:{BROKEN})|halt)"
)
HEAD = re.compile(rf"diecast 1 factor ({NUMBER}) slots ({NUMBER}) guests ({NUMBER}) host ({NUMBER})")
QUANTUM = re.compile(rf"run ({NUMBER}) units ({NUMBER}) done ({NUMBER})")
TRACES = re.compile(rf"traces guests {NUMBER} ticks {NUMBER}")
GUEST = re.compile(rf"guest {NUMBER} {NAME}")
SUMMARY = re.compile(rf"summary guests {NUMBER} ticks {NUMBER}")
COUNTED = ["instr", "trap", "disk", "sent", "drop", "bad", "recv", "lost", "uart", "broken", "halt"]
COUNTS = re.compile(rf"{NUMBER} {NAME} " + " ".join(f"{word} {NUMBER}" for word in COUNTED))
PLAN = [
    re.compile(line)
    for line in [
        rf"plan factor {NUMBER} slots {NUMBER} guests {NUMBER}",
        rf"slot {NUMBER} need {NUMBER} have {NUMBER}",
        rf"guest {NUMBER} {NAME} slot {NUMBER} rate {NUMBER}",
        rf"least {NUMBER} slot {NUMBER}",
        "fits",
        rf"over {NUMBER} need {NUMBER} have {NUMBER}",
    ]
]


@dataclass
class Ended:
    """How a run ended: the status, negative where a signal ended it, both texts, and the processor seconds."""

    status: int
    out: bytes
    whole: bool
    msg: bytes
    seconds: float
    stuck: bool


def line_faults(ended: Ended) -> list[str]:
    """The message is the one line of the exit status."""
    if ended.status == 0:
        return [f"exit status 0 with a message {ended.msg[:200]!r}"] if ended.msg else []
    forms = MESSAGES.get(ended.status)
    if forms is None:
        return [f"exit status {ended.status}"]
    if not any(form.fullmatch(ended.msg) for form in forms):
        return [f"exit status {ended.status} with the message {ended.msg[:200]!r}"]
    return []


def journal_faults(lines: list[str], whole: bool, capacity: list[int]) -> list[str]:
    """Each line has a form of the journal, no turn is longer than its capacity, and no guest falls behind its factor."""
    head = HEAD.fullmatch(lines[0])
    if not head:
        return [f"the first line is {lines[0]!r}"]
    factor, slots, guests, ticks = map(int, head.groups())
    done = [0] * guests
    tick, slot, used = 0, -1, 0

    def turn() -> list[str]:
        over = slot >= 0 and used > capacity[slot]
        return [f"slot {slot} used {used} units in host tick {tick}"] if over else []

    def behind() -> list[str]:
        late = [guest for guest in range(guests) if done[guest] < tick // factor]
        return [f"guest {late[0]} did {done[late[0]]} ticks in {tick} host ticks"] if late else []

    for number, line in enumerate(lines[1:], 2):
        quantum = QUANTUM.fullmatch(line)
        if quantum:
            guest, cost, count = map(int, quantum.groups())
            if guest >= guests or count < done[guest]:
                return [f"line {number} is {line!r}"]
            done[guest] = count
            used += cost
        elif line == f"slot {slot + 1}" and slot + 1 < slots and tick > 0:
            if turn():
                return turn()
            slot, used = slot + 1, 0
        elif line in (f"host {tick + 1}", f"end {ticks}") and (tick == 0 or slot == slots - 1):
            if turn() or behind():
                return turn() + behind()
            if line.startswith("end"):
                return [] if number == len(lines) and tick == ticks else [f"it ends in line {number}, after {tick} host ticks"]
            tick, slot, used = tick + 1, -1, 0
        elif not RECORD.fullmatch(line):
            return [f"line {number} is {line[:200]!r}"]
    return ["it has no end"] if whole else []


def traces_faults(lines: list[str], whole: bool) -> list[str]:
    """A head, for each guest its name and its records, and an end."""
    bad = [line for line in lines[1:] if not GUEST.fullmatch(line) and not RECORD.fullmatch(line) and line != "end"]
    return forms_faults(TRACES, lines, whole, bad)


def summary_faults(lines: list[str], whole: bool) -> list[str]:
    """A head, a line for each guest, and an end."""
    bad = [line for line in lines[1:] if not COUNTS.fullmatch(line) and line != "end"]
    return forms_faults(SUMMARY, lines, whole, bad)


def forms_faults(head: re.Pattern, lines: list[str], whole: bool, bad: list[str]) -> list[str]:
    if not head.fullmatch(lines[0]) or bad:
        return [f"a line is {(bad or lines)[0][:200]!r}"]
    ends = lines.count("end") == 1 and lines[-1] == "end"
    return [] if ends or not whole else ["its end is not its last line"]


def plan_faults(lines: list[str], status: int) -> list[str]:
    """Each line has a form of the plan, and the last says what the exit status does."""
    for line in lines:
        if not any(form.fullmatch(line) for form in PLAN):
            return [f"a line of the plan is {line!r}"]
    last = lines[-1].split()[0]
    return [] if (last, status) in (("fits", 0), ("over", 1)) else [f"the plan ends with {lines[-1]!r} and exit status {status}"]


def text_faults(files: dict[str, bytes], command: oracle.Command, ended: Ended) -> list[str]:
    """What went to standard output is what the exit status says."""
    put = ended.status == 0 or (ended.status == 1 and command.kind == "plan")
    if ended.status in (6, 7):
        return []
    if not put:
        return ["it put something to standard output"] if ended.out else []
    text = ended.out.decode("ascii", "replace")
    lines = text.splitlines()
    if not lines or (ended.whole and not text.endswith("\n")):
        return ["its text has no last line"]
    if not ended.whole:
        lines.pop()
    if command.kind == "plan":
        return plan_faults(lines, ended.status)
    if command.kind == "gen" or command.view == "summary":
        return summary_faults(lines, ended.whole)
    if command.view == "traces":
        return traces_faults(lines, ended.whole)
    return journal_faults(lines, ended.whole, oracle.capacities(files.get(command.of, b"")))


def ending_faults(words: list[bytes], files: dict[str, bytes], ended: Ended) -> list[str]:
    """It ended as docs/FORMATS.md says that it must, or for want of memory."""
    try:
        status, line = oracle.ending(words, files)
    except oracle.Unsure:
        return []
    wanted = f"diecast: {line}\n".encode() if status else b""
    if ended.status == 7 or (ended.status, ended.msg) == (status, wanted):
        return []
    return [f"it ended with {ended.status} and {ended.msg[:200]!r}, and not with {status} and {wanted!r}"]


def faults(words: list[bytes], files: dict[str, bytes], ended: Ended) -> list[str]:
    """What a run must not do and did."""
    if ended.stuck:
        return ["it did not end"]
    if ended.status < 0:
        return [f"signal {-ended.status} ended it"]
    found = line_faults(ended) + ending_faults(words, files, ended)
    try:
        found += text_faults(files, oracle.command_of(words), ended)
    except oracle.Usage:
        found += ["it put something to standard output"] if ended.out else []
    if ended.seconds > SECONDS and oracle.units(words, files) <= UNITS:
        found.append(f"it took {ended.seconds:.1f} s of processor time")
    return found
