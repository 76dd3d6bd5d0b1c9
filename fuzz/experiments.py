"""Experiment files: right ones, and what is done to them."""

from random import Random
from typing import Any

Table = dict[str, Any]

# The ranges of the integer keys, as docs/FORMATS.md has them.
RANGES = {
    "version": (1, 1), "factor": (1, 1000), "capacity": (1, 1_000_000), "ram": (4096, 16_777_216), "rate": (1, 100_000), "nics": (0, 4),
    "slot": (0, 31), "sectors": (1, 32_768), "base": (1, 1_000_000), "per_sector": (0, 1_000_000), "seek_num": (0, 1_000_000),
    "seek_den": (1, 1_000_000), "a_nic": (0, 3), "b_nic": (0, 3), "bandwidth": (1, 1_000_000), "delay": (1, 10_000), "queue": (1, 1000),
}
TEXTS = ["", "a", "A", "g0", "g1", "elf", "flat", "a" * 32, "a" * 33, "x" * 255, "x" * 256, "\0", "é", "🦀", "a b", "../a.toml"]
# Names of files that are there, that are not, and that are no plain files.
NAMES = ["i0", "i1", "missing", ".", "folder", "/dev/null", "/dev/zero", "/dev/full", "/proc/self/mem", "i0/", "", "/", "a.toml", "loop"]


def valid(rng: Random, rates: tuple[int, ...] = (1, 7, 50, 100, 400)) -> Table:
    """A right experiment of a few guests, whose placement mostly fits. Its images are named i0, i1 and so on, its disks' d0, d1 and so on."""
    guests = []
    count = rng.choice([1, 1, 2, 2, 3, 4])
    for number in range(count):
        guest: Table = {"name": f"g{number}", "image": f"i{number}", "format": "flat", "ram": 4096 * rng.choice([1, 8, 16, 16, 32])}
        guest["rate"] = rng.choice(rates)
        if rng.random() < 0.6:
            guest["nics"] = rng.randrange(1, 5)
        guests.append(guest)
    factor = rng.choice([1, 2, 3, 10])
    need = sum(guest["rate"] for guest in guests)
    slots = [{"capacity": -(-need // factor) + rng.choice([0, 0, 1, 7])} for _ in range(rng.choice([1, 1, 2]))]
    experiment: Table = {"version": 1, "factor": factor, "slot": slots, "guest": guests}
    disks = []
    for guest in guests:
        for _ in range(rng.choice([0, 0, 1, 1, 2])):
            disk = {"guest": guest["name"], "sectors": rng.choice([1, 2, 64, 32_768]), "base": rng.choice([1, 1, 2, 5])}
            if rng.random() < 0.5:
                disk["image"] = f"d{len(disks)}"
            if rng.random() < 0.5:
                disk.update(per_sector=rng.choice([0, 1]), seek_num=rng.choice([0, 1, 3]), seek_den=rng.choice([1, 2, 64]))
            disks.append(disk)
    if disks:
        experiment["disk"] = disks
    free = [(guest["name"], nic) for guest in guests for nic in range(guest.get("nics", 0))]
    rng.shuffle(free)
    wires = []
    while len(free) >= 2 and rng.random() < 0.8:
        (a, a_nic), (b, b_nic) = free.pop(), free.pop()
        wires.append({
            "a": a, "a_nic": a_nic, "b": b, "b_nic": b_nic, "bandwidth": rng.choice([1, 60, 100, 1000, 1_000_000]),
            "delay": rng.choice([1, 1, 2, 5, 100]), "queue": rng.choice([1, 1, 2, 8, 1000]),
        })
    if wires:
        experiment["link"] = wires
    return experiment


def value_text(value: Any) -> str:
    """A value as TOML has it."""
    if isinstance(value, bool):
        return "true" if value else "false"
    if isinstance(value, str):
        return '"' + "".join(c if 32 <= ord(c) < 127 and c not in '"\\' else f"\\U{ord(c):08x}" for c in value) + '"'
    if isinstance(value, list):
        return "[" + ", ".join(value_text(v) for v in value) + "]"
    if isinstance(value, dict):
        return "{" + ", ".join(f"{key_text(k)} = {value_text(v)}" for k, v in value.items()) + "}"
    return str(value)


def key_text(key: str) -> str:
    bare = key and all(c.isascii() and (c.isalnum() or c in "-_") for c in key)
    return key if bare else value_text(key)


def text_of(experiment: Table, inline: bool = False) -> str:
    """The experiment as TOML, with a header a table or with all tables inline."""
    lines, tables = [], []
    for key, value in experiment.items():
        if not inline and isinstance(value, list) and value and all(isinstance(v, dict) for v in value):
            for table in value:
                tables.append(f"[[{key_text(key)}]]")
                tables += [f"{key_text(k)} = {value_text(v)}" for k, v in table.items()]
        else:
            lines.append(f"{key_text(key)} = {value_text(value)}")
    return "\n".join(lines + tables) + "\n"


def hostile_value(rng: Random, key: str) -> Any:
    """A value at an end of the key's range, beyond it, or of another kind."""
    low, high = RANGES.get(key, (0, 100))
    return rng.choice([
        low, low - 1, high, high + 1, rng.randint(low, high), 0, -1, 1 << 31, 1 << 32, 1 << 63, -(1 << 63), (1 << 64) - 1, 10**30,
        1.0, float("inf"), float("nan"), 1e308, True, [], [[]], {}, {"a": 1}, [1, "a"], rng.choice(TEXTS), rng.choice(NAMES),
    ])


def tables_of(experiment: Table) -> list[Table]:
    """The experiment's own table and all others."""
    inner = [t for value in experiment.values() if isinstance(value, list) for t in value if isinstance(t, dict)]
    return [experiment] + inner


def change(rng: Random, experiment: Table) -> None:
    """Makes one thing of an experiment another one, in place."""
    table = rng.choice(tables_of(experiment))
    kind = rng.randrange(8)
    if not table or kind == 0:
        table[rng.choice(["zone", "Slot", "", "é", "a.b", "guest", "image", "x" * 300])] = hostile_value(rng, "")
        return
    key = rng.choice(list(table))
    if kind == 1:
        del table[key]
    elif kind == 2 and isinstance(table[key], list) and table[key]:
        table[key] = table[key] * rng.choice([2, 3, 33, 65])
    elif kind == 3 and key in ("image", "name", "guest", "a", "b"):
        table[key] = rng.choice(TEXTS + NAMES)
    elif kind == 4 and isinstance(table[key], list):
        table[key] = table[key] + [rng.choice([1, "a", [], {}])]
    elif kind in (5, 6) and key in RANGES:
        low, high = RANGES[key]
        table[key] = rng.choice([low, high, rng.randint(low, high), min(high, low + 1)])
    else:
        table[key] = hostile_value(rng, key)


TOKENS = [
    b"[", b"]", b"[[", b"]]", b"{", b"}", b"=", b",", b".", b"'", b'"', b'"""', b"'''", b"#", b"\n", b"\r\n", b"\r", b"\0", b"\\", b"\\u",
    b"\xff", b"\xc3\xa9", b"\xef\xbb\xbf", b"1e999", b"0x", b"0o7", b"-0", b"+1", b"1_0", b"1979-05-27T07:32:00Z", b"inf", b"nan", b"true",
    b"[[guest]]", b"[guest]", b"[slot.a]", b"guest.a = 1", b"\t", b" ", b"\x7f", b"\xf0\x9f\xa6\x80",
]


def scramble(rng: Random, text: bytes) -> bytes:
    """Changes bytes, tokens and lines of a file."""
    data = bytearray(text)
    for _ in range(rng.choice([1, 1, 2, 3, 10])):
        at = rng.randrange(len(data) + 1)
        kind = rng.randrange(7)
        if kind == 0:
            data[at:at] = rng.choice(TOKENS)
        elif kind == 1:
            del data[at : at + rng.choice([1, 2, 8, 60])]
        elif kind == 2 and at < len(data):
            data[at] ^= 1 << rng.randrange(8)
        elif kind == 3 and at < len(data):
            data[at] = rng.randrange(256)
        elif kind == 4:
            lines = bytes(data).split(b"\n")
            rng.shuffle(lines)
            data = bytearray(b"\n".join(lines))
        elif kind == 5:
            line = rng.choice(bytes(data).split(b"\n"))
            data[at:at] = line + b"\n"
        else:
            del data[at:]
    return bytes(data)


def deep(rng: Random) -> bytes:
    """A file that nests or repeats one thing as often as its size allows, or nearly so."""
    size = rng.choice([100, 1000, 10_000, 100_000, 1_048_576])
    opens, closes = rng.choice([("[", "]"), ("{a=", "}"), ("[{a=", "}]"), ("[[", "]]"), ("{a.a=", "}")])
    kind = rng.randrange(8)
    if kind == 0:
        count = size // (len(opens) + len(closes)) - 8
        return ("a = " + opens * count + ("" if opens.endswith("[") else "1") + closes * count + "\n").encode()
    if kind == 1:
        return ("a = " + opens * (size // len(opens) - 8)).encode()
    if kind == 2:
        return ("a" + ".a" * (size // 2 - 8) + " = 1\n").encode()
    if kind == 3:
        return ("[a" + ".a" * (size // 2 - 8) + "]\n").encode()
    if kind == 4:
        return b"".join(b"k%d = %d\n" % (i, i) for i in range(size // 14))
    if kind == 5:
        return b"".join(b"[t%d]\n" % i for i in range(size // 9))
    if kind == 6:
        return b"[[guest]]\n" * (size // 10)
    return b"a = [" + b"1," * (size // 2 - 8) + b"]\n"


def soup(rng: Random) -> bytes:
    """Bytes or tokens without any plan."""
    if rng.random() < 0.3:
        return rng.randbytes(rng.choice([0, 1, 10, 1000, 5000]))
    keys = [key.encode() for key in RANGES] + [b"name", b"image", b"format", b"guest", b"disk", b"link", b"a", b"b"]
    return b" ".join(rng.choice(TOKENS + keys) for _ in range(rng.randrange(200)))
