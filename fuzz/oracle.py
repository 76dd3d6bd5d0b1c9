"""What a run or a plan must end with, worked out from docs/FORMATS.md alone."""

import math
import re
import struct
import tomllib
from dataclasses import dataclass
from typing import Any

EXPERIMENT_LIMIT, IMAGE_LIMIT, DISK_LIMIT = 1_048_576, 33_554_432, 16_777_216
NAME = set("abcdefghijklmnopqrstuvwxyz0123456789_-")

VIEWS = ["journal", "events", "traces", "summary"]


@dataclass
class Command:
    """What words ask for: `run` and `plan` of a file, or `gen` of so many guests."""

    kind: str
    of: str
    ticks: int = 0
    view: str = "summary"


class Usage(Exception):
    """The first thing that is wrong with words."""


def number_of(text: str, low: int, high: int) -> int:
    """The number that a text is, in this range."""
    if not re.fullmatch("0|[1-9][0-9]{0,7}", text) or not low <= int(text) <= high:
        raise Usage("bad-number")
    return int(text)


def split(words: list[str]) -> tuple[list[str], dict[str, str]]:
    """The words of a command that are no options, and its options with their values."""
    plain: list[str] = []
    options: dict[str, str] = {}
    left = list(words)
    while left:
        word = left.pop(0)
        if word == "--":
            plain += left
            break
        if word == "-" or not word.startswith("-"):
            plain.append(word)
            continue
        name, equals, value = word.partition("=")
        if not equals:
            if not left or (left[0].startswith("-") and left[0] != "-"):
                raise Usage("not-words")
            value = left.pop(0)
        if name not in ("--host-ticks", "--view") or name in options:
            raise Usage("not-words")
        options[name] = value
    if len(plain) != 2:
        raise Usage("not-words")
    return plain, options


def command_of(words: list[bytes]) -> Command:
    """What words ask for."""
    try:
        (kind, of), options = split([word.decode() for word in words])
    except UnicodeDecodeError as odd:
        raise Usage("not-words") from odd
    if kind not in ("run", "plan", "gen"):
        raise Usage("unknown-command")
    if kind != "gen" and not of:
        raise Usage("empty-name")
    if kind == "gen":
        number_of(of, 2, 32)
    if (kind == "plan" and options) or (kind == "gen" and "--view" in options):
        raise Usage("extra-option")
    if kind == "plan":
        return Command(kind, of)
    if "--host-ticks" not in options:
        raise Usage("missing-option")
    ticks = number_of(options["--host-ticks"], 0, 1_000_000)
    view = options.get("--view", "summary")
    if view not in VIEWS:
        raise Usage("bad-view")
    return Command(kind, of, ticks, view)


# Each key with its kind, its range and whether it may be absent, in the order in which faults are told.
Key = tuple[str, type, Any, bool]
SLOT: list[Key] = [("capacity", int, (1, 1_000_000), False)]
GUEST: list[Key] = [
    ("name", str, lambda t: 1 <= len(t) <= 32 and set(t) <= NAME, False),
    ("image", str, lambda t: 1 <= len(t.encode()) <= 255 and "\0" not in t, False),
    ("format", str, lambda t: t in ("elf", "flat"), True),
    ("ram", int, lambda n: 4096 <= n <= 16_777_216 and n % 4096 == 0, True),
    ("rate", int, (1, 100_000), False), ("nics", int, (0, 4), True), ("slot", int, None, True),
]
DISK: list[Key] = [
    ("guest", str, None, False), ("sectors", int, (1, 32_768), False),
    ("image", str, lambda t: 1 <= len(t.encode()) <= 255 and "\0" not in t, True),
    ("base", int, (1, 1_000_000), False), ("per_sector", int, (0, 1_000_000), True), ("seek_num", int, (0, 1_000_000), True),
    ("seek_den", int, (1, 1_000_000), True),
]
LINK: list[Key] = [
    ("a", str, None, False), ("a_nic", int, (0, 3), True), ("b", str, None, False), ("b_nic", int, (0, 3), True),
    ("bandwidth", int, (1, 1_000_000), False), ("delay", int, (1, 10_000), False), ("queue", int, (1, 1000), False),
]
TOP: list[Key] = [
    ("version", int, (1, 1), False), ("factor", int, (1, 1000), False), ("slot", list, (1, 32), False), ("guest", list, (1, 32), False),
    ("disk", list, (0, 64), True), ("link", list, (0, 64), True),
]


class Fault(Exception):
    """The first thing that is wrong."""


def fault(why: str, section: str, index: int, key: str) -> Fault:
    shown = "".join(chr(b) if 0x21 <= b <= 0x7E else "?" for b in key.encode()[:32]) or "-"
    return Fault(f"{why} {section} {index} {shown}")


def is_kind(value: Any, kind: type) -> bool:
    return type(value) is kind


def check_table(table: Any, keys: list[Key], section: str, index: int) -> None:
    if not is_kind(table, dict):
        raise fault("wrong-kind", section, index, "")
    unknown = sorted(key.encode() for key in table if key not in [k[0] for k in keys])
    if unknown:
        raise fault("unknown", section, index, unknown[0].decode())
    for key, kind, allowed, optional in keys:
        if key not in table:
            if not optional:
                raise fault(f"no-{key}" if kind is list else "missing", section, index, key)
            continue
        value = table[key]
        if not is_kind(value, kind):
            raise fault("wrong-kind", section, index, key)
        if kind is list:
            if not optional and not value:
                raise fault(f"no-{key}", section, index, key)
            value = len(value)
        right = allowed is None or (allowed[0] <= value <= allowed[1] if isinstance(allowed, tuple) else allowed(value))
        if not right:
            raise fault("range", section, index, key)


def check_guest(experiment: dict, index: int, names: dict[str, int]) -> None:
    guest = experiment["guest"][index]
    check_table(guest, GUEST, "guest", index)
    if "slot" in guest and not 0 <= guest["slot"] < len(experiment["slot"]):
        raise fault("range", "guest", index, "slot")
    if guest["name"] in names:
        raise fault("twice", "guest", index, "name")
    names[guest["name"]] = index


def check_disk(disk: Any, index: int, names: dict[str, int], disks: list[int]) -> None:
    check_table(disk, DISK, "disk", index)
    if disk["guest"] not in names:
        raise fault("no-such-guest", "disk", index, "guest")
    guest = names[disk["guest"]]
    if disks.count(guest) == 2:
        raise fault("range", "disk", index, "guest")
    disks.append(guest)


def check_link(experiment: dict, link: Any, index: int, names: dict[str, int], taken: set[tuple[int, int]]) -> None:
    check_table(link, LINK, "link", index)
    for end in ("a", "b"):
        if link[end] not in names:
            raise fault("no-such-guest", "link", index, end)
        guest, nic = names[link[end]], link.get(f"{end}_nic", 0)
        if nic >= experiment["guest"][guest].get("nics", 0):
            raise fault("nic-range", "link", index, f"{end}_nic")
        if (guest, nic) in taken:
            raise fault("nic-taken", "link", index, f"{end}_nic")
        taken.add((guest, nic))


class Unsure(Exception):
    """Nothing is said of this file: TOML leaves open how deep values nest, and what a number is that is too great for a float."""


def document_of(text: bytes) -> dict:
    """What a file says as TOML. Python's reader takes very long for a key of very many parts, or nests too deep itself."""
    if any(line.count(b".") > 1000 for line in text.splitlines()):
        raise Unsure
    try:
        return tomllib.loads(text.decode())
    except RecursionError as deep:
        raise Unsure from deep


def check_values(document: dict) -> None:
    """Integers have 64 bits, and no value nests deep."""
    left: list[tuple[Any, int]] = [(document, 0)]
    while left:
        value, depth = left.pop()
        # A number that no float is near enough to is infinite to Python's reader, and refused by the program's.
        if depth > 60 or value in (math.inf, -math.inf):
            raise Unsure
        if is_kind(value, int) and not -(1 << 63) <= value < 1 << 63:
            raise fault("not-toml", "top", 0, "")
        inner = value.values() if isinstance(value, dict) else value if isinstance(value, list) else []
        left += [(v, depth + 1) for v in inner]


def read(text: bytes) -> dict:
    """The experiment that a file says."""
    try:
        experiment = document_of(text)
    except ValueError as refused:
        raise fault("not-toml", "top", 0, "") from refused
    check_values(experiment)
    check_table(experiment, TOP, "top", 0)
    for index, slot in enumerate(experiment["slot"]):
        check_table(slot, SLOT, "slot", index)
    names: dict[str, int] = {}
    for index in range(len(experiment["guest"])):
        check_guest(experiment, index, names)
    disks: list[int] = []
    for index, disk in enumerate(experiment.get("disk", [])):
        check_disk(disk, index, names, disks)
    taken: set[tuple[int, int]] = set()
    for index, link in enumerate(experiment.get("link", [])):
        check_link(experiment, link, index, names, taken)
    return experiment


def overload(experiment: dict) -> str | None:
    """The least slot that is over, and by how much."""
    factor = experiment["factor"]
    have = [slot["capacity"] * factor for slot in experiment["slot"]]
    need = [0] * len(have)
    free = []
    for guest in experiment["guest"]:
        if "slot" in guest:
            need[guest["slot"]] += guest["rate"]
        else:
            free.append(guest["rate"])
    for rate in sorted(free, reverse=True):
        fit = [s for s in range(len(have)) if need[s] + rate <= have[s]]
        slot = fit[0] if fit else max(range(len(have)), key=lambda s: (have[s] - need[s], -s))
        need[slot] += rate
    over = [s for s in range(len(have)) if need[s] > have[s]]
    return f"slot {over[0]} needs {need[over[0]]}, has {have[over[0]]}" if over else None


def elf_fault(file: bytes, ram: int) -> str | None:
    """Why an ELF file is refused."""
    if file[:4] != b"\x7fELF":
        return "not-elf"
    if len(file) < 52:
        return "truncated"
    kind, machine, version, entry, headers = struct.unpack_from("<HHIII", file, 16)
    size, count = struct.unpack_from("<HH", file, 42)
    if file[4:7] != b"\1\1\1" or (kind, machine, version) != (2, 243, 1) or (count and size != 32):
        return "wrong-kind"
    if count and headers + 32 * count > len(file):
        return "truncated"
    low, high = 0x8000_0000, 0x8000_0000 + ram
    for number in range(count):
        kind, offset, _, address, in_file, in_memory, _, _ = struct.unpack_from("<8I", file, headers + 32 * number)
        if kind == 1 and (offset + in_file > len(file) or in_file > in_memory):
            return f"bad-segment {number}"
        if kind == 1 and in_memory and not (low <= address and address + in_memory <= high):
            return f"outside-ram {number}"
    return None if entry % 4 == 0 and low <= entry < high else "bad-entry"


# What is no plain file of the case: devices without an end, an empty one, and all else cannot be read.
ENDLESS = {"/dev/zero", "/dev/full"}


def content(name: str, files: dict[str, bytes], limit: int) -> bytes | str:
    """The bytes of a file, or the first words of why there are none."""
    found = b"" if name == "/dev/null" else files.get(name)
    if name in ENDLESS or (found is not None and len(found) > limit):
        return "too long"
    return "read fault" if found is None else found


def load_fault(experiment: dict, files: dict[str, bytes]) -> tuple[int, str] | None:
    """The first image or disk that is not taken."""
    status = {"too long": 4, "read fault": 5}
    for index, guest in enumerate(experiment["guest"]):
        image = content(guest["image"], files, IMAGE_LIMIT)
        ram = guest.get("ram", 1_048_576)
        if isinstance(image, str):
            return status[image], f"{image}: image {index}"
        if guest.get("format", "elf") == "elf":
            why = elf_fault(image, ram)
        else:
            why = "too-long" if len(image) > ram else None
        if why:
            return 4, f"image {index}: {why}"
    for index, disk in enumerate(experiment.get("disk", [])):
        image = content(disk["image"], files, DISK_LIMIT) if "image" in disk else b""
        if isinstance(image, str):
            return status[image], f"{image}: disk {index}"
        if len(image) > 512 * disk["sectors"]:
            return 4, f"disk {index}: {len(image)} bytes, room {512 * disk['sectors']}"
    return None


def ending(words: list[bytes], files: dict[str, bytes]) -> tuple[int, str]:
    """The exit status of a command, and its line without the program's name."""
    try:
        command = command_of(words)
    except Usage as why:
        return 2, f"usage: {why}"
    if command.kind == "gen":
        return 0, ""
    text = content(command.of, files, EXPERIMENT_LIMIT)
    if isinstance(text, str):
        return (4 if text == "too long" else 5), f"{text}: experiment"
    try:
        experiment = read(text)
    except Fault as why:
        return 3, f"experiment: {why}"
    over = overload(experiment)
    if over:
        return 1, f"overload: {over}"
    return (None if command.kind == "plan" else load_fault(experiment, files)) or (0, "")


def capacities(text: bytes) -> list[int]:
    """The capacities that an experiment file gives its slots, none where it says no such thing."""
    try:
        slots = document_of(text).get("slot", [])
        return [slot["capacity"] for slot in slots if isinstance(slot["capacity"], int)]
    except (ValueError, TypeError, KeyError, AttributeError, Unsure):
        return []


def units(words: list[bytes], files: dict[str, bytes]) -> int:
    """The host ticks that are asked for times the sum of the capacities."""
    try:
        command = command_of(words)
    except Usage:
        return 0
    if command.kind == "gen":
        return command.ticks * 2 * 25 * ((int(command.of) + 1) // 2)
    return command.ticks * sum(capacities(files.get(command.of, b"")))
