#!/usr/bin/env python3
"""Runs commands of the built program again and again, and in each run another call fails: each growth of memory in turn, each open and each
read of a file, and each write. It is no part of the gate, and builds nothing but the small library that makes calls fail.

Where a growth failed, the run ends with status 7 and its line, and what it printed is a first part of the whole text; or it ends as it does with
memory enough. Where an open or a read failed it ends with status 5, and has printed nothing. Where a write failed it ends with status 6 after a
first part of the text, or, where that write was the message's, with the status that it has anyway. With one byte in each read and in each write it
does what it always does.

usage: sweep_failures.py [PROGRAM]
"""

import os
import re
import shutil
import subprocess
import sys
import tempfile
from dataclasses import dataclass
from pathlib import Path

TOP = Path(__file__).resolve().parent.parent
sys.path.insert(0, str(TOP / "fuzz"))

from guests import Machine, friendly_image  # noqa: E402
from images import hand_made  # noqa: E402

JUMP = b"\x6f\0\0\0"
ONE_GUEST = (TOP / "examples/one-guest/a.toml").read_text()
PAIR = """version = 1
factor = 2
slot = [{ capacity = 100 }]
guest = [
  { name = "a", image = "pair", format = "flat", ram = 65536, rate = 100, nics = 1 },
  { name = "b", image = "pair", format = "flat", ram = 65536, rate = 100, nics = 1 },
]
disk = [
  { guest = "a", sectors = 64, image = "disk", base = 2, per_sector = 1 },
  { guest = "b", sectors = 64, base = 1, seek_num = 1, seek_den = 8 },
]
link = [{ a = "a", b = "b", bandwidth = 100, delay = 1, queue = 8 }]
"""


@dataclass
class Command:
    """A command, and the files beside it."""

    name: str
    words: list[str]
    files: dict[str, bytes]


@dataclass
class Ended:
    """How a run ended, and how many calls of its kind it made."""

    status: int
    out: bytes
    msg: bytes
    calls: int


def run_of(ticks: int, view: str = "journal") -> list[str]:
    return ["run", "a.toml", "--host-ticks", str(ticks), "--view", view]


def run(program: Path, library: Path, command: Command, kind: str, at: int) -> Ended:
    """Runs a command in the folder at hand, where the call of this number fails."""
    tell = Path("calls")
    env = {"LD_PRELOAD": str(library), "FAIL_KIND": kind, "FAIL_AT": str(at), "FAIL_TELL": str(tell)}
    tell.unlink(missing_ok=True)
    done = subprocess.run([program, *command.words], env=env, capture_output=True, stdin=subprocess.DEVNULL, timeout=60, check=False)
    return Ended(done.returncode, done.stdout, done.stderr, int(tell.read_text()) if tell.exists() else 0)


def is_right(kind: str, whole: Ended, ended: Ended) -> bool:
    """Whether a run in which a call failed ended as it should."""
    as_always = (ended.status, ended.out, ended.msg) == (whole.status, whole.out, whole.msg)
    cut = whole.out.startswith(ended.out)
    if kind == "growth":
        return as_always or (ended.status == 7 and ended.msg == b"diecast: out of memory\n" and cut)
    if kind in ("open", "read"):
        told = re.fullmatch(rb"diecast: read fault: (experiment|image [0-9]+|disk [0-9]+)\n", ended.msg)
        return ended.status == 5 and told is not None and ended.out == b""
    if kind == "write":
        lost = ended.status == whole.status and ended.out == whole.out and ended.msg == b""
        return lost or (ended.status == 6 and ended.msg == b"diecast: write fault\n" and cut)
    return as_always


def sweep(program: Path, library: Path, command: Command) -> int:
    """All failures of a command, and how many did not end as they should."""
    for name, content in command.files.items():
        Path(name).write_bytes(content)
    bad = 0
    for kind in ["growth", "open", "read", "write", "short"]:
        whole = run(program, library, command, kind, 0)
        plain = run(program, library, command, "none", 0)
        if kind == "short" and not is_right(kind, plain, whole):
            print(f"FAILED: {command.name}: one byte at a time ends with {whole.status} and {whole.msg!r}")
            bad += 1
        ends: dict[int, int] = {}
        for at in range(1, whole.calls + 1):
            ended = run(program, library, command, kind, at)
            ends[ended.status] = ends.get(ended.status, 0) + 1
            if not is_right(kind, plain, ended):
                bad += 1
                print(f"FAILED: {command.name}: {kind} {at}: exit status {ended.status}, {len(ended.out)} bytes, {ended.msg!r}")
        if kind == "short":
            print(f"{command.name}: one byte at a time: exit status {whole.status}")
        else:
            told = ", ".join(f"{count} ended with {status}" for status, count in sorted(ends.items()))
            print(f"{command.name}: {kind}: {whole.calls} calls: {told}", flush=True)
    return bad


def commands() -> list[Command]:
    """The commands."""
    elf = ONE_GUEST.replace('format = "flat"', 'format = "elf"')
    over = ONE_GUEST.replace("rate = 2", "rate = 3")
    files = {"pair": friendly_image(Machine(65536, 1, 1)), "disk": bytes(range(256)) * 8}
    return [
        Command("one guest", run_of(4), {"a.toml": ONE_GUEST.encode(), "a.bin": JUMP}),
        Command("the traces of one guest", run_of(4, "traces"), {"a.toml": ONE_GUEST.encode(), "a.bin": JUMP}),
        Command("one guest from an ELF file", run_of(4), {"a.toml": elf.encode(), "a.bin": hand_made()}),
        Command("a linked pair with a disk each", run_of(40), {"a.toml": PAIR.encode(), **files}),
        Command("a plan that is over", ["plan", "a.toml"], {"a.toml": over.encode()}),
        Command("two generated guests", ["gen", "2", "--host-ticks", "40"], {}),
    ]


def main() -> int:
    program = Path(sys.argv[1] if len(sys.argv) > 1 else TOP / "crates/diecast/out/diecast").resolve()
    if not os.access(program, os.X_OK) or not shutil.which("cc"):
        print(f"no program at {program}, or no cc", file=sys.stderr)
        return 2
    with tempfile.TemporaryDirectory() as room:
        os.chdir(room)
        library = Path(room, "fail_nth.so")
        subprocess.run(["cc", "-O2", "-Wall", "-shared", "-fPIC", "-o", library, TOP / "tools/fail_nth.c"], check=True)
        bad = sum(sweep(program, library, command) for command in commands())
        os.chdir("/")
    print(f"{bad} failed")
    return 1 if bad else 0


if __name__ == "__main__":
    sys.exit(main())
