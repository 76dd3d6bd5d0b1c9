#!/usr/bin/env python3
"""Throws hostile files, images, guests and words at the built program, and tells what it must not do and did.

usage: fuzz.py [PROGRAM] [--seed N] [--seconds S] [--count N] [--one SEED] [--keep FOLDER]
"""

import argparse
import os
import resource
import select
import subprocess
import sys
import tempfile
import time
from collections import Counter
from pathlib import Path

from cases import KINDS, Case, Inputs, case_of
from claims import Ended, faults
from oracle import units

TOP = Path(__file__).resolve().parent.parent
# A run is ended after this much processor time, and after this much time of any kind without output.
LIMIT = 20
SILENCE = 60
# So much of the output is looked at.
SHOWN = 2_000_000


def read_some(process: subprocess.Popen, room: int) -> tuple[bytes, bool, bool]:
    """The first bytes of the output, whether that is all, and whether it fell silent."""
    assert process.stdout is not None
    pipe = process.stdout.fileno()
    kept = bytearray()
    whole = True
    while True:
        if not select.select([pipe], [], [], SILENCE)[0]:
            return bytes(kept), whole, True
        piece = os.read(pipe, 1 << 16)
        if not piece:
            return bytes(kept), whole, False
        whole = whole and len(kept) + len(piece) <= room
        kept += piece[: room - len(kept)]


def run(program: Path, words: list[bytes]) -> Ended:
    """Runs the program in the folder at hand, with little of everything."""
    with tempfile.TemporaryFile() as messages:
        process = subprocess.Popen(
            [os.fsencode(program), *words], stdin=subprocess.DEVNULL, stdout=subprocess.PIPE, stderr=messages, env={}, close_fds=True
        )
        resource.prlimit(process.pid, resource.RLIMIT_CPU, (LIMIT, LIMIT + 1))
        out, whole, stuck = read_some(process, SHOWN)
        if stuck:
            process.kill()
        process.stdout.close()
        _, status, usage = os.wait4(process.pid, 0)
        process.returncode = os.waitstatus_to_exitcode(status)
        messages.seek(0)
        return Ended(process.returncode, out, whole, messages.read(100_000), usage.ru_utime + usage.ru_stime, stuck)


def lay_out(case: Case) -> None:
    """Puts the files of a case into the folder at hand, which has a folder and a link in a circle beside them."""
    for entry in os.scandir("."):
        if entry.is_file(follow_symlinks=False):
            os.unlink(entry)
    for name, content in case.files.items():
        Path(name).write_bytes(content)


class Program:
    """The program."""

    def __init__(self, path: Path) -> None:
        self.path = path

    def faults_of(self, case: Case) -> tuple[Ended, list[str]]:
        """How a case ends, and what it did that it must not."""
        lay_out(case)
        ended = run(self.path, case.words)
        found = faults(case.words, case.files, ended)
        # A run that took too long may have had a busy machine: it is tried once more.
        if found and ended.seconds > 5:
            ended = run(self.path, case.words)
            found = faults(case.words, case.files, ended)
        return ended, found

    def differs(self, case: Case, ended: Ended) -> list[str]:
        """A second run does the same."""
        again = run(self.path, case.words)
        same = (again.status, again.out, again.msg) == (ended.status, ended.out, ended.msg)
        return [] if same else ["a second run did something else"]


def smaller(program: Program, case: Case, until: float) -> Case:
    """The case with all left out of its files that is not needed for it to fail."""
    for name in sorted(case.files, key=lambda n: -len(case.files[n])):
        step = max(1, len(case.files[name]) // 2)
        while step and time.monotonic() < until:
            at = 0
            while at < len(case.files[name]) and time.monotonic() < until:
                cut = case.files[name][:at] + case.files[name][at + step :]
                attempt = Case(case.words, {**case.files, name: cut})
                if program.faults_of(attempt)[1]:
                    case = attempt
                else:
                    at += step
            step //= 2
    return case


def keep(folder: Path, seed: int, case: Case, found: list[str]) -> None:
    """Writes a case down."""
    place = folder / str(seed)
    place.mkdir(parents=True, exist_ok=True)
    for name, content in case.files.items():
        (place / name).write_bytes(content)
    words = " ".join(repr(word[:200]) for word in case.words)
    (place / "WHY").write_text("\n".join([f"words: {words}", *found]) + "\n")


class Tally:
    """What was seen."""

    def __init__(self) -> None:
        self.kinds: Counter[str] = Counter()
        self.statuses: Counter[int] = Counter()
        self.messages: Counter[str] = Counter()
        self.records: Counter[str] = Counter()
        self.longest = 0.0
        self.failed = 0

    def add(self, kind: str, ended: Ended) -> None:
        self.kinds[kind] += 1
        self.statuses[ended.status] += 1
        self.longest = max(self.longest, ended.seconds)
        words = ended.msg.decode("ascii", "replace").split(" ")
        if ended.status in (2, 3, 4):
            told = words[2] if ended.status != 4 else " ".join(w for w in words[1:4] if not w[0].isdigit())
            self.messages[told.strip()] += 1
        for line in ended.out[: ended.out.rfind(b"\n") + 1].splitlines():
            parts = line.split(b" ")
            if len(parts) > 2 and parts[0].isdigit():
                told = b" ".join(parts[2::2] if parts[2] == b"broken" else parts[2:3])
                self.records[told.decode("ascii", "replace")] += 1

    def tell(self, seconds: float) -> None:
        runs = sum(self.kinds.values())
        print(f"{runs} runs in {seconds:.0f} s, {self.failed} failed; the longest took {self.longest:.1f} s of processor time")
        for name, counter in [("kinds", self.kinds), ("exit statuses", self.statuses), ("messages", self.messages), ("records", self.records)]:
            print(f"{name}: " + ", ".join(f"{key} {count}" for key, count in sorted(counter.items(), key=lambda p: -p[1])))


def fuzz(path: Path, args: argparse.Namespace) -> int:
    began = time.monotonic()
    program = Program(path)
    inputs = Inputs()
    print(f"{path}, from seed {args.seed}, {len(KINDS)} kinds of cases", flush=True)
    tally = Tally()
    seeds = [args.one] if args.one is not None else range(args.seed, args.seed + args.count)
    for seed in seeds:
        if time.monotonic() - began > args.seconds:
            break
        kind, case = case_of(seed, inputs)
        ended, found = program.faults_of(case)
        if not found and seed % 20 == 0:
            found = program.differs(case, ended)
        tally.add(kind, ended)
        if args.one is not None:
            print(f"{kind}: {units(case.words, case.files)} units, exit status {ended.status}, {ended.seconds:.2f} s, {ended.msg!r}")
            keep(args.keep, seed, case, found)
        if found:
            tally.failed += 1
            print(f"FAILED: seed {seed}, {kind}: {'; '.join(found)}", flush=True)
            keep(args.keep, seed, smaller(program, case, time.monotonic() + 60), found)
    tally.tell(time.monotonic() - began)
    return 1 if tally.failed else 0


def main() -> int:
    parser = argparse.ArgumentParser(description=__doc__.splitlines()[0])
    parser.add_argument("program", nargs="?", type=Path, default=TOP / "crates/diecast/out/diecast")
    parser.add_argument("--seed", type=int, default=1, help="the seed of the first case; the next one has the next seed")
    parser.add_argument("--seconds", type=float, default=60, help="no case begins after so many")
    parser.add_argument("--count", type=int, default=10**9, help="so many cases at most")
    parser.add_argument("--one", type=int, help="the case of this seed alone, which is kept")
    parser.add_argument("--keep", type=Path, default=Path("/tmp/diecast-fuzz"), help="where cases that fail are kept, made smaller")
    args = parser.parse_args()
    program = args.program.resolve()
    args.keep = args.keep.resolve()
    if not os.access(program, os.X_OK):
        print(f"no program at {program}", file=sys.stderr)
        return 2
    with tempfile.TemporaryDirectory() as room:
        os.chdir(room)
        os.mkdir("folder")
        os.symlink("loop", "loop")
        try:
            return fuzz(program, args)
        finally:
            os.chdir("/")


if __name__ == "__main__":
    sys.exit(main())
