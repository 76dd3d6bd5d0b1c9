"""Runs `rt ci --anew` in this process, and adds up by crate the processor time of each command that it starts.

Arguments: the path of rt, and a file for what the gate says. The system tells the time of a command, with that of all
that it started and waited for, when the command ends, so nothing is sampled.
"""

import collections
import contextlib
import os
import re
import resource
import runpy
import subprocess
import sys
import threading
import time

PARTS = ["proof", "tests", "edits", "runs"]
spent = collections.defaultdict(lambda: dict.fromkeys(PARTS, 0.0))
edits = collections.Counter()
adding = threading.Lock()


def part_of(words, folder):
    """Returns the crate and the part of the gate that a command works for, or None where it is for none."""
    crate = next((after for word, after in zip(words, words[1:]) if word == "--crate-name"), None)
    if crate:
        if "/rt-edit-" in folder:
            return crate, "edits"
        return crate, "tests" if "--test" in words else "proof"
    ran = next((found for word in words if (found := re.search(r"/rt-run-[^/]*/bin/(\w+)", word))), None)
    if ran:
        return ran[1].removesuffix("_tests"), "runs"
    return None


class Popen(subprocess.Popen):
    """A command whose processor time is added to its part when it has ended."""

    def __init__(self, args, *given, **named):
        words = [os.fsdecode(it) for it in args] if isinstance(args, (list, tuple)) else [os.fsdecode(args)]
        self.part = part_of(words, str(named.get("cwd") or os.getcwd()))
        super().__init__(args, *given, **named)

    def _try_wait(self, wait_flags):
        try:
            pid, status, used = os.wait4(self.pid, wait_flags)
        except ChildProcessError:
            return self.pid, 0
        if pid == self.pid and self.part:
            crate, part = self.part
            with adding:
                spent[crate][part] += used.ru_utime + used.ru_stime
                edits[crate] += part == "edits"
        return pid, status


def table():
    """Returns the lines of the table, the dearest crate first, and the sums last."""
    whole = lambda crate: sum(spent[crate].values())
    yield "| Crate | Proof | Tests | Edits | Runs | Sum |"
    yield "|---|---|---|---|---|---|"
    for crate in sorted(spent, key=whole, reverse=True):
        yield f"| `{crate}` | {' | '.join(f'{spent[crate][it]:.0f}' for it in PARTS)} | {whole(crate):.0f} |"
    sums = [sum(of[it] for of in spent.values()) for it in PARTS]
    yield f"| all | {' | '.join(f'{it:.0f}' for it in sums)} | {sum(sums):.0f} |"


def main():
    rt, log = sys.argv[1:]
    subprocess.Popen = Popen
    sys.path.insert(0, os.path.dirname(os.path.realpath(rt)))
    sys.argv = [rt, "ci", "--anew"]
    began, status = time.time(), 0
    with open(log, "w", encoding="utf-8") as it, contextlib.redirect_stdout(it):
        try:
            runpy.run_path(rt, run_name="__main__")
        except SystemExit as ended:
            status = ended.code
    used = [resource.getrusage(it) for it in (resource.RUSAGE_SELF, resource.RUSAGE_CHILDREN)]
    minutes = sum(it.ru_utime + it.ru_stime for it in used) / 60
    print("\n".join(table()))
    print(f"{minutes:.0f} minutes of processor time in {(time.time() - began) / 60:.0f} minutes, the gate itself included; status {status}; {log} has what it said")
    return status


if __name__ == "__main__":
    sys.exit(main())
