"""Reads a journal, as docs/FORMATS.md has it, with or without the lines of its instructions.

A journal is read line by line, so a tool can follow a run that still prints.
"""

import collections
import os
import sys

Head = collections.namedtuple("Head", "factor slots guests host_ticks")
Quantum = collections.namedtuple("Quantum", "host slot guest units done")
Record = collections.namedtuple("Record", "tick guest kind words line")
End = collections.namedtuple("End", "host_ticks")


def entries(lines):
    """What a journal says, in order. A record follows the quantum that completed its tick."""
    host = slot = 0
    for line in lines:
        words = line.split()
        if not words:
            continue
        if words[0] == "host":
            host = int(words[1])
        elif words[0] == "slot":
            slot = int(words[1])
        elif words[0] == "run":
            yield Quantum(host, slot, int(words[1]), int(words[3]), int(words[5]))
        elif words[0] == "diecast":
            yield Head(int(words[3]), int(words[5]), int(words[7]), int(words[9]))
        elif words[0] == "end":
            yield End(int(words[1]))
        else:
            yield Record(int(words[0]), int(words[1]), words[2], words[3:], line.rstrip("\n"))


def opened(name):
    """The journal in a file, or on standard input where the name is `-`."""
    return sys.stdin if name == "-" else open(name, encoding="ascii")


def run(main):
    """Runs a tool. It ends in peace where its reader goes away, and with one line where its input is no journal."""
    try:
        sys.exit(main(sys.argv[1:]))
    except BrokenPipeError:
        os.dup2(os.open(os.devnull, os.O_WRONLY), sys.stdout.fileno())
    except (OSError, LookupError, ValueError) as fault:
        sys.exit(f"{sys.argv[0]}: {fault}")
