#!/usr/bin/env python3
"""Works out what the linked guests of the examples say, from their experiment files and from what docs/FORMATS.md says of a link, without running
any guest. It takes them to be fast enough to do in a tick all that the tick brings.

usage: examples/expected.py echo | dilation | ring | lossy | gossip
"""

import heapq
import pathlib
import sys
import tomllib

HERE = pathlib.Path(__file__).resolve().parent
SHORT = 20  # the bytes of the shortest message: the header of Ethernet, two bytes, a number


class Pipe:
    """One way of a link. `send` says in which tick a frame arrives, None where it is dropped."""

    def __init__(self, link):
        self.bandwidth, self.delay, self.queue = link["bandwidth"], link["delay"], link["queue"]
        self.end = 0
        self.leaves = []

    def send(self, tick, length):
        if sum(leave >= tick for leave in self.leaves) >= self.queue:
            return None
        self.end = max(tick * self.bandwidth, self.end) + length
        self.leaves.append((self.end - 1) // self.bandwidth)
        return self.leaves[-1] + self.delay


def experiment(name):
    return tomllib.loads((HERE / name).read_text())


def echo():
    link = experiment("echo/two-slots.toml")["link"][0]
    print("guest 0")
    for number in range(8):
        length = 64 + 100 * number
        back = Pipe(link).send(Pipe(link).send(0, length), length)
        print(f"request {number} of {length} bytes: {back} ticks")
    print("guest 1")
    for number in range(8):
        print(f"answered {number}")


def transfer(link, frames=8, window=4, length=300):
    """The tick in which the last frame is answered: the answers come back in the order of the frames."""
    out, back = Pipe(link), Pipe(link)
    answered = []
    for number in range(frames):
        sent = answered[number - window] if number >= window else 0
        answered.append(back.send(out.send(sent, length), SHORT))
    return answered[-1]


def dilation():
    for number, link in enumerate(experiment("dilation/eight-slots.toml")["link"]):
        ticks = transfer(link)
        print(f"guest {2 * number}")
        print(f"round trip: {Pipe(link).send(Pipe(link).send(0, SHORT), SHORT)} ticks")
        print(f"2400 bytes: {ticks} ticks, {2400 // ticks} bytes a tick")


def ring():
    links = experiment("ring/ring.toml")["link"]
    tick = 0
    arrivals = {guest: [] for guest in range(8)}
    for hop in range(1, 25):
        tick = Pipe(links[(hop - 1) % 8]).send(tick, SHORT)
        arrivals[hop % 8].append((hop, tick))
    for guest in range(8):
        print(f"guest {guest}")
        for lap, (hop, tick) in enumerate(arrivals[guest], 1):
            print(f"lap {lap}: hop {hop} in tick {tick}")


def steps_to_one(number):
    return 0 if number == 1 else 1 + steps_to_one(3 * number + 1 if number % 2 else number // 2)


def lossy(jobs=16, patience=50, buffers=4):
    """A guest hands its nic four frames in each tick at most: it has so many buffers."""
    link = experiment("lossy/lossy.toml")["link"][0]
    out, back = Pipe(link), Pipe(link)
    answered, start, rounds = set(), 1, 0
    print("guest 0")
    while len(answered) < jobs:
        rounds += 1
        missing = [job for job in range(jobs) if job not in answered]
        came = [(out.send(start + place // buffers, 64), job) for place, job in enumerate(missing)]
        done = [(back.send(tick, 256), job) for tick, job in came if tick is not None]
        answered |= {job for tick, job in done if tick is not None and tick < start + patience}
        print(f"round {rounds}: sent {len(missing)}, answered so far {len(answered)}")
        start += patience + 1
    print(f"the sum of the answers is {sum(steps_to_one(job + 1) for job in range(jobs))}")


def gossip(guests=32):
    """All that is said in a tick arrives before any of it is answered."""
    ways = {guest: [] for guest in range(guests)}
    for link in experiment("gossip/gossip.toml")["link"]:
        a, b = int(link["a"][1:]), int(link["b"][1:])
        ways[a].append((b, Pipe(link)))
        ways[b].append((a, Pipe(link)))
    known, heard, said = {guest: {guest} for guest in range(guests)}, [0] * guests, {}
    under_way = []

    def tell(guest, tick):
        for to, pipe in ways[guest]:
            heapq.heappush(under_way, (pipe.send(tick, SHORT), to, sorted(known[guest])))

    for guest in range(guests):
        tell(guest, 0)
    while under_way:
        tick, learnt = under_way[0][0], set()
        while under_way and under_way[0][0] == tick:
            _, guest, numbers = heapq.heappop(under_way)
            heard[guest] += guest not in said
            if not known[guest].issuperset(numbers):
                known[guest].update(numbers)
                learnt.add(guest)
        for guest in sorted(learnt):
            tell(guest, tick)
            if len(known[guest]) == guests:
                said[guest] = f"knows all in tick {tick}, after {heard[guest]} messages"
    for guest in range(guests):
        print(f"guest {guest}\n{said[guest]}")


def main(words):
    examples = {"echo": echo, "dilation": dilation, "ring": ring, "lossy": lossy, "gossip": gossip}
    if len(words) != 1 or words[0] not in examples:
        sys.exit(__doc__)
    examples[words[0]]()


main(sys.argv[1:])
