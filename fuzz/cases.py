"""Cases: the words of a command and the files beside it."""

from collections.abc import Callable
from dataclasses import dataclass, field
from random import Random

import claims
import experiments
import guests
import images
import oracle

FILE = "a.toml"


@dataclass
class Case:
    """A command and its files."""

    words: list[bytes]
    files: dict[str, bytes] = field(default_factory=dict)


class Inputs:
    """What cases are made of: ELF files that are right."""

    def __init__(self) -> None:
        self.elf_files = images.elf_files()


def long_run(rng: Random, experiment: bytes, most: int) -> list[bytes]:
    """A run of so many host ticks that they come to about so many units, in any view."""
    ticks = min(1_000_000, most // max(1, sum(c for c in oracle.capacities(experiment) if 0 < c <= 1_000_000)))
    view = "journal" if rng.random() < 0.6 else rng.choice(oracle.VIEWS)
    return [b"run", FILE.encode(), b"--host-ticks", str(ticks).encode(), b"--view", view.encode()]


def some_words(rng: Random, experiment: bytes) -> list[bytes]:
    """A plan, or a run that is short or comes to a few thousand units."""
    if rng.random() < 0.1:
        return [b"plan", FILE.encode()]
    words = long_run(rng, experiment, 5000)
    if rng.random() < 0.6:
        words[3] = str(min(int(words[3]), rng.choice([0, 1, 2, 50]))).encode()
    return words


def machine_of(guest: experiments.Table, experiment: experiments.Table) -> guests.Machine:
    disks = sum(disk["guest"] == guest["name"] for disk in experiment.get("disk", []))
    return guests.Machine(guest["ram"], disks, guest.get("nics", 0))


def with_files(rng: Random, experiment: experiments.Table, image: Callable[[guests.Machine], bytes]) -> dict[str, bytes]:
    """The experiment's file, an image of each guest, and one of each disk that has one."""
    files = {FILE: experiments.text_of(experiment).encode()}
    for number, guest in enumerate(experiment["guest"]):
        files[f"i{number}"] = image(machine_of(guest, experiment))
    for disk in experiment.get("disk", []):
        if "image" in disk:
            files[disk["image"]] = images.disk_image(rng, disk["sectors"])
    return files


def hostile_guests(rng: Random, inputs: Inputs) -> Case:
    experiment = experiments.valid(rng, (50, 100, 400))
    files = with_files(rng, experiment, lambda machine: guests.hostile_image(rng, machine))
    return Case(long_run(rng, files[FILE], rng.choice([20_000] * 19 + [300_000])), files)


def flat_images(rng: Random, inputs: Inputs) -> Case:
    experiment = experiments.valid(rng)

    def image(machine: guests.Machine) -> bytes:
        if rng.random() < 0.5:
            return rng.randbytes(rng.choice([0, 1, 100, machine.ram, machine.ram + 1]))
        return guests.random_image(rng, machine)

    files = with_files(rng, experiment, image)
    return Case(some_words(rng, files[FILE]), files)


def elf_images(rng: Random, inputs: Inputs) -> Case:
    experiment = experiments.valid(rng)
    for guest in experiment["guest"]:
        guest["format"] = "elf"
    files = with_files(rng, experiment, lambda machine: images.hostile_elf(rng, inputs.elf_files))
    return Case(some_words(rng, files[FILE]), files)


def changed_experiments(rng: Random, inputs: Inputs) -> Case:
    experiment = experiments.valid(rng)
    files = with_files(rng, experiment, lambda machine: b"\x6f\0\0\0")
    for _ in range(rng.choice([1, 1, 1, 2, 4])):
        experiments.change(rng, experiment)
    files[FILE] = experiments.text_of(experiment, rng.random() < 0.2).encode()
    return Case(some_words(rng, files[FILE]), files)


def scrambled_experiments(rng: Random, inputs: Inputs) -> Case:
    experiment = experiments.valid(rng)
    files = with_files(rng, experiment, lambda machine: b"\x6f\0\0\0")
    files[FILE] = experiments.scramble(rng, files[FILE])
    return Case(some_words(rng, files[FILE]), files)


def deep_experiments(rng: Random, inputs: Inputs) -> Case:
    text = experiments.deep(rng)
    if rng.random() < 0.3:
        text = experiments.text_of(experiments.valid(rng)).encode() + text
    return Case([b"plan", FILE.encode()], {FILE: text})


def soups(rng: Random, inputs: Inputs) -> Case:
    return Case(some_words(rng, b""), {FILE: experiments.soup(rng)})


def long_files(rng: Random, inputs: Inputs) -> Case:
    """Files at their limits and a byte beyond."""
    experiment = experiments.valid(rng)
    files = with_files(rng, experiment, lambda machine: b"\x6f\0\0\0")
    which = rng.randrange(3)
    more = rng.choice([-1, 0, 1])
    if which == 0:
        files[FILE] += b"#" * (1_048_576 + more - len(files[FILE]))
    elif which == 1:
        files["i0"] = bytes(33_554_432 + more)
    else:
        experiment.setdefault("disk", []).append({"guest": "g0", "sectors": 32_768, "base": 1, "image": "d9"})
        files[FILE] = experiments.text_of(experiment).encode()
        files["d9"] = bytes(16_777_216 + more)
    return Case(some_words(rng, files[FILE]), files)


WORDS = [
    b"run", b"plan", b"gen", b"check", b"best", FILE.encode(), b"--host-ticks", b"--view", b"journal", b"events", b"traces", b"summary", b"4", b"0",
    b"04", b"+4", b"-1", b" 4", b"1e3", b"1000000", b"1000001", b"99999999999999999999999999", b"", b"-", b"--", b"--help", b"--version", b"-h",
    b"--view=journal", b"--host-ticks=4", b"\xff", b"\xc3\xa9", b"x" * 100_000, b"missing", b"folder", b"--host-ticks=", b"--view=",
]


def odd_words(rng: Random, inputs: Inputs) -> Case:
    experiment = experiments.valid(rng)
    files = with_files(rng, experiment, lambda machine: b"\x6f\0\0\0")
    count = str(rng.choice([2, 3, 4, 31, 32, 33, 1])).encode()
    words = rng.choice([
        [b"run", FILE.encode(), b"--host-ticks", b"4", b"--view", rng.choice(oracle.VIEWS).encode()], [b"run", FILE.encode(), b"--host-ticks", b"4"],
        [b"plan", FILE.encode()], [b"gen", count, b"--host-ticks", b"40"],
    ])
    for _ in range(rng.choice([0, 1, 1, 2, 5])):
        kind = rng.randrange(4)
        at = rng.randrange(len(words) + 1)
        if kind == 0:
            words.insert(at, rng.choice(WORDS))
        elif kind == 1:
            del words[at : at + 1]
        elif kind == 2 and at < len(words):
            words[at] = rng.choice(WORDS)
        else:
            rng.shuffle(words)
    # A number that is right asks for little work.
    return Case([b"40" if word == b"1000000" else word for word in words], files)


def long_runs(rng: Random, inputs: Inputs) -> Case:
    """Guests that use their devices rightly and then jump in place, for as many units as have a limit of time."""
    experiment = experiments.valid(rng, (50, 100, 400))
    files = with_files(rng, experiment, guests.friendly_image)
    return Case(long_run(rng, files[FILE], claims.UNITS), files)


# Each kind of case, and how often it comes.
KINDS: list[tuple[float, Callable[[Random, Inputs], Case]]] = [
    (31, hostile_guests), (8, flat_images), (10, elf_images), (20, changed_experiments), (15, scrambled_experiments), (4, soups),
    (2, deep_experiments), (8, odd_words), (1, long_files), (0.3, long_runs),
]


def case_of(seed: int, inputs: Inputs) -> tuple[str, Case]:
    """The case of a seed, and the name of its kind."""
    rng = Random(seed)
    make = rng.choices([make for _, make in KINDS], [often for often, _ in KINDS])[0]
    return make.__name__, make(rng, inputs)
