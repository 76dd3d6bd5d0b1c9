"""Makes experiment files of several shapes and sizes, and prints how long diecast takes to read each."""
import os
import subprocess
import sys

HEAD = "version = 1\nfactor = 1\n[[slot]]\ncapacity = 1\n[[guest]]\nname = \"a\"\nimage = \"a\"\nrate = 1\nnics = 1\n"


def filled(head, item, tail, size):
    """A head, an item as often as it fits, a tail, and a comment up to the size."""
    parts = []
    left = size - len(head) - len(tail) - 2
    count = 0
    while True:
        part = item(count)
        if len(part) > left:
            break
        parts.append(part)
        left -= len(part)
        count += 1
    text = head + "".join(parts) + tail
    return text + "#" + "c" * (size - len(text) - 2) + "\n"


SHAPES = {
    # one comment, and many
    "comment": lambda size: HEAD + "#" + "c" * (size - len(HEAD) - 2) + "\n",
    "comments": lambda size: filled(HEAD, lambda k: "# c\n", "", size),
    # one key, and many
    "key": lambda size: "k" * (size - 5) + " = 1\n",
    "keys": lambda size: filled("", lambda k: f"k{k:06} = 1\n", "", size),
    # one text, one array, many tables of an array, and arrays in arrays
    "text": lambda size: "t = \"" + "t" * (size - 7) + "\"\n",
    "array": lambda size: filled("slot = [", lambda k: "1, ", "]\n", size),
    "tables": lambda size: filled("version = 1\nfactor = 1\n", lambda k: "[[slot]]\ncapacity = 1\n", "", size),
    "nested": lambda size: filled("slot = [", lambda k: "[[[[[[[[1]]]]]]]],\n", "]\n", size),
}


def most():
    """The most guests, disks and links that a file may have."""
    text = "version = 1\nfactor = 1\n" + "[[slot]]\ncapacity = 100000\n" * 32
    for g in range(32):
        text += f"[[guest]]\nname = \"guest{g:02}\"\nimage = \"image{g:02}\"\nrate = 1\nnics = 4\n"
    for d in range(64):
        text += f"[[disk]]\nguest = \"guest{d // 2:02}\"\nsectors = 32768\nbase = 1\n"
    for k in range(64):
        a, b = k // 2, (k // 2 + 1) % 32
        text += f"[[link]]\na = \"guest{a:02}\"\na_nic = {k % 2}\nb = \"guest{b:02}\"\nb_nic = {2 + k % 2}\nbandwidth = 1\ndelay = 1\nqueue = 1\n"
    return text


def write(path, text):
    with open(path, "w") as out:
        out.write(text)


def least(diecast, path):
    """The least processor time of five readings in milliseconds, and the message."""
    times = []
    for _ in range(5):
        with open("msg", "w") as msg:
            child = subprocess.Popen([diecast, "run", path, "--host-ticks", "0", "--view", "journal"], stdout=msg, stderr=msg)
            _, _, used = os.wait4(child.pid, 0)
        times.append((used.ru_utime + used.ru_stime) * 1000)
    with open("msg") as msg:
        return min(times), msg.read()[:60].strip()


def main(diecast):
    for name, make in SHAPES.items():
        times = []
        for size in (262144, 524288, 1048576):
            text = make(size)
            assert len(text) == size, (name, size, len(text))
            write("file", text)
            took, said = least(diecast, "file")
            times.append(took)
        print(f"{name}: {times[0]:.1f}, {times[1]:.1f}, {times[2]:.1f} ms, a fourfold file takes {times[2] / times[0]:.1f} times as long; {said}")
    write("file", most())
    took, said = least(diecast, "file")
    print(f"32 guests, 64 disks, 64 links, {os.path.getsize('file')} bytes: {took:.1f} ms; {said}")


main(sys.argv[1])
