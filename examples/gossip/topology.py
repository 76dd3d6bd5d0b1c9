#!/usr/bin/env python3
"""Prints gossip.toml: 32 guests with four nics each, and 64 links.

Nic 0 of each guest leads to nic 1 of the next, and nic 2 to nic 3 of the one five further on. The links to the next have a delay of 2 to 4
ticks, and those to the fifth of 5 to 9, so that what a guest knows comes to it on ways of unlike length.
"""

GUESTS = 32


def links():
    """The links: a guest, its nic, another guest, its nic, the delay."""
    for guest in range(GUESTS):
        yield guest, 0, (guest + 1) % GUESTS, 1, 2 + guest % 3
    for guest in range(GUESTS):
        yield guest, 2, (guest + 5) % GUESTS, 3, 5 + guest % 5


def main():
    print("version = 1\nfactor = 8")
    for _ in range(4):
        print("[[slot]]\ncapacity = 4000")
    for guest in range(GUESTS):
        print(f'[[guest]]\nname = "g{guest}"\nimage = "guest.elf"\nram = 131072\nrate = 4000\nnics = 4')
    for a, a_nic, b, b_nic, delay in links():
        print(f'[[link]]\na = "g{a}"\na_nic = {a_nic}\nb = "g{b}"\nb_nic = {b_nic}\nbandwidth = 1000\ndelay = {delay}\nqueue = 8')


if __name__ == "__main__":
    main()
