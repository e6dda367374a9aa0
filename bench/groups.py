"""Measures the built program on messages of 5,000 sets, whose owners are of three kinds: random; chosen to fall together under the hash
seed that is the same for all; and chosen so under another seed. The seed of a message with more than 64 records is made of its own
octets, so that none of these is to take more than twice the time of the first.

usage: bench/groups.py PROGRAM
"""

import random
import resource
import subprocess
import sys
import time

SETS, TURNS, MESSAGES = 5000, 5, 10
FIXED = (0x243F6A8885A308D3, 0x13198A2E03707345)
OTHER = (0xA4093822299F31D0, 0x082EFA98EC4E6C89)
MASK = (1 << 64) - 1
LETTERS = b"abcdefghijklmnopqrstuvwxyz0123456789"


def step(state, octet, factor):
    """A step of the hash: the halves of a product, joined by exclusive or."""
    product = (state ^ octet) * factor
    return (product & MASK) ^ (product >> 64)


def hashed(octets, seed):
    state, factor = seed
    for octet in octets:
        state = step(state, octet, factor)
    return state


def place(label, seed):
    """Where a table of 5,000 hashes begins to look for that of an address set at this label below the root: it hashes them once more."""
    state = hashed(hashed(bytes([len(label)]) + label + b"\0\0\1\0\1", seed).to_bytes(8, "little"), seed)
    return (state ^ (state >> 32)) & 0xFFFFFFFF


def labels(rng, seed=None):
    """As many labels as there are sets; with a seed those whose keys have the same nine last bits of the hash, by which a table of so many begins to look."""
    found = set()
    while len(found) < SETS:
        label = bytes(rng.choice(LETTERS) for _ in range(8))
        if seed is None or place(label, seed) & 0x1FF == 0:
            found.add(label)
    return sorted(found, key=lambda label: rng.random())


def message(names):
    records = b"".join(bytes([len(name)]) + name + b"\0\0\1\0\1\0\0\x0e\x10\0\4\xc0\0\2\1" for name in names)
    return b"\0\0\x84\0\0\1" + len(names).to_bytes(2, "big") + bytes(4) + b"\0\0\1\0\1" + records


def script(octets):
    lines = ["now 500"] + ["message " + octets.hex()] * MESSAGES
    return ("\n".join(lines) + "\n").encode()


def seconds(program, text):
    """The processor time of the best of some turns."""
    best = None
    for _ in range(TURNS):
        before = resource.getrusage(resource.RUSAGE_CHILDREN)
        subprocess.run([program, "validate"], input=text, stdout=subprocess.DEVNULL, check=True)
        after = resource.getrusage(resource.RUSAGE_CHILDREN)
        taken = after.ru_utime + after.ru_stime - before.ru_utime - before.ru_stime
        best = taken if best is None else min(best, taken)
    return best


def main():
    rng = random.Random(1)
    kinds = [("random", None), ("chosen under the fixed seed", FIXED), ("chosen under another seed", OTHER)]
    first = None
    for name, seed in kinds:
        taken = seconds(sys.argv[1], script(message(labels(rng, seed))))
        first = first or taken
        print("%-28s %6.1f ms a message, %.2f times the first" % (name, taken * 1000 / MESSAGES, taken / first))


main()
