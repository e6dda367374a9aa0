"""What messages, scripts and zones of the worst that each part admits are made of."""

import collections
import itertools
import math

from making import KEY, ZONE, keys, label_count, message, number, record, signature, tag_of

# A message or a reply has at most so many octets, a script and a zone's text so many.
MOST, TEXT = 65535, 16777216

ADDRESS = bytes([192, 0, 2, 1])
ANCHOR = "example. 3600 IN DNSKEY 257 3 13 AQI="
OTHER_TAG = 4242
SOA = b"\2ns" + ZONE + b"\4host" + ZONE + b"".join(number(value, 4) for value in (1, 3600, 600, 86400, 300))
# Types of NSEC records: A or NS, and RRSIG and NSEC. And of NSEC3 records: A.
WITH_A, WITH_NS, HASHED_A = bytes.fromhex("0006400000000003"), bytes.fromhex("0006200000000003"), bytes.fromhex("000140")

# What a kind is called; how the first line of its output begins; how a share of it is made; what the time for a share may grow with, where
# that isn't n log n of the octets; and how many octets more it may hold.
Kind = collections.namedtuple("Kind", "name state make work held", defaults=(None, lambda share: 0))
# What is validated: the message, its replies, and the anchors.
Judged = collections.namedtuple("Judged", "message replies anchors")


def label(index):
    """A label of three letters."""
    return b"\3" + bytes(97 + index // power % 26 for power in (676, 26, 1))


NAME = label(0) + ZONE


def pointer(name, base=ZONE):
    """A pointer to an ancestor of the question's name, or to itself."""
    return number(0xC000 + 12 + len(name) - len(base), 2)


UP = pointer(NAME)


def deep(labels):
    """A name with so many labels above the zone's name."""
    return b"\1a" * labels + ZONE


def fitting(octets, sets):
    """The records of these sets, of as many as so many octets hold."""
    chosen = []
    for records in sets:
        octets -= sum(map(len, records))
        if octets < 0:
            break
        chosen += records
    return chosen


def room(share, name, *others):
    """How many octets a share of the greatest message has beside the question and other records."""
    return int(share * MOST) - 16 - len(name) - sum(map(len, others))


def each(make):
    return map(make, itertools.count())


def at_anchor(octets, keyset=None):
    return Judged(octets, [("example.", "DNSKEY", keyset or keys())], [ANCHOR])


def n_log_n(octets):
    return octets * math.log(octets)


def key_with(tag, algorithm, first):
    """A key of a tag: the sum of its words of 16 bits (RFC 4034 B)."""
    head = bytes([1, 1, 3, algorithm]) + number(first, 2)
    return head + number((tag - sum(number_of(head[at:at + 2]) for at in (0, 2, 4))) % 65535, 2)


def number_of(octets):
    return int.from_bytes(octets, "big")


def keys_of_one_tag(share, tag, algorithm=13, zone=ZONE, key=KEY):
    """A zone's key set: its key, and as many others of one tag and algorithm as have room."""
    own = record(b"\xc0\x0c", 48, key)
    others = fitting(room(share, zone, own, bytes(12 + 18 + len(zone) + 32)),
                     ([record(b"\xc0\x0c", 48, key_with(tag, algorithm, first + 1))] for first in range(65000)))
    whole = sorted([key] + [other[12:] for other in others])
    signed_by = signature(48, label_count(zone), [record(zone, 48, data) for data in whole], tag_of(key), True, zone, key)
    return message(zone, 48, [own] + others + [record(b"\xc0\x0c", 46, signed_by)])
