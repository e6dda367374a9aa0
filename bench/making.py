"""What the measurements make and measure by: messages of one zone and of three below it, scripts, and the cost of a run."""

import hashlib
import os
import subprocess
import sys

RUNS = 3
ZONE = b"\x07example\0"
WWW = b"\x03www" + ZONE
KEY = bytes.fromhex("0101030d0102")
TAG = 1296


def number(value, octets):
    return value.to_bytes(octets, "big")


def record(owner, rtype, data):
    return owner + number(rtype, 2) + number(1, 2) + number(3600, 4) + number(len(data), 2) + data


def signature(rtype, labels, records, tag=TAG, good=True, zone=ZONE, key=KEY):
    """The data of a signature over a set in canonical form."""
    head = (number(rtype, 2) + bytes([13, labels]) + number(3600, 4) + number(10000, 4) + number(0, 4)
            + number(tag, 2) + zone)
    return head + (hashlib.sha256(key + head + b"".join(records)).digest() if good else bytes(32))


def message(name, rtype, answers, additionals=(), authorities=(), rcode=0):
    header = (number(0, 2) + number(0x8400 | rcode, 2) + number(1, 2) + number(len(answers), 2)
              + number(len(authorities), 2) + number(len(additionals), 2))
    return (header + name + number(rtype, 2) + number(1, 2) + b"".join(answers) + b"".join(authorities)
            + b"".join(additionals))


# An OPT record for 1232 octets with DO, as replies to questions with DO have one (RFC 6891 6.1.2, RFC 3225 3).
OPT = b"\0" + number(41, 2) + number(1232, 2) + number(0x8000, 4) + number(0, 2)


def keys():
    own = record(ZONE, 48, KEY)
    return message(ZONE, 48, [own, record(ZONE, 46, signature(48, 1, [own]))])


def many_keys(count, zone=ZONE, key=KEY):
    """The key set of a zone with so many more keys, which have signed nothing; owners are pointers."""
    datas = [key] + [bytes.fromhex("01010308") + number(other, 3) for other in range(count)]
    whole = [record(zone, 48, data) for data in sorted(datas)]
    answers = [record(b"\xc0\x0c", 48, data) for data in datas]
    signed_by = signature(48, label_count(zone), whole, tag_of(key), True, zone, key)
    return message(zone, 48, answers + [record(b"\xc0\x0c", 46, signed_by)])


def long_name(octets):
    """A name of so many octets in the zone."""
    labels, room = b"", octets - len(ZONE)
    while room > 0:
        size = min(63, room - 1) if room - 1 - min(63, room - 1) != 1 else min(63, room - 1) - 1
        labels, room = labels + bytes([size]) + b"a" * size, room - 1 - size
    return labels + ZONE


def label_count(name):
    return sum(1 for _ in labels_of(name))


def labels_of(name):
    while name[0]:
        yield name[1:1 + name[0]]
        name = name[1 + name[0]:]


def tag_of(key):
    """The tag of a key (RFC 4034 B)."""
    total = sum(octet << (8 if place % 2 == 0 else 0) for place, octet in enumerate(key))
    return (total + (total >> 16)) & 0xFFFF


# The zones below the anchor's, each below the one before, with their keys.
BELOW = [(b"\x01b" + ZONE, bytes.fromhex("0101030d0304")),
         (b"\x01c\x01b" + ZONE, bytes.fromhex("0101030d0506")),
         (b"\x01d\x01c\x01b" + ZONE, bytes.fromhex("0101030d0708"))]


def signed(owner, rtype, datas, zone, key):
    """A set and its signature by a zone's key."""
    own = [record(owner, rtype, data) for data in sorted(datas)]
    return own + [record(owner, 46, signature(rtype, label_count(owner), own, tag_of(key), True, zone, key))]


def zone_ds(index):
    """The reply for the DS set of a zone below, which the zone above it has signed."""
    zone, key = BELOW[index]
    data = number(tag_of(key), 2) + bytes([13, 2]) + hashlib.sha256(zone + key).digest()
    return message(zone, 43, signed(zone, 43, [data], *(BELOW[index - 1] if index > 0 else (ZONE, KEY))))


def text_of(name):
    return "".join(label.decode() + "." for label in labels_of(name))


def replies_below(count=3):
    """The replies for the anchor's keys, and for the DS sets and keys of so many zones below."""
    replies = [("example.", "DNSKEY", keys())]
    for index, (zone, key) in enumerate(BELOW[:count]):
        replies += [(text_of(zone), "DS", zone_ds(index)), (text_of(zone), "DNSKEY", many_keys(0, zone, key))]
    return replies


def address(label, zone, key):
    """A message of one address of a zone, and its signature."""
    owner = bytes([len(label)]) + label + zone
    return message(owner, 1, signed(owner, 1, [bytes([192, 0, 2, 1])], zone, key))


def hash_of(name, iterations, salt=b""):
    """The hash of a name by NSEC3 (RFC 5155 5)."""
    octets = hashlib.sha1(name + salt).digest()
    for _ in range(iterations):
        octets = hashlib.sha1(octets + salt).digest()
    return octets


def in_base32hex(octets):
    """RFC 4648 7, in lower case and without padding."""
    value = int.from_bytes(octets, "big")
    return bytes(b"0123456789abcdefghijklmnopqrstuv"[value >> place & 31] for place in range(155, -1, -5))


def around_hash(octets):
    """The hash before these octets, and the one after them."""
    value = int.from_bytes(octets, "big")
    return [number((value + step) % (1 << 160), 20) for step in (-1, 1)]


def write_script(path, messages, count, replies=None, moments=False, anchors=("example. 3600 IN DNSKEY 257 3 13 AQI=",)):
    """So many messages, of the given ones in turn; where moments are asked for, each has its own, and begins without nodes."""
    with open(path, "w") as out:
        out.write("now 500\n")
        out.writelines("anchor %s\n" % anchor for anchor in anchors)
        for name, rtype, octets in replies or [("example.", "DNSKEY", keys())]:
            out.write("reply %s %s %s\n" % (name, rtype, octets.hex()))
        for index in range(count):
            if moments:
                out.write("now 500\n")
            out.write("message %s\n" % messages[index % len(messages)].hex())


def run_seconds(words, source):
    """The CPU time of a run in seconds."""
    with open(source, "rb") as stdin:
        child = subprocess.Popen(words, stdin=stdin, stdout=subprocess.DEVNULL)
        _, status, usage = os.wait4(child.pid, 0)
        child.returncode = os.waitstatus_to_exitcode(status)
    if child.returncode != 0:
        sys.exit("%s: status %d" % (words[0], child.returncode))
    return usage.ru_utime + usage.ru_stime


def cpu(words, source=os.devnull):
    """The least CPU time of some runs in seconds, and how many times as much the greatest is."""
    times = [run_seconds(words, source) for _ in range(RUNS)]
    return min(times), max(times) / min(times)


def memory(words, source):
    """The most memory of a run in octets: measured by a process that is small itself."""
    with open(source, "rb") as stdin:
        run = subprocess.run(["/usr/bin/time", "-f", "%M"] + words, stdin=stdin, stdout=subprocess.DEVNULL,
                             stderr=subprocess.PIPE, check=True)
    return 1024 * int(run.stderr.split()[-1])
