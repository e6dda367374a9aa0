"""Makes scripts of many messages, runs a program on them and prints what it costs.

usage: validate.py PROGRAM
"""

import os
import subprocess
import sys
import tempfile

from making import (BELOW, KEY, OPT, WWW, ZONE, address, around_hash, cpu, hash_of, in_base32hex, keys, label_count, long_name, many_keys,
                    memory, message, number, record, replies_below, signature, signed, text_of, write_script)


def small(additionals=()):
    """One address and its signature."""
    own = record(WWW, 1, bytes([192, 0, 2, 1]))
    return message(WWW, 1, [own, record(WWW, 46, signature(1, 2, [own]))], additionals)


def long():
    """16 addresses and four signatures: two of other keys, a bad one and a good one. Owners are pointers."""
    owner = b"\xc0\x0c"
    datas = [bytes([192, 0, 2, last]) for last in range(16)]
    whole = [record(WWW, 1, data) for data in datas]
    signatures = [signature(1, 2, whole, tag=1), signature(1, 2, whole, tag=2),
                  signature(1, 2, whole, good=False), signature(1, 2, whole)]
    return message(WWW, 1, [record(owner, 1, data) for data in reversed(datas)]
                   + [record(owner, 46, data) for data in signatures])


def many_groups(count):
    """So many names with an address and its good signature each; the first is asked for."""
    answers = []
    for index in range(count):
        label = b"\x03" + number(0x616161 + 256 * (index // 26 % 26) + index % 26 + 65536 * (index // 676), 3)
        own = record(label + ZONE, 1, bytes([192, 0, 2, 1]))
        pointer = b"\xc0\x10"
        answers.append(record(label + pointer, 1, bytes([192, 0, 2, 1])))
        answers.append(record(label + pointer, 46, signature(1, 2, [own])))
    return message(b"\x03aaa" + ZONE, 1, answers)


def one_set(count):
    """A good set of so many addresses at a name of 255 octets; owners are pointers of two octets."""
    owner = long_name(255)
    datas = [number(index, 4) for index in range(count)]
    signed = signature(1, label_count(owner), [record(owner, 1, data) for data in datas])
    return message(owner, 1, [record(b"\xc0\x0c", 1, data) for data in datas] + [record(b"\xc0\x0c", 46, signed)])


def many_names(count):
    """So many names of 255 octets with an address each, written as a label of two octets and a pointer."""
    return message(long_name(252), 1, [record(bytes([2, 65 + index // 64, 65 + index % 64]) + b"\xc0\x0c", 1,
                                              bytes([192, 0, 2, 1])) for index in range(count)])


def many_types(count):
    """So many records of one name of 255 octets, each of another type and without data."""
    return message(long_name(255), 1, [record(b"\xc0\x0c", 1000 + index, b"") for index in range(count)])


def many_mailboxes(count):
    """A set of so many MINFO records at a name of 252 octets; owners are pointers, and data a label with a pointer, and a pointer (RFC 1035 3.3.7)."""
    return message(long_name(252), 14, [record(b"\xc0\x0c", 14, bytes([2, 65 + index // 64, 65 + index % 64]) + b"\xc0\x0c\xc0\x0c")
                                        for index in range(count)])


# A name that a zone lacks, and the wildcard that could stand for it.
MISSING, STAR = b"\x01x" + ZONE, b"\x01*" + ZONE


def denied(sets):
    """A reply that denies the missing name by the SOA set and these sets."""
    soa = b"\x02ns" + ZONE + b"\x04host" + ZONE + b"".join(number(value, 4) for value in (1, 3600, 600, 86400, 300))
    return message(MISSING, 1, [], (), signed(ZONE, 6, [soa], ZONE, KEY) + sets, 3)


def denied_by_nsec():
    """By two NSEC records, around the name and around the wildcard: A, RRSIG and NSEC stand at their owners."""
    bits = bytes.fromhex("0006400000000003")
    return denied(signed(b"\x01w" + ZONE, 47, [b"\x01y" + ZONE + bits], ZONE, KEY)
                  + signed(ZONE, 47, [b"\x01a" + ZONE + bytes.fromhex("000722010000000380")], ZONE, KEY))


def denied_by_nsec3(iterations):
    """By two NSEC3 records with so many iterations, around the name and around the wildcard; and the count of hashes that this takes: the walk
    down to the name is decided by the first record, and the wildcard by the second."""
    sets = []
    for name in (MISSING, STAR):
        before, after = around_hash(hash_of(name, iterations))
        data = bytes([1, 0]) + number(iterations, 2) + bytes([0, 20]) + after + bytes.fromhex("0006400000000002")
        sets += signed(bytes([32]) + in_base32hex(before) + ZONE, 50, [data], ZONE, KEY)
    return denied(sets), 3


def outcomes(program, source):
    with open(source, "rb") as stdin:
        out = subprocess.run([program, "validate"], stdin=stdin, stdout=subprocess.PIPE, check=True).stdout
    return out.count(b" Secure - ")


def measure(program, script, yard, name, octets, count, before):
    """Measures a script of so many messages; gives the time and the count."""
    write_script(script, [octets], count)
    size = os.path.getsize(script)
    if outcomes(program, script) != count:
        sys.exit("not all messages are secure")
    time, noise = cpu([program, "validate"], script)
    most = memory([program, "validate"], script)
    growth = "" if before is None else ", %.2f of linear growth" % (time / before[0] / (count / before[1]))
    print("%s, %d messages, %d octets: %.3f s CPU (noise %.2f), %.1f us a message, %.2f of the yardstick, "
          "%.1f MiB, %.1f of the script%s" % (name, count, size, time, noise, 1e6 * time / count, time / yard,
                                              most / (1 << 20), most / size, growth))
    return time, count


def asked(program, source):
    """How many questions each message of a script asked, all of which are to be secure."""
    with open(source, "rb") as stdin:
        out = subprocess.run([program, "validate"], stdin=stdin, stdout=subprocess.PIPE, check=True).stdout
    heads = [line for line in out.split(b"\n") if line[:1].isdigit()]
    if not all(b' Secure - "" questions=' in line for line in heads):
        sys.exit("not all messages are secure")
    return [int(line.rsplit(b"=", 1)[1]) for line in heads]


# A message three zones down may take so many times as long as one at the anchor: over nodes that are kept, and without any.
KEPT_AIM, EMPTY_AIM = 3, 8


def measure_zones(program, script, yard, count):
    """Messages at the anchor and three zones down, in one moment and each in its own. Gives whether they keep to the aims."""
    within = True
    lowest = BELOW[-1]
    for moments, aim, name in ((False, KEPT_AIM, "one moment"), (True, EMPTY_AIM, "a moment each")):
        before = None
        for place, zone, questions in (("at the anchor", (ZONE, KEY), 1), ("three zones down", lowest, 7)):
            write_script(script, [address(b"www", *zone), address(b"mail", *zone)], count, replies_below(), moments)
            if asked(program, script) != [questions] + [questions if moments else 0] * (count - 1):
                sys.exit("%s, %s: other questions than %d for each that finds no nodes, else none" % (place, name, questions))
            time, noise = cpu([program, "validate"], script)
            times = "" if before is None else ", %.2f times one at the anchor, aim %d%s" % (
                time / before, aim, "" if time <= aim * before else ", PASSED")
            print("%s, %s, %d messages: %.3f s CPU (noise %.2f), %.1f us a message, %.2f of the yardstick%s" % (
                place, name, count, time, noise, 1e6 * time / count, time / yard, times))
            within = within and (before is None or time <= aim * before)
            before = time
    return within


# By NSEC3 a denial may take so many digests of one block more than by NSEC, besides one for each iteration of each hash.
MOST_BLOCKS = 30


def measure_denials(program, script, yard, count):
    """Messages that deny a name, by NSEC and by NSEC3. The program keeps no answers of signatures and hashes: each message takes its hashes
    itself. What a digest of one block takes is what an iteration more does. Gives whether they keep to the aim."""
    cases = [("by NSEC", denied_by_nsec(), 0, 0)]
    for iterations in (0, 100):
        octets, hashes = denied_by_nsec3(iterations)
        cases.append(("by NSEC3 with %d iterations" % iterations, octets, hashes, iterations))
    times = []
    for name, octets, hashes, iterations in cases:
        write_script(script, [octets], count)
        if asked(program, script) != [1] + [0] * (count - 1):
            sys.exit("denials %s: other questions than one" % name)
        time, noise = cpu([program, "validate"], script)
        times.append(time / count)
        print("a name denied %s, %d messages of %d octets, %d hashes and %d iterations each: %.3f s CPU (noise %.2f), %.1f us a message, "
              "%.2f of the yardstick" % (name, count, len(octets), hashes, hashes * iterations, time, noise, 1e6 * time / count, time / yard))
    block = (times[2] - times[1]) / (hashes * iterations)
    more = (times[1] - times[0]) / block
    print("a digest of one block: %.2f us; by NSEC3 without iterations %.1f digests more than by NSEC, aim %d%s" % (
        1e6 * block, more, MOST_BLOCKS, "" if more <= MOST_BLOCKS else ", PASSED"))
    return more <= MOST_BLOCKS


def hostile():
    """Messages that are made to take memory, each with its replies and the state of its verdict."""
    def at_anchor(octets):
        return [("example.", "DNSKEY", octets)]
    below = address(b"www", *BELOW[0])
    name = text_of(BELOW[0][0])
    return (("601 good groups under 3001 keys", many_groups(601), at_anchor(many_keys(3000)), b"Secure"),
            ("a good set of 4000 at one long name", one_set(4000), at_anchor(keys()), b"Secure"),
            ("3400 long names", many_names(3400), at_anchor(keys()), b"Bogus"),
            ("a small message under a reply of 3400 long names", small(), at_anchor(many_names(3400)), b"Bogus"),
            ("a set of 4000 under a reply of 3400 long names", one_set(4000), at_anchor(many_names(3400)), b"Bogus"),
            ("3200 mailboxes at one long name", many_mailboxes(3200), at_anchor(keys()), b"Bogus"),
            ("the same under a reply of these", many_mailboxes(3200), at_anchor(many_mailboxes(3200)), b"Bogus"),
            ("5400 types at one long name", many_types(5400), at_anchor(keys()), b"Bogus"),
            ("a zone below with 3001 keys", below, replies_below(1)[:2] + [(name, "DNSKEY", many_keys(3000, *BELOW[0]))], b"Secure"),
            ("a reply of 3400 long names for a DS set", below, replies_below(1)[:1] + [(name, "DS", many_names(3400))], b"Bogus"))


def measure_hostile(program, script, name, octets, replies, state):
    """One message under its replies: its memory against the bound. Gives whether it keeps to that."""
    write_script(script, [octets], 1, replies)
    with open(script, "rb") as stdin:
        out = subprocess.run([program, "validate"], stdin=stdin, stdout=subprocess.PIPE, check=True).stdout
    if not out.startswith(b"0 " + state + b" "):
        sys.exit("hostile, %s: not %s" % (name, state.decode()))
    time, noise = cpu([program, "validate"], script)
    most = memory([program, "validate"], script)
    replied = sum(len(reply) for _, _, reply in replies)
    bound = 16 * (len(octets) + replied) + 4000000
    print("hostile, %s: %d and %d octets, %.3f s CPU (noise %.2f), %d octets of memory, bound %d%s" % (
        name, len(octets), replied, time, noise, most, bound, "" if most <= bound else ", PASSED"))
    return most <= bound


def main(program):
    with tempfile.TemporaryDirectory() as folder:
        zeros = os.path.join(folder, "zeros")
        with open(zeros, "wb") as out:
            out.truncate(100 << 20)
        yard, noise = cpu(["openssl", "dgst", "-sha256", zeros])
        print("yardstick: SHA-256 of 100 MiB in %.3f s CPU (noise %.2f)" % (yard, noise))
        script = os.path.join(folder, "script")
        for name, octets, counts in (("small", small(), (1000, 10000, 30000)),
                                     ("small with OPT", small([OPT]), (1000, 10000, 30000)),
                                     ("long", long(), (1000, 10000, 14000))):
            before = None
            for count in counts:
                before = measure(program, script, yard, name, octets, count, before)
        within = measure_zones(program, script, yard, 10000)
        few = measure_denials(program, script, yard, 10000)
        if not all([measure_hostile(program, script, *case) for case in hostile()]):
            sys.exit("a hostile message takes more memory than the bound")
        if not within:
            sys.exit("a message three zones down takes more time than the aim")
        if not few:
            sys.exit("a denial by NSEC3 takes more digests than the aim")


if __name__ == "__main__":
    main(sys.argv[1])
