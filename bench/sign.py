"""Makes zones of many names, has one program read, sort and chain them and another sign them, and prints what it costs.

usage: sign.py CHAINING SIGNING
"""

import math
import os
import random
import subprocess
import sys
import tempfile

RUNS = 3
SIZES = (25000, 50000, 100000)
SIGNED = (10000, 100000, 200000)

# The word for the chain; how many lines a signed zone has beside four for each name; and what signing 100,000 names is to take at most, by
# the yardstick and in MiB.
GOALS = (("nsec", 8, 4, 100), ("nsec3", 10, 6, 130))


def write_zone(path, names):
    """Names of two labels with an address each, in no order."""
    lines = ["n%d.bench. 3600 IN A 192.0.2.%d\n" % (i, i % 256) for i in range(names)]
    random.Random(names).shuffle(lines)
    with open(path, "w") as out:
        out.write("bench. 3600 IN SOA ns.bench. host.bench. 1 3600 600 86400 300\nbench. 3600 IN NS ns.bench.\n")
        out.writelines(lines)


def cpu(words, source=os.devnull):
    """The least CPU time of some runs in seconds, and how many times as much the greatest is."""
    times = []
    for _ in range(RUNS):
        with open(source, "rb") as stdin:
            child = subprocess.Popen(words, stdin=stdin, stdout=subprocess.DEVNULL)
            _, status, usage = os.wait4(child.pid, 0)
            child.returncode = os.waitstatus_to_exitcode(status)
        if child.returncode != 0:
            sys.exit("%s: status %d" % (words[0], child.returncode))
        times.append(usage.ru_utime + usage.ru_stime)
    return min(times), max(times) / min(times)


def memory(words, source):
    """The most memory of a run in octets: measured by a process that is small itself."""
    with open(source, "rb") as stdin:
        run = subprocess.run(["/usr/bin/time", "-f", "%M"] + words, stdin=stdin, stdout=subprocess.DEVNULL,
                             stderr=subprocess.PIPE, check=True)
    return 1024 * int(run.stderr.split()[-1])


def lines(words, source):
    with open(source, "rb") as stdin:
        return subprocess.run(words, stdin=stdin, stdout=subprocess.PIPE, check=True).stdout.count(b"\n")


def measure(words, extra, folder, yard):
    """Chains the zones of each size, where each has so many records more than names."""
    zone = os.path.join(folder, "zone")
    before = None
    for names in SIZES:
        write_zone(zone, names)
        if lines(words, zone) != names + extra:
            sys.exit("not one record for each name")
        time, noise = cpu(words, zone)
        growth = "" if before is None else ", %.2f of linear growth" % (time / before[0] / (names / before[1]))
        print("%d names: %.3f s CPU (noise %.2f), %.2f of the yardstick, %.1f MiB%s" % (
            names, time, noise, time / yard, memory(words, zone) / (1 << 20), growth))
        before = time, names


def measure_signing(program, chain, extra, folder, yard):
    """Signs zones of some sizes. Gives the time for 100,000 names by the yardstick, and the memory in MiB."""
    zone = os.path.join(folder, "zone")
    words = [program, "sign", "bench.", "0102", "0", "1000", chain]
    before = None
    for names in SIGNED:
        write_zone(zone, names)
        if lines(words, zone) != 4 * names + extra:
            sys.exit("sign: not the lines of a signed zone")
        time, noise = cpu(words, zone)
        used = memory(words, zone) / (1 << 20)
        growth = ""
        if before is not None:
            growth = ", %.2f of n log n" % (time / before[0] / (names * math.log(names) / (before[1] * math.log(before[1]))))
        print("%d names: %.3f s CPU (noise %.2f), %.2f of the yardstick, %.1f MiB%s" % (names, time, noise, time / yard, used, growth))
        if names == 100000:
            found = time / yard, used
        before = time, names
    return found


def main(chaining, signing):
    missed = False
    with tempfile.TemporaryDirectory() as folder:
        zeros = os.path.join(folder, "zeros")
        with open(zeros, "wb") as out:
            out.truncate(100 << 20)
        yard, noise = cpu(["openssl", "dgst", "-sha256", zeros])
        print("yardstick: SHA-256 of 100 MiB in %.3f s CPU (noise %.2f)" % (yard, noise))
        print("chaining by NSEC")
        measure([chaining, "bench.", "0102"], 1, folder, yard)
        print("chaining by NSEC3, without iterations and salt")
        measure([chaining, "nsec3", "0", "-", "0", "bench.", "0102"], 2, folder, yard)
        for chain, extra, most_time, most_memory in GOALS:
            print("the command sign, %s, its output to nowhere" % chain)
            time, used = measure_signing(signing, chain, extra, folder, yard)
            if time > most_time or used > most_memory:
                print("more than %d of the yardstick or %d MiB" % (most_time, most_memory))
                missed = True
    return missed


sys.exit(main(sys.argv[1], sys.argv[2]))
