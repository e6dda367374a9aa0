"""Makes messages, replies, scripts and zones of the worst that each part admits, has a program take them whole and at half of the size,
and prints what they cost.

usage: hostile.py PROGRAM CHAINING [WORD], where only those with the word in their name are measured
"""

import collections
import math
import os
import subprocess
import sys
import tempfile

from making import RUNS, memory, run_seconds, write_script
from worst import TEXT, n_log_n
from worst_messages import JUDGED
from worst_texts import APEX, CHAIN, SCRIPTS, ZONES

# The time may grow by so many times what n log n does from the half to the whole. Nothing is to take more than sorting does (the table "Cost" of
# docs/ARCHITECTURE.md). What is more is the memory's, whose caches hold the half and not the whole, and the machine's: of zones that are sorted
# and signed that was 1.1 at most, on a machine with other work it varies by a tenth. What grows with the square is 2 or nearly that.
GROWTH = 1.3

# The memory may be so many times the octets of message and replies, of a script or a zone's text, and so many octets more. A zone's records may take
# so many octets each, also duplicates, which go once all are sorted: a line of text can be shorter than a record is.
TIMES, BESIDE, RECORD = 16, 4000000, 200
# A zone has its chain and its signatures besides, which the text doesn't tell: so it may take as many octets more as twice the signed zone's text.
# By the figures of docs/ARCHITECTURE.md 200,000 names take 1.5 times that text.
WRITTEN = 2

# How much of each is taken.
SHARES = (0.5, 1)

# A message is taken so often that its half needs some tenth of a second, so that no time is near what a clock tells apart.
SECONDS = 0.1


def first_line(words, source):
    """The first line that a program writes, how many there are, and their octets."""
    with open(source, "rb") as stdin:
        child = subprocess.Popen(words, stdin=stdin, stdout=subprocess.PIPE)
        line = child.stdout.readline()
        count, octets = bool(line), len(line)
        for block in iter(lambda: child.stdout.read(1 << 20), b""):
            count, octets = count + block.count(b"\n"), octets + len(block)
    if child.wait() != 0:
        sys.exit("%s: status %d: %s" % (words[0], child.returncode, line.decode(errors="replace")))
    return line.decode(), count, octets


def begins(words, source, line):
    found, _, _ = first_line(words, source)
    if not found.startswith(line):
        sys.exit("not %r but %r" % (line, found[:200]))


def write(path, text):
    with open(path, "w") as out:
        out.write(text)
    return len(text)


# The octets that were given, what the time may grow with, the seconds, how many times these the greatest of some runs was, and the memory with
# its bound.
Cost = collections.namedtuple("Cost", "octets work seconds noise memory bound")


def work_of(kind, share, octets):
    return kind.work(share) if kind.work else n_log_n(octets)


def octets_of(judged):
    return len(judged.message) + sum(len(reply) for _, _, reply in judged.replies) + sum(8 + len(anchor) for anchor in judged.anchors[1:])


def in_turns(words, sources):
    """The CPU time of some runs of each source, in turns, so that what else the machine does meets all alike."""
    turns = [[run_seconds(words, source) for source in sources] for _ in range(RUNS)]
    return [(min(times), max(times) / min(times)) for times in zip(*turns)]


def times_of(words, script, half, whole):
    """How many times a message is to be judged: so that its half takes long enough, and its whole makes a script."""
    write_script(script, [half.message], 1, half.replies, False, half.anchors)
    seconds = run_seconds(words, script)
    write_script(script, [whole.message], 1, whole.replies, False, whole.anchors)
    free = TEXT - os.path.getsize(script)
    return max(1, min(math.ceil(SECONDS / max(seconds, 0.001)), 1 + free // (2 * len(whole.message) + 20)))


def measure_judged(program, folder, kind):
    """What a message costs: its memory alone, and its time where it is judged so many times, each in a moment of its own."""
    words, shares = [program, "validate"], [kind.make(share) for share in SHARES]
    sources = [os.path.join(folder, name) for name in ("half", "whole")]
    times, most = times_of(words, sources[0], *shares), []
    for judged, source in zip(shares, sources):
        write_script(source, [judged.message], 1, judged.replies, False, judged.anchors)
        begins(words, source, kind.state)
        most.append(memory(words, source))
        write_script(source, [judged.message], times, judged.replies, True, judged.anchors)
    return [Cost(octets_of(judged), work_of(kind, share, octets_of(judged)), seconds / times, noise, taken,
                 TIMES * octets_of(judged) + BESIDE + kind.held(share))
            for share, judged, taken, (seconds, noise) in zip(SHARES, shares, most, in_turns(words, sources))], times


def measure_script(program, folder, kind):
    words, sources = [program, "validate"], [os.path.join(folder, name) for name in ("half", "whole")]
    octets = [write(source, kind.make(share)) for source, share in zip(sources, SHARES)]
    for source in sources:
        begins(words, source, kind.state)
    return [Cost(size, work_of(kind, share, size), seconds, noise, memory(words, source), TIMES * size + BESIDE)
            for source, share, size, (seconds, noise) in zip(sources, SHARES, octets, in_turns(words, sources))], 1


def measure_zone(program, folder, zone):
    words, sources = [program] + zone.words, [os.path.join(folder, name) for name in ("half", "whole")]
    bounds, sizes = [], []
    for source, count in zip(sources, (zone.count // 2, zone.count)):
        sizes.append(write(source, APEX + "".join(map(zone.line, range(count)))))
        _, lines_written, written = first_line(words, source)
        if lines_written != zone.written(count):
            sys.exit("%s: %d lines for %d" % (zone.name, lines_written, count))
        bounds.append(max(TIMES * sizes[-1], RECORD * count) + BESIDE + WRITTEN * written)
    return [Cost(size, n_log_n(size), seconds, noise, memory(words, source), bound)
            for source, size, bound, (seconds, noise) in zip(sources, sizes, bounds, in_turns(words, sources))], 1


def told(name, costs, times):
    """Prints what a kind costs. Gives what it passes."""
    half, whole = costs
    growth = whole.seconds / half.seconds / (whole.work / half.work)
    is_long = half.seconds * times >= 0.01
    passed = []
    if is_long and growth > GROWTH:
        passed.append("%s: the time grows by %.2f times what it may" % (name, growth))
    if whole.memory > whole.bound:
        passed.append("%s: %.1f MB of memory, where the bound is %.1f" % (name, whole.memory / 1e6, whole.bound / 1e6))
    print("%s: %d octets, %.2f ms CPU (taken %d times, noise %.2f and %.2f), grown by %s times what it may, %.1f MB, %.1f times the octets, "
          "bound %.1f MB%s" % (name, whole.octets, 1e3 * whole.seconds, times, half.noise, whole.noise, "%.2f" % growth if is_long else "-",
                               whole.memory / 1e6, whole.memory / whole.octets, whole.bound / 1e6, ", PASSED" if passed else ""), flush=True)
    return passed


def main(program, chaining, word=""):
    passed = []
    with tempfile.TemporaryDirectory() as folder:
        for kind in JUDGED:
            if word in kind.name:
                passed += told(kind.name, *measure_judged(program, folder, kind))
        for kind in SCRIPTS:
            if word in "script of " + kind.name:
                passed += told("script of " + kind.name, *measure_script(program, folder, kind))
        for zone in ZONES:
            if word not in "zone of " + zone.name:
                continue
            if zone.words == CHAIN and not os.path.exists(chaining):
                print("zone of %s: left out, for %s isn't built" % (zone.name, chaining))
                continue
            passed += told("zone of " + zone.name, *measure_zone(chaining if zone.words == CHAIN else program, folder, zone))
    if passed:
        sys.exit("past the bounds:\n" + "\n".join(passed))


if __name__ == "__main__":
    main(*sys.argv[1:])
