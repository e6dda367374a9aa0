"""Has a program take the messages and scripts of hostile.py, whole and at half of the size, and prints how many instructions each takes, and by how
much they grow. That needs valgrind, and is the same on a machine with other work.

usage: instructions.py PROGRAM [WORD], where only those with the word in their name are measured
"""

import os
import re
import subprocess
import sys
import tempfile

from hostile import GROWTH, SHARES, begins, octets_of, work_of, write
from making import write_script
from worst_messages import JUDGED
from worst_texts import SCRIPTS


def instructions(words, source):
    """How many instructions a run takes."""
    counting = ["valgrind", "--tool=callgrind", "--callgrind-out-file=/dev/null"] + words
    with open(source, "rb") as stdin:
        child = subprocess.run(counting, stdin=stdin, stdout=subprocess.DEVNULL, stderr=subprocess.PIPE)
    found = re.search(rb"Collected : (\d+)", child.stderr)
    if not found:
        sys.exit(child.stderr.decode(errors="replace"))
    return int(found.group(1))


def of_message(words, source, kind, share):
    """The instructions and the octets of a message that is judged once."""
    judged = kind.make(share)
    write_script(source, [judged.message], 1, judged.replies, False, judged.anchors)
    begins(words, source, kind.state)
    return instructions(words, source), octets_of(judged)


def of_script(words, source, kind, share):
    octets = write(source, kind.make(share))
    begins(words, source, kind.state)
    return instructions(words, source), octets


def main(program, word=""):
    words, passed = [program, "validate"], []
    kinds = [(kind.name, kind, of_message) for kind in JUDGED] + [("script of " + kind.name, kind, of_script) for kind in SCRIPTS]
    with tempfile.TemporaryDirectory() as folder:
        source = os.path.join(folder, "source")
        # a script of nothing is refused, after all that any run begins with
        write(source, "")
        nothing = instructions(words, source)
        for name, kind, taken in kinds:
            if word not in name:
                continue
            half, whole = [(count - nothing, work_of(kind, share, octets), octets)
                           for share in SHARES for count, octets in [taken(words, source, kind, share)]]
            growth = whole[0] / half[0] / (whole[1] / half[1])
            print("%s: %d octets, %.1f million instructions, %.0f for each octet, grown by %.2f times what they may%s"
                  % (name, whole[2], whole[0] / 1e6, whole[0] / whole[2], growth, ", PASSED" if growth > GROWTH else ""), flush=True)
            if growth > GROWTH:
                passed.append(name)
    if passed:
        sys.exit("past the bounds:\n" + "\n".join(passed))


if __name__ == "__main__":
    main(*sys.argv[1:])
