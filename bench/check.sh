#!/usr/bin/env bash
# Where the time of a check goes: proves a crate's functions one after the other and prints the dearest, in seconds, by the files that the check
# writes as it goes on. What another clone on this machine has kept isn't proved again, and so has no time. The crate's folder out is removed
# first, and its built library with it: not to be run while another rt works in this clone.
# usage: bench/check.sh CRATE
top=$(dirname "$(dirname "$(readlink -f "$0")")")
[ $# = 1 ] && cd "$top/crates/$1" || { echo "usage: bench/check.sh CRATE" >&2; exit 2; }
command -v strace >/dev/null || { echo "bench/check.sh: needs strace" >&2; exit 2; }
trace=$(mktemp) || exit 2
trap 'rm -f "$trace"' EXIT
rm -rf out
strace -f -ttt -e trace=openat -o "$trace" rt check --jobs 1 | grep '^logic=' || exit 1
python3 - "$trace" <<'PY'
import collections
import re
import sys

LINE = re.compile(r'^\d+ +([\d.]+) openat\([^,]+, "out/incremental/[^"]*/([^"/]+)"')
# The files of a module are written beside their place and then moved; a function's modules have these names.
NAME = re.compile(r"Rattle-(.*?)(?:\.decls)?\.oantt\.tmp")
PARTS = re.compile(r"\.(Answers|Code|Given|Goals|Invariants|Kinds|Layout|Lts|Met|Named|Proof|Reads|Statement|TheLaws|Tie)\b.*$")
took, before = collections.Counter(), None
with open(sys.argv[1], encoding="utf-8", errors="replace") as trace:
    for moment, file in (found.groups() for found in map(LINE.match, trace) if found):
        name = NAME.search(file)
        if name and before is not None:
            took[PARTS.sub("", name[1])] += float(moment) - before
        before = float(moment)
for name, seconds in took.most_common(20):
    if seconds >= 0.1:
        print(f"{seconds:7.1f} {name}")
print(f"{sum(took.values()):7.1f} in all")
PY
