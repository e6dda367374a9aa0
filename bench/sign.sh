#!/bin/sh
# Measures how zones are read, sorted and chained by the built program dsec_nsecs, and how they are signed by the built program dsec.
top=$(dirname "$(dirname "$(readlink -f "$0")")")
exec python3 "$top/bench/sign.py" "${1:-$top/crates/dsec_nsecs/out/dsec_nsecs}" "${2:-$top/crates/dsec/out/dsec}"
