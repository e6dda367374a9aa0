#!/bin/sh
# Measures the built programs dsec and dsec_nsecs on messages, scripts and zones of the worst that each part admits; a third word takes a part of these.
top=$(dirname "$(dirname "$(readlink -f "$0")")")
exec python3 "$top/bench/hostile.py" "${1:-$top/crates/dsec/out/dsec}" "${2:-$top/crates/dsec_nsecs/out/dsec_nsecs}" "${3:-}"
