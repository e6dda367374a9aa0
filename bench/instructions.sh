#!/bin/sh
# Counts the instructions that the built program dsec takes for the messages and scripts of hostile.sh; a second word takes a part of these.
top=$(dirname "$(dirname "$(readlink -f "$0")")")
exec python3 "$top/bench/instructions.py" "${1:-$top/crates/dsec/out/dsec}" "${2:-}"
