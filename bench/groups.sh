#!/bin/sh
# Measures the built program on messages of many sets, of names that are random or chosen to fall together; ./prove builds it.
top=$(dirname "$(dirname "$(readlink -f "$0")")")
exec python3 "$top/bench/groups.py" "${1:-$top/crates/dsec/out/dsec}"
