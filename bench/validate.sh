#!/bin/sh
# Measures the built program on long scripts; ./prove builds it.
top=$(dirname "$(dirname "$(readlink -f "$0")")")
exec python3 "$top/bench/validate.py" "${1:-$top/crates/dsec/out/dsec}"
