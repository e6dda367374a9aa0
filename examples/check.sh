#!/bin/sh
# Runs each example of this folder and compares what is written for it with its output: each script by `validate`, and by the words of
# each file .words the zone text that its name begins with.
here=$(dirname "$(readlink -f "$0")")
failed=0

# the source, the output, and the words
compare() {
    source=$1
    output=$2
    shift 2
    if "$here/../dsec" "$@" <"$source" | cmp -s - "$output"; then
        echo "$(basename "$output"): as written"
    else
        echo "$(basename "$output"): NOT as written"
        failed=1
    fi
}

for script in "$here"/*.script; do
    compare "$script" "${script%.script}.output" validate
done
for words in "$here"/*.words; do
    # shellcheck disable=SC2046 # the words are split at blanks
    compare "${words%-*.words}.zone" "${words%.words}.output" $(cat "$words")
done
exit $failed
