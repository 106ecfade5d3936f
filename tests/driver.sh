#!/bin/sh
# Builds and runs the examples and compares what they print.
set -eu
root=$(cd "$(dirname "$0")/.." && pwd)
archive=${YELANSUB_ARCHIVE_DIR:-$root/target/staticlib}
work=$(mktemp -d)
trap 'rm -rf "$work"' EXIT

for example in driver resend pump convert; do
    gcc -std=c11 -O2 -Wall -Wextra -Werror -I"$root/include" "$root/examples/$example.c" \
        -L"$archive" -lyelansub -o "$work/$example"
    # What it printed is shown also where it has stopped with a failure.
    "$work/$example" > "$work/printed" || { cat "$work/printed"; exit 1; }
    diff "$root/examples/$example.expected" "$work/printed"
    echo "$example: printed as expected"
done
