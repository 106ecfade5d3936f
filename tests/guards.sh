#!/bin/sh
# Builds tests/guards.c with the address and undefined-behaviour sanitizers and runs it.
set -eu
root=$(cd "$(dirname "$0")/.." && pwd)
archive=${YELANSUB_ARCHIVE_DIR:-$root/target/staticlib}
work=$(mktemp -d)
trap 'rm -rf "$work"' EXIT

gcc -std=c11 -g -O1 -Wall -Wextra -Werror -fsanitize=address,undefined -fno-sanitize-recover=all \
    -I"$root/include" "$root/tests/guards.c" -L"$archive" -lyelansub -o "$work/guards"
"$work/guards"
