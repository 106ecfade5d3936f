#!/bin/sh
# Compares the calls by hand in C, bench/peer/peer.c, with the library: tests/peer.c, as the bench
# compiles them, and again with the address and undefined-behaviour sanitizers where these link.
set -eu
root=$(cd "$(dirname "$0")/.." && pwd)
archive=${YELANSUB_ARCHIVE_DIR:-$root/target/staticlib}
work=$(mktemp -d)
trap 'rm -rf "$work"' EXIT

build() { # PROGRAM FLAG..
    program=$1
    shift
    gcc -std=c11 -Wall -Wextra -Werror "$@" -I"$root/include" "$root/tests/peer.c" "$root/bench/peer/peer.c" \
        -L"$archive" -lyelansub -o "$work/$program"
}

build peer -O3
"$work/peer" 2000000
printf 'int main(void) { return 0; }\n' > "$work/none.c"
if gcc -fsanitize=address,undefined "$work/none.c" -o "$work/none" 2> /dev/null; then
    build careful -g -O1 -fsanitize=address,undefined -fno-sanitize-recover=all
    "$work/careful" 200000 2
fi
