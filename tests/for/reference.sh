#!/bin/sh
# The tests of reference/ and tests/peer.c over the archive for x86-64 kernels in DIR, on the machine
# itself: tests/for/reference.sh DIR. No other target has its Rust here.
set -eu
root=$(cd "$(dirname "$0")/../.." && pwd)
target=x86_64-kernel
work=$(mktemp -d)
trap 'rm -rf "$work"' EXIT
. "$root/tests/for/target.sh"
cp "$1/libyelansub.a" "$work"
gcc -c "$with" -o "$work/thunk.o"
ar rs "$work/libyelansub.a" "$work/thunk.o"
export YELANSUB_ARCHIVE_DIR="$work"
"$root/tests/peer.sh"
cd "$root/reference"
cargo test --release --offline
echo "$target: as the reference"
