#!/bin/sh
# Every test of the static library and of the programs; stops at the first failure. Builds none of
# them: it expects what scripts/build makes, target/staticlib/libyelansub.a, or one in
# YELANSUB_ARCHIVE_DIR, and target/bin/.
# Needs gcc and cargo, nothing else.
set -eu
root=$(cd "$(dirname "$0")/.." && pwd)
: "${YELANSUB_ARCHIVE_DIR:=$root/target/staticlib}"
export YELANSUB_ARCHIVE_DIR
listing=$root/target/bin/chassis_listing
numbers=$root/target/bin/decimal_numbers
if [ ! -f "$YELANSUB_ARCHIVE_DIR/libyelansub.a" ]; then
    echo "no libyelansub.a in $YELANSUB_ARCHIVE_DIR: run scripts/build first" >&2
    exit 1
fi
if [ ! -x "$listing" ] || [ ! -x "$numbers" ]; then
    echo "a program is missing in $root/target/bin: run scripts/build first" >&2
    exit 1
fi
"$root/tests/gate.sh"
"$root/tests/layout.sh"
"$root/tests/symbols.sh"
"$root/tests/division.sh" "$numbers"
"$root/tests/driver.sh"
"$root/tests/guards.sh"
"$root/tests/peer.sh"
"$root/tests/believe.sh"
"$root/tests/quotes.sh"
cd "$root/reference"
cargo test --release --offline -- --nocapture
cargo run --release --offline --bin listing_differential -- "$listing"
echo "tests/run.sh: all passed"
