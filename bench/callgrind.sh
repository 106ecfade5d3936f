#!/bin/sh
# Instructions a call of every item and side, counted by valgrind's callgrind: bench/callgrind.sh.
# Needs what run.sh needs, and valgrind.
set -eu
root=$(cd "$(dirname "$0")/.." && pwd)
: "${YELANSUB_ARCHIVE_DIR:=$root/target/staticlib}"
export YELANSUB_ARCHIVE_DIR
cd "$root/bench"
cargo build --quiet --release --offline
program=target/release/yelansub_bench
work=$(mktemp -d)
trap 'rm -rf "$work"' EXIT

printf '%-38s %-20s %14s\n' item side 'instructions'
tab=$(printf '\t')
"$program" list | while IFS="$tab" read -r item side calls; do
    times=20
    if [ "$calls" -ge 10000 ]; then times=1; fi
    valgrind --tool=callgrind --callgrind-out-file="$work/out" --toggle-collect=bench_work \
        "$program" one "$item" "$side" "$times" > /dev/null 2> "$work/err" || { cat "$work/err" >&2; exit 1; }
    total=$(sed -n -E 's/^(summary|totals): ([0-9]+).*/\2/p' "$work/out" | head -1)
    awk -v total="$total" -v calls="$((calls * times))" -v item="$item" -v side="$side" \
        'BEGIN { printf "%-38s %-20s %14.1f\n", item, side, total / calls }'
done
