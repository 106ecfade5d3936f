#!/bin/sh
# The archive may ask the host for memcpy and memset, for the symbols that are given as arguments,
# and for nothing else, and it exports exactly the functions that include/yelansub.h declares.
set -eu
root=$(cd "$(dirname "$0")/.." && pwd)
archive=${YELANSUB_ARCHIVE_DIR:-$root/target/staticlib}/libyelansub.a
work=$(mktemp -d)
trap 'rm -rf "$work"' EXIT

nm "$archive" > "$work/all"
awk 'NF == 3 && $2 ~ /^[A-TV-Z]$/ { print $3 }' "$work/all" | sort -u > "$work/defined"
awk '$1 == "U" || $1 == "w" || $1 == "v" { print $2 }' "$work/all" | sort -u |
    comm -23 - "$work/defined" > "$work/needed"
printf '%s\n' memcpy memset _GLOBAL_OFFSET_TABLE_ "$@" > "$work/given"
bad=$(grep -v -x -F -f "$work/given" "$work/needed" || true)
if [ -n "$bad" ]; then
    echo "the archive needs from the host:" $bad >&2
    exit 1
fi

printf '#include "yelansub.h"\n' | gcc -std=c11 -I"$root/include" -E -P - |
    tr -s ' \n' '  ' | grep -o 'yelansub_[a-z_0-9]*(' | tr -d '(' | sort -u > "$work/declared"
if ! diff "$work/declared" "$work/defined" >&2; then
    echo "include/yelansub.h (<) and the archive's exports (>) differ" >&2
    exit 1
fi
echo "symbols: $(wc -l < "$work/defined") exports; needs from the host:" $(cat "$work/needed")
