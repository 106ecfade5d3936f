#!/bin/sh
# Compiles tests/layout.c, as C11 and, where a C++ compiler is at hand, as C++17, and sees to it that
# it names every field of every struct of include/yelansub.h. With another C compiler in CC, as C11 by
# that one alone.
set -eu
root=$(cd "$(dirname "$0")/.." && pwd)
work=$(mktemp -d)
trap 'rm -rf "$work"' EXIT

# The header as the compiler sees it, one struct to a line: "TYPE: int a, b; long c[9]; ".
printf '#include "yelansub.h"\n' | gcc -std=c11 -I"$root/include" -E -P - | tr -s ' \n' '  ' |
    grep -o 'struct yelansub_[a-z_]* *{[^}]*}' |
    sed 's/^struct \([a-z_]*\) *{\(.*\)}$/\1: \2/' > "$work/structs"
awk -F ': ' '{
    count = split($2, declarations, ";")
    for (d = 1; d <= count; d++) {
        names = split(declarations[d], list, ",")
        for (n = 1; n <= names; n++) {
            sub(/ *\[.*/, "", list[n])
            if (match(list[n], /[a-z_0-9]+ *$/)) print $1 "." substr(list[n], RSTART)
        }
    }
}' "$work/structs" | tr -d ' ' > "$work/declared"
sed -n 's/^FIELD(\([a-z_]*\), \([a-z_]*\), .*/\1.\2/p' "$root/tests/layout.c" > "$work/held"
if ! diff "$work/declared" "$work/held" >&2; then
    echo "the fields of include/yelansub.h (<) and those of tests/layout.c (>) differ" >&2
    exit 1
fi
sed 's/:.*//' "$work/structs" > "$work/declared"
sed -n 's/^STRUCT(\([a-z_]*\), .*/\1/p' "$root/tests/layout.c" > "$work/held"
if ! diff "$work/declared" "$work/held" >&2; then
    echo "the structs of include/yelansub.h (<) and those of tests/layout.c (>) differ" >&2
    exit 1
fi

# The constants of the message format: "const YELANSUB_NAME = 1;" and "YELANSUB_NAME = 1,".
sed -n 's/^\(const\)\{0,1\} *YELANSUB_\([A-Z_0-9]*\) = \([0-9]*\)[;,]\{0,1\}$/#define FORMAT_\2 \3/p' \
    "$root/include/message.x" > "$work/format.h"
set -- -Wall -Wextra -Werror -I"$root/include" -I"$work" -fsyntax-only
${CC:-gcc} -std=c11 "$@" "$root/tests/layout.c"
and=
if [ -z "${CC:-}" ] && command -v g++ > /dev/null; then
    g++ -std=c++17 "$@" -x c++ "$root/tests/layout.c"
    and=" and C++"
fi
echo "layout: $(wc -l < "$work/structs") structs, as C$and"
