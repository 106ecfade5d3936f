#!/bin/sh
# The program decimal_numbers, as built, has no instruction that divides, and none that multiplies,
# as which a division by a constant is compiled. It is the digit writer and little else. The same
# look at two functions that divide must find both. tests/division.sh PROGRAM
set -eu
program=$1
work=$(mktemp -d)
trap 'rm -rf "$work"' EXIT

instructions() {
    objdump -d --no-show-raw-insn "$1" | sed -n -E 's/^ *[0-9a-f]+:[[:space:]]+//p'
}
dividing() {
    grep -E '^[a-z]*(div|mul)' "$1" || true
}

cat > "$work/divides.c" <<'END'
unsigned long by_ten(unsigned long x) { return x / 10; }
unsigned long by_any(unsigned long x, unsigned long y) { return x / y; }
END
gcc -O2 -c "$work/divides.c" -o "$work/divides.o"
instructions "$work/divides.o" > "$work/known"
for kind in div mul; do
    dividing "$work/known" | grep -q "$kind" || { echo "division: no $kind seen in code that divides" >&2; exit 1; }
done

instructions "$program" > "$work/code"
# The largest power, 10^15, is there: it is the writer's code that was looked at.
grep -q 0x38d7ea4c68000 "$work/code" || { echo "division: no table of powers in $program" >&2; exit 1; }
if [ -n "$(dividing "$work/code")" ]; then
    echo "division: $program divides or multiplies:" >&2
    dividing "$work/code" >&2
    exit 1
fi
echo "division: none in $(grep -c . "$work/code") instructions of decimal_numbers"
