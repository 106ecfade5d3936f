#!/bin/sh
# The archive of one target as it is: tests/for/archive.sh TARGET DIR looks at the one in DIR. What it
# needs from the host and what it exports (tests/symbols.sh); its relocations: in user space none that
# a shared object could not have, in a kernel only direct calls; in a kernel no floating-point or
# vector register, no indirect jump, on x86-64 nothing below the stack pointer and on AArch64 no x18;
# and the stack that each call uses there, which must be what examples/kernel/README.md says.
set -eu
root=$(cd "$(dirname "$0")/../.." && pwd)
target=$1 dir=$2
work=$(mktemp -d)
trap 'rm -rf "$work"' EXIT
. "$root/tests/for/target.sh"
archive=$dir/libyelansub.a

# What a kernel has too, and how its configuration may have it called.
thunk=''
case $target in x86_64-kernel) thunk=__x86_return_thunk ;; esac
YELANSUB_ARCHIVE_DIR=$dir "$root/tests/symbols.sh" $thunk > "$work/symbols" || fail "symbols"

case $target in
x86_64-kernel) may='X86_64_PLT32 X86_64_PC32' ;;
aarch64-kernel) may='AARCH64_CALL26 AARCH64_JUMP26' ;;
aarch64 | aarch64_be)
    may='AARCH64_CALL26 AARCH64_JUMP26 AARCH64_PREL32 AARCH64_ADR_PREL_PG_HI21 AARCH64_ADD_ABS_LO12_NC
         AARCH64_LDST64_ABS_LO12_NC AARCH64_LDST128_ABS_LO12_NC' # the last three: places in a page
    ;;
riscv64)
    may='RISCV_CALL_PLT RISCV_BRANCH RISCV_RVC_BRANCH RISCV_RVC_JUMP RISCV_RELAX RISCV_32_PCREL RISCV_ADD32
         RISCV_SUB6 RISCV_SUB8 RISCV_SUB16 RISCV_SUB32 RISCV_SET6 RISCV_SET8 RISCV_SET16'
    ;;
esac
readelf -rW "$archive" | awk '$3 ~ /^R_/ { print $3 }' | sort -u > "$work/relocations"
[ -s "$work/relocations" ] || fail "no relocations seen: not the library?"
printf 'R_%s\n' $may > "$work/may"
odd=$(grep -v -x -F -f "$work/may" "$work/relocations" || true)
[ -z "$odd" ] || fail "relocations:" $odd

# The instructions, without the names of what they jump to.
"${tools}objdump" -dr --no-show-raw-insn "$archive" > "$work/listing"
awk -F '\t' 'NF > 1 && $1 ~ /:$/ { sub(/[0-9a-f]+ <.*/, ""); print $2 " " $3 }' "$work/listing" > "$work/code"
none() {
    if grep -m 3 -E -e "$2" "$work/code" >&2; then fail "$1"; fi
}
case $target in
x86_64-kernel)
    none 'floating-point or vector registers' '%[xyz]?mm[0-9]|%st|^f'
    none 'memory below the stack pointer' '-0x[0-9a-f]+\(%rsp'
    none 'indirect jumps' '(jmp|call)[a-z]* +\*'
    ;;
aarch64-kernel)
    none 'floating-point or vector registers' '\b[bhsdqv][0-9]+\b'
    none 'x18, which is the kernel'\''s' '\b[xw]18\b'
    none 'indirect jumps' '^(br|blr)[a-z]* '
    ;;
esac

stack=''
case $target in
*-kernel)
    # A row of the table: | `yelansub_take` | x86-64 | AArch64 |
    awk -f "$root/tests/for/stack.awk" "$work/listing" | sort > "$work/stack"
    awk -F '|' -v at="$([ "$target" = x86_64-kernel ] && echo 3 || echo 4)" \
        '/^\| `yelansub_/ { gsub(/[` ]/, ""); print $2, $at }' "$root/examples/kernel/README.md" | sort > "$work/said"
    diff "$work/said" "$work/stack" >&2 || fail "README (<) has another stack than the archive (>)"
    stack=', stack as said'
    ;;
esac
sed "s/^symbols: /$target: /; s/\$/; $(wc -l < "$work/relocations") kinds of relocation; $(wc -l < "$work/code") instructions$stack/" "$work/symbols"
