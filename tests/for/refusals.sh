#!/bin/sh
# What scripts/build-for refuses, in a copy and with changed modules: tests/for/refusals.sh MODULE, where
# MODULE is one that tests/for/keep.sh has kept. Each refusal has status 2, says why in one sentence, and
# leaves no archive, also where one stood.
set -eu
root=$(cd "$(dirname "$0")/../.." && pwd)
kept=$1 module=$1
work=$(mktemp -d)
trap 'rm -rf "$work"' EXIT
. "$root/tests/for/replay.sh"
cases=0

# refuses SENTENCE TARGET [FLAG...]
refuses() {
    sentence=$1 archive=$work/copy/target/for/$2/libyelansub.a
    shift
    mkdir -p "${archive%/*}"
    echo old > "$archive"
    [ "$sentence" != 'TARGET is ' ] || rm "$archive"
    status=0
    build_for "$@" > "$work/said" 2>&1 || status=$?
    if [ "$status" != 2 ] || [ -e "$archive" ] || ! tail -n 1 "$work/said" | grep -q "^build-for: $sentence"; then
        cat "$work/said" >&2
        echo "refusals: status $status, and not: $sentence" >&2
        exit 1
    fi
    cases=$((cases + 1))
    module=$kept lib=$replayed
}
# changed SED-COMMAND...: the module, as text, with one thing other than it was.
changed() {
    "$clang" --no-default-config -Xclang -disable-llvm-passes -S -emit-llvm -x ir "$kept" -o "$work/kept.ll"
    sed -E "$@" "$work/kept.ll" > "$work/changed.bc"
    if cmp -s "$work/kept.ll" "$work/changed.bc"; then
        echo "refusals: nothing is changed by $*" >&2
        exit 1
    fi
    module=$work/changed.bc
}

for target in x86_64-kernel aarch64-kernel aarch64 aarch64_be riscv64; do
    build_for "$target" > "$work/said" 2>&1 || { cat "$work/said" >&2 && exit 1; }
    [ -s "$work/copy/target/for/$target/libyelansub.a" ]
done
refuses 'TARGET is ' ''
refuses 'TARGET is ' mips64
refuses 'TARGET is ' x86_64
lib='exit 1'
refuses 'not proved' aarch64
lib=:
refuses 'rt has compiled no module' aarch64
echo 'no module' > "$work/none.bc"
module=$work/none.bc
refuses 'the module does not read' aarch64
refuses 'clang does not take the flags' aarch64 -mno-such-flag

shape='not the shape of module'
changed 's/"target-cpu"="x86-64-v2"/"target-cpu"="x86-64-v3"/'
refuses "$shape" aarch64
changed 's/"target-cpu"="x86-64-v2"/"target-features"="+sse4.2"/'
refuses "$shape" riscv64
changed '$a @table = constant i64 1'
refuses "$shape" aarch64
changed '$a module asm "nop"'
refuses "$shape" aarch64_be
changed '0,/^start:$/s//&\n  call void asm sideeffect "nop", ""()/'
refuses "$shape" aarch64
changed '$a define internal <2 x i64> @two(<2 x i64> %a0) {\n  ret <2 x i64> %a0\n}'
refuses "$shape" aarch64_be
changed '$a declare void @llvm.x86.sse2.pause()'
refuses "$shape" aarch64
# A tag that is written wide, and not right behind its widening.
changed '0,/^  store i32 (%r[0-9]+), (ptr %[ar][0-9]+, align 1)$/s//  %wide = add i32 \1, 0\n  store i32 %wide, \2/'
refuses "$shape" aarch64_be

# Exports: a narrow result and a narrow argument, an argument more, two words in one struct, a struct by
# pointer where C has it on the stack; one that the header does not have, and one that it has otherwise.
abi='an export as compiled'
changed '/^define noundef i64 @yelansub_open\(/,/^\}/{
    s/^define noundef i64/define noundef i32/
    s/^  ret i64 (.*)/  %narrow = trunc i64 \1 to i32\n  ret i32 %narrow/
}'
refuses "$abi" aarch64
changed '/^define .*@yelansub_waiting\(/,/^\}/{
    s/i64 noundef %a2\)/i32 noundef %narrow)/
    s/^start:$/&\n  %a2 = zext i32 %narrow to i64/
}'
refuses "$abi" riscv64
changed 's/^(define .*@yelansub_waiting\(.*)\) /\1, i64 noundef %more) /'
refuses "$abi" aarch64
changed '/^define .*@yelansub_waiting\(/,/^\}/{
    s/i64 noundef %a1, i64 noundef %a2\)/[2 x i64] %pair)/
    s/^start:$/&\n  %a1 = extractvalue [2 x i64] %pair, 0\n  %a2 = extractvalue [2 x i64] %pair, 1/
}'
refuses "$abi" aarch64
changed 's/ byval\(\[[0-9]+ x i8\]\)//'
refuses "$abi" x86_64-kernel
changed 's/^define noundef i64 @yelansub_open\(/define noundef i64 @yelansub_begin(/'
refuses 'clang does not take the flags, or include/yelansub.h does not declare every export' aarch64
sed -i 's/uint64_t cards, uint64_t counters, uint64_t own);/uint64_t cards, uint64_t counters, uint32_t own);/' "$work/copy/include/yelansub.h"
refuses "$abi" aarch64
echo "refusals: $cases, each in a sentence and with no archive left"
