#!/bin/sh
# Every check of tests/for on an archive, or a file beside it, with one thing wrong that it is there to
# find: each must fail, and say what it should. tests/for/broken.sh MODULE, where MODULE is one that
# tests/for/keep.sh has kept, over the sound archives in target/for.
set -eu
root=$(cd "$(dirname "$0")/../.." && pwd)
module=$1
work=$(mktemp -d)
trap 'rm -rf "$work"' EXIT
. "$root/tests/for/replay.sh"
built=$root/target/for
cases=0

# finds SENTENCE COMMAND...: which must fail with that sentence.
finds() {
    sentence=$1
    shift
    if "$@" > "$work/said" 2>&1 || ! grep -q -e "$sentence" "$work/said"; then
        cat "$work/said" >&2
        echo "broken: $* does not find: $sentence" >&2
        exit 1
    fi
    cases=$((cases + 1))
}
archive() { finds "$1" "$root/tests/for/archive.sh" "$2" "$work/dir"; }
program() { finds "$1" "$root/tests/for/programs.sh" "$2" "$work/dir" "$3"; }
kernel() {
    sentence=$1
    shift
    finds "$sentence" "$root/tests/for/kernel.sh" "$@"
}

tools_of() { case $1 in aarch64*) echo aarch64-linux-gnu- ;; riscv64) echo riscv64-linux-gnu- ;; esac; }

# An archive in $work/dir: unpacked into $work/objects, changed there, and packed again.
unpacked() {
    rm -rf "$work/dir" "$work/objects"
    mkdir "$work/dir" "$work/objects"
    (cd "$work/objects" && ar x "$1")
}
packed() { (cd "$work/objects" && ar rcs "$work/dir/libyelansub.a" ./*.o); }
# changed TARGET OBJCOPY-FLAG...
changed() {
    target=$1
    shift
    unpacked "$built/$target/libyelansub.a"
    "$(tools_of "$target")objcopy" "$@" "$work/objects"/*.o
    packed
}
# exchanged TARGET EXPORT EXPORT
exchanged() {
    changed "$1" --redefine-sym "$2=other" --redefine-sym "$3=$2"
    "$(tools_of "$1")objcopy" --redefine-sym "other=$3" "$work/objects"/*.o
    packed
}
# with_more TARGET TEXT: with an object more, of that assembly.
with_more() {
    unpacked "$built/$1/libyelansub.a"
    big=''
    [ "$1" != aarch64_be ] || big=-mbig-endian
    printf '%b\n.section .note.GNU-stack\n' "$2" | "$(tools_of "$1")gcc" $big -c -x assembler - -o "$work/objects/more.o"
    packed
}

# Symbols.
changed x86_64-kernel --redefine-sym memset=no_such_symbol
archive 'needs from the host: no_such_symbol' x86_64-kernel
kernel 'no_such_symbol.* undefined' x86_64-kernel "$work/dir" stable
changed riscv64 --localize-symbol=yelansub_take
archive 'exports (>) differ' riscv64
changed aarch64 --redefine-sym yelansub_take=yelansub_take_it
archive 'exports (>) differ' aarch64

# Relocations: a pointer that only a loader can fill in.
for target in x86_64-kernel aarch64-kernel aarch64 aarch64_be riscv64; do
    with_more "$target" '.data\nhere: .8byte here'
archive 'relocations: R_' "$target"
done

# Registers and memory that are not a module's.
with_more x86_64-kernel 'movups %xmm0, (%rax)'
archive 'vector registers' x86_64-kernel
with_more x86_64-kernel 'fld1'
archive 'vector registers' x86_64-kernel
with_more x86_64-kernel 'mov %rax, -8(%rsp)'
archive 'below the stack pointer' x86_64-kernel
with_more x86_64-kernel 'call *%rax'
archive 'indirect jumps' x86_64-kernel
with_more aarch64-kernel 'str q0, [x0]'
archive 'vector registers' aarch64-kernel
with_more aarch64-kernel 'fmov d1, x1'
archive 'vector registers' aarch64-kernel
with_more aarch64-kernel 'mov x0, x18'
archive 'x18' aarch64-kernel
with_more aarch64-kernel 'blr x1'
archive 'indirect jumps' aarch64-kernel

# A copy of the project's files, in which one is changed: copied FILE SED-COMMAND
project=$work/project
copied() {
    rm -rf "$project"
    mkdir "$project"
    cp -R "$root/tests" "$root/include" "$root/examples" "$project"
    ln -s "$root/target" "$project/target"
    sed -i "$2" "$project/$1"
    if cmp -s "$root/$1" "$project/$1"; then
        echo "broken: nothing is changed in $1" >&2
        exit 1
    fi
}
copied examples/kernel/README.md 's/^| `yelansub_take` |.*/| `yelansub_take` | 470 | 430 |/'
for target in x86_64-kernel aarch64-kernel; do
    finds 'another stack' "$project/tests/for/archive.sh" "$target" "$built/$target"
done
copied include/yelansub.h 's/uint64_t holders; /uint32_t holders; /'
for target in x86_64-kernel aarch64 aarch64_be riscv64; do
    finds 'another layout' "$project/tests/for/programs.sh" "$target" "$built/$target" calls
done
copied examples/kernel/expected 's/2 drops, holders 1/3 drops, holders 1/'
finds 'the example prints (>) what it should not' "$project/tests/for/kernel.sh" aarch64-kernel "$built/aarch64-kernel" stable
copied examples/kernel/main.c 's/^\treturn open(0)/\tWARN_ON(1);\n&/'
finds 'the kernel complains' "$project/tests/for/kernel.sh" aarch64-kernel "$built/aarch64-kernel" stable

# Exports as the module has them, which is x86-64's way and not AArch64's: every program finds it.
sed -i -e 's/^as_c=.*/as_c=/' -e '/^grep -q . byval(/d' -e 's/^diff .*/true ||/' "$work/copy/scripts/build-for"
build_for aarch64 > "$work/said" 2>&1 || { cat "$work/said" >&2 && exit 1; }
rm -rf "$work/dir"
cp -R "$work/copy/target/for/aarch64" "$work/dir"
for name in calls driver resend pump convert guards trace; do
    program "$name ends with status\|$name prints" aarch64 "$name"
done
# Enums' tags as the module has them, where their first byte is the highest.
cp "$root/scripts/build-for" "$work/copy/scripts/build-for"
sed -i -e '/^if grep -q .*datalayout/,/^fi$/d' "$work/copy/scripts/build-for"
build_for aarch64_be > "$work/said" 2>&1 || { cat "$work/said" >&2 && exit 1; }
rm -rf "$work/dir"
cp -R "$work/copy/target/for/aarch64_be" "$work/dir"
for name in calls pump guards trace; do
    program "$name ends with status\|$name prints" aarch64_be "$name"
done
# Two exports exchanged: of the programs that call them, every one finds it.
exchanged riscv64 yelansub_to_version_1 yelansub_to_version_2
for name in calls convert guards trace; do
    program "$name ends with status\|$name prints" riscv64 "$name"
done

exchanged x86_64-kernel yelansub_to_version_1 yelansub_to_version_2
finds 'test result: FAILED' "$root/tests/for/reference.sh" "$work/dir"

# A library that counts one less at the most, which calls.c does not try and trace.c does.
cp "$root/scripts/build-for" "$work/copy/scripts/build-for"
"$clang" --no-default-config -Xclang -disable-llvm-passes -S -emit-llvm -x ir "$module" -o "$work/whole.ll"
sed 's/ i64 65535)/ i64 65534)/' "$work/whole.ll" > "$work/less.bc"
if cmp -s "$work/whole.ll" "$work/less.bc"; then
    echo "broken: nothing is changed in the module" >&2
    exit 1
fi
whole=$module module=$work/less.bc
build_for aarch64-kernel > "$work/said" 2>&1 || { cat "$work/said" >&2 && exit 1; }
module=$whole
rm -rf "$work/dir"
cp -R "$work/copy/target/for/aarch64-kernel" "$work/dir"
program 'trace ends with status\|trace prints' aarch64-kernel trace
kernel 'trace does not say' aarch64-kernel "$work/dir" stable

# An export that no program calls.
changed aarch64 --add-symbol yelansub_more=.text:0,global,function
for name in calls guards trace; do
    program "$name does not call yelansub_more" aarch64 "$name"
done

# The user archive in a module: by its object's name, by its registers, by objtool, and, where none of
# these looks, by what it does on x86-64: an interrupt writes where it keeps numbers, and some call goes
# wrong. On arm64 it does no harm that a load shows.
kernel 'an archive for user space must not go into a module' x86_64-kernel "$root/target/staticlib" stable
kernel 'an archive for user space must not go into a module' aarch64-kernel "$built/aarch64" stable
unpacked "$built/aarch64/libyelansub.a"
mv "$work/objects"/*.o "$work/objects/yelansub-kernel.o"
packed
archive 'relocations: R_' aarch64-kernel
unpacked "$root/target/staticlib/libyelansub.a"
mv "$work/objects"/*.o "$work/objects/yelansub-kernel.o"
packed
archive 'vector registers' x86_64-kernel
kernel 'objtool' x86_64-kernel "$work/dir" stable
kernel 'stops before its end\|is not loaded\|complains\|should not' x86_64-kernel "$work/dir" stable OBJECT_FILES_NON_STANDARD=y
# A sound object that objtool has not seen, and one built without the flags of the kernel's configuration.
kernel 'objtool has not listed' x86_64-kernel "$built/x86_64-kernel" stable OBJECT_FILES_NON_STANDARD=y
build_for x86_64-kernel > "$work/said" 2>&1 || { cat "$work/said" >&2 && exit 1; }
kernel 'naked' x86_64-kernel "$work/copy/target/for/x86_64-kernel" stable
kernel 'naked' x86_64-kernel "$work/copy/target/for/x86_64-kernel" backports
# Two exports exchanged, in a kernel.
exchanged aarch64-kernel yelansub_run yelansub_run_records
kernel 'yelansub_test is not loaded' aarch64-kernel "$work/dir" stable
echo "broken: $cases faults, each found"
