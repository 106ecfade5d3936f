# How the tests of one target are compiled and run. Sourced with $root, $work and $target set.
case $target in
x86_64-kernel) tools='' emulator='' ;;
aarch64 | aarch64-kernel) tools=aarch64-linux-gnu- emulator=qemu-aarch64 ;;
aarch64_be) tools=aarch64-linux-gnu- emulator=qemu-aarch64_be ;;
riscv64) tools=riscv64-linux-gnu- emulator=qemu-riscv64 ;;
*)
    echo "no tests for $target" >&2
    exit 2
    ;;
esac

fail() {
    echo "$target: $*" >&2
    exit 1
}

# Debian has no C library for aarch64_be: headers are AArch64's, and libc.c is what the tests need of one.
if [ "$target" = aarch64_be ]; then
    mkdir -p "$work/be/gnu"
    : > "$work/be/gnu/stubs-lp64_be.h"
    of_target="-mbig-endian -I$work/be -fno-builtin -fno-stack-protector -nostdlib"
    with="$root/tests/for/libc.c"
else
    of_target='' with=''
fi
# What a kernel gives an archive that was built with -mfunction-return=thunk-extern.
if [ "$target" = x86_64-kernel ]; then
    printf '.globl __x86_return_thunk\n__x86_return_thunk: ret\n.section .note.GNU-stack\n' > "$work/thunk.s"
    with="$work/thunk.s"
fi

# compile SOURCE DIR PROGRAM: over the archive in DIR.
compile() {
    "${tools}gcc" -std=gnu11 -O2 -Wall -Wextra -Werror -static $of_target -I"$root/include" "$1" $with -L"$2" -lyelansub \
        -o "$3"
}
# on_x86_64 SOURCE: what it prints on the machine itself, over the archive for user space.
on_x86_64() {
    gcc -std=gnu11 -O2 -Wall -Wextra -Werror -I"$root/include" "$1" -L"$root/target/staticlib" -lyelansub -o "$work/native"
    "$work/native"
}
