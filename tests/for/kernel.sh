#!/bin/sh
# The library in a Linux kernel: tests/for/kernel.sh TARGET DIR KERNEL [MAKE-WORD...] builds
# examples/kernel and the test module (calls.c and trace.c) over the archive in DIR, by kbuild and modpost
# against the headers of one of Debian's kernels in target/for/debian, which must say nothing, and loads
# both in that kernel under qemu-system. The example must print examples/kernel/expected; calls.c and
# trace.c what they print on x86-64, over the archive in target/staticlib. KERNEL is stable or backports.
set -eu
root=$(cd "$(dirname "$0")/../.." && pwd)
target=$1 dir=$(cd "$2" && pwd) kernel=$3
shift 3
work=$(mktemp -d)
trap 'rm -rf "$work"' EXIT
. "$root/tests/for/target.sh"
case $target in
x86_64-kernel)
    # Without cmpxchg16b: with it Linux 6.12 panics now and then under qemu 7.2, module or none.
    debian=$root/target/for/debian/$kernel/amd64 console=ttyS0
    machine='qemu-system-x86_64 -cpu qemu64,-cx16 -vga none'
    ;;
aarch64-kernel)
    debian=$root/target/for/debian/$kernel/arm64 console=ttyAMA0
    machine='qemu-system-aarch64 -M virt -cpu max,pauth-impdef=on'
    ;;
*) fail "no kernel" ;;
esac

# The example as it is, and the test module by the same Kbuild but for its name and its sources.
mkdir -p "$work/example/src/module" "$work/test/src/module" "$work/machine"
cp "$root/examples/kernel/Kbuild" "$root/examples/kernel/main.c" "$work/example/src/module"
sed -e 's/yelansub_example/yelansub_test/' -e 's/main\.o/module.o calls.o trace.o/' "$root/examples/kernel/Kbuild" \
    > "$work/test/src/module/Kbuild"
cp "$root/tests/for/module.c" "$root/tests/for/calls.c" "$root/tests/for/trace.c" "$root/tests/for/program.h" \
    "$work/test/src/module"
for name in example test; do
    cp -R "$root/include" "$work/$name/include"
    make -s -C "$debian/headers" M="$work/$name/src/module" YELANSUB="$dir/libyelansub.a" CROSS_COMPILE="$tools" "$@" \
        modules > "$work/said" 2>&1 || { cat "$work/said" >&2 && fail "the $name module is not built"; }
    # The headers are without vmlinux here, of which kbuild would make the kernel's own debugging format.
    if grep -v '^Skipping BTF generation for ' "$work/said" >&2; then fail "kbuild warns of the $name module"; fi
    "${tools}strip" -g -o "$work/machine/$name.ko" "$work/$name/src/module/yelansub_$name.ko"
done
"${tools}gcc" -O2 -Wall -Wextra -Werror -static "$root/tests/for/init.c" -o "$work/machine/init"
(cd "$work/machine" && find . | cpio -o -H newc --quiet > "$work/initramfs")
timeout 300 $machine -accel tcg -m 512 -nographic -nic none -no-reboot -kernel "$debian/vmlinuz" -initrd "$work/initramfs" \
    -append "console=$console panic=-1 quiet" < /dev/null > "$work/console" 2>&1 || true
tr -d '\r' < "$work/console" > "$work/printed"
ended() {
    tail -n 30 "$work/printed" >&2
    fail "$*"
}
grep -q -x 'end of the log' "$work/printed" || ended "the machine stops before its end"
for name in example test; do
    for what in loaded unloaded; do
        grep -q -E "(^|[^a-z_])yelansub_$name: $what\$" "$work/printed" || ended "yelansub_$name is not $what"
    done
done
# Lines of the kernel's log, without level and time.
sed -n '/^log:$/,$s/^<[0-9]*>\[[ .0-9]*\] //p' "$work/printed" > "$work/log"
if grep -E 'WARNING:|BUG:|Oops|protection fault|Call [Tt]race' "$work/log" >&2; then ended "the kernel complains"; fi
grep '^yelansub_example: card' "$work/log" > "$work/example.log" || true
diff "$root/examples/kernel/expected" "$work/example.log" >&2 || ended "the example prints (>) what it should not"
for name in calls trace; do
    due=$(on_x86_64 "$root/tests/for/$name.c")
    grep -q -x -F "$due" "$work/log" || ended "$name does not say: $due"
done
# On x86-64 objtool has listed every return for the kernel to patch, those of the library too.
if [ "$target" = x86_64-kernel ]; then
    listed=$(readelf -rW "$work/example/src/module/yelansub_example.ko" | awk '/^Relocation section/ { section = $3 }
        section ~ /text/ && /__x86_return_thunk/ { returns++ }
        section ~ /return_sites/ && /R_X86_64/ { sites++ }
        END { print returns + 0, sites + 0 }')
    [ "${listed% *}" -gt 20 ] && [ "${listed% *}" = "${listed#* }" ] || fail "objtool has not listed the returns: $listed"
fi
echo "$target: the example and the test module in $(sed -n 's/^Linux version \([^ ]*\) .*/Linux \1/p' "$work/log"), under ${machine%% *}"
