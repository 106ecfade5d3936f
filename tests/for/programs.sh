#!/bin/sh
# The library at work on one target, in user space, under qemu: tests/for/programs.sh TARGET DIR over
# the archive in DIR. The layout of the header's structs; calls.c; the examples, which must print what
# is expected of them; tests/guards.c and trace.c, which must print what they print on x86-64, over the
# archive in target/staticlib. All but the examples call every export. One program alone:
# tests/for/programs.sh TARGET DIR NAME.
set -eu
root=$(cd "$(dirname "$0")/../.." && pwd)
target=$1 dir=$2 names=${3:-calls driver resend pump convert guards trace}
work=$(mktemp -d)
trap 'rm -rf "$work"' EXIT
. "$root/tests/for/target.sh"

CC="${tools}gcc $of_target" "$root/tests/layout.sh" > /dev/null || fail "structs of another layout"
for name in $names; do
    case $name in
    calls | trace) source=$root/tests/for/$name.c ;;
    guards) source=$root/tests/guards.c ;;
    *) source=$root/examples/$name.c ;;
    esac
    case $name in
    calls) echo 'calls: every field as it should be' > "$work/due" ;;
    guards | trace) on_x86_64 "$source" > "$work/due" ;;
    *) cp "$root/examples/$name.expected" "$work/due" ;;
    esac
    case $name in
    calls | guards | trace)
        nm "$dir/libyelansub.a" | sed -n 's/.* T //p' | while read -r export; do
            grep -q -w "$export" "$source" || fail "$name does not call $export"
        done
        ;;
    esac
    compile "$source" "$dir" "$work/program"
    $emulator "$work/program" > "$work/printed" 2> "$work/said" || {
        status=$?
        tail -n 3 "$work/printed" "$work/said" >&2
        fail "$name ends with status $status"
    }
    diff "$work/due" "$work/printed" >&2 || fail "$name prints (>) what it should not"
done
echo "$target: $names as on x86-64${emulator:+, under $emulator}"
