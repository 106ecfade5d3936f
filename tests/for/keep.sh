#!/bin/sh
# The module that `rt lib` compiles, for what is tried on changed ones: tests/for/keep.sh FILE. FILE.options is
# what LLVM is told beside it.
set -eu
root=$(cd "$(dirname "$0")/../.." && pwd)
module=$1
work=$(mktemp -d)
trap 'rm -rf "$work"' EXIT
. "$root/tests/for/replay.sh"
# build-for has the kit as links, with a clang in front that puts both beside it; here that kit gets its rt again.
lib='cp "$real/bin/rt" "${0%/*}/kit-rt" && (cd "$root/crates/yelansub_c" && "${0%/*}/kit-rt" lib) &&
    cp "${0%/*}/../../module.bc" "$module" && cp "${0%/*}/../../options" "$module.options"'
export root
build_for riscv64
