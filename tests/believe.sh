#!/bin/sh
# What there is to believe. Follows the names from the contracts of the calls and from the claims
# through the definitions, prints how many lines that is, and fails if a definition among them
# stands in a file that says LAWS, or if a name means nothing that is known. Two experiments in a
# copy of crates/ then show that it can fail.
#     tests/believe.sh --print      the text to believe, everything behind what it mentions
#     tests/believe.sh --library    the names of the toolchain's libraries that it mentions
set -eu
root=$(cd "$(dirname "$0")/.." && pwd)
believe() {
    cargo run --release --offline --quiet --manifest-path "$root/tests/believe/Cargo.toml" --bin believe -- "$@"
}
if [ $# -gt 0 ]; then
    believe "$root" "$@"
    exit
fi

status=0
believe "$root" || status=1

work=$(mktemp -d)
trap 'rm -rf "$work"' EXIT
cp -R "$root/crates" "$work/crates"
ledger=crates/protocol/specs/Ledger.antt
# On the copy it must fail, and say why.
must_say() {
    if believe "$work" > "$work/said" || ! grep -q "^$ledger:[0-9]*: $1" "$work/said"; then
        echo "believe: passes over $2" >&2
        exit 1
    fi
    echo "believe: the experiment fails as it should, on $2"
}
sed '1s/DEFINITIONS/LAWS/' "$root/$ledger" > "$work/$ledger"
must_say '.* is to be believed, and its file says LAWS' 'a ledger in a LAWS file'
# A line more of the file's last definition.
(cat "$root/$ledger" && echo '    no_such_name') > "$work/$ledger"
must_say '`no_such_name` is nothing that is known here' 'a name that means nothing'
exit $status
