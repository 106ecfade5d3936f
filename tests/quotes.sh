#!/bin/sh
# Every quotation in the definitions, the claims and the code stands in docs/SPECIFICATION.md. An
# experiment in a copy then shows that the check can fail.
set -eu
root=$(cd "$(dirname "$0")/.." && pwd)
quotes() {
    cargo run --release --offline --quiet --manifest-path "$root/tests/believe/Cargo.toml" --bin quotes -- "$1"
}
quotes "$root"

work=$(mktemp -d)
trap 'rm -rf "$work"' EXIT
mkdir "$work/docs"
cp -R "$root/crates" "$work/crates"
sed 's/Cards rise strictly/Cards rise/' "$root/docs/SPECIFICATION.md" > "$work/docs/SPECIFICATION.md"
if quotes "$work" > "$work/said" || ! grep -q 'does not say: Cards rise strictly' "$work/said"; then
    echo "quotes: passes over a sentence that is not there" >&2
    exit 1
fi
echo "quotes: the experiment fails as it should, on a sentence that is not there"
