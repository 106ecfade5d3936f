#!/bin/sh
# scripts/test with stubs in place of rt and of the tests: for every way in which a part can end,
# its status and its last line.
set -eu
root=$(cd "$(dirname "$0")/.." && pwd)
work=$(mktemp -d)
trap 'rm -rf "$work"' EXIT
mkdir "$work/bin" "$work/scripts" "$work/tests"
cp "$root/scripts/test" "$work/scripts/test"

# Each stub notes its call and then does what the case asks for.
cat > "$work/bin/rt" <<'END'
#!/bin/sh
echo "rt $*" >> "$work/calls"
[ "$*" = ci ] || exit 2
echo "a crate"; echo "an edit"; eval "$ci"
END
cat > "$work/scripts/build" <<'END'
#!/bin/sh
echo "scripts/build" >> "$work/calls"
eval "$build"
END
cat > "$work/tests/run.sh" <<'END'
#!/bin/sh
echo "tests/run.sh" >> "$work/calls"
eval "$tests"
END
chmod +x "$work/bin/rt" "$work/scripts/build" "$work/tests/run.sh"
export work ci build tests

pass='12 passed, 0 failed'
ok='rt: ok; handles allowed: none; must-fail edits: 3 refused; every proof and must-fail edit was done in this run'
passes="echo '$ok' >&2; echo '$pass'"
cases=0

# Runs the script on the stubs as they are set; then sets them to pass again.
run() {
    : > "$work/calls"
    status=0
    PATH="$work/bin:$PATH" "$work/scripts/test" > "$work/printed" 2>&1 || status=$?
    last=$(tail -n 1 "$work/printed")
    cases=$((cases + 1))
    ci=$passes build=: tests='echo "all passed"'
}

wrong() {
    cat "$work/printed"
    echo "gate: $1: status $status, last line '$last'" >&2
    exit 1
}

fails() {
    run
    if [ "$status" -eq 0 ] || [ "$last" != "scripts/test: FAILED, status $status" ]; then wrong "$1"; fi
    # The line of a pass is nowhere but where rt ci itself failed after it.
    if [ "${2:-}" != closing-shown ] && grep -qx "$pass" "$work/printed"; then wrong "$1"; fi
}

ci=$passes build=: tests='echo "all passed"'
run
if [ "$status" -ne 0 ] || [ "$last" != "$pass" ]; then wrong "all pass"; fi
printf '%s\n' 'rt ci' scripts/build tests/run.sh | diff - "$work/calls"
printf '%s\n' 'a crate' 'an edit' "$ok" 'all passed' "$pass" | diff - "$work/printed"

# What rt ci prints is there while it runs.
ci="n=0; until grep -qx 'a crate' '$work/printed'; do n=\$((n + 1)); [ \$n -lt 200 ] || exit 1; sleep 0.05; done; $passes"
run
[ "$status" -eq 0 ] || wrong "rt ci's lines come late"

ci='echo "11 passed, 1 failed"; exit 1'; fails "rt ci fails"
ci="$passes; exit 1"; fails "rt ci fails after all" closing-shown
ci='kill -9 $$'; fails "rt ci is killed"
ci="$passes; kill -9 \$\$"; fails "rt ci is killed at its end" closing-shown
ci='printf "half a line"; kill -9 $$'; fails "rt ci is killed in a line"
grep -q 'half a line' "$work/printed"
ci=:; fails "rt ci has no closing line"
ci="echo '$ok'; echo '11 passed, 1 failed'"; fails "rt ci counts a failure"
ci="echo '$ok'; echo '0 passed, 0 failed'"; fails "rt ci proves nothing"
ci="echo '$pass'"; fails "rt ci does not say ok" closing-shown
ci="echo '$ok' | sed 's/refused/refused, 1 bad/'; echo '$pass'"; fails "an edit is bad" closing-shown
build='exit 1'; fails "no archive"
tests='exit 1'; fails "a test fails"
tests='echo "all passed"; kill -9 $$'; fails "the tests are killed"
echo "gate: $cases ways to end"
