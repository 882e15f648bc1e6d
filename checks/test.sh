#!/bin/sh
# All of make test. rt ci comes first, on the tree as it stands, and what it has
# proved serves the checks in Rust and C behind it. Its verdict, the last line
# that it prints, is printed again at the end, where all of it has passed.
set -eu
cd "$(dirname "$0")/.."

said=$(mktemp -d)
trap 'rm -rf "$said"' EXIT

{
    status=0
    rt ci 2>&1 || status=$?
    echo "$status" >"$said/status"
} | tee "$said/out"
[ "$(cat "$said/status")" -eq 0 ]

# A bad must-fail edit shows nothing, and fails nothing in rt ci itself.
if ! grep -q '^rt: ok' "$said/out" || grep '^rt: ok' "$said/out" | grep -qE ', [1-9][0-9]* bad'; then
    echo "failed: rt ci has no line 'rt: ok' that counts no must-fail edit as bad"
    exit 1
fi
sh checks/run.sh
tail -n 1 "$said/out"
