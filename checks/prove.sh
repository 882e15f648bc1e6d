#!/bin/sh
# prove.sh COMMAND CRATE: rt COMMAND in a crate's folder, told as it goes: a line
# for each crate that is checked. All that the prover said follows only where rt
# fails. A program that `rt run` has built and starts reads nothing here.
set -u
cd "$(dirname "$0")/.."

out=$(pwd)/target/checks
mkdir -p "$out"
echo "rt $1 in crates/$2: a line for each crate as it is checked, some minutes in a clean clone"
{
    (cd "crates/$2" && rt "$1" </dev/null 2>&1)
    echo $? >"$out/rt.status"
} | tee "$out/rt.said" | while IFS= read -r line; do
    case $line in
    "crate "*": modules "*) printf 'rt: %s\n' "${line%%:*}" ;;
    esac
done

status=$(cat "$out/rt.status")
[ "$status" -eq 0 ] || cat "$out/rt.said"
exit "$status"
