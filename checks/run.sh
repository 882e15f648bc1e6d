#!/bin/sh
# The evidence beside the proofs: holds the papers to the tree, builds the
# archives, looks at what they export and need, runs the C programs and the log
# program on every sample log, and holds the archives against the documents'
# rules over fractions. Few lines where all is well; otherwise what failed, and
# another exit status than 0.
set -eu
cd "$(dirname "$0")/.."

out=$(pwd)/target/checks
mkdir -p "$out"

# Runs a command whose output matters only if it fails.
quiet() {
    if ! "$@" >"$out/log" 2>&1; then
        cat "$out/log"
        echo "failed: $*"
        exit 1
    fi
}

# What the papers count and list is what the tree has.
quiet sh checks/papers

sh checks/prove.sh lib tie_rod_c
sh checks/prove.sh lib section_c
sh checks/prove.sh lib grade_c
runs=crates/tie_rod_c/out/libtie_rod_c.a
sections=crates/section_c/out/libsection_c.a
gradings=crates/grade_c/out/libgrade_c.a
archives="$runs $sections $gradings"

# What the archives export is what the header declares: its functions, but the
# static ones, which are compiled where they are included.
sed -n '/^static/d; s/^[A-Za-z][A-Za-z0-9_ *]*[ *]\(tie_rod_[a-z0-9_]*\)(.*/\1/p' include/tie_rod.h | sort >"$out/declared"
nm -g --defined-only $archives | sed -n 's/^[0-9a-f][0-9a-f]* [A-Za-z] //p' | sort >"$out/exported"
if ! diff "$out/declared" "$out/exported" >"$out/log"; then
    echo "failed: the functions of include/tie_rod.h (<) aren't what the archives export (>):"
    cat "$out/log"
    exit 1
fi

# What the archives' members need and none of them exports.
nm -u $archives | sed -n 's/^ *[A-Za-z] //p' | sort -u >"$out/needed"
others=$(comm -23 "$out/needed" "$out/exported" | grep -vxE 'memcpy|memmove|memset|memcmp' || true)
if [ -n "$others" ]; then
    echo "failed: the archives need more than memcpy, memmove, memset and memcmp:"
    echo "$others"
    exit 1
fi
# Those of sections and of gradings need nothing at all.
own=$(nm -u "$sections" "$gradings" | sed -n 's/^ *[A-Za-z] //p' | sort -u)
if [ -n "$own" ]; then
    echo "failed: the archives of sections and of gradings need something of C, and needed nothing:"
    echo "$own"
    exit 1
fi

compile="${CC:-cc} -O2 -Wall -Wextra -Werror -Iinclude"
for name in firmware solver; do
    quiet $compile -std=c99 -pedantic -o "$out/$name" "examples/$name.c" "$runs"
    "$out/$name" >"$out/$name.stdout"
    quiet diff "examples/$name.stdout" "$out/$name.stdout"
done
quiet $compile -std=c99 -pedantic -o "$out/grade" examples/grade.c "$gradings" "$runs"
"$out/grade" >"$out/grade.stdout"
quiet diff examples/grade.stdout "$out/grade.stdout"
quiet $compile -std=c11 -pedantic -o "$out/plate" examples/plate.c $archives
"$out/plate" >"$out/plate.stdout"
quiet diff examples/plate.stdout "$out/plate.stdout"
quiet $compile -o "$out/stack" checks/stack.c $archives
quiet "$out/stack"
cat "$out/log"

# The log program on every sample, and, within 32 MiB, on input that doesn't end.
sh checks/prove.sh run walk_log
program=crates/walk_log/out/walk_log
logs=0
for log in examples/*.log examples/logs/*.log; do
    "$program" <"$log" >"$out/text"
    quiet diff "${log%.log}.txt" "$out/text"
    logs=$((logs + 1))
done
(head -c 57 examples/third_row.log && cat /dev/zero) 2>"$out/log" |
    (ulimit -v 32768 && timeout 20 "$program") >"$out/text"
printf 'pair stress plastic tangent yielded branch\nrefused 7 at 0\n' >"$out/expected"
quiet diff "$out/expected" "$out/text"
echo "walk_log: $logs logs print as stored; endless input is refused"

start=$(date +%s)
CARGO_TARGET_DIR=target/cargo
export CARGO_TARGET_DIR
quiet cargo test --offline --release --color never --manifest-path checks/Cargo.toml

# As many tests passed, by cargo's own summaries, as stand in the files: none
# was left out, whatever the features and targets are.
passed=$(awk '/^test result: ok\. / { sum += $4 } END { print sum + 0 }' "$out/log")
written=$(cat checks/src/*.rs checks/src/bin/*.rs checks/tests/*.rs | grep -c '^ *#\[test\]$' || true)
if [ "$passed" -eq 0 ] || [ "$passed" -ne "$written" ]; then
    cat "$out/log"
    echo "failed: $passed Rust tests passed, and checks/ has $written"
    exit 1
fi
echo "checks: $passed tests passed in $(($(date +%s) - start)) s; firmware, solver, plate and grade print as stored; the archives export the header's functions and need only mem*"
