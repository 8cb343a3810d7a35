#!/usr/bin/env bash
# Builds the second program, runs its own tests, shows that the stored cases tell every wrong variant apart, and holds
# its searches, groups and certificates against brute force over all plans and its answers against the laws. SEED=... repeats a run.
# The last line counts all of it: "N passed, 0 failed". Any failure ends it at once with a non-zero status.
set -euo pipefail
cd "$(dirname "$0")/.."
. tests/lib/oracle.sh
cd oracle
export CARGO_TARGET_DIR=target

program=target/release/oracle
cases=target/cases
passed=0

# Runs one check and counts it.
check() {
    if ! "$@"; then
        echo "FAILED: $*"
        exit 1
    fi
    passed=$((passed + 1))
}

# Holds the cases of a file against brute force and against the laws.
hold() {
    echo "$1:"
    check "$program" check-best <"$cases/$1"
    check "$program" check-laws <"$cases/$1"
}

own_tests() {
    own=0
    local file passed_in
    for file in tests/*.rs; do
        if ! cargo test --release --offline --quiet --test "$(basename "$file" .rs)" >"$cases/tests.txt" 2>&1; then
            cat "$cases/tests.txt"
            return 1
        fi
        passed_in=$(sed -n 's/^test result: ok\. \([0-9]*\) passed; 0 failed.*/\1/p' "$cases/tests.txt")
        [ "${passed_in:-0}" -gt 0 ] || return 1
        own=$((own + passed_in))
    done
    echo "$own tests of its own passed"
    [ "$own" -gt 0 ]
}

variants() {
    "$program" variants <"$cases/stored" | tee "$cases/variants.txt" || return 1
    caught=$(grep -c '^variant [0-9]* told apart by frame' "$cases/variants.txt")
    [ "$caught" -ge 30 ]
}

line_for_each_frame() {
    "$program" answer <"$cases/stored" >"$cases/stored.lines" || return 1
    lines=$(wc -l <"$cases/stored.lines")
    frames=$("$program" census <"$cases/stored" | awk '{ sum += $NF } END { print sum }')
    echo "$lines lines for $frames frames"
    [ "$lines" = "$frames" ]
}

cargo build --release --offline --quiet
mkdir -p "$cases"
"$program" make stored >"$cases/stored"
"$program" make small "$seed" 2000 >"$cases/small"
# Few of the cases by chance are groups on small bands that find nothing: of 5000 some 30, so that no seed is without any.
"$program" make random "$seed" 5000 >"$cases/random"

check own_tests
passed=$((passed + own - 1))
check variants
passed=$((passed + caught - 1))
check line_for_each_frame
echo "seed $seed"
for file in stored small random; do
    hold "$file"
done

echo "$passed passed, 0 failed"
