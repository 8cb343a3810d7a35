#!/usr/bin/env bash
# Makes every call of the library through the program `replay` and compares each line with the second program's: the stored cases,
# the longest frames, cases by chance, searches, groups and certificates on small bands, and streams that are malformed. The ends on small
# bands are also held against brute force over all plans. Input that cannot be read is told, and not answered. SEED=... repeats a run,
# CASES=... sets how many cases come by chance.
# The last line counts the lines and streams: "N passed, 0 failed". The first difference ends it with a non-zero status.
set -euo pipefail
cd "$(dirname "$0")/.."
. tests/lib/x86.sh
. tests/lib/build.sh
. tests/lib/oracle.sh
. tests/lib/streams.sh
x86_ready
build_program replay
oracle_ready

program=target/bin/replay
work=target/replay-test
cases=${CASES:-40000}
small=4000
streams=400
passed=0

rm -rf "$work"
mkdir -p "$work/streams"

fail() {
    echo "FAILED: $1, seed $seed"
    exit 1
}

# replay NAME: what the program prints for the frames NAME. It ends with status 0, malformed frames or not.
replay() {
    local status=0
    x86_run "$program" <"$work/$1.frames" >"$work/$1.printed" || status=$?
    [ $status = 0 ] || fail "$1: the program ended with status $status"
}

# agree NAME WORD..: the program's lines for the frames that `oracle make WORD..` makes are the second program's.
agree() {
    local name=$1
    shift
    "$oracle" make "$@" >"$work/$name.frames"
    replay "$name"
    echo "$name:"
    "$oracle" compare "$work/$name.printed" <"$work/$name.frames" || fail "$name"
    passed=$((passed + $(wc -l <"$work/$name.printed")))
}

# refuses NAME WORD..: the command does not let the lines in `changed` pass for those of the frames NAME.
refuses() {
    local name=$1
    shift
    if "$oracle" "$@" "$work/changed" <"$work/$name.frames" >"$work/noticed"; then
        fail "a changed answer was not noticed by $*"
    fi
    passed=$((passed + 1))
}

# The stored cases and lines are those that the second program makes today, so that the two cannot drift apart.
agree stored stored
cmp "$work/stored.frames" crates/replay/stdin || fail "crates/replay/stdin is not what the second program makes"
cmp "$work/stored.printed" crates/replay/stdout || fail "crates/replay/stdout is not what the second program answers"
passed=$((passed + 2))

# Input that comes in pieces is read to its end.
{ head -c 3 crates/replay/stdin; sleep 0.1; head -c 9003 crates/replay/stdin | tail -c +4; sleep 0.1; tail -c +9004 crates/replay/stdin; } |
    x86_run "$program" >"$work/pieces" || fail "the stored cases in pieces"
cmp "$work/pieces" crates/replay/stdout || fail "the stored cases in pieces"
passed=$((passed + 1))

# One frame, of 5 bytes and the file of R; without its last 8 bytes it is cut short.
{ printf '\1\0\0\0\53'; cat examples/R.request; } >"$work/frame"
streams_ready "$program" "$work"
streams_input "$work/frame" 8

echo "seed $seed"
agree longest longest
agree random random "$seed" "$cases"
agree small small "$seed" "$small"
"$oracle" check-best "$work/small.printed" <"$work/small.frames" || fail "not the best end"
passed=$((passed + small))

# Every call is among the cases by chance, answered and refused.
"$oracle" census <"$work/random.frames" >"$work/census"
for op in 01 02 03 04 05 06 07 08 09 0A 0B 0C 21; do
    grep -q "^$op refused" "$work/census" && grep "^$op " "$work/census" | grep -qv refused || fail "call $op is not among the cases"
done
# Every call with a request gets one with bit rates, answered and refused, and refuses one for its rate.
for op in 01 02 03 04 05 06 07 08 09 0C 21; do
    grep "^$op .* by rate [0-9]*$" "$work/census" >"$work/rates" || fail "call $op is not among the cases with rates"
    grep -q "^$op refused 21 " "$work/rates" && grep -q "^$op refused  9 " "$work/rates" && grep -qv refused "$work/rates" ||
        fail "call $op is not among the cases with rates"
done
# Groups are found and not found, and refused for their number.
for words in grouped nothing 'refused 24'; do
    grep -q "^0C $words [0-9]*$" "$work/census" || fail "call 0C is not among the cases with '$words'"
done
# Plans are called best and not, and certificates refused.
for words in best atleast 'refused 30'; do
    grep -q "^21 $words [0-9]*$" "$work/census" || fail "call 21 is not among the cases with '$words'"
done
# Call 20 refuses nothing: it finds a start or none, and names a blocker or none.
for words in at 'at none' nowhere 'nowhere none'; do
    grep -q "^20 $words [0-9]*$" "$work/census" || fail "call 20 is not among the cases with '$words'"
done

# Each stream is a run of its own, as the program ends behind a malformed frame.
"$oracle" streams "$work/streams" "$seed" "$streams" >"$work/count"
malformed=0
for file in "$work"/streams/*.frames; do
    name=streams/$(basename "$file" .frames)
    replay "$name"
    if ! cmp -s "$work/$name.printed" "$work/$name.lines"; then
        "$oracle" compare "$work/$name.printed" <"$file" || true
        fail "$name"
    fi
    [ "$(tail -n 1 "$work/$name.printed")" != malformed ] || malformed=$((malformed + 1))
    passed=$((passed + 1))
done
echo "$(cat "$work/count") streams, $malformed of them malformed"

# The comparisons can fail: a digit changed, a line missing, a line too many, the last one cut short; an end one too high, an end
# where nothing fits, an end of groups one too high, a best plan one too high.
middle=$((cases / 2))
awk -v at=$middle 'NR == at { sub(/.$/, /0$/ ? "1" : "0") } { print }' "$work/random.printed" >"$work/changed"
refuses random compare
grep -q "^frame $middle: [0-9A-F]*$" "$work/noticed" && grep -q ', 1 different$' "$work/noticed" || fail "the changed line was not shown"
sed "${middle}d" "$work/random.printed" >"$work/changed"
refuses random compare
{ cat "$work/random.printed"; echo malformed; } >"$work/changed"
refuses random compare
head -c -1 "$work/random.printed" >"$work/changed"
refuses random compare
awk '!done && /^finished/ { $3 += 1; done = 1 } { print }' "$work/small.printed" >"$work/changed"
refuses small check-best
awk '!done && /^nofit/ { $1 = "finished"; done = 1 } { print }' "$work/small.printed" >"$work/changed"
refuses small check-best
awk '!done && /^grouped/ { $2 += 1; done = 1 } { print }' "$work/small.printed" >"$work/changed"
refuses small check-best
awk '!done && /^best/ { $2 += 1; done = 1 } { print }' "$work/small.printed" >"$work/changed"
refuses small check-best

echo "$passed passed, 0 failed"
