#!/usr/bin/env bash
# Tests the finder and `lightdesk settle`. On small requests by chance whatever is called the best is the lowest end of all plans, by brute
# force, and damaged certificates are accepted exactly where they are certificates, by all sets of circuits (tests/host/settled.c). Then
# the command: its words, its statuses, interrupts, faults of use and of the finder. SEED=... repeats a run.
# The last line counts the runs: "N passed, 0 failed". The first difference ends it with a non-zero status.
set -euo pipefail
cd "$(dirname "$0")/.."

# Where interrupts are ignored, as behind nohup, all that is started ignores them too, and no shell takes that back.
if [ -z "${INTERRUPTS_HEARD-}" ]; then
    INTERRUPTS_HEARD=yes exec env --default-signal=INT bash tests/settle.sh
fi

. tests/lib/host.sh
. tests/lib/oracle.sh
. tests/lib/desk.sh
host_library

work=target/settle-test
requests=10000
faults=$(awk '/^enum fault/ { on = 1 } on && /FAULTS/ { exit } on && /,/ { n++ } END { print n }' tests/host/settled_wrong.c)
passed=0
ulimit -c 0
rm -rf "$work"
mkdir -p "$work"

all_sanitizers
settled="tests/host/settled.c tests/host/brute.c $HOST_FINDER"
wrong="tests/host/settled_wrong.c -Wl,--wrap=lightplan_certify -Wl,--wrap=find"
# shellcheck disable=SC2086
{
    compile undefined settled $settled
    compile undefined settled-wrong $settled $wrong
    compile undefined lightdesk $HOST_DESK
    compile undefined lightdesk-wrong $HOST_DESK $wrong
    compile $strict lightdesk-strict $HOST_DESK
}

# ---- the command

# byte NUMBER: it as printf takes it
byte() { printf '\\0%o' "$1"; }

# cycle FILE GUARD WIDTH ..: a request of circuits of these widths, on as many links in a cycle one way, each over two that follow
cycle() {
    local file=$1 guard=$2 k count
    shift 2
    count=$#
    {
        printf '\1\0\5\0\0\0\144%b' "$(byte "$guard")"
        for ((k = 0; k < count; k++)); do
            printf '\2\0\2%b%b' "$(byte $k)" "$(byte $(((k + 1) % count)))"
        done
        for ((k = 0; k < count; k++)); do
            printf '\3\0\6\0%b\0%b%b%b' "$(byte $((k + 1)))" "$(byte "$1")" "$(byte $k)" "$(byte $(((k + 1) % count)))"
            shift
        done
    } >"$file"
}

# apart FROM FILE: a file of five such links with one link more, and two circuits of 1 slot over that one
apart() { { head -c 33 "$1"; printf '\2\0\2\0\5'; tail -c +34 "$1"; printf '\3\0\5\0\6\0\1\5\3\0\5\0\7\0\1\5'; } >"$2"; }

# proves LINES: what was printed last says this, and no more, of the circuits that prove it
proves() {
    [ "$(grep '^Th.* circuit\|^Circuits' "$work/printed" || true)" = "$1" ] || failed "other circuits: $(grep '^Th.* circuit\|^Circuits' "$work/printed")"
    passed=$((passed + 1))
}

# best END, between LOW END: the last line
best() { echo "This is the best there is, proved: the plan is allowed and ends at $1, and no plan at all ends lower."; }
between() { echo "Not known whether this is the best there is: the plan is allowed and ends at $2. A plan may end lower, though none below $1."; }
no_three='Circuits of which no two share a link weigh at most 2 together, and so do those that hold any one slot'

words() {
    says 0 "$(best 4)" settle examples/R.request
    begins 'settled end 4 low 4 bound 4'
    proves 'These 2 circuits share links two by two and need 4 slots: 20, 30'
    says 0 "$(best 3)" settle examples/T.request 10
    begins 'settled end 3 low 3 bound 2'
    proves 'These 3 circuits share links two by two and need 3 slots: 1, 2, 3'
    says 0 "$(best 30)" settle examples/rates.request
    proves 'These 4 circuits share links two by two and need 30 slots, the guards between them included: 20, 30, 50, 60'
    [ "$(grep -c ' is booked at ' "$work/printed")" = 5 ] || failed "booked otherwise"
    says 0 "$(best 80)" settle examples/nsfnet91.request
    says 0 "$(best 107)" settle examples/nsfnet150.request 86400
    says 0 "$(best 107)" settle - <examples/nsfnet150.request
    cycle "$work/five" 0 1 1 1 1 1
    says 0 "$(best 3)" settle "$work/five"
    begins 'settled end 3 low 3 bound 2'
    proves "These circuits weigh 1: 1, 2, 3, 4, 5
$no_three. The slots of each circuit, as often as it weighs, are 5; half of them, rounded up, are 3, and no plan ends lower."
    apart "$work/five" "$work/seven"
    head -c -8 "$work/seven" >"$work/six"
    says 0 "$(best 3)" settle "$work/six"
    proves "These circuits weigh 1: 1, 2, 3, 4, 5
The other circuit weighs nothing.
$no_three. The slots of each circuit, as often as it weighs, are 5; half of them, rounded up, are 3, and no plan ends lower."
    says 0 "$(best 3)" settle "$work/seven"
    proves "These circuits weigh 1: 1, 2, 3, 4, 5
The other circuits weigh nothing.
$no_three. The slots of each circuit, as often as it weighs, are 5; half of them, rounded up, are 3, and no plan ends lower."
    cycle "$work/five" 1 2 2 1 2 1
    says 0 "$(best 6)" settle "$work/five"
    begins 'settled end 6 low 6 bound 5'
    proves "These circuits weigh 1: 1, 2, 3, 4, 5
$no_three or have it in the guard behind them. The slots of each circuit, with a guard behind them, as often as it weighs, are 13; half of them, rounded up and without the last guard, are 6, and no plan ends lower."
}

# begin FILE COMMAND ..: starts lightdesk settle by this command, in a process group of its own, which is in $group, on a pipe; returns when
# the pipe is open, and the file is what came through it. Ctrl-C is an interrupt to such a group.
begin() {
    local file=$1
    shift
    rm -f "$work/pipe"
    mkfifo "$work/pipe"
    set -m
    "$@" settle "$work/pipe" 120 >"$work/printed" 2>"$work/said" &
    group=$!
    set +m
    exec {pipe}>"$work/pipe"
    cat "$file" >&"$pipe"
}

# interrupt STATUS: a second later interrupts the group, which soon ends with this status; one that goes on is killed
interrupt() {
    local status=0 killer
    sleep 1
    kill -INT -- "-$group"
    { sleep 60 && kill -KILL -- "-$group"; } >/dev/null 2>&1 &
    killer=$!
    wait "$group" || status=$?
    kill "$killer" || true
    [ $status = "$1" ] && [ ! -s "$work/said" ] || failed "status $status after an interrupt: $(cat "$work/said")"
    passed=$((passed + 1))
}

# An interrupt ends the search, and what is known then is told; while the file is being read it ends the program.
interrupts() {
    local way pipe group
    hosts/c/build.sh
    for way in 'x86_run '"$work/lightdesk" ./lightdesk.sh; do
        # shellcheck disable=SC2086
        begin "$work/seven" $way
        exec {pipe}>&-
        interrupt 0
        begins 'unsettled end 6 low 4 bound 4'
        [ "$(tail -n 1 "$work/printed")" = "$(between 4 6)" ] || failed "other words after an interrupt"
        passed=$((passed + 1))
        # shellcheck disable=SC2086
        begin /dev/null $way
        interrupt 130
        exec {pipe}>&-
        [ ! -s "$work/printed" ] || failed "printed though the file was never read: $(cat "$work/printed")"
        passed=$((passed + 1))
    done
}

# Seven circuits on a cycle end at 6 at best, and no certificate of weights up to 2 says more than 4.
unsettled() {
    cycle "$work/seven" 0 2 2 2 2 2 2 2
    says 0 "$(between 4 6)" settle "$work/seven" 1
    begins 'unsettled end 6 low 4 bound 4'
    says 0 "$(between 4 6)" settle "$work/seven" 0
}

# misled FAULT STATUS FIRST LAST: over a finder with this fault of tests/host/settled_wrong.c lightdesk ends with this status, and these are
# its first and its last line
misled() {
    local status=0 fault
    fault=$(awk -v name="$1" '/^enum fault/ { on = 1 } on && /,/ { n++ } on && $1 ~ "^" name "," { print n }' tests/host/settled_wrong.c)
    WRONG=$fault x86_run "$work/lightdesk-wrong" settle examples/R.request 1 >"$work/printed" || status=$?
    [ $status = "$2" ] || failed "status $status over a finder with the fault $1"
    begins "$3"
    [ "$(tail -n 1 "$work/printed")" = "$4" ] || failed "other words over a finder with the fault $1: $(tail -n 1 "$work/printed")"
    passed=$((passed + 1))
}

# Weights that are no certificate do not cost the plan.
misleading() {
    misled NO_CERTIFICATE 0 'unsettled end 4 low 0 bound 4' "$(between 0 4)"
    proves ''
    misled NO_PLAN 1 'refused 18 1' 'The plan is refused: a demand clashes with an earlier one: they share a link, and the guard does not part them. Place 1 is its listing position, counted from 0.'
    misled REFUSES_REQUESTS 1 'refused 7 9' "The request file is refused: a demand's route breaks, meets a node twice, or has a link that is not listed or stands in it twice. Place 9 is the byte, counted from 0, where that field begins."
}

without_plan() {
    says 1 'No plan was found. That does not say that there is none; if there is one, it does not end below 2.' settle examples/tight.request
    begins 'nothing bound 2'
    { head -c 5 examples/R.request; printf '\0\3'; tail -c +8 examples/R.request; } >"$work/narrow"
    says 1 'Nothing fits, proved: the fullest link needs 4 slots, and the band has 3.' settle "$work/narrow"
    begins 'nothing bound 4'
    head -c 18 examples/R.request >"$work/empty"
    says 0 "$(best 0)" settle "$work/empty" 0
    begins 'settled end 0 low 0 bound 0'
    proves ''
    says 1 'The request file is refused: a field has a tag that may not stand there. Place 0 is the byte, counted from 0, where that field begins.' settle examples/R.plan
    begins 'refused 2 0'
    says 1 'The request file is refused: the file is too long. Place 8128 is how many bytes it may have.' settle /dev/zero 5
}

uses() {
    local seconds
    misuse settle
    misuse settle "$work/none"
    misuse settle "$work"
    misuse settle examples/R.request 5 more
    local status=0
    strict_run "$work/lightdesk-strict" settle examples/R.request >/dev/full 2>"$work/said" || status=$?
    [ $status = 2 ] && grep -q '^lightdesk: standard output: ' "$work/said" || failed "status $status where the disk is full"
    passed=$((passed + 1))
    for seconds in '' ' ' -1 +1 1x 0x10 1.0 86401 4294967296 18446744073709551617; do
        misuse settle examples/R.request "$seconds"
    done
}

words
unsettled
interrupts
without_plan
misleading
uses

# A plan that is settled is accepted by the check, with the same end.
for file in examples/R.request examples/rates.request examples/nsfnet150.request "$work/five" "$work/seven"; do
    end=$(strict_run "$work/lightdesk-strict" settle "$file" 1 | tee "$work/printed" | sed -n '1s/^[a-z]* end \([0-9]*\) .*/\1/p')
    plan_of "$work/plan"
    strict_run "$work/lightdesk-strict" check "$file" "$work/plan" >"$work/checked" || failed "a plan that is not allowed: lightdesk settle $file"
    grep -q "^accepted end $end bound " "$work/checked" || failed "another end: lightdesk settle $file"
    passed=$((passed + 1))
done

# ---- against brute force

echo "seed $seed"
x86_run "$work/settled" "$seed" $requests || failed "unlike brute force"
passed=$((passed + requests))

# Each fault by itself is noticed; without a fault nothing is.
WRONG=0 x86_run "$work/settled-wrong" 3 1000 >"$work/said" || failed "brute force behind a wrapper"
for ((fault = 1; fault <= faults; fault++)); do
    ! WRONG=$fault x86_run "$work/settled-wrong" 3 1000 >"$work/said" 2>&1 || failed "fault $fault of tests/host/settled_wrong.c goes unnoticed"
    ! grep -q 'too few' "$work/said" || failed "fault $fault of tests/host/settled_wrong.c is noticed by counts alone"
    passed=$((passed + 1))
done
echo "$faults wrong libraries noticed"

echo "$passed passed, 0 failed"
