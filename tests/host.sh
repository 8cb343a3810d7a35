#!/usr/bin/env bash
# Tests the C host: the library's entries called from C with lent memory that is looked at afterwards; what they read, written again, and
# their searches and groups held against the second program's, buffers included; and lightdesk held against the program lightplan, against
# who is in the way and what is booked by bit rate by a few lines of C, against the second program's checks of plans, and its plans of
# groups against its own check of them, on stored and random files. All C is compiled with UBSan; where AddressSanitizer runs, the entries
# are called on every file under it, and lightdesk says all that it has words for. SEED=... repeats a run.
# The last line counts the runs: "N passed, 0 failed". The first difference ends it with a non-zero status.
set -euo pipefail
cd "$(dirname "$0")/.."
. tests/lib/host.sh
. tests/lib/oracle.sh
. tests/lib/desk.sh
host_library
build_program lightplan
oracle_ready

program=target/bin/lightplan
work=target/host-test
faults=$(awk '/^enum fault/ { on = 1 } on && /FAULTS/ { exit } on && /,/ { n += gsub(/,/, ",") } END { print n }' tests/host/wrong.c)
passed=0
ulimit -c 0

rm -rf "$work"
mkdir -p "$work"/{searched,checked}/{stored,random}

# ---- what is built

all_sanitizers
entries="tests/host/entries.c tests/host/lent.c tests/host/seen.c"
wrong=tests/host/wrong.c
for entry in read read_routes search groups check check_starts certify frequency version; do
    wrong="$wrong -Wl,--wrap=lightplan_$entry"
done
# shellcheck disable=SC2086
{
    compile undefined lightdesk $HOST_DESK
    compile undefined lightdesk-wrong $HOST_DESK $wrong
    compile undefined entries-wrong $entries $wrong
    compile undefined answers tests/host/answers.c tests/host/seen.c
    compile $strict lightdesk-strict $HOST_DESK
    compile $strict entries $entries
}
hosts/c/build.sh

# ---- the archive

# The nine entries are all that it offers; it has no variable of its own, and takes nothing but copying and filling from the C library.
archive() {
    local names=lightplan_certify,lightplan_check,lightplan_check_starts,lightplan_frequency,lightplan_groups,lightplan_read,lightplan_read_routes,lightplan_search,lightplan_version,
    nm "$HOST_LIBRARY" >"$work/names"
    [ "$(awk '$2 ~ /^[A-TV-Z]$/ || $2 ~ /^[vw]$/ { print $3 }' "$work/names" | sort | tr '\n' ,)" = "$names" ] || failed "the archive offers other names"
    ! awk '$2 ~ /^[bBcCdD]$/ { found = 1 } END { exit !found }' "$work/names" || failed "the archive has variables"
    ! awk '$1 == "U" && $2 !~ /^mem(cpy|set|move|cmp)$/ { found = 1 } END { exit !found }' "$work/names" || failed "the archive calls others"
    passed=$((passed + 3))
}

# The header can be read alone, by C and by C++.
header() {
    printf '#include "hosts/c/lightplan.h"\n' >"$work/header.c"
    "$X86_CC" -std=c99 -Wall -Wextra -Wpedantic -Werror -I. -fsyntax-only "$work/header.c" || failed "the header is no C"
    passed=$((passed + 1))
    command -v g++ >/dev/null || return 0
    g++ -x c++ -Wall -Wextra -Wpedantic -Werror -I. -fsyntax-only "$work/header.c" || failed "the header is no C++"
    passed=$((passed + 1))
}

archive
header

# ---- lightdesk: words, statuses, faults of use

# blocked LINES: what was printed last says this, and no more, of who is in the way
blocked() {
    [ "$(grep ' starts at ' "$work/printed" || true)" = "$1" ] || failed "others in the way: $(grep ' starts at ' "$work/printed")"
    passed=$((passed + 1))
}

# booked LINES: what was printed last says this, and no more, of circuits booked by bit rate
booked() {
    [ "$(grep ' is booked at ' "$work/printed" || true)" = "$1" ] || failed "booked otherwise: $(grep ' is booked at ' "$work/printed")"
    passed=$((passed + 1))
}

best='This is the best there is, proved: '
at_bound="${best}the plan ends at the bound, and no plan can end below it."
checked_best="${best}the plan is allowed and ends at the bound, and no plan can end below it."
by_orders="${best}the search accounted for every order of the demands, and no plan at all ends lower."
by_single_groups="${best}with a group for each demand every order of the demands was tried, and no plan at all ends lower."

by_rate='circuit 10 is booked at 10 Gbit/s: 1 slot
circuit 20 is booked at 40 Gbit/s: 1 slot
circuit 30 is booked at 100 Gbit/s: 2 slots
circuit 40 is booked at 400 Gbit/s: 8 slots
circuit 60 is booked at 1000 Gbit/s: 20 slots'

searches() {
    says 0 "$at_bound" search examples/R.request
    blocked 'circuit 20 starts at 3: circuit 30 ends there'
    says 0 "$at_bound" search examples/R.request 5
    says 0 "$at_bound" search examples/R.request 4294967295
    says 0 'Not known after 4 steps whether this is the best there is: a plan may end lower, though none below 4.' search examples/R.request 4
    begins 'unfinished end 6 bound 4 steps 4 reached 1 ruled 0'
    blocked $'circuit 20 starts at 2: circuit 10 ends there\ncircuit 30 starts at 3: circuit 20 ends there'
    says 1 'Not known after 0 steps whether anything fits: no plan was met, and orders are left to try.' search examples/R.request 0
    begins 'unfinished end 0 bound 4 steps 0 reached 0 ruled 0'
    blocked ''
    says 0 "$at_bound" search examples/blocked.request
    blocked $'circuit 20 starts at 3: circuit 10 ends at 2, guard 1\ncircuit 40 starts at 5: circuit 20 ends at 4, guard 1'
    booked ''
    says 0 "$at_bound" search examples/rates.request
    begins 'finished end 30 bound 30 steps 6 reached 1 ruled 0'
    booked "$by_rate"
    blocked "$(printf 'circuit %s, guard 1\n' '30 starts at 2: circuit 10 ends at 1' '40 starts at 5: circuit 30 ends at 4' '50 starts at 5: circuit 30 ends at 4' '60 starts at 10: circuit 50 ends at 9')"
    says 1 'Not known after 1 steps whether anything fits: no plan was met, and orders are left to try.' search examples/rates.request 1
    booked "$by_rate"
    { head -c 5 examples/rates.request; printf '\0\35'; tail -c +8 examples/rates.request; } >"$work/narrow"
    says 1 'Nothing fits, proved: the fullest link needs 30 slots, and the band has 29.' search "$work/narrow"
    booked "$by_rate"
    { head -c 64 examples/rates.request; printf '\3\347\1'; } >"$work/rate"
    says 1 "The request file is refused: a demand's bit rate is none of 10, 40, 100, 400 and 1000 Gbit/s. Place 59 is the byte, counted from 0, where that field begins." search "$work/rate"
    begins 'refused 21 59'
    booked ''
    says 0 "$by_orders" search examples/T.request 15
    says 0 'Not known after 14 steps whether this is the best there is: a plan may end lower, though none below 2.' search examples/T.request 14
    says 1 'Nothing fits, proved: the search accounted for every order of the demands, and no plan ends within 2 slots.' search examples/tight.request
    blocked ''
    says 1 "The request file is refused: a demand's route breaks, meets a node twice, or has a link that is not listed or stands in it twice. Place 31 is the byte, counted from 0, where that field begins." search examples/ring.request
    begins 'refused 7 31'
    { head -c 5 examples/R.request; printf '\0\3'; tail -c +8 examples/R.request; } >"$work/narrow"
    says 1 'Nothing fits, proved: the fullest link needs 4 slots, and the band has 3.' search "$work/narrow" 0
    says 1 'The request file is refused: it has more than the 20 demands that can be searched. Place 91 is how many it has.' search examples/nsfnet91.request
    says 1 'The request file is refused: the file ends without a band or a link. Place 0 is its length in bytes.' search /dev/null
    says 1 'The request file is refused: a field has a tag that may not stand there. Place 0 is the byte, counted from 0, where that field begins.' search examples/R.plan
    says 1 'The request file is refused: the file is too long. Place 8128 is how many bytes it may have.' search /dev/zero
    begins 'refused 20 8128'
}

# placed LINES: what was printed last says this, and no more, of the order of groups
placed() {
    [ "$(grep '^group \|^Numbers of groups ' "$work/printed" || true)" = "$1" ] || failed "groups in another order: $(grep '^group \|^Numbers ' "$work/printed")"
    passed=$((passed + 1))
}

# above SLOTS BOUND: the words for a plan of groups that ends so far above this bound
above() { echo "The bound does not tell whether this is the best there is: it ends $1 above. A plan may end lower, though none below $2."; }

in_groups() {
    local count
    says 0 "$checked_best" groups examples/R.request
    begins 'grouped end 4 bound 4 groups 2'
    placed $'group 1 is placed first: listing position 2\ngroup 0 is placed next: listing positions 0 to 1\nNumbers of groups from 1 to 3 were tried: 2 is the first that gives this end, the lowest.'
    blocked 'circuit 20 starts at 3: circuit 30 ends there'
    says 0 "$(above '2 slots' 4)" groups examples/R.request 1
    begins 'grouped end 6 bound 4 groups 1'
    placed 'group 0 is placed first: listing positions 0 to 2'
    blocked $'circuit 20 starts at 2: circuit 10 ends there\ncircuit 30 starts at 3: circuit 20 ends there'
    says 0 "$checked_best" groups examples/R.request 3
    begins 'grouped end 4 bound 4 groups 3'
    says 0 "$(above '1 slot' 2)" groups examples/T.request 2
    begins 'grouped end 3 bound 2 groups 2'
    says 0 "$by_single_groups" groups examples/T.request 3
    begins 'grouped end 3 bound 2 groups 3'
    says 0 "$by_single_groups" groups examples/T.request
    begins 'grouped end 3 bound 2 groups 1'
    says 0 "$checked_best" groups examples/rates.request 1
    booked "$by_rate"
    says 0 "$checked_best" groups examples/nsfnet91.request
    begins 'grouped end 80 bound 80 groups 3'
    placed "$(printf '%s\n' 'group 0 is placed first: listing positions 0 to 30' 'group 2 is placed next: listing positions 61 to 90' 'group 1 is placed next: listing positions 31 to 60' 'Numbers of groups from 1 to 8 were tried: 3 is the first that gives this end, the lowest.')"
    says 1 'Nothing fits, proved: with a group for each demand every order of the demands was tried, and no plan ends within 2 slots.' groups examples/tight.request
    begins 'nothing bound 2 groups 3'
    blocked ''
    placed ''
    says 1 'Not known whether anything fits: no order of 1 group gives a plan, and another order of the demands may.' groups examples/tight.request 1
    begins 'nothing bound 2 groups 1'
    says 1 'Not known whether anything fits: no order of 2 groups gives a plan, and another order of the demands may.' groups examples/tight.request 2
    says 1 'Nothing fits, proved: the fullest link needs 4 slots, and the band has 3.' groups "$work/narrow" 2
    for count in 0 4 9 4294967295; do
        says 1 "The request file is refused: it cannot be cut into so many groups: there can be 1 to 8, and no more than it has demands. Place $count is how many were asked for." groups examples/R.request $count
        begins "refused 24 $count"
    done
    head -c 18 examples/R.request >"$work/empty"
    says 1 'The request file is refused: it cannot be cut into so many groups: there can be 1 to 8, and no more than it has demands. Place 1 is how many were asked for.' groups "$work/empty"
    says 1 'The request file is refused: the file is too long. Place 8128 is how many bytes it may have.' groups /dev/zero 1
}

# The list of 150 circuits ends lower with more groups, and with 6 at its bound; the stored plan is theirs.
more_groups() {
    local count=0 end
    for end in 113 113 111 108 108; do
        count=$((count + 1))
        says 0 "$(above "$((end - 107)) slot$([ $end = 108 ] || echo s)" 107)" groups examples/nsfnet150.request $count
        begins "grouped end $end bound 107 groups $count"
    done
    says 0 "$checked_best" groups examples/nsfnet150.request 6
    begins 'grouped end 107 bound 107 groups 6'
    plan_of "$work/plan"
    cmp "$work/plan" examples/nsfnet150.plan || failed "examples/nsfnet150.plan is not the plan of 6 groups"
    says 0 "$checked_best" check examples/nsfnet150.request examples/nsfnet150.plan
    begins 'accepted end 107 bound 107'
}

checks() {
    says 0 "$checked_best" check examples/nsfnet91.request examples/nsfnet91.plan
    begins 'accepted end 80 bound 80'
    blocked ''
    printf '\4\0\4\0\24\0\2\4\0\4\0\36\0\3\4\0\4\0\12\0\0' >"$work/higher"
    says 0 'The plan is allowed. The bound does not tell whether it is the best there is: a plan may end lower, though none below 4.' check examples/R.request "$work/higher"
    begins 'accepted end 6 bound 4'
    printf '\4\0\4\0%b\0%b' '\12' '\0' '\24' '\0' '\36' '\2' '\50' '\5' '\62' '\5' '\74' '\12' >"$work/by-rate"
    says 0 "$checked_best" check examples/rates.request "$work/by-rate"
    booked "$by_rate"
    blocked ''
    says 1 'The plan is refused: a demand clashes with an earlier one: they share a link, and the guard does not part them. Place 2 is its listing position, counted from 0.' check examples/R.request examples/R-clash.plan
    says 1 'The plan is refused: a demand of the request has no row. Place 0 is its listing position, counted from 0.' check examples/R.request /dev/null
    says 1 'The plan is refused: a row has an ident that no demand of the request has. Place 0 is the byte, counted from 0, where that field begins.' check examples/T.request examples/R.plan
    says 1 'The plan is refused: the file is too long. Place 1400 is how many bytes it may have.' check examples/R.request /dev/zero
    says 1 'The request file is refused: the file is too long. Place 8128 is how many bytes it may have.' check /dev/zero examples/R.plan
}

# Files on standard input, and what is not to be read or written.
streams() {
    says 0 "$at_bound" search - <examples/R.request
    says 0 "$checked_best" groups - <examples/R.request
    says 0 "$checked_best" check - examples/R.plan <examples/R.request
    says 0 "$checked_best" check examples/R.request - <examples/R.plan
    misuse check - - </dev/null
    misuse search "$work/none"
    misuse groups "$work/none"
    misuse search "$work"
    misuse check examples/R.request "$work/none"
    misuse check "$work/none" examples/R.plan
    misuse check examples/R.request "$work"
    local words status
    for words in --help 'search examples/R.request' 'groups examples/R.request' 'check examples/nsfnet91.request examples/nsfnet91.plan' 'search /dev/null'; do
        # shellcheck disable=SC2086
        status=0
        strict_run "$work/lightdesk-strict" $words >/dev/full 2>"$work/said" || status=$?
        [ $status = 2 ] || failed "status $status where the disk is full: lightdesk $words"
        grep -q '^lightdesk: standard output: ' "$work/said" || failed "no word about a full disk: lightdesk $words"
        passed=$((passed + 1))
    done
}

uses() {
    local limit
    says 0 'found, or a file was refused; 2 wrong usage, or a file cannot be read or written.' --help
    misuse
    misuse --version
    misuse search
    misuse check examples/R.request
    misuse --help more
    misuse check examples/R.request examples/R.plan more
    misuse search examples/R.request 5 more
    misuse groups
    misuse groups examples/R.request 2 more
    for limit in '' ' ' -1 +1 ' 1' '1 ' 1x 0x10 1e3 1.0 4294967296 99999999999999999999 18446744073709551617; do
        misuse search examples/R.request "$limit"
        misuse groups examples/R.request "$limit"
    done
}

searches
in_groups
more_groups
checks
streams
uses

# ---- lightdesk held against the two other programs

# The status and the beginning of the words that belong to a first line.
words_for() {
    case $1 in
    'accepted '*) echo '0 T' ;;
    'finished '*) echo '0 This is the best there is, proved: ' ;;
    'nofit '*) echo '1 Nothing fits, proved: ' ;;
    'unfinished end 0 '*) echo '1 Not known after 1000000 steps whether anything fits: ' ;;
    'unfinished '*) echo '0 Not known after 1000000 steps whether this is the best there is: ' ;;
    'refused '*) echo '1 The ' ;;
    *) echo '2 ' ;;
    esac
}

# same EXPECTED ARGUMENT..: lightdesk prints these lines and one more in words, and its status belongs to them
same() {
    local expected=$1 status=0 first last
    shift
    x86_run "$work/lightdesk" "$@" >"$work/printed" || status=$?
    head -n -1 "$work/printed" | cmp - "$expected" || failed "lightdesk $*"
    read -r first <"$expected"
    last=$(tail -n 1 "$work/printed")
    [[ "$status $last" == "$(words_for "$first")"* ]] || failed "status $status and other words: lightdesk $*: $last"
    passed=$((passed + 1))
}

echo "seed $seed"
"$oracle" make stored >"$work/stored"
"$oracle" make random "$seed" 500 >"$work/random"
for frames in stored random; do
    "$oracle" requests "$work/searched/$frames" <"$work/$frames" >/dev/null
    "$oracle" plans "$work/checked/$frames" <"$work/$frames" >/dev/null
done

# found FILE: the lines that a search of the file prints, but for the last: the program's, and what is booked by bit rate and who is in the
# way by a few lines of C
found() {
    x86_run "$program" <"$1"
    x86_run "$work/answers" words "$1"
}

# checked FILE: the lines that the check of the plan beside the file prints, but for the last: the second program's, and what is booked by
# bit rate where the plan is accepted
checked() {
    cat "${1%.request}.lines"
    ! grep -q '^accepted ' "${1%.request}.lines" || x86_run "$work/answers" rates "$1"
}

for file in examples/*.request "$work"/searched/*/*.request; do
    found "$file" >"$work/expected"
    same "$work/expected" search "$file"
done
echo "as the program, and as who is in the way: $passed so far"
for file in "$work"/checked/*/*.request; do
    checked "$file" >"$work/expected"
    same "$work/expected" check "$file" "${file%.request}.plan"
done
echo "as the second program's checks: $passed so far"

# each_alone FILE [GROUPS]: whether, of the plan of groups in `expected`, a group for each demand was tried: as many groups as there are rows
each_alone() {
    local rows
    rows=$(grep -c '^[0-9]' "$work/expected")
    [ "$rows" = "${2:-$rows}" ] && [ "$rows" -le 8 ]
}

# as_checked FILE [GROUPS]: where groups have a plan, the check accepts it and prints the same, but for who is in the way and the order of
# the groups; and it is called the best there is exactly where the check does so, or where a group for each demand was tried, which the
# check cannot know
as_checked() {
    local status=0 words
    x86_run "$work/lightdesk" groups "$@" >"$work/printed" || status=$?
    [ $status -le 1 ] || failed "status $status: lightdesk groups $*"
    [ $status = 0 ] || return 0
    plan_of "$work/plan"
    sed -e '1s/^grouped \(.*\) groups .*/accepted \1/' -e '/ starts at /d' -e '/^group /d' -e '/^Numbers of groups /d' "$work/printed" >"$work/expected"
    x86_run "$work/lightdesk" check "$1" "$work/plan" >"$work/printed" || failed "a plan that is not allowed: lightdesk groups $*"
    [ "$(head -n -1 "$work/printed")" = "$(head -n -1 "$work/expected")" ] || failed "unlike the check: lightdesk groups $*"
    words=$(grep "^$best" "$work/printed" || true)
    [ -n "$words" ] || ! each_alone "$@" || words=$by_single_groups
    [ "$(grep 'best there is, proved' "$work/expected")" = "$words" ] || failed "the best otherwise than the check: lightdesk groups $*"
    passed=$((passed + 1))
}

plans=$passed
for file in examples/*.request "$work"/searched/random/*.request; do
    as_checked "$file"
done
for file in "$work"/searched/stored/*.request; do
    as_checked "$file" 3
done
[ $((passed - plans)) -gt 100 ] || failed "too few plans of groups"
echo "plans of groups as checked: $((passed - plans))"

# ---- every entry, with lent memory

strict_run "$work/entries" examples/*.request "$work"/*/*/*.request | tee "$work/counted" || failed "the entries"
files=$(sed -n 's/^\([0-9]*\) files, .*/\1/p' "$work/counted")
passed=$((passed + files))

# The second program reads the same files alike, as they are written again from what is told; and answers the same searches and groups
# alike, with the same entries in every buffer: short, just enough and longer.
x86_run "$work/answers" frames examples/*.request "$work"/searched/*/*.request >"$work/frames"
x86_run "$work/answers" lines examples/*.request "$work"/searched/*/*.request >"$work/lines"
"$oracle" answer <"$work/frames" | cmp - "$work/lines" || failed "readings, searches or groups unlike the second program's"
lines=$(wc -l <"$work/lines")
passed=$((passed + lines))
echo "$lines readings, searches and groups as the second program's"

# The walks in C answer as the proved search does, and the stack that the header names is enough.
bench/run "$seed" 5000 5 >"$work/bench" 2>&1 || { cat "$work/bench"; failed "bench/run"; }
passed=$((passed + 1))

# ---- a library that answers wrongly is noticed

# unlike FAULT EXPECTED ARGUMENT..: lightdesk over a library with this fault does not print these lines and one more
unlike() {
    local fault=$1 expected=$2
    shift 2
    WRONG=$fault x86_run "$work/lightdesk-wrong" "$@" >"$work/printed" || true
    ! head -n -1 "$work/printed" | cmp -s - "$expected" || failed "lightdesk does not show fault $fault of tests/host/wrong.c"
    passed=$((passed + 1))
}

# Each fault by itself, by the test of the entries; without a fault nothing is noticed.
WRONG=0 x86_run "$work/entries-wrong" examples/*.request >"$work/said" || failed "the entries behind a wrapper"
for ((fault = 1; fault <= faults; fault++)); do
    ! WRONG=$fault x86_run "$work/entries-wrong" examples/*.request >"$work/said" 2>&1 || failed "fault $fault of tests/host/wrong.c goes unnoticed"
    passed=$((passed + 1))
done
echo "$faults wrong libraries noticed by the entries' test"

# And by the comparison of what is printed: the faults of reading and searching, of who is in the way, of bit rates, of groups, of places,
# of checks.
found examples/R.request >"$work/R"
for fault in 2 3 8 9 10 11 12 29 30 43 44 46; do
    unlike $fault "$work/R" search examples/R.request
done
found examples/blocked.request >"$work/blocked"
unlike 45 "$work/blocked" search examples/blocked.request
found examples/rates.request >"$work/rates"
for fault in 51 52 53; do
    unlike $fault "$work/rates" search examples/rates.request
done
x86_run "$work/lightdesk" groups examples/R.request 2 | head -n -1 >"$work/grouped"
for fault in 57 58 59 60 61 62 69; do
    unlike $fault "$work/grouped" groups examples/R.request 2
done
printf 'refused 1 35\n' >"$work/refused"
head -c 42 examples/R.request >"$work/cut"
same "$work/refused" search "$work/cut"
unlike 7 "$work/refused" search "$work/cut"
printf 'refused 18 2\n' >"$work/refused"
unlike 19 "$work/refused" check examples/R.request examples/R-clash.plan
unlike 25 "$work/refused" check examples/R.request examples/R-clash.plan
# A refused plan told as a refused request, and a library of another version, show in lightdesk's words.
WRONG=40 x86_run "$work/lightdesk-wrong" check examples/R.request examples/R-clash.plan >"$work/printed" || true
grep -q '^The request file is refused: ' "$work/printed" || failed "lightdesk does not say which file is refused"
status=0
WRONG=42 x86_run "$work/lightdesk-wrong" search examples/R.request >"$work/printed" 2>"$work/said" || status=$?
[ $status = 2 ] && [ ! -s "$work/printed" ] && [ -s "$work/said" ] || failed "lightdesk runs on a library of another version"
passed=$((passed + 2))
{ echo 'accepted end 4 bound 4'; sed 1d "$work/R" | grep -v '^circuit '; } >"$work/accepted"
same "$work/accepted" check examples/R.request examples/R.plan
for fault in 20 21 22; do
    unlike $fault "$work/accepted" check examples/R.request examples/R.plan
done

echo "$passed passed, 0 failed"
