#!/usr/bin/env bash
# Runs the program on request files: some made here with the lines they must give, the examples, and the second program's stored
# and random ones. Every byte printed is compared. Input that cannot be read and output that is lost are told, and lightplan.sh ends with
# the status that belongs to the answer. SEED=... repeats a run.
# The last line counts the runs: "N passed, 0 failed". The first difference ends it with a non-zero status.
set -euo pipefail
cd "$(dirname "$0")/.."
. tests/lib/x86.sh
. tests/lib/build.sh
. tests/lib/oracle.sh
. tests/lib/streams.sh
x86_ready
build_program lightplan
oracle_ready

program=target/bin/lightplan
work=target/lightplan-test
passed=0

rm -rf "$work"
mkdir -p "$work/stored" "$work/random"

fail() {
    echo "FAILED: $*, seed $seed"
    exit 1
}

# Compares what was printed with what was expected.
same() {
    cmp "$2" "$3" || fail "$1; printed: $(cat "$3")"
    passed=$((passed + 1))
}

# expect NAME LINE..: the program prints these lines for the file NAME, and the second program agrees.
expect() {
    local name=$1
    shift
    printf '%s\n' "$@" >"$work/expected"
    x86_run "$program" <"$work/$name" >"$work/printed"
    same "$name" "$work/expected" "$work/printed"
    agree "$work/$name"
}

# agree FILE: the two programs print the same.
agree() {
    "$oracle" lightplan <"$1" >"$work/expected"
    x86_run "$program" <"$1" >"$work/printed"
    same "$1" "$work/expected" "$work/printed"
}

# Bytes given as numbers.
bytes() {
    local byte
    for byte; do
        printf "\\x$(printf %x "$byte")"
    done
}

# band SLOTS GUARD, with the lower edge -284
band() { bytes 1 0 5 254 228 $(($1 / 256)) $(($1 % 256)) "$2"; }

# link FROM TO
link() { bytes 2 0 2 "$1" "$2"; }

# demand IDENT WIDTH LINK..
demand() {
    local ident=$1 width=$2
    shift 2
    bytes 3 0 $(($# + 4)) $((ident / 256)) $((ident % 256)) $((width / 256)) $((width % 256)) "$@"
}

# R: three demands on two links. worked SLOTS
worked() {
    band "$1" 0
    link 0 1
    link 1 2
    demand 10 2 0
    demand 20 1 0 1
    demand 30 3 1
}

# alike COUNT: so many demands of width 1 on one link
alike() {
    local k
    band 384 0
    link 0 1
    for ((k = 0; k < $1; k++)); do
        demand $((65535 - k)) 1 0
    done
}

# Round a ring of 64 links, 200 demands of 32 links each: as large as a request gets.
largest() {
    local k
    band 384 8
    for ((k = 0; k < 64; k++)); do
        link $k $(((k + 1) % 64))
    done
    for ((k = 0; k < 200; k++)); do
        demand $k 384 $(seq $((k % 33)) $((k % 33 + 31)))
    done
}

# Round a triangle of three links, 20 demands of which each shares a link with each other: no end meets the bound. triangle SLOTS
triangle() {
    local k
    band "$1" 0
    link 0 1
    link 1 2
    link 2 0
    for ((k = 0; k < 20; k++)); do
        demand $k 1 $((k % 3)) $(((k + 1) % 3))
    done
}

# Links round a triangle, one straight back and one on from where it closes; a demand on the first link, and one on these. around LINK..
around() {
    band 384 0
    link 0 1
    link 1 2
    link 2 0
    link 1 0
    link 0 3
    demand 1 1 0
    demand 2 1 "$@"
}

worked 384 >"$work/R"
expect R 'finished end 4 bound 4 steps 5 reached 2 ruled 0' '10 0 2 -282 191337500' '20 3 4 -277 191368750' '30 0 3 -281 191343750'
worked 3 >"$work/narrow"
expect narrow 'nofit end 0 bound 4 steps 0 reached 0 ruled 6'
: >"$work/empty"
expect empty 'refused 2 0'
band 384 0 >"$work/no-link"
expect no-link 'refused 2 8'
alike 0 >"$work/none"
expect none 'finished end 0 bound 0 steps 0 reached 1 ruled 0'
alike 1 >"$work/one"
expect one 'finished end 1 bound 1 steps 1 reached 1 ruled 0' '65535 0 1 -283 191331250'
alike 21 >"$work/twenty-one"
expect twenty-one 'refused 11 21'
around 0 1 >"$work/path"
expect path 'finished end 2 bound 2 steps 2 reached 1 ruled 0' '1 0 1 -283 191331250' '2 1 2 -281 191343750'
around 1 2 4 >"$work/through-a-start"
expect through-a-start 'finished end 1 bound 1 steps 2 reached 1 ruled 0' '1 0 1 -283 191331250' '2 0 1 -283 191331250'
around 0 1 2 >"$work/ring"
expect ring 'refused 7 41'
around 0 3 >"$work/back"
expect back 'refused 7 41'
around 0 1 2 4 >"$work/through-its-start"
expect through-its-start 'refused 7 41'
largest >"$work/largest"
expect largest 'refused 11 200'
{ largest; bytes 0; } >"$work/one-byte-more"
expect one-byte-more 'refused 20 8128'
cat "$work"/largest{,}{,}{,}{,} >"$work/many-times"
expect many-times 'refused 20 8128'
alike 20 >"$work/twenty"
agree "$work/twenty"
triangle 384 >"$work/triangle"
agree "$work/triangle"
[[ "$(head -n 1 "$work/printed")" == 'unfinished end 20 '* ]] || fail "triangle was not left unfinished"
triangle 19 >"$work/tight"
agree "$work/tight"
[[ "$(cat "$work/printed")" =~ ^'unfinished end 0 bound 14 steps 1000000 '[^$'\n']*$ ]] || fail "tight was not left without a plan"

# Input that comes in pieces is read to its end.
for name in R largest many-times; do
    "$oracle" lightplan <"$work/$name" >"$work/expected"
    { head -c 20 "$work/$name"; sleep 0.1; tail -c +21 "$work/$name" | head -c 5000; sleep 0.1; tail -c +5021 "$work/$name"; } |
        { x86_run "$program" >"$work/printed" && cat >/dev/null; } || fail "the program ended with status $? on $name in pieces"
    same "$name in pieces" "$work/expected" "$work/printed"
done

for file in examples/*.request; do
    agree "$file"
done

# ---- what cannot be read or written

# R's last circuit is a field of 8 bytes; without it the other two are a request as well.
streams_ready "$program" "$work"
streams_input "$work/R" 8

# lost NAME STATUS COMMAND ..: the command ends with this status and says one line about standard output on standard error
lost() {
    local name=$1 status=0
    "${@:3}" 2>"$work/said" || status=$?
    [ $status = "$2" ] || fail "$name: status $status"
    [ "$(wc -l <"$work/said")" = 1 ] || fail "$name: not one line on standard error: $(cat "$work/said")"
    grep -q '^lightplan: standard output: ' "$work/said" || fail "$name: other words: $(cat "$work/said")"
    passed=$((passed + 1))
}

full() { "$@" >/dev/full; }
closed() { "$@" >&-; }
unread() { { sleep 0.2; "$@"; } | true; }
lost "a full device" 0 full x86_run "$program" <"$work/R"
lost "a closed output" 0 closed x86_run "$program" <"$work/R"
lost "a full device, by the script" 2 full ./lightplan.sh "$work/R"
lost "a closed output, by the script" 2 closed ./lightplan.sh "$work/R"
lost "a pipe that nobody reads, by the script" 2 unread ./lightplan.sh "$work/R"
lost "help to a full device" 2 full ./lightplan.sh --help

# ---- the script

# script STATUS NAME ARGUMENT ..: the script ends with this status and prints what the program prints for the file NAME; nothing is built
script() {
    local status=0
    x86_run "$program" <"$work/$2" >"$work/expected"
    ./lightplan.sh "${@:3}" >"$work/printed" 2>"$work/said" || status=$?
    [ $status = "$1" ] || fail "status $status: lightplan.sh ${*:3}"
    [ ! -s "$work/said" ] || fail "lightplan.sh ${*:3} says: $(cat "$work/said")"
    same "lightplan.sh ${*:3}" "$work/expected" "$work/printed"
}

for name in R none one twenty triangle; do
    script 0 "$name" "$work/$name"
done
for name in narrow tight empty twenty-one one-byte-more; do
    script 1 "$name" "$work/$name"
done
script 0 R - <"$work/R"
script 1 narrow /dev/stdin <"$work/narrow"
script 0 R "$work/R" <&-

# says STATUS WORDS ARGUMENT ..: the script ends with this status, and says these words on standard error and nothing else
says() {
    local status=0
    ./lightplan.sh "${@:3}" >"$work/printed" 2>"$work/said" || status=$?
    [ $status = "$1" ] || fail "status $status: lightplan.sh ${*:3}"
    [ "$(cat "$work/said")" = "$2" ] || fail "lightplan.sh ${*:3} says: $(cat "$work/said")"
    [ ! -s "$work/printed" ] || fail "lightplan.sh ${*:3} prints: $(head -n 1 "$work/printed")"
    passed=$((passed + 1))
}

usage=$'usage: ./lightplan.sh REQUEST\nusage: ./lightplan.sh --help'
says 2 "$usage"
says 2 "$usage" "$work/R" "$work/R"
says 2 "$usage" --helper
says 2 "lightplan: $work/missing: there is no such file" "$work/missing"
says 2 "lightplan: $work: that is a directory, not a file" "$work"
says 2 "lightplan: standard input: it is closed" - <&-
says 2 "lightplan: standard input: Is a directory" - <"$work"
./lightplan.sh --help >"$work/printed" || fail "no help"
grep -q '^Exit status: 0 ' "$work/printed" || fail "other help"
passed=$((passed + 1))

# By a link, from another folder.
ln -s "$PWD/lightplan.sh" "$work/plan"
x86_run "$program" <"$work/R" >"$work/expected"
(cd "$work" && ./plan R) >"$work/printed" || fail "the script by a link: status $?"
same "the script by a link" "$work/expected" "$work/printed"

# ---- the second program's requests, each beside the lines expected

echo "seed $seed"
"$oracle" make stored | "$oracle" requests "$work/stored" >/dev/null
"$oracle" make random "$seed" 2000 | "$oracle" requests "$work/random" >/dev/null
for file in "$work"/{stored,random}/*.request; do
    x86_run "$program" <"$file" >"$work/printed"
    same "$file" "${file%.request}.lines" "$work/printed"
done

echo "$passed passed, 0 failed"
