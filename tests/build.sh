#!/usr/bin/env bash
# Tests how the scripts build, in copies of the repository and with tests/build/rt in the place of rt: what answers without building, what
# the first run says, two first runs at once, what is made anew and what not, and that no script and no test runs an old program beside
# a source that is refused.
# The last line counts the runs: "N passed, 0 failed". The first difference ends it with a non-zero status.
set -euo pipefail
cd "$(dirname "$0")/.."
. tests/lib/host.sh
host_library
build_program lightplan
build_program replay

# outside the repository, in which `rt ci` reads each source
work=$(mktemp -d)
trap 'rm -rf "$work"' EXIT
copy=$work/copy
passed=0
REAL=$(command -v rt)
export REAL FAKE=$work/fake
mkdir -p "$copy" "$FAKE/bin"
cp tests/build/rt "$FAKE/bin/"
cp target/bin/lightplan "$HOST_LIBRARY" "$FAKE/"
PATH=$FAKE/bin:$PATH

fail() {
    echo "FAILED: $*"
    exit 1
}

pass() { passed=$((passed + 1)); }

# bare: a copy of the repository in which nothing was built, and rt not called yet
bare() {
    rm -rf "$copy" "$FAKE"/{calls,refuse,said,busy}
    mkdir "$copy"
    tar -c --exclude=./target --exclude=./oracle/target --exclude=./.git --exclude='./crates/*/out' . | tar -x -C "$copy"
    touch "$FAKE/calls" "$FAKE/said"
}

# run STATUS COMMAND ..: in the copy the command ends with this status; what it prints and says is kept
run() {
    local status=0
    (cd "$copy" && "${@:2}") >"$work/printed" 2>"$FAKE/said" </dev/null || status=$?
    [ $status = "$1" ] || fail "status $status: ${*:2}: $(cat "$FAKE/said")"
}

# called TIMES: so often rt was called to prove since this was last asked, and had nothing to complain of
called() {
    [ "$(grep -cE '^(run|lib) ' "$FAKE/calls")" = "$1" ] || fail "rt was called: $(cat "$FAKE/calls")"
    [ "$(wc -l <"$FAKE/calls")" = "$1" ] || fail "rt complains: $(cat "$FAKE/calls")"
    : >"$FAKE/calls"
}

# ---- what builds nothing

# at_once STATUS COMMAND ..: answers with this status, on one of the two outputs, and leaves the copy as it was
at_once() {
    run "$@"
    called 0
    [ ! -e "$copy/target" ] && [ -z "$(find "$copy"/crates/*/out 2>/dev/null)" ] || fail "something was built by: ${*:2}"
    if [ "$1" = 0 ]; then [ -s "$work/printed" ]; else [ ! -s "$work/printed" ] && [ -s "$FAKE/said" ]; fi || fail "no word from: ${*:2}"
    pass
}

bare
for script in ./lightplan.sh ./lightdesk.sh; do
    at_once 0 $script --help
    at_once 2 $script
    at_once 2 $script --helper
done
for file in missing crates; do
    at_once 2 ./lightplan.sh $file
    at_once 2 ./lightdesk.sh search $file
    at_once 2 ./lightdesk.sh groups $file
    at_once 2 ./lightdesk.sh settle $file
    at_once 2 ./lightdesk.sh check examples/R.request $file
done
at_once 2 ./lightplan.sh examples/R.request examples/T.request
at_once 2 ./lightdesk.sh search examples/R.request ten
at_once 2 ./lightdesk.sh groups examples/R.request ten
at_once 2 ./lightdesk.sh settle examples/R.request ten
at_once 2 ./lightdesk.sh check - -
at_once 2 ./lightdesk.sh show examples/R.request

# ---- first runs

x86_run target/bin/lightplan <examples/R.request >"$work/expected"

# answered NAME: what was printed begins with the answer
answered() {
    head -n "$(wc -l <"$work/expected")" "$work/printed" | cmp - "$work/expected" || fail "$1"
    pass
}

# The first run says what it does before it does it; the second run says nothing.
run 0 ./lightplan.sh examples/R.request
called 1
answered "the first run"
! grep -q 'grid' <(grep -v 'to be proved' "$FAKE/said") || fail "a crate is shown that was not proved again"
run 0 ./lightplan.sh examples/R.request
called 0
answered "the second run"
[ ! -s "$FAKE/said" ] || fail "the second run says: $(cat "$FAKE/said")"

# Two at once: one builds and one waits, and both answer.
bare
(cd "$copy" && ./lightplan.sh examples/R.request) >"$work/other" 2>"$FAKE/said" &
for ((turn = 0; turn < 100; turn++)); do
    [ ! -s "$FAKE/calls" ] || break
    sleep 0.1
done
status=0
(cd "$copy" && ./lightplan.sh examples/R.request) >"$work/printed" 2>"$work/second-said" || status=$?
wait $! || fail "of two first runs the first fails: $(cat "$FAKE/said")"
[ $status = 0 ] || fail "of two first runs the second fails: $(cat "$work/second-said")"
called 1
answered "the second of two first runs"
cmp "$work/other" "$work/expected" || fail "the first of two first runs"
grep -q 'waits for it$' "$work/second-said" || fail "the second of two first runs says: $(cat "$work/second-said")"
pass

# The library: what it stands on is proved, then its archive made. The C is compiled over it.
bare
run 0 ./lightdesk.sh search examples/R.request
called 1
answered "the first run of lightdesk"
run 0 ./lightdesk.sh search examples/R.request
called 0
answered "the second run of lightdesk"
[ ! -s "$FAKE/said" ] || fail "the second run of lightdesk says: $(cat "$FAKE/said")"

# ---- what is made anew

# anew TIMES NAME: lightplan.sh then has rt called so often
anew() {
    printf 'to be proved before it runs, 8 of 8 crates: theory refusal ' >"$FAKE/said"
    (cd "$copy" && ./lightplan.sh examples/R.request) >"$work/printed" 2>>"$FAKE/said" || fail "$2: $(cat "$FAKE/said")"
    called "$1"
    answered "$2"
}

bare
run 0 ./lightplan.sh examples/R.request
called 1
touch "$copy"/crates/search/src/*.rt
anew 0 "a source that was touched"
echo '// a word more' >>"$copy/crates/search/src/lib.rt"
anew 1 "a source that was changed"
grep -q 'is to be made anew' "$FAKE/said" || fail "a change is met with: $(cat "$FAKE/said")"
anew 0 "a source that was changed before"
echo '// a word more' >>"$copy/crates/plan/src/lib.rt"
anew 0 "a source of another program"
touch -d '2001-01-01' "$copy/crates/search/specs/Demand3.antt"
echo '-- a word more' >>"$copy/crates/search/specs/Demand3.antt"
touch -d '2001-01-01' "$copy/crates/search/specs/Demand3.antt"
anew 1 "a definition that was changed long ago"
rm "$copy/target/bin/lightplan"
anew 1 "a program that is gone"
cp /bin/true "$copy/target/bin/lightplan"
anew 1 "a program that is another"
rm "$copy/target/bin/lightplan"
cp /bin/true "$copy/crates/lightplan/out/lightplan"
anew 1 "a program that is gone, and another where rt left it"

# ---- an old program beside a source that is refused

# refused FILE COMMAND ..: after a change to the file, which rt refuses, the command fails although what it made before stands there
refused() {
    local status=0 file=$copy/$1
    shift
    rm -rf "$copy/target"
    cp -R "$work/built" "$copy/target"
    cp "$file" "$work/kept"
    echo 'fn broken(' >>"$file"
    (cd "$copy" && "$@") >"$work/printed" 2>"$FAKE/said" </dev/null || status=$?
    cp "$work/kept" "$file"
    [ $status != 0 ] || fail "$* does not fail beside a source that is refused"
    [ "${1##*/}" != lightplan.sh ] && [ "${1##*/}" != lightdesk.sh ] || [ $status = 2 ] || fail "$*: status $status"
    grep -q '^logic=not-proved$' "$FAKE/said" || fail "$* fails otherwise: $(cat "$FAKE/said")"
    ! grep -q ' passed, 0 failed$' "$work/printed" || fail "$* passes"
    [ ! -s "$work/printed" ] || fail "$* answers: $(head -n 1 "$work/printed")"
    called 1
    pass
}

bare
hosts/c/build.sh
mkdir "$work/built"
cp -R target/{bin,staticlib,built,lightdesk} "$work/built/"
cp -R "$work/built" "$copy/target"
mkdir "$copy"/crates/{lightplan,replay,host}/out
cp target/bin/lightplan "$copy/crates/lightplan/out/"
cp target/bin/replay "$copy/crates/replay/out/"
cp "$HOST_LIBRARY" "$copy/crates/host/out/"
: >"$FAKE/refuse"
run 0 ./lightplan.sh examples/R.request
called 0
answered "a program that was built before"
run 0 ./lightdesk.sh search examples/R.request
called 0
answered "a library that was built before"
refused crates/lightplan/src/main.rt ./lightplan.sh examples/R.request
refused crates/search/src/lib.rt ./lightplan.sh examples/R.request
refused crates/host/src/lib.rt ./lightdesk.sh search examples/R.request
refused crates/lightplan/src/main.rt bash tests/lightplan.sh
refused crates/replay/src/main.rt bash tests/replay.sh
refused crates/host/src/lib.rt bash tests/host.sh
refused crates/lightplan/src/main.rt bash tests/host.sh
refused crates/plan/src/lib.rt bench/run

echo "$passed passed, 0 failed"
