# Sourced, from the top of the repository, behind host.sh and oracle.sh, by the tests that run lightdesk. Their files are in the folder
# $work, and each run is counted in $passed, both of the test.
#   failed WORD ..                       tells a difference with the seed, and ends the test
#   strict_run PROGRAM ..                runs a program that has sanitizers
#   all_sanitizers                       finds those with which a C program runs here, $strict
#   compile SANITIZERS NAME SOURCE ..    makes the program $work/NAME, linked with the library
#   says, begins, misuse                 hold $work/lightdesk-strict to its words
#   plan_of FILE                         writes the plan that it printed last

# A sanitizer's report has a status of its own, so that it is never taken for an answer's.
export ASAN_OPTIONS=exitcode=99 UBSAN_OPTIONS=exitcode=99:print_stacktrace=1

failed() {
    echo "FAILED: $*, seed $seed"
    exit 1
}

# strict_run PROGRAM ..: run a program that has sanitizers. An address space laid out by chance can stop AddressSanitizer at its start.
strict_run() {
    if [ $X86_NATIVE = yes ] && setarch "$(uname -m)" -R true 2>/dev/null; then
        setarch "$(uname -m)" -R "$@"
    else
        x86_run "$@"
    fi
}

# trial: whether a program with AddressSanitizer can be linked and run here. It wants more room than an emulator has to give.
trial() {
    printf 'int main(void) { return 0; }\n' >"$work/trial.c"
    ("$X86_CC" -fsanitize=address -o "$work/trial" "$work/trial.c" && { [ $X86_NATIVE = yes ] || ulimit -v 33554432; } &&
        strict_run "$work/trial") >/dev/null 2>&1
}

# The sanitizers with which a C program runs here; the search for leaks may be all that a machine forbids.
all_sanitizers() {
    strict=undefined,address
    trial && return
    export ASAN_OPTIONS=$ASAN_OPTIONS:detect_leaks=0
    trial && return
    strict=undefined
    echo "left out: AddressSanitizer, which does not run on this machine"
}

# compile SANITIZERS NAME SOURCE..: a program linked with the library
compile() {
    local sanitizers=$1 name=$2
    shift 2
    # shellcheck disable=SC2086
    "$X86_CC" $HOST_C -Werror -g -fsanitize="$sanitizers" -fno-sanitize-recover=all -o "$work/$name" "$@" "$HOST_LIBRARY"
}

# says STATUS LINE ARGUMENT..: lightdesk ends with this status, and the last line printed is this one
says() {
    local status=0
    strict_run "$work/lightdesk-strict" "${@:3}" >"$work/printed" 2>"$work/said" || status=$?
    [ $status = "$1" ] || failed "status $status, not $1: lightdesk ${*:3}"
    [ "$(tail -n 1 "$work/printed")" = "$2" ] || failed "other words: lightdesk ${*:3}: $(tail -n 1 "$work/printed")"
    passed=$((passed + 1))
}

# begins LINE: what was printed last begins with this line
begins() {
    [ "$(head -n 1 "$work/printed")" = "$1" ] || failed "another line: $(head -n 1 "$work/printed")"
    passed=$((passed + 1))
}

# misuse ARGUMENT..: status 2, nothing on standard output, something on standard error
misuse() {
    says 2 '' "$@"
    [ -s "$work/said" ] || failed "no word about: lightdesk $*"
}

# plan_of FILE: writes to the file the plan of the rows that were printed last
plan_of() {
    printf '%b' "$(awk '/^[0-9]/ { printf "\\04\\00\\04\\0%o\\0%o\\0%o\\0%o", int($1 / 256), $1 % 256, int($2 / 256), $2 % 256 }' "$work/printed")" >"$1"
}
