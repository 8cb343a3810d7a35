# Sourced, from the top of the repository, by the tests of a program that reads standard input, behind x86.sh.
#   streams_ready PROGRAM WORK    sees that C can be compiled, and keeps its files in the folder WORK
#   streams_input FILE LAST       holds the program's reading to account: with FILE as its input, whose last field or call has LAST bytes, no
#                                 read that fails is taken for the end of the input, and a read that is interrupted is made again
# A difference is told by `fail`, and each run is counted in `passed`, both of the test.

streams_ready() {
    streams_program=$1 streams_work=$2
    x86_ready cc
    "$X86_CC" -std=c11 -O2 -Wall -Wextra -Wpedantic -Werror -shared -fPIC -o "$streams_work/faults.so" tests/streams/faults.c
}

# streams_fault FAULT: the program with a fault in its reads, see tests/streams/faults.c
streams_fault() {
    local faults=$PWD/$streams_work/faults.so
    if [ "$X86_NATIVE" = yes ]; then
        FAULT=$1 LD_PRELOAD=$faults "$streams_program"
    else
        qemu-x86_64 -L /usr/x86_64-linux-gnu -E "FAULT=$1" -E "LD_PRELOAD=$faults" "$streams_program"
    fi
}

# streams_unread NAME COMMAND ..: the command prints nothing, and says one line on standard error
streams_unread() {
    local name=$1
    shift
    "$@" >"$streams_work/printed" 2>"$streams_work/said" || fail "$name: status $?"
    [ ! -s "$streams_work/printed" ] || fail "$name: an answer was printed: $(head -n 1 "$streams_work/printed")"
    [ "$(wc -l <"$streams_work/said")" = 1 ] || fail "$name: not one line on standard error: $(cat "$streams_work/said")"
    grep -q ': standard input: ' "$streams_work/said" || fail "$name: other words: $(cat "$streams_work/said")"
    passed=$((passed + 1))
}

streams_closed() { x86_run "$streams_program" <&-; }
streams_directory() { x86_run "$streams_program" <tests; }
streams_broken() { streams_fault broken <"$1"; }

# All but the last bytes of a file in a pipe, before the program starts; the rest could still come when it has read them.
streams_unready() { { head -c "-$2" "$1"; sleep 1; } | { sleep 0.2; streams_fault unready; }; }

streams_input() {
    streams_unread "standard input closed" streams_closed
    streams_unread "a directory as standard input" streams_directory
    streams_unread "a read that fails" streams_broken "$1"
    streams_unread "a pipe that has nothing ready" streams_unready "$1" "$(wc -c <"$1")"
    streams_unread "a pipe without the last bytes" streams_unready "$1" 3
    streams_unread "a pipe without the last part" streams_unready "$1" "$2"
    x86_run "$streams_program" <"$1" >"$streams_work/expected"
    streams_fault interrupted <"$1" >"$streams_work/printed" || fail "interrupted reads: status $?"
    cmp "$streams_work/expected" "$streams_work/printed" || fail "interrupted reads"
    passed=$((passed + 1))
}
