#!/usr/bin/env bash
# Plans the circuits of a request file: proves and builds the program where that is still to be done, then runs it.
#   ./lightplan.sh REQUEST
#   ./lightplan.sh --help
# REQUEST is a file as those in examples/; - is standard input. The first line printed is the answer with its numbers, or `refused` with the
# number and the place of the fault. With a plan a row for each circuit follows: ident, start, end, central number, central MHz.
# Exit status: 0 there is a plan, be it the best or not; 1 there is none: nothing fits, the steps ran out before a plan was met, or the
# request was refused; 2 wrong usage, a file that cannot be read, output that is lost, or a program that cannot be proved.
set -euo pipefail
here=$(cd "$(dirname "$(readlink -f "$0")")" && pwd)
. "$here/tests/lib/start.sh"
. "$here/tests/lib/x86.sh"

[ $# = 1 ] || start_misused
case $1 in
--help) start_help ;;
-?*) start_misused ;;
esac
start_output
start_input "$1"

(cd "$here" && . tests/lib/build.sh && x86_ready && build_program lightplan) >&2 || exit 2

# The program has no exit status. Where it cannot read its input it says so and prints nothing.
[ "$1" = - ] || exec <"$1"
page=$(x86_run "$here/target/bin/lightplan") || start_trouble "the program was ended, with status $?"
[ -n "$page" ] || exit 2
start_print "$page"
case $page in
finished* | unfinished*$'\n'*) exit 0 ;;
unfinished* | nofit* | refused*) exit 1 ;;
*) start_trouble "the program printed no answer" ;;
esac
