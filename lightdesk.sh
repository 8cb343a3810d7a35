#!/usr/bin/env bash
# Searches a request file for its best plan, or makes a plan of it by groups, and says who is in the way of each circuit above slot 0; or
# settles it, by a plan and the circuits which prove that none ends lower; or checks a plan file against it. Says how wide each circuit is
# that was booked by bit rate, and in words whether the plan is the best there is. Builds lightdesk, a program in C over the proved library,
# where that is still to be done, then runs it.
#   ./lightdesk.sh search REQUEST [LIMIT]
#   ./lightdesk.sh groups REQUEST [GROUPS]
#   ./lightdesk.sh settle REQUEST [SECONDS]
#   ./lightdesk.sh check REQUEST PLAN
#   ./lightdesk.sh --help
# LIMIT is the most steps that the search may take, 0 to 4294967295; without it 1000000. GROUPS is how many groups the circuits are cut
# into, 1 to 8; without it all these numbers are tried. SECONDS is how long settle looks, 0 to 86400, if it is not interrupted before;
# without it 10. A file called - is standard input.
# Exit status: 0 there is a plan, or the plan is accepted, be it the best or not; 1 there is none: nothing fits, none was found, or a file
# was refused; 2 wrong usage, a file that cannot be read, output that is lost, or a library that cannot be proved.
set -euo pipefail
here=$(cd "$(dirname "$(readlink -f "$0")")" && pwd)
. "$here/tests/lib/start.sh"
. "$here/tests/lib/x86.sh"

case "$#:${1-}" in
1:--help) start_help ;;
2:search | 2:groups | 2:settle) files=("$2") ;;
3:search | 3:groups | 3:settle)
    [[ $3 =~ ^[0-9]+$ ]] || start_misused
    files=("$2")
    ;;
3:check)
    [ "$2 $3" != '- -' ] || start_misused
    files=("$2" "$3")
    ;;
*) start_misused ;;
esac
start_output
for file in "${files[@]}"; do
    start_input "$file"
done

"$here/hosts/c/build.sh" >&2 || exit 2
x86_run "$here/target/lightdesk" "$@"
