# Sourced, from the top of the repository, by what links C with the proved library. It brings x86.sh and build.sh with it.
#   host_library    sees that C can be compiled, and makes the archive of the library where it is not made from the sources as they are
#   $HOST_LIBRARY   the archive
#   $HOST_C         how C is compiled here
#   $HOST_FINDER    the sources of the finder
#   $HOST_DESK      the sources of lightdesk, the finder's among them

. tests/lib/x86.sh
. tests/lib/build.sh

HOST_LIBRARY=target/staticlib/libhost.a
HOST_C="-std=c11 -O2 -Wall -Wextra -Wpedantic"
HOST_FINDER="hosts/c/finder.c hosts/c/finder_plan.c hosts/c/finder_turns.c hosts/c/finder_weights.c"
HOST_DESK="hosts/c/lightdesk.c hosts/c/desk.c hosts/c/settle.c hosts/c/refusals.c $HOST_FINDER"

host_library() { x86_ready cc && build_library host; }
