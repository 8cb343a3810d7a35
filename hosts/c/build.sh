#!/usr/bin/env bash
# Builds target/lightdesk: proves the library and makes its archive, then compiles the C, each where that is still to be done.
set -euo pipefail
cd "$(dirname "$0")/../.."
. tests/lib/host.sh
host_library
desk=target/lightdesk

# whole at once: another run may be using it
compile() {
    # shellcheck disable=SC2086
    "$X86_CC" $HOST_C -o $desk.$$ $HOST_DESK "$HOST_LIBRARY" && mv $desk.$$ $desk
}

build_file $desk "$({ echo "$X86_CC $HOST_C"; sha256sum hosts/c/*.[ch] "$HOST_LIBRARY"; } | sha256sum)" compile
