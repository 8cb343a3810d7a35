# Sourced by all that runs what is built here. The compiler makes x86-64 programs; on another processor they are run under an emulator, and
# C for them is compiled by a cross compiler. What is missing is installed.
#   x86_ready           see that programs can be run (and, with `x86_ready cc`, that C can be compiled)
#   x86_run PROGRAM ..  run an x86-64 program
#   $X86_CC             the C compiler for x86-64

X86_NATIVE=no
[ "$(uname -m)" = x86_64 ] && X86_NATIVE=yes
X86_CC=gcc
[ $X86_NATIVE = yes ] || X86_CC=x86_64-linux-gnu-gcc

x86_install() {
    local said
    command -v apt-get >/dev/null || { echo "missing: $*" >&2; return 1; }
    apt-get update -qq >/dev/null 2>&1 || true
    if ! said=$(DEBIAN_FRONTEND=noninteractive apt-get install -y -qq "$@" 2>&1); then
        printf 'cannot install: %s\n%s\n' "$*" "$said" >&2
        return 1
    fi
}

x86_ready() {
    if [ $X86_NATIVE = no ]; then
        [ -e /usr/x86_64-linux-gnu/lib/ld-linux-x86-64.so.2 ] && command -v qemu-x86_64 >/dev/null || x86_install qemu-user libc6-amd64-cross || return 1
        [ "${1-}" != cc ] || command -v "$X86_CC" >/dev/null || x86_install gcc-x86-64-linux-gnu libc6-dev-amd64-cross
    else
        [ "${1-}" != cc ] || command -v "$X86_CC" >/dev/null || x86_install gcc libc6-dev
    fi
}

x86_run() {
    if [ $X86_NATIVE = yes ]; then
        "$@"
    else
        qemu-x86_64 -L /usr/x86_64-linux-gnu "$@"
    fi
}
