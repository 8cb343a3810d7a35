# Sourced by the scripts that people start, which answer for wrong use and for files before anything is built. The comment at the head of
# such a script is its help, and the lines of it that are set in are its usage.
#   start_help            prints the help and ends with status 0
#   start_misused         prints the usage on standard error and ends with status 2
#   start_trouble WORD..  a line on standard error, and status 2
#   start_output          ends so where standard output is closed
#   start_input FILE      ends so where a file cannot be read; - is standard input
#   start_print TEXT      prints the text and a newline, and ends so where they are lost

# Where standard input is closed, a file or a pipe that is opened later would take its place.
start_closed=no
{ true 3<&0; } 2>/dev/null || start_closed=yes
[ $start_closed = no ] || exec </dev/null

start_name=$(basename "$0" .sh)

start_trouble() {
    echo "$start_name: $*" >&2
    exit 2
}

# What the shell says of a write that fails ends with the system's own words for it. A pipe that nobody reads is such a write.
start_print() {
    local said
    trap '' PIPE
    { said=$({ printf '%s\n' "$1" >&3; } 2>&1) || start_trouble "standard output: ${said##*: }"; } 3>&1
    trap - PIPE
}

start_output() { { true 3>&1; } 2>/dev/null || start_trouble "standard output: it is closed"; }

start_help() {
    start_output
    start_print "$(sed -n '2,/^[^#]/ s/^# \{0,1\}//p' "$0")"
    exit 0
}

start_misused() {
    sed -n 's/^#   /usage: /p' "$0" >&2
    exit 2
}

start_input() {
    if [ "$1" = - ]; then
        [ $start_closed = no ] || start_trouble "standard input: it is closed"
    elif [ ! -e "$1" ]; then
        start_trouble "$1: there is no such file"
    elif [ -d "$1" ]; then
        start_trouble "$1: that is a directory, not a file"
    elif [ ! -r "$1" ]; then
        start_trouble "$1: it may not be read"
    fi
}
