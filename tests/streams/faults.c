/* Put before the C library of a program that reads standard input: its reads bring seven bytes at most, and FAULT in the environment says
   what goes wrong. `interrupted`: every other read is, before it brings anything. `broken`: the third read fails. `unready`: the input is
   set not to wait, and where nothing is there yet a read fails. */
#define _GNU_SOURCE
#include <errno.h>
#include <fcntl.h>
#include <stdlib.h>
#include <string.h>
#include <sys/syscall.h>
#include <unistd.h>

static int fault(const char *name)
{
    const char *chosen = getenv("FAULT");
    return chosen && strcmp(chosen, name) == 0;
}

ssize_t read(int fd, void *buffer, size_t count)
{
    static int reads;
    reads++;
    if (fault("interrupted") && reads % 2) {
        errno = EINTR;
        return -1;
    }
    if (fault("broken") && reads == 3) {
        errno = EIO;
        return -1;
    }
    if (fault("unready"))
        fcntl(fd, F_SETFL, fcntl(fd, F_GETFL) | O_NONBLOCK);
    return syscall(SYS_read, fd, buffer, count < 7 ? count : 7);
}
