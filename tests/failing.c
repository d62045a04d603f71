/* A stand-in for the C library's read, loaded before it: tests/reads runs the programs over it. HOW says what goes wrong:
     interrupted   each second read is interrupted (EINTR), and no more than seven bytes come at once
     for-ever      every read is interrupted
     broken        the third read and every later one fails (EIO), and no more than seven bytes come at once */
#define _GNU_SOURCE
#include <errno.h>
#include <stdlib.h>
#include <string.h>
#include <sys/syscall.h>
#include <sys/types.h>
#include <unistd.h>

ssize_t read(int fd, void *buf, size_t count)
{
    static unsigned calls;
    const char *how = getenv("HOW");
    calls += 1;
    if (strcmp(how, "for-ever") == 0 || (strcmp(how, "interrupted") == 0 && calls % 2 == 1)) {
        errno = EINTR;
        return -1;
    }
    if (strcmp(how, "broken") == 0 && calls >= 3) {
        errno = EIO;
        return -1;
    }
    return syscall(SYS_read, fd, buf, count < 7 ? count : (size_t)7);
}
