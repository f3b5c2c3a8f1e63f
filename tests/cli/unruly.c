/*
 * Preloaded into the command: a system that is within its rights and rarely met. Every other read and write is
 * interrupted, none takes more than 7 bytes, and with FAIL_CLOSE set standard output fails when it is closed.
 */
#define _GNU_SOURCE
#include <errno.h>
#include <stdlib.h>
#include <sys/syscall.h>
#include <unistd.h>

static long few(long call, int fd, const void *bytes, size_t n)
{
    static int turn;
    if (turn++ % 2 == 0) { errno = EINTR; return -1; }
    return syscall(call, fd, bytes, n < 7 ? n : 7);
}

ssize_t read(int fd, void *bytes, size_t n) { return few(SYS_read, fd, bytes, n); }

ssize_t write(int fd, const void *bytes, size_t n) { return few(SYS_write, fd, bytes, n); }

int close(int fd)
{
    long answer = syscall(SYS_close, fd);
    if (fd != STDOUT_FILENO || !getenv("FAIL_CLOSE")) return (int)answer;
    errno = EIO;
    return -1;
}
