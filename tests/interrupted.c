/* To be loaded before the C library: every second read of standard input, the first among them, is
   interrupted and gets nothing. At the end it says on standard error how many were. */
#include <errno.h>
#include <stdio.h>
#include <sys/syscall.h>
#include <unistd.h>

static unsigned long reads, interrupted;

ssize_t read(int fd, void *buf, size_t len)
{
    if (fd == STDIN_FILENO && reads++ % 2 == 0) {
        interrupted++;
        errno = EINTR;
        return -1;
    }
    return syscall(SYS_read, fd, buf, len);
}

__attribute__((destructor)) static void say(void)
{
    fprintf(stderr, "%lu reads interrupted\n", interrupted);
}
