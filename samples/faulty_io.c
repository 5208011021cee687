// Stands before the C library's read and write (LD_PRELOAD), for samples/run: input and output that come in single bytes, are
// interrupted or fail. FAULT names what happens; without it both do what they always do.
#include <errno.h>
#include <stdlib.h>
#include <string.h>
#include <sys/syscall.h>
#include <unistd.h>

static int fault_is(const char *name) {
    const char *fault = getenv("FAULT");
    return fault != NULL && strcmp(fault, name) == 0;
}

static ssize_t fails_with(int error) {
    errno = error;
    return -1;
}

static size_t one_at_most(size_t n) { return n < 1 ? n : 1; }

ssize_t read(int fd, void *bytes, size_t n) {
    static unsigned long calls;
    calls++;
    if (fault_is("read short"))
        n = one_at_most(n);
    if (fault_is("read interrupted")) {
        // 999 times before each byte: as often as the bench tries again
        if (calls % 1000 != 0)
            return fails_with(EINTR);
        n = one_at_most(n);
    }
    if (fault_is("read interrupted for ever"))
        return fails_with(EINTR);
    if (fault_is("read fails")) {
        if (calls > 10)
            return fails_with(EIO);
        n = one_at_most(n);
    }
    return syscall(SYS_read, fd, bytes, n);
}

ssize_t write(int fd, const void *bytes, size_t n) {
    static unsigned long calls;
    if (fd != STDOUT_FILENO)
        return syscall(SYS_write, fd, bytes, n);
    calls++;
    if (fault_is("write short"))
        n = one_at_most(n);
    if (calls > 10 && fault_is("write interrupted"))
        return fails_with(EINTR);
    if (calls > 10 && fault_is("write fails"))
        return fails_with(EIO);
    if (fault_is("write interrupted") || fault_is("write fails"))
        n = one_at_most(n);
    return syscall(SYS_write, fd, bytes, n);
}
