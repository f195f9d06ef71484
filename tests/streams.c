// Preloaded, it writes a line to the file that STREAMS_LOG names for each read and write of a program, in the form of strace:
// `read(0, 65536) = 52`. tests/test_streams.py builds and uses it where strace is missing or may not trace.
#define _GNU_SOURCE
#include <errno.h>
#include <fcntl.h>
#include <stdio.h>
#include <stdlib.h>
#include <sys/syscall.h>
#include <unistd.h>

static int log_file = -1;

__attribute__((constructor)) static void begin(void) {
    const char *path = getenv("STREAMS_LOG");
    int opened = path ? open(path, O_WRONLY | O_APPEND) : -1;
    if (opened >= 0) {
        // Numbers 0 to 2 stay free where a stream is closed.
        log_file = fcntl(opened, F_DUPFD_CLOEXEC, 64);
        close(opened);
    }
}


static ssize_t logged(const char *name, long number, int file, const void *bytes, size_t offered) {
    char line[96];
    ssize_t moved = syscall(number, file, bytes, offered);
    int length = snprintf(line, sizeof line, "%s(%d, %zu) = %zd\n", name, file, offered, moved);
    int error = errno;
    if (log_file >= 0 && syscall(SYS_write, log_file, line, (size_t)length) != length) {
        abort();
    }
    errno = error;
    return moved;
}

ssize_t read(int file, void *bytes, size_t offered) {
    return logged("read", SYS_read, file, bytes, offered);
}

ssize_t write(int file, const void *bytes, size_t offered) {
    return logged("write", SYS_write, file, bytes, offered);
}

ssize_t __write(int file, const void *bytes, size_t offered) {
    return logged("write", SYS_write, file, bytes, offered);
}
