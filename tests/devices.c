/* Makes the devices of a program fail. The reads of the file INPUT and the writes of standard output are counted, each
   from 1; number READ or WRITE fails with the error ERRNO, as does opening the file OPEN, write number NOTHING takes no byte, and read number SHORT moves at most
   half of what it is asked for. With ONE_BYTE each of
   them moves one byte. Each is noted in the file LOG, one line each: `r` or `w`, and how many bytes it moved or -1. */
#define _GNU_SOURCE
#include <dlfcn.h>
#include <errno.h>
#include <fcntl.h>
#include <stdarg.h>
#include <stdio.h>
#include <stdlib.h>
#include <string.h>
#include <sys/stat.h>
#include <sys/syscall.h>
#include <unistd.h>

static long reads, writes;

static int is_input(int file) {
    const char *input = getenv("INPUT");
    struct stat wanted, found;
    return input && !stat(input, &wanted) && !fstat(file, &found) && wanted.st_ino == found.st_ino && wanted.st_dev == found.st_dev;
}

static ssize_t note(char call, ssize_t moved) {
    const char *log = getenv("LOG");
    if (log) {
        int saved = errno, file = open(log, O_CREAT | O_WRONLY | O_APPEND, 0600);
        char line[32];
        int length = snprintf(line, sizeof line, "%c %ld\n", call, (long)moved);
        syscall(SYS_write, file, line, length);
        close(file);
        errno = saved;
    }
    return moved;
}

/* Whether the variable of that name has that number. */
static int is_number(const char *name, long number) {
    const char *which = getenv(name);
    return which && atol(which) == number;
}

/* Whether the call of that number fails, by the variable of that name. */
static int fails(const char *name, long number) {
    const char *error = getenv("ERRNO");
    if (!is_number(name, number)) return 0;
    errno = error ? atoi(error) : EIO;
    return 1;
}

int open(const char *path, int how, ...) {
    const char *refused = getenv("OPEN"), *error = getenv("ERRNO");
    int mode = 0;
    if (refused && !strcmp(path, refused)) {
        errno = error ? atoi(error) : EACCES;
        return -1;
    }
    if (how & O_CREAT) {
        va_list more;
        va_start(more, how);
        mode = va_arg(more, int);
        va_end(more);
    }
    return (int)syscall(SYS_openat, AT_FDCWD, path, how, mode);
}

ssize_t read(int file, void *bytes, size_t size) {
    if (!is_input(file)) return syscall(SYS_read, file, bytes, size);
    if (fails("READ", ++reads)) return note('r', -1);
    if (is_number("SHORT", reads) && size > 1) size /= 2;
    return note('r', syscall(SYS_read, file, bytes, getenv("ONE_BYTE") && size > 1 ? 1 : size));
}

ssize_t write(int file, const void *bytes, size_t size) {
    if (file != 1) return syscall(SYS_write, file, bytes, size);
    if (fails("WRITE", ++writes)) return note('w', -1);
    if (is_number("NOTHING", writes)) return note('w', 0);
    return note('w', syscall(SYS_write, file, bytes, getenv("ONE_BYTE") && size > 1 ? 1 : size));
}
