/* Preloaded, this lets calls to the system take little, and fail. NAME_MOST tells how many bytes a
   call takes at most, and NAME_FAILS which call fails, counted from 1. NAME is READ for standard
   input, FETCH for the files that are read, WRITE for standard output and APPEND for the files that
   are written. A failing append leaves APPEND_LEAVES bytes of its piece. OPEN_FAILS tells which
   opening for writing fails. */

#include <errno.h>
#include <fcntl.h>
#include <stdarg.h>
#include <stdio.h>
#include <stdlib.h>
#include <sys/syscall.h>
#include <unistd.h>

static long reads, fetches, writes, appends, opened;

static long told(const char *name, long otherwise) {
    const char *text = getenv(name);
    return text ? atol(text) : otherwise;
}

/* Whether this call is the one that fails; it is counted. */
static int fails(const char *name, long *count) {
    if (++*count != told(name, 0)) return 0;
    errno = EIO;
    return 1;
}

static size_t least(size_t size, const char *name) {
    size_t most = told(name, -1);
    return size < most ? size : most;
}

ssize_t read(int file, void *to, size_t size) {
    int is_asset = file > 2;
    if (is_asset ? fails("FETCH_FAILS", &fetches) : fails("READ_FAILS", &reads)) return -1;
    return syscall(SYS_read, file, to, least(size, is_asset ? "FETCH_MOST" : "READ_MOST"));
}

ssize_t write(int file, const void *from, size_t size) {
    if (file == 1) {
        if (fails("WRITE_FAILS", &writes)) return -1;
        return syscall(SYS_write, file, from, least(size, "WRITE_MOST"));
    }
    if (file > 2 && fails("APPEND_FAILS", &appends)) {
        syscall(SYS_write, file, from, least(size, "APPEND_LEAVES"));
        errno = EIO;
        return -1;
    }
    return syscall(SYS_write, file, from, file > 2 ? least(size, "APPEND_MOST") : size);
}

ssize_t __write(int file, const void *from, size_t size) { return write(file, from, size); }

int open(const char *path, int flags, ...) {
    va_list rest;
    va_start(rest, flags);
    int mode = va_arg(rest, int);
    va_end(rest);
    if ((flags & O_ACCMODE) != O_RDONLY && fails("OPEN_FAILS", &opened)) return -1;
    return syscall(SYS_openat, AT_FDCWD, path, flags, mode);
}
