/* Preloaded into a program, lets one of its calls fail: FAULT in the environment names it as "CALL NUMBER WAY". CALL is memory, open, read, out or err (a write to standard output or
   to standard error), NUMBER counts its calls from 1, and WAY is fails, interrupted or short, which moves one byte. The file FAULT_MET is made then. */
#include <errno.h>
#include <fcntl.h>
#include <stdarg.h>
#include <stddef.h>
#include <stdlib.h>
#include <string.h>
#include <sys/syscall.h>
#include <unistd.h>

void *__libc_malloc(size_t);
void *__libc_calloc(size_t, size_t);
void *__libc_realloc(void *, size_t);

enum way { NONE, FAILS, INTERRUPTED, SHORT };

static long open_file(const char *path, int flags, int mode) { return syscall(SYS_openat, AT_FDCWD, path, flags, mode); }

/* Whether this call is the one, and how it is to fail. */
static enum way fault_of(const char *call) {
    static unsigned long calls;
    const char *const fault = getenv("FAULT"), *const met = getenv("FAULT_MET");
    const size_t length = strlen(call);
    char *rest;
    if (!fault || !met || strncmp(fault, call, length) || fault[length] != ' ') return NONE;
    if (++calls != strtoul(fault + length, &rest, 10)) return NONE;
    syscall(SYS_close, open_file(met, O_CREAT | O_WRONLY, 0666));
    return rest[1] == 'f' ? FAILS : rest[1] == 'i' ? INTERRUPTED : SHORT;
}

static ssize_t moved(enum way way, long call, int file, const void *bytes, size_t length) {
    if (way == FAILS || way == INTERRUPTED) {
        errno = way == FAILS ? EIO : EINTR;
        return -1;
    }
    return syscall(call, file, bytes, way == SHORT && length ? 1 : length);
}

void *malloc(size_t size) { return fault_of("memory") ? NULL : __libc_malloc(size); }

void *calloc(size_t count, size_t size) { return fault_of("memory") ? NULL : __libc_calloc(count, size); }

void *realloc(void *place, size_t size) { return fault_of("memory") ? NULL : __libc_realloc(place, size); }

ssize_t read(int file, void *bytes, size_t length) { return moved(fault_of("read"), SYS_read, file, bytes, length); }

ssize_t write(int file, const void *bytes, size_t length) { return moved(fault_of(file == 1 ? "out" : "err"), SYS_write, file, bytes, length); }

int open(const char *path, int flags, ...) {
    va_list rest;
    va_start(rest, flags);
    const int mode = flags & O_CREAT ? va_arg(rest, int) : 0;
    va_end(rest);
    if (fault_of("open")) {
        errno = EIO;
        return -1;
    }
    return open_file(path, flags, mode);
}
