/* Preloaded into a program, notes each allocation that the system refuses: its size, as a line of the file that REFUSED in the environment names. */
#include <errno.h>
#include <fcntl.h>
#include <stddef.h>
#include <stdlib.h>
#include <sys/syscall.h>
#include <unistd.h>

void *__libc_malloc(size_t);
void *__libc_calloc(size_t, size_t);
void *__libc_realloc(void *, size_t);
void *__libc_memalign(size_t, size_t);

static void *noted(void *place, size_t size) {
    const char *const name = getenv("REFUSED");
    char digits[24], *at = digits + sizeof digits;
    if (place || !size || !name) return place;
    const long file = syscall(SYS_openat, AT_FDCWD, name, O_CREAT | O_WRONLY | O_APPEND, 0666);
    *--at = '\n';
    for (size_t rest = size; rest; rest /= 10) *--at = '0' + rest % 10;
    syscall(SYS_write, file, at, digits + sizeof digits - at);
    syscall(SYS_close, file);
    errno = ENOMEM;
    return NULL;
}

void *malloc(size_t size) { return noted(__libc_malloc(size), size); }

void *calloc(size_t count, size_t size) { return noted(__libc_calloc(count, size), count && size > (size_t)-1 / count ? (size_t)-1 : count * size); }

void *realloc(void *place, size_t size) { return noted(__libc_realloc(place, size), size); }

void *memalign(size_t of, size_t size) { return noted(__libc_memalign(of, size), size); }

void *aligned_alloc(size_t of, size_t size) { return noted(__libc_memalign(of, size), size); }

int posix_memalign(void **place, size_t of, size_t size) {
    void *const found = noted(__libc_memalign(of, size), size);
    if (!found && size) return ENOMEM;
    *place = found;
    return 0;
}
