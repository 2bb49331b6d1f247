/* Refuses one request for memory of the calls that a program of trials makes; `tests/memory` preloads it.
 *
 * A call begins where the program writes a line "call ..", and ends where it writes its next line. What is asked for in between counts,
 * in whatever thread, and the request with the number REFUSE is refused; none is where REFUSE is 0 or left out. What is asked for
 * elsewhere, by the start of the program or of a trial, is neither counted nor refused. For each call a line with the number of its
 * requests is appended to the file COUNTS.
 */
#define _GNU_SOURCE
#include <errno.h>
#include <fcntl.h>
#include <stdatomic.h>
#include <stddef.h>
#include <stdio.h>
#include <stdlib.h>
#include <string.h>
#include <sys/syscall.h>
#include <unistd.h>

extern void *__libc_malloc(size_t size);
extern void *__libc_calloc(size_t count, size_t size);
extern void *__libc_realloc(void *old, size_t size);
extern void *__libc_memalign(size_t align, size_t size);

static atomic_int is_in_call;
static atomic_long asked;
static atomic_long asked_before;
static long refused;
static int counts = -1;

__attribute__((constructor)) static void begin(void) {
    const char *number = getenv("REFUSE");
    const char *file = getenv("COUNTS");
    refused = number ? atol(number) : 0;
    if (file)
        counts = open(file, O_WRONLY | O_CREAT | O_TRUNC | O_CLOEXEC, 0600);
}

/* Whether this request is the one to refuse. */
static int is_refused(void) {
    if (!atomic_load(&is_in_call))
        return 0;
    if (atomic_fetch_add(&asked, 1) + 1 != refused)
        return 0;
    errno = ENOMEM;
    return 1;
}

/* What the program writes to its standard output tells where a call begins and ends. */
static void look(int fd, const void *bytes, size_t count) {
    if (fd != 1)
        return;
    if (atomic_exchange(&is_in_call, 0)) {
        char line[32];
        long now = atomic_load(&asked);
        int len = snprintf(line, sizeof line, "%ld\n", now - atomic_exchange(&asked_before, now));
        if (counts >= 0 && syscall(SYS_write, counts, line, (size_t)len) != len)
            _exit(99);
    }
    if (count >= 5 && !memcmp(bytes, "call ", 5))
        atomic_store(&is_in_call, 1);
}

ssize_t write(int fd, const void *bytes, size_t count) {
    look(fd, bytes, count);
    return syscall(SYS_write, fd, bytes, count);
}

ssize_t __write(int fd, const void *bytes, size_t count) {
    return write(fd, bytes, count);
}

void *malloc(size_t size) {
    return is_refused() ? NULL : __libc_malloc(size);
}

void *calloc(size_t count, size_t size) {
    return is_refused() ? NULL : __libc_calloc(count, size);
}

void *realloc(void *old, size_t size) {
    return is_refused() ? NULL : __libc_realloc(old, size);
}

void *memalign(size_t align, size_t size) {
    return is_refused() ? NULL : __libc_memalign(align, size);
}

void *aligned_alloc(size_t align, size_t size) {
    return memalign(align, size);
}

int posix_memalign(void **out, size_t align, size_t size) {
    void *at = memalign(align, size);
    if (!at)
        return ENOMEM;
    *out = at;
    return 0;
}
