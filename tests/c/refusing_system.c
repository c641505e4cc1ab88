// Preloaded by tests/test_faults.py: a system that refuses one request of a program, or moves one byte in each read and write.
//
// HOSTILE_KIND is the kind of request that is counted: `memory`, `read`, `out` (a write to standard output) or `err` (one to
// standard error). HOSTILE_AT is the number of the refused one, from 1, or 0 for none. HOSTILE_ZERO: a refused write takes no byte
// instead of failing. HOSTILE_BYTE: each read and write moves one byte. A refusal writes a byte to descriptor HOSTILE_TELL.
#define _GNU_SOURCE
#include <errno.h>
#include <stddef.h>
#include <stdlib.h>
#include <string.h>
#include <sys/syscall.h>
#include <sys/uio.h>
#include <unistd.h>

void *__libc_malloc(size_t);
void *__libc_calloc(size_t, size_t);
void *__libc_realloc(void *, size_t);
void *__libc_memalign(size_t, size_t);

static const char *kind = "";
static long left;
static int tell, takes_nothing, by_byte;

__attribute__((constructor)) static void begin(void) {
    const char *at = getenv("HOSTILE_AT"), *to = getenv("HOSTILE_TELL"), *what = getenv("HOSTILE_KIND");
    takes_nothing = getenv("HOSTILE_ZERO") != NULL;
    by_byte = getenv("HOSTILE_BYTE") != NULL;
    left = at ? atol(at) : 0;
    tell = to ? atoi(to) : -1;
    kind = what ? what : "";
}

// Whether this request is the one to refuse.
static int refused(const char *asked) {
    if (left == 0 || strcmp(asked, kind) != 0 || --left > 0)
        return 0;
    syscall(SYS_write, tell, "x", 1);
    return 1;
}

static void *no_memory(void) {
    errno = ENOMEM;
    return NULL;
}

void *malloc(size_t size) { return refused("memory") ? no_memory() : __libc_malloc(size); }

void *calloc(size_t count, size_t size) { return refused("memory") ? no_memory() : __libc_calloc(count, size); }

void *realloc(void *old, size_t size) { return refused("memory") ? no_memory() : __libc_realloc(old, size); }

void *memalign(size_t align, size_t size) { return refused("memory") ? no_memory() : __libc_memalign(align, size); }

void *aligned_alloc(size_t align, size_t size) { return memalign(align, size); }

int posix_memalign(void **made, size_t align, size_t size) {
    void *memory = memalign(align, size);
    if (memory == NULL)
        return ENOMEM;
    *made = memory;
    return 0;
}

static size_t most(size_t size) { return by_byte && size > 1 ? 1 : size; }

static ssize_t failed(void) {
    errno = EIO;
    return -1;
}

ssize_t read(int from, void *bytes, size_t size) {
    return refused("read") ? failed() : syscall(SYS_read, from, bytes, most(size));
}

ssize_t readv(int from, const struct iovec *parts, int count) {
    return count > 0 ? read(from, parts[0].iov_base, parts[0].iov_len) : 0;
}

ssize_t write(int to, const void *bytes, size_t size) {
    if (size > 0 && refused(to == 1 ? "out" : to == 2 ? "err" : ""))
        return takes_nothing ? 0 : failed();
    return syscall(SYS_write, to, bytes, most(size));
}

ssize_t writev(int to, const struct iovec *parts, int count) {
    for (int at = 0; at < count; at++)
        if (parts[at].iov_len > 0)
            return write(to, parts[at].iov_base, parts[at].iov_len);
    return 0;
}
