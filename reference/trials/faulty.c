// A library that is loaded in front of the C library, and makes chosen calls of a program fail. What it does is said by variables:
// FAULTY_MEMORY=N    the N-th request for memory isn't met, and where FAULTY_BEHIND is there none behind it
// FAULTY_READ=N      the N-th read fails with the error FAULTY_ERROR, and likewise FAULTY_WRITE=N, which takes no byte where that is 0
// FAULTY_PIECE=K     the N-th read or write moves at most K bytes, or each where neither FAULTY_READ nor FAULTY_WRITE is there
// FAULTY_COUNTS=F    where the program ends, the file F gets the numbers of requests, reads and writes
#define _GNU_SOURCE
#include <errno.h>
#include <fcntl.h>
#include <stdatomic.h>
#include <stdio.h>
#include <stdlib.h>
#include <sys/syscall.h>
#include <sys/uio.h>
#include <unistd.h>

extern void *__libc_malloc(size_t), *__libc_calloc(size_t, size_t), *__libc_realloc(void *, size_t), *__libc_memalign(size_t, size_t);

static atomic_long requests, reads, writes;

static long number(const char *name) {
    const char *text = getenv(name);
    return text ? atol(text) : -1;
}

static int lacks_memory(void) {
    static long fails = -2;
    if (fails == -2) fails = number("FAULTY_MEMORY");
    long this = ++requests;
    int lacks = fails > 0 && (this == fails || (this > fails && getenv("FAULTY_BEHIND")));
    if (lacks) errno = ENOMEM;
    return lacks;
}

void *malloc(size_t size) { return lacks_memory() ? NULL : __libc_malloc(size); }
void *calloc(size_t many, size_t size) { return lacks_memory() ? NULL : __libc_calloc(many, size); }
void *realloc(void *old, size_t size) { return lacks_memory() ? NULL : __libc_realloc(old, size); }
void *memalign(size_t to, size_t size) { return lacks_memory() ? NULL : __libc_memalign(to, size); }
void *aligned_alloc(size_t to, size_t size) { return memalign(to, size); }
int posix_memalign(void **new, size_t to, size_t size) {
    void *made = memalign(to, size);
    if (made) *new = made;
    return made ? 0 : ENOMEM;
}

// Whether this call of one kind is the chosen one, or each is where none is of either kind.
static int is_chosen(atomic_long *count, const char *name) {
    long chosen = number(name), none = !getenv("FAULTY_READ") && !getenv("FAULTY_WRITE");
    return ++*count == chosen || (none && getenv("FAULTY_PIECE"));
}

static ssize_t moved(long call, int file, void *bytes, size_t size, atomic_long *count, const char *name) {
    if (is_chosen(count, name)) {
        long piece = number("FAULTY_PIECE"), error = number("FAULTY_ERROR");
        if (error > 0) errno = error;
        if (error >= 0) return error > 0 ? -1 : 0;
        if (piece > 0 && (size_t)piece < size) size = piece;
    }
    return syscall(call, file, bytes, size);
}

ssize_t read(int file, void *bytes, size_t size) { return moved(SYS_read, file, bytes, size, &reads, "FAULTY_READ"); }
ssize_t write(int file, const void *bytes, size_t size) { return moved(SYS_write, file, (void *)bytes, size, &writes, "FAULTY_WRITE"); }

// Of several pieces the first one that isn't empty is moved: a call may move fewer bytes than it is given.
static const struct iovec *first(const struct iovec *pieces, int many) {
    while (many > 1 && pieces->iov_len == 0) pieces++, many--;
    return pieces;
}
ssize_t readv(int file, const struct iovec *pieces, int many) {
    return read(file, first(pieces, many)->iov_base, first(pieces, many)->iov_len);
}
ssize_t writev(int file, const struct iovec *pieces, int many) {
    return write(file, first(pieces, many)->iov_base, first(pieces, many)->iov_len);
}

// A program may end by _exit, which runs no destructor.
static void tell(void) {
    const char *path = getenv("FAULTY_COUNTS");
    int file = path ? (int)syscall(SYS_openat, AT_FDCWD, path, O_WRONLY | O_CREAT | O_TRUNC, 0600) : -1;
    char text[80];
    int size = snprintf(text, sizeof text, "%ld %ld %ld\n", requests, reads, writes);
    if (file >= 0) syscall(SYS_write, file, text, size);
}
void _exit(int status) {
    tell();
    for (;;) syscall(SYS_exit_group, status);
}
void _Exit(int status) { _exit(status); }
__attribute__((destructor)) static void end(void) { tell(); }
