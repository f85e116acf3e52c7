// Loaded into a program by .ci/sweeps and .ci/retries, before libc: reads of standard input, writes to standard output and
// allocations that fail where the environment says. Each of its words is a number, and what is not there, or is 0, never happens.
//
//     FAIL_READ=N         the Nth read fails, once
//     MOST_READ=N         a read gives at most N bytes
//     ENDLESS=1           in place of standard input, which is not read, there are bytes of a comment without end
//     FAIL_WRITE=N        the write of the Nth byte fails, once: a write that begins before it takes the bytes up to it
//     MOST_WRITTEN=N      a write takes at most N bytes
//     FAIL_ALLOCATION=N   the Nth allocation fails
//     FAIL_FROM=N         the Nth allocation fails, and each one after it
//     IN_TRIES=1          allocations are counted, and fail, only while something is tried: from a write of the line `try` to
//                         standard error on to the next write there. If one failed by then, no later one does
//
// How often each was asked for is counted in a file that is mapped: descriptor 3.
#include <errno.h>
#include <stdint.h>
#include <stdlib.h>
#include <string.h>
#include <sys/mman.h>
#include <sys/syscall.h>
#include <unistd.h>

enum { COUNTS = 3 };

void *__libc_malloc(size_t size);
void *__libc_calloc(size_t count, size_t size);
void *__libc_realloc(void *old, size_t size);
void *__libc_memalign(size_t alignment, size_t size);

struct counts {
    uint64_t reads, written, allocations;
};
static struct counts unmapped, *counts = &unmapped;
static uint64_t fail_read, most_read, endless, fail_write, most_written, fail_allocation, fail_from, in_tries;
static int is_tried;

static uint64_t number(const char *name)
{
    const char *word = getenv(name);
    return word ? strtoull(word, NULL, 10) : 0;
}

__attribute__((constructor)) static void begin(void)
{
    struct counts *mapped = mmap(NULL, sizeof *mapped, PROT_READ | PROT_WRITE, MAP_SHARED, COUNTS, 0);
    if (mapped == MAP_FAILED)
        _exit(127);
    *mapped = unmapped = (struct counts){0};
    counts = mapped;
    fail_read = number("FAIL_READ");
    most_read = number("MOST_READ");
    endless = number("ENDLESS");
    fail_write = number("FAIL_WRITE");
    most_written = number("MOST_WRITTEN");
    fail_allocation = number("FAIL_ALLOCATION");
    fail_from = number("FAIL_FROM");
    in_tries = number("IN_TRIES");
}

static size_t at_most(size_t length, uint64_t most)
{
    return most && length > most ? most : length;
}

ssize_t read(int from, void *to, size_t length)
{
    if (from != STDIN_FILENO)
        return syscall(SYS_read, from, to, length);
    length = at_most(length, most_read);
    if (++counts->reads == fail_read) {
        errno = EIO;
        return -1;
    }
    if (!endless)
        return syscall(SYS_read, from, to, length);
    memset(to, '#', length);
    return (ssize_t)length;
}

// Hears a line of standard error, which says whether something is tried from now on. What was tried before is at its end.
static void hear(const void *line, size_t length)
{
    if (is_tried && fail_from && counts->allocations >= fail_from)
        fail_from = 0;
    is_tried = length == 4 && !memcmp(line, "try\n", length);
}

ssize_t write(int to, const void *from, size_t length)
{
    if (to == STDERR_FILENO)
        hear(from, length);
    if (to != STDOUT_FILENO)
        return syscall(SYS_write, to, from, length);
    length = at_most(length, most_written);
    if (fail_write && length && counts->written == fail_write - 1) {
        fail_write = 0;
        errno = ENOSPC;
        return -1;
    }
    if (fail_write && counts->written < fail_write)
        length = at_most(length, fail_write - 1 - counts->written);
    ssize_t taken = syscall(SYS_write, to, from, length);
    if (taken > 0)
        counts->written += (uint64_t)taken;
    return taken;
}

// The name by which a program that is linked to libc may call it, too.
ssize_t __write(int to, const void *from, size_t length)
{
    return write(to, from, length);
}

// Counts an allocation, and returns whether it fails.
static int fails(void)
{
    if (in_tries && !is_tried)
        return 0;
    uint64_t nth = ++counts->allocations;
    if (nth != fail_allocation && !(fail_from && nth >= fail_from))
        return 0;
    errno = ENOMEM;
    return 1;
}

void *malloc(size_t size)
{
    return fails() ? NULL : __libc_malloc(size);
}

void *calloc(size_t count, size_t size)
{
    return fails() ? NULL : __libc_calloc(count, size);
}

void *realloc(void *old, size_t size)
{
    return fails() ? NULL : __libc_realloc(old, size);
}

void *aligned_alloc(size_t alignment, size_t size)
{
    return fails() ? NULL : __libc_memalign(alignment, size);
}

int posix_memalign(void **made, size_t alignment, size_t size)
{
    *made = aligned_alloc(alignment, size);
    return *made ? 0 : ENOMEM;
}
