// Refuses one growth of memory to the program that it is loaded into (LD_PRELOAD): the call of malloc and its kin whose number,
// from 1 on, is REFUSED. The others are answered as before. At the end the number of calls is written to the file that COUNTED
// names. Calls before the program begins, those of the loader, are not counted; those of the C library for a thread are.
#define _GNU_SOURCE
#include <dlfcn.h>
#include <errno.h>
#include <fcntl.h>
#include <stdatomic.h>
#include <stddef.h>
#include <stdio.h>
#include <stdlib.h>
#include <sys/syscall.h>
#include <unistd.h>

static atomic_ullong calls;
static unsigned long long refused;
static atomic_int counts;

static void *(*next_malloc)(size_t);
static void *(*next_calloc)(size_t, size_t);
static void *(*next_realloc)(void *, size_t);
static void *(*next_aligned_alloc)(size_t, size_t);
static int (*next_posix_memalign)(void **, size_t, size_t);

// The C library's own call of this name.
static void *next(const char *name)
{
    void *found = dlsym(RTLD_NEXT, name);
    if (!found)
        abort();
    return found;
}

__attribute__((constructor)) static void begin(void)
{
    const char *number = getenv("REFUSED");
    refused = number ? strtoull(number, NULL, 10) : 0;
    atomic_store(&counts, 1);
}

// The program ends by this call.
void _exit(int status)
{
    const char *name = getenv("COUNTED");
    unsigned long long made = atomic_load(&calls);
    int file = name ? open(name, O_WRONLY | O_CREAT | O_TRUNC, 0600) : -1;
    if (file >= 0)
        dprintf(file, "%llu\n", made);
    syscall(SYS_exit_group, status);
    abort();
}

static int is_refused(void)
{
    if (!atomic_load(&counts) || atomic_fetch_add(&calls, 1) + 1 != refused)
        return 0;
    errno = ENOMEM;
    return 1;
}

void *malloc(size_t size)
{
    if (!next_malloc)
        next_malloc = next("malloc");
    return is_refused() ? NULL : next_malloc(size);
}

void *calloc(size_t count, size_t size)
{
    if (!next_calloc)
        next_calloc = next("calloc");
    return is_refused() ? NULL : next_calloc(count, size);
}

void *realloc(void *old, size_t size)
{
    if (!next_realloc)
        next_realloc = next("realloc");
    return is_refused() ? NULL : next_realloc(old, size);
}

void *aligned_alloc(size_t alignment, size_t size)
{
    if (!next_aligned_alloc)
        next_aligned_alloc = next("aligned_alloc");
    return is_refused() ? NULL : next_aligned_alloc(alignment, size);
}

int posix_memalign(void **made, size_t alignment, size_t size)
{
    if (!next_posix_memalign)
        next_posix_memalign = next("posix_memalign");
    return is_refused() ? ENOMEM : next_posix_memalign(made, alignment, size);
}
