/* The three functions for memory that the library calls, over the process's own. Not proved: the proofs take them as stated here.
 * Each block is overwritten before it is freed, so that no key stays in memory that the process uses again. */
#define _GNU_SOURCE
#include <malloc.h>
#include <stdbool.h>
#include <stddef.h>
#include <stdlib.h>
#include <string.h>

typedef struct {
    bool ok;
    void *at;
} block;

static char nothing[1];

static block of(void *at) { return (block){at != NULL, at != NULL ? at : nothing}; }

/* Returns a block of `size` bytes at a multiple of `align`, which is a power of two of at most 16. */
block rattle_alloc(size_t size, size_t align) { return of(malloc(size != 0 ? size : align)); }

/* Overwrites the block and frees it. The empty statement reads the block, so the compiler keeps the writes, as in explicit_bzero, and
 * there is a call less for each of the many small blocks. */
void rattle_dealloc(void *at) {
    memset(at, 0, malloc_usable_size(at));
    __asm__ __volatile__("" : : "r"(at) : "memory");
    free(at);
}

/* Returns a block of `size` bytes whose first `kept` are those at `at`: the same block if it has room and is at most twice as large,
 * otherwise another one. realloc is not called, since it can leave a copy of the bytes. */
block rattle_realloc(void *at, size_t kept, size_t size, size_t align) {
    size_t wanted = size != 0 ? size : align;
    size_t room = malloc_usable_size(at);
    if (wanted <= room && room / 2 <= wanted) {
        return of(at);
    }
    block other = rattle_alloc(size, align);
    if (other.ok) {
        memcpy(other.at, at, kept < wanted ? kept : wanted);
        rattle_dealloc(at);
    }
    return other;
}
