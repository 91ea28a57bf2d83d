/* Stands in for ../c/memory.c. The proved archive has no checks of a sanitizer, so blocks check it: one in eight, and each large one, ends at a page
 * that cannot be touched, and nor can it be once it was freed; the others have marks before and after, which are looked at when they are
 * freed. Which ones depends on the input alone. All are counted while they are alive. */
#include <stdbool.h>
#include <stddef.h>
#include <stdint.h>
#include <stdio.h>
#include <stdlib.h>
#include <string.h>
#include <sys/mman.h>

typedef struct {
    bool ok;
    void *at;
} block;

size_t mem_live, mem_peak;
static unsigned turn;

void mem_reset(size_t input) {
    mem_peak = mem_live;
    turn = (unsigned)input;
}

enum { SLOTS = 16384, ROOM = 65536, PAGE = 4096, SLOT = ROOM + PAGE, LARGES = 64, EDGE = 16 };

static const uint8_t BEHIND[EDGE] = {0xc3, 0x5a, 0xc3, 0x5a, 0xc3, 0x5a, 0xc3, 0x5a, 0xc3, 0x5a, 0xc3, 0x5a, 0xc3, 0x5a, 0xc3, 0x5a};
static const uint64_t BEFORE = UINT64_C(0x6d61726b2d6d6b00), GONE = UINT64_C(0x676f6e652d6d6b00);

/* The head of a block that has marks. */
typedef struct {
    uint64_t mark, size;
} edge;

typedef struct {
    uint8_t *at, *map;
    size_t mapped, size;
} large;

static uint8_t *pool;
static uint32_t ring[SLOTS], head, used; /* free slots, the one that was freed last at the end */
static size_t sizes[SLOTS];              /* 0 where the slot is free */
static large larges[LARGES];
static int larges_used;
static char nothing[1];

static void fail(const char *why) {
    fprintf(stderr, "PROMISE: memory: %s\n", why);
    abort();
}

static size_t pages(size_t size) { return (size + PAGE - 1) & ~(size_t)(PAGE - 1); }

static void *map(size_t size, int protection) {
    return mmap(0, size, protection, MAP_PRIVATE | MAP_ANONYMOUS | MAP_NORESERVE, -1, 0);
}

static void make_pool(void) {
    pool = map((size_t)SLOTS * SLOT, PROT_NONE);
    if (pool == MAP_FAILED) fail("no address space");
    for (uint32_t i = 0; i < SLOTS; i++) ring[i] = i;
}

static uint8_t *take_slot(size_t size, size_t padded) {
    uint32_t slot = ring[head];
    head = (head + 1) % SLOTS;
    used++;
    uint8_t *end = pool + (size_t)slot * SLOT + ROOM;
    if (mprotect(end - pages(padded), pages(padded), PROT_READ | PROT_WRITE)) fail("mprotect");
    sizes[slot] = size;
    return end - padded;
}

static uint8_t *take_large(size_t size, size_t padded) {
    int i = 0;
    while (i < LARGES && larges[i].at) i++;
    if (i == LARGES) fail("too many large blocks");
    uint8_t *at = map(pages(padded) + PAGE, PROT_READ | PROT_WRITE);
    if (at == MAP_FAILED) return NULL;
    mprotect(at + pages(padded), PAGE, PROT_NONE);
    larges[i] = (large){at + pages(padded) - padded, at, pages(padded) + PAGE, size};
    larges_used++;
    return larges[i].at;
}

static uint8_t *take_marked(size_t size) {
    edge *at = malloc(sizeof(edge) + size + EDGE);
    if (!at) return NULL;
    *at = (edge){BEFORE, size};
    memcpy((uint8_t *)(at + 1) + size, BEHIND, EDGE);
    return (uint8_t *)(at + 1);
}

static uint8_t *take(size_t size, size_t padded) {
    if (padded > ROOM) return take_large(size, padded);
    return turn++ % 8 == 0 && used < SLOTS - 64 ? take_slot(size, padded) : take_marked(size);
}

block rattle_alloc(size_t size, size_t align) {
    if (!pool) make_pool();
    if (align > 16 || align == 0 || (align & (align - 1))) fail("an alignment that is no power of two up to 16");
    size_t wanted = size ? size : align;
    if (wanted > (size_t)1 << 30) return (block){false, nothing};
    size_t padded = (wanted + align - 1) / align * align;
    uint8_t *at = take(wanted, padded);
    if (!at) return (block){false, nothing};
    memset(at, 0xa5, wanted);
    mem_live += wanted;
    if (mem_live > mem_peak) mem_peak = mem_live;
    return (block){true, at};
}

static bool is_in_pool(uint8_t *at) { return pool && at >= pool && at < pool + (size_t)SLOTS * SLOT; }

/* The large block at an address, or LARGES. */
static int large_at(uint8_t *at) {
    int i = 0;
    while (i < LARGES && larges[i].at != at) i++;
    return i;
}

static size_t size_of(uint8_t *at) {
    if (is_in_pool(at)) {
        size_t size = sizes[(size_t)(at - pool) / SLOT];
        if (size == 0) fail("a block that was freed");
        return size;
    }
    int number = larges_used ? large_at(at) : LARGES;
    if (number < LARGES) return larges[number].size;
    edge *before = (edge *)at - 1;
    if (before->mark != BEFORE) fail("no block, or one that was freed, or its front is overwritten");
    if (memcmp(at + before->size, BEHIND, EDGE) != 0) fail("octets after a block are overwritten");
    return before->size;
}

static void drop_slot(uint8_t *at, size_t size) {
    uint32_t slot = (uint32_t)((size_t)(at - pool) / SLOT);
    uint8_t *base = pool + (size_t)slot * SLOT;
    sizes[slot] = 0;
    mprotect(base, ROOM, PROT_NONE);
    if (size > PAGE) madvise(base, ROOM, MADV_DONTNEED);
    ring[(head + SLOTS - used) % SLOTS] = slot;
    used--;
}

void rattle_dealloc(void *block_at) {
    uint8_t *at = block_at;
    size_t size = size_of(at);
    int number = is_in_pool(at) || !larges_used ? LARGES : large_at(at);
    if (is_in_pool(at)) {
        drop_slot(at, size);
    } else if (number < LARGES) {
        munmap(larges[number].map, larges[number].mapped);
        larges[number].at = NULL;
        larges_used--;
    } else {
        edge *before = (edge *)at - 1;
        before->mark = GONE;
        memset(at, 0x5a, size);
        free(before);
    }
    mem_live -= size;
}

block rattle_realloc(void *at, size_t kept, size_t size, size_t align) {
    if (kept > size_of(at)) fail("more is to be kept than there is");
    block other = rattle_alloc(size, align);
    if (other.ok) {
        memcpy(other.at, at, kept < size ? kept : size);
        rattle_dealloc(at);
    }
    return other;
}
