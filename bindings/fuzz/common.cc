/* Octets next to guard pages, replies, and bounds. */
#include "common.h"

#include <sys/mman.h>

extern "C" size_t mem_live, mem_peak;
extern "C" void mem_reset(size_t input);

static const size_t CAP = 1 << 20, PAGE = 4096;
static bool front; /* whether octets begin after a guard page, in this input */

static std::vector<Count *> &counts() {
    static std::vector<Count *> all;
    return all;
}

Count::Count(const char *name) : name(name) { counts().push_back(this); }

static void print_counts() {
    for (Count *it : counts()) fprintf(stderr, "%s: %lu\n", it->name, it->times);
}

void cover_begin(const char *program);

extern "C" int LLVMFuzzerInitialize(int *, char ***argv) {
    cover_begin((*argv)[0]);
    atexit(print_counts);
    return 0;
}

/* Room of its own for the eight that are in use. */
static uint8_t *region(int number) {
    static uint8_t *regions[16];
    if (!regions[number]) {
        void *at = mmap(0, CAP + 2 * PAGE, PROT_READ | PROT_WRITE, MAP_PRIVATE | MAP_ANONYMOUS | MAP_NORESERVE, -1, 0);
        PROMISE(at != MAP_FAILED, "no address space");
        uint8_t *from = static_cast<uint8_t *>(at);
        mprotect(from, PAGE, PROT_NONE);
        mprotect(from + PAGE + CAP, PAGE, PROT_NONE);
        regions[number] = from + PAGE;
    }
    return regions[number];
}

static uint8_t *place(int number, size_t length) {
    PROMISE(length <= CAP, "a room of %zu", length);
    return front ? region(number) : region(number) + CAP - length;
}

Lent::Lent(const bytes &b) : length(b.size()) {
    static int turn;
    uint8_t *to = place(turn++ & 7, length);
    if (length) memcpy(to, b.data(), length);
    at = to;
}

Room::Room(size_t length) : length(length) {
    static int turn;
    at = place(8 + (turn++ & 7), length);
    memset(at, 0x5c, length);
}

bool Room::is_unchanged() const {
    for (size_t i = 0; i < length; i++) {
        if (at[i] != 0x5c) return false;
    }
    return true;
}

bool is_refused(mk_reply reply, uint32_t cause) { return reply.status == MK_REFUSED && reply.cause == cause; }

void check_reply(const char *call, mk_reply reply, size_t room) {
    PROMISE(reply.status <= MK_SASL, "%s: status %u", call, reply.status);
    PROMISE(reply.status != MK_HANDLE, "%s: the handle is what is wanted", call);
    PROMISE(reply.status != MK_MEMORY, "%s: memory does not run out", call);
    if (reply.status == MK_OK) PROMISE(reply.length <= room, "%s: length %zu, room %zu", call, reply.length, room);
    if (reply.status == MK_ROOM) PROMISE(reply.length > room, "%s: length %zu wanted, room %zu", call, reply.length, room);
    if (reply.status == MK_SASL) PROMISE(reply.number >= 1 && reply.number <= MK_SASL_FRAME, "%s: number %u", call, reply.number);
    if (reply.status == MK_REFUSED) {
        PROMISE(reply.kind >= 1 && reply.kind <= MK_KIND_OUT_OF_MEMORY, "%s: kind %u", call, reply.kind);
        PROMISE(reply.cause >= 1 && reply.cause <= MK_CAUSE_TRANSITED, "%s: cause %u", call, reply.cause);
    }
}

/* All that the calls for one input may have alive at once: a book takes some 160 KiB with its first record, and a harness has two. */
static size_t bound(size_t input) { return (512 << 10) + 64 * input; }

Memory::Memory(size_t input) : input(input), before(mem_live) {
    front = input & 1;
    mem_reset(input);
}

Memory::~Memory() {
    static size_t worst;
    size_t peak = mem_peak - before;
    if (peak > worst + worst / 4) {
        worst = peak;
        fprintf(stderr, "memory: %zu octets alive at the peak, for an input of %zu\n", peak, input);
    }
    PROMISE(peak <= bound(input), "%zu octets alive for an input of %zu", peak, input);
    PROMISE(mem_live == before, "%zu octets are never freed", mem_live - before);
}

mk_moment moment_at(uint64_t moment) {
    mk_moment it;
    it.moment = moment;
    for (int i = 0; i < 64; i++) it.random[i] = uint8_t(0x41 + i);
    return it;
}
