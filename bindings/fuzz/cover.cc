/* The parts of the proved archive that were reached: a trap at the start of each of its basic blocks, which is taken away once it was hit, and then counts
 * for libFuzzer. PROGRAM.blocks has the addresses (blocks.py). Without that file nothing is counted. */
#include "common.h"

#include <csignal>
#include <string>
#include <sys/mman.h>
#include <ucontext.h>
#include <unistd.h>

enum { COUNTERS = 1 << 16, TRAP = 0xcc };
__attribute__((section("__libfuzzer_extra_counters"))) static uint8_t counters[COUNTERS];

struct Block {
    uint64_t at;
    uint8_t was;
};
static std::vector<Block> blocks;
static std::vector<int32_t> numbers; /* of the block at each address from the first one on; -1 where none is */
static size_t reached;

static void on_trap(int, siginfo_t *, void *state) {
    greg_t &next = static_cast<ucontext_t *>(state)->uc_mcontext.gregs[REG_RIP];
    uint64_t at = uint64_t(next) - 1;
    if (at < blocks.front().at || at > blocks.back().at || numbers[at - blocks.front().at] < 0) _exit(99);
    int32_t number = numbers[at - blocks.front().at];
    *reinterpret_cast<uint8_t *>(at) = blocks[size_t(number)].was;
    counters[number % COUNTERS] = 1;
    reached++;
    next = greg_t(at);
}

static void print_reached() { fprintf(stderr, "blocks of the archive: %zu of %zu\n", reached, blocks.size()); }

static void set_traps() {
    uint64_t from = blocks.front().at & ~UINT64_C(4095), to = blocks.back().at | 4095;
    PROMISE(mprotect(reinterpret_cast<void *>(from), to - from + 1, PROT_READ | PROT_WRITE | PROT_EXEC) == 0, "no traps can be set");
    numbers.assign(blocks.back().at - blocks.front().at + 1, -1);
    for (size_t i = 0; i < blocks.size(); i++) {
        uint8_t *at = reinterpret_cast<uint8_t *>(blocks[i].at);
        blocks[i].was = *at;
        numbers[blocks[i].at - blocks.front().at] = int32_t(i);
        *at = TRAP;
    }
}

void cover_begin(const char *program) {
    FILE *file = fopen((std::string(program) + ".blocks").c_str(), "r");
    if (!file) return;
    for (unsigned long at; fscanf(file, "%lx", &at) == 1;) blocks.push_back({at, 0});
    fclose(file);
    if (blocks.empty()) return;
    struct sigaction action = {};
    action.sa_sigaction = on_trap;
    action.sa_flags = SA_SIGINFO | SA_NODEFER;
    sigaction(SIGTRAP, &action, nullptr);
    set_traps();
    atexit(print_reached);
}
