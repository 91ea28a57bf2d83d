/* Shared by the tests of the library: checks that are counted, and octets in hex. */
#ifndef CHECKS_H
#define CHECKS_H

#include "menolavuri.h"

#define CHECK(test) check((test) != 0, #test, __FILE__, __LINE__)

void check(int test, const char *text, const char *file, int line);

/* Prints how many checks passed and failed: whether one failed. */
int tell_checks(void);

typedef struct {
    uint8_t at[4096];
    size_t length;
} octets;

octets from_hex(const char *hex);

int is_refused(mk_reply reply, uint32_t cause);

/* The octets of a text in the program. */
const uint8_t *text(const char *words);

#endif
