/* Checks that are counted, and octets in hex. */
#include "checks.h"

#include <stdio.h>

static unsigned long passed, failed;

void check(int test, const char *text, const char *file, int line) {
    if (test) {
        passed++;
    } else if (failed++ < 20) {
        printf("%s, line %d: not so: %s\n", file, line, text);
    }
}

int tell_checks(void) {
    printf("%lu passed, %lu failed\n", passed, failed);
    return failed != 0;
}

octets from_hex(const char *hex) {
    octets o = {{0}, 0};
    unsigned octet;
    while (o.length < sizeof o.at && sscanf(hex, "%2x", &octet) == 1) {
        o.at[o.length++] = (uint8_t)octet;
        hex += 2;
    }
    return o;
}

int is_refused(mk_reply reply, uint32_t cause) { return reply.status == MK_REFUSED && reply.cause == cause; }

const uint8_t *text(const char *words) { return (const uint8_t *)words; }
