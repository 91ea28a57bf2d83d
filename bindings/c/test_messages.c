/* test_messages EXCHANGE [ROUNDS]: messages and MICs of all lengths up to 1 MiB between two ends of the library, and the blocks of memory that
 * each call takes. It makes this many rounds of the short ones, at least one of each, and one of the long ones. Lengths are those of RFC 4121, section 4.2. */
#include "meeting.h"

#include <stdio.h>
#include <stdlib.h>
#include <string.h>

#define MOST ((size_t)1 << 20)

static uint8_t text_at[MOST], token_at[MOST + 76], out_at[MOST + 76];

/* The calls, and the most blocks of memory that each takes once a session has kept the keys of its first messages: messages are encrypted
 * and signed in the caller's room, and verified where they lie. mk_wrap_in_clear makes its token apart, and mk_unwrap copies its token. */
enum { WRAP, WRAP_IN_CLEAR, UNWRAP, MIC, VERIFY, CALLS };
static const char *const NAMES[CALLS] = {"mk_wrap", "mk_wrap_in_clear", "mk_unwrap", "mk_mic", "mk_verify"};
static const long MOST_BLOCKS[CALLS] = {0, 3, 1, 0, 0};

/* The most that each took, and whether the keys are kept. */
static long taken[CALLS];
static int is_counted;
static long before;

static void begin(void) { before = blocks_given(); }

static void end(int call) {
    long blocks = blocks_given() - before;
    if (is_counted) {
        CHECK(blocks <= MOST_BLOCKS[call]);
        taken[call] = blocks > taken[call] ? blocks : taken[call];
    }
}

/* A token of one end, and its text at the other end. */
static void send(mk_session *from, mk_session *to, size_t length, int is_sealed) {
    const uint8_t confounder[16] = {0xc0, 0x4f, 0x0d, 0xe5};
    const size_t wanted = length + (is_sealed ? 60 : 28);
    begin();
    mk_reply made = is_sealed ? mk_wrap(from, text_at, length, confounder, sizeof confounder, token_at, sizeof token_at)
                              : mk_wrap_in_clear(from, text_at, length, token_at, sizeof token_at);
    end(is_sealed ? WRAP : WRAP_IN_CLEAR);
    CHECK(made.status == MK_OK && made.length == wanted && mk_is_sealed(token_at) == is_sealed);
    token_at[wanted - 1] ^= 1;
    CHECK(is_refused(mk_unwrap(to, token_at, wanted, out_at, sizeof out_at), MK_CAUSE_ALTERED));
    token_at[wanted - 1] ^= 1;
    begin();
    mk_reply read = mk_unwrap(to, token_at, wanted, out_at, sizeof out_at);
    end(UNWRAP);
    CHECK(read.status == MK_OK && read.length == length && memcmp(out_at, text_at, length) == 0);
    CHECK(is_refused(mk_unwrap(to, token_at, wanted, out_at, sizeof out_at), MK_CAUSE_REPEATED));
}

/* A MIC of one end, and that the other end verifies it. */
static void sign(mk_session *from, mk_session *to, size_t length) {
    uint8_t mic[28];
    begin();
    mk_reply made = mk_mic(from, text_at, length, mic, sizeof mic);
    end(MIC);
    CHECK(made.status == MK_OK && made.length == sizeof mic);
    begin();
    mk_reply verified = mk_verify(to, mic, sizeof mic, text_at, length);
    end(VERIFY);
    CHECK(verified.status == MK_OK);
    mic[27] ^= 1;
    CHECK(is_refused(mk_verify(to, mic, sizeof mic, text_at, length), MK_CAUSE_ALTERED));
}

static void speak(mk_session *client, mk_session *server, size_t length) {
    for (int is_sealed = 0; is_sealed < 2; is_sealed++) {
        send(client, server, length, is_sealed);
        send(server, client, length, is_sealed);
    }
    sign(client, server, length);
    sign(server, client, length);
}

int main(int count, char **words) {
    static const size_t lengths[] = {0, 1, 15, 16, 17, 64, 1000, 1024};
    static const size_t long_ones[] = {16384, 65537, MOST};
    exchange x = {0};
    if (count < 2 || !read_exchange(words[1], &x)) {
        puts("usage: test_messages EXCHANGE [ROUNDS]");
        return 1;
    }
    for (size_t i = 0; i < MOST; i++) {
        text_at[i] = (uint8_t)(i * 167 + (i >> 8));
    }
    mk_session client = MK_EMPTY, server = MK_EMPTY;
    long held = blocks_held();
    meet(&x, &client, &server);
    speak(&client, &server, 1);
    is_counted = 1;
    const size_t kinds = sizeof lengths / sizeof *lengths;
    size_t rounds = count > 2 ? (size_t)atol(words[2]) : 1;
    for (size_t round = 0; round < rounds || round < kinds; round++) {
        speak(&client, &server, lengths[round % kinds]);
    }
    for (size_t i = 0; i < sizeof long_ones / sizeof *long_ones; i++) {
        speak(&client, &server, long_ones[i]);
    }
    mk_session_free(&client);
    mk_session_free(&server);
    CHECK(blocks_held() == held);
    for (int call = 0; call < CALLS; call++) {
        printf("%s takes %ld blocks of memory at most\n", NAMES[call], taken[call]);
    }
    return tell_checks();
}
