/* Both ends of a session, over the replies of a KDC that were recorded; memory that is refused, and blocks that are counted. */
#include "meeting.h"

#include <stdio.h>
#include <stdlib.h>
#include <string.h>

/* alice's key, that of the password in the file (RFC 3962, section 4): a password's key would take its time in each round. */
static const char USER[] = "EXAMPLE.COM\\alice", USER_KEY[] = "72e14c8e96dfba330802c689e06448591bc19da4f18500d9d63671d6ce24d52d";

int read_exchange(const char *path, exchange *x) {
    static char line[8192], first[8192], second[8192], third[8192];
    FILE *file = fopen(path, "r");
    if (file == NULL) {
        return 0;
    }
    while (fgets(line, sizeof line, file) != NULL) {
        if (sscanf(line, "key 1 %63s %8191s", x->name, first) == 2) {
            x->key = from_hex(first);
        } else if (x->reply_count < 3 && sscanf(line, "event 10 %8191s %8191s - reply %8191s", first, second, third) == 3) {
            x->moment.moment = strtoull(first, NULL, 10);
            memcpy(x->moment.random, from_hex(second).at, 64);
            x->replies[x->reply_count++] = from_hex(third);
        } else if (sscanf(line, "initiator 10 %*s %63s %63s", x->machine, x->target) != 2) {
            sscanf(line, "kdc 10 %63s", x->url);
        }
    }
    fclose(file);
    x->user_key = from_hex(USER_KEY);
    return x->key.length == 32 && x->reply_count == 3 && x->url[0] != 0;
}

/* An initiator whose token is for the service, bound to a channel with these data unless there are none. */
static void ask_all(const exchange *x, const char *channel, mk_initiator *to) {
    const uint32_t flags = MK_MUTUAL_AUTH | MK_REPLAY_DETECT | MK_SEQUENCE_DETECT | MK_CONFIDENTIALITY | MK_INTEGRITY;
    const uint8_t number[4] = {1, 2, 3, 4};
    CHECK(mk_initiator_new(to, text(x->target), strlen(x->target), text(x->machine), strlen(x->machine), flags, number, 4).status == MK_OK);
    CHECK(mk_initiator_set_kdc(to, text(x->url), strlen(x->url)).status == MK_OK);
    CHECK(mk_initiator_set_key(to, text(USER), sizeof USER - 1, 18, x->user_key.at, x->user_key.length).status == MK_OK);
    if (channel != NULL) {
        CHECK(mk_initiator_set_bindings(to, text(channel), strlen(channel)).status == MK_OK);
    }
    mk_step step = mk_initiator_start(to, &x->moment);
    for (size_t i = 0; i < 3; i++) {
        CHECK(step.reply.status == MK_OK && step.next == MK_ASK_KDC);
        step = mk_initiator_answer(to, x->replies[i].at, x->replies[i].length, &x->moment);
    }
    CHECK(step.reply.status == MK_OK && step.next == MK_SEND_TOKEN);
}

octets token_for(const exchange *x, const char *channel) {
    mk_initiator initiator = MK_EMPTY;
    octets token = {{0}, 0};
    ask_all(x, channel, &initiator);
    token.length = mk_initiator_get_token(&initiator, token.at, sizeof token.at).length;
    mk_initiator_free(&initiator);
    return token;
}

void meet(const exchange *x, mk_session *client, mk_session *server) {
    mk_initiator initiator = MK_EMPTY;
    mk_acceptor acceptor = MK_EMPTY;
    octets token = {{0}, 0};
    ask_all(x, NULL, &initiator);
    token.length = mk_initiator_get_token(&initiator, token.at, sizeof token.at).length;
    CHECK(mk_acceptor_new(&acceptor, text(x->name), strlen(x->name), x->key.at, x->key.length, 300).status == MK_OK);
    CHECK(mk_accept(&acceptor, server, token.at, token.length, &x->moment).status == MK_OK);
    token.length = mk_session_get_answer(server, token.at, sizeof token.at).length;
    mk_step step = mk_initiator_hear(&initiator, token.at, token.length, &x->moment);
    CHECK(step.reply.status == MK_OK && step.next == MK_ESTABLISHED);
    CHECK(mk_initiator_take_session(&initiator, client).status == MK_OK && client->count == 1 && server->count == 1);
    mk_initiator_free(&initiator);
    mk_acceptor_free(&acceptor);
}

/* How many growths of memory are granted before one is refused; if it is negative, all are. */
static long granted = -1;

void refuse_growth(long number) { granted = number; }

static int is_granted(void) { return granted < 0 || granted-- > 0; }

/* How many blocks were given and have not come back, and how many were given or grown at all. */
static long held, given;

long blocks_held(void) { return held; }

long blocks_given(void) { return given; }

static void *counted(void *at) {
    held += at != NULL;
    given++;
    return at;
}

/* The linker puts these four in the place of malloc, calloc, realloc and free. */
void *__real_malloc(size_t size);
void *__real_calloc(size_t count, size_t size);
void *__real_realloc(void *at, size_t size);
void __real_free(void *at);
void *__wrap_malloc(size_t size);
void *__wrap_calloc(size_t count, size_t size);
void *__wrap_realloc(void *at, size_t size);
void __wrap_free(void *at);

void *__wrap_malloc(size_t size) { return is_granted() ? counted(__real_malloc(size)) : NULL; }

void *__wrap_calloc(size_t count, size_t size) { return counted(__real_calloc(count, size)); }

void __wrap_free(void *at) {
    held -= at != NULL;
    __real_free(at);
}

void *__wrap_realloc(void *at, size_t size) {
    given++;
    return is_granted() ? __real_realloc(at, size) : NULL;
}
