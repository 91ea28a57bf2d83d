/* test_acceptor EXCHANGE [ROUNDS]: what an acceptor of the library holds its clients to, and what it learns of them: channel bindings, names,
 * flags, the length of tokens, and a new book. Its clients are initiators of the library. Prints 'N passed, M failed'. */
#define _POSIX_C_SOURCE 200809L
#include "meeting.h"

#include <stdio.h>
#include <stdlib.h>
#include <string.h>
#include <sys/wait.h>
#include <unistd.h>

static const char CHANNEL[] = "tls-server-end-point:0123456789abcdef0123456789abcdef";

static mk_reply judge_bound(const exchange *x, mk_acceptor *acceptor, mk_judged *to, const octets *token, const char *data) {
    return mk_judge_bound(acceptor, to, token->at, token->length, text(data), strlen(data), &x->moment);
}

static void make(const exchange *x, mk_acceptor *to) {
    CHECK(mk_acceptor_new(to, text(x->name), strlen(x->name), x->key.at, x->key.length, 300).status == MK_OK);
}

/* A client is admitted over the channel that it gave, and over no other. */
static void bind_clients(const exchange *x, const octets *bound, const octets *unbound) {
    mk_acceptor acceptor = MK_EMPTY, none = MK_EMPTY;
    mk_judged judged = MK_EMPTY;
    mk_session session = MK_EMPTY;
    uint8_t out[64];
    CHECK(judge_bound(x, &none, &judged, bound, CHANNEL).status == MK_HANDLE);
    make(x, &acceptor);
    CHECK(is_refused(judge_bound(x, &acceptor, &judged, bound, "tls-server-end-point:other"), MK_CAUSE_BINDINGS));
    CHECK(is_refused(judge_bound(x, &acceptor, &judged, bound, ""), MK_CAUSE_BINDINGS));
    CHECK(is_refused(judge_bound(x, &acceptor, &judged, unbound, CHANNEL), MK_CAUSE_BINDINGS));
    CHECK(is_refused(judge_bound(x, &acceptor, &judged, unbound, ""), MK_CAUSE_BINDINGS));
    CHECK(is_refused(mk_judge_bound(&acceptor, &judged, bound->at, 1, text(CHANNEL), 1, &x->moment), MK_CAUSE_SHAPE));
    CHECK(judged.count == 0);
    CHECK(judge_bound(x, &acceptor, &judged, bound, CHANNEL).status == MK_OK);
    CHECK(judge_bound(x, &acceptor, &judged, bound, CHANNEL).status == MK_HANDLE);
    mk_reply reply = mk_judged_get_flags(&judged);
    CHECK(reply.status == MK_OK && reply.number == (MK_GSS_C_MUTUAL_FLAG | MK_GSS_C_REPLAY_FLAG | MK_GSS_C_SEQUENCE_FLAG | MK_GSS_C_CONF_FLAG |
                                                    MK_GSS_C_INTEG_FLAG));
    CHECK(mk_admit(&acceptor, &judged, &session).status == MK_OK);
    reply = mk_session_get_client(&session, out, sizeof out);
    CHECK(reply.status == MK_OK && reply.length == 17 && memcmp(out, "alice@EXAMPLE.COM", 17) == 0);
    mk_session_free(&session);
    CHECK(mk_judge(&acceptor, &judged, unbound->at, unbound->length, &x->moment).status == MK_OK);
    mk_judged_free(&judged);
    CHECK(mk_judge(&acceptor, &judged, bound->at, bound->length, &x->moment).status == MK_OK);
    CHECK(is_refused(mk_admit(&acceptor, &judged, &session), MK_CAUSE_REPLAYED));
    mk_acceptor_free(&acceptor);
}

/* A session of mk_accept knows its client whole; one of an initiator has none. */
static void know_clients(const exchange *x) {
    mk_session client = MK_EMPTY, server = MK_EMPTY, none = MK_EMPTY;
    uint8_t out[64];
    mk_times times;
    meet(x, &client, &server);
    mk_reply reply = mk_session_get_client(&server, out, sizeof out);
    CHECK(reply.status == MK_OK && reply.length == 17 && memcmp(out, "alice@EXAMPLE.COM", 17) == 0);
    CHECK(mk_session_get_times(&server, &times).status == MK_OK && times.starttime < times.endtime);
    reply = mk_session_get_flags(&server);
    CHECK(reply.status == MK_OK && reply.length == 0 && reply.number == 0x3e);
    CHECK(mk_session_get_ticket_flags(&server).status == MK_OK);
    CHECK(mk_session_get_client(&client, out, sizeof out).status == MK_HANDLE && mk_session_get_times(&client, &times).status == MK_HANDLE);
    CHECK(mk_session_get_flags(&client).status == MK_HANDLE && mk_session_get_ticket_flags(&client).status == MK_HANDLE);
    CHECK(mk_session_get_flags(&none).status == MK_HANDLE && mk_session_get_ticket_flags(&none).status == MK_HANDLE);
    mk_session_free(&client);
    mk_session_free(&server);
}

/* A text is sealed at one end into a room that has all of it. */
static octets sealed(mk_session *from, const exchange *x, const char *words) {
    octets token = {{0}, 0};
    token.length = mk_wrap(from, text(words), strlen(words), x->moment.random, 16, token.at, sizeof token.at).length;
    return token;
}

/* Messages in order: a gap, an exchange of two and a repetition are refused, and what is refused counts for nothing. */
static void go_in_order(const exchange *x) {
    mk_session client = MK_EMPTY, server = MK_EMPTY, none = MK_EMPTY;
    uint8_t out[64], mic[28];
    CHECK(mk_session_set_order(&none, 1).status == MK_HANDLE);
    meet(x, &client, &server);
    CHECK(mk_session_set_order(&server, 1).status == MK_OK);
    octets first = sealed(&client, x, "1"), second = sealed(&client, x, "2"), third = sealed(&client, x, "3");
    CHECK(is_refused(mk_unwrap(&server, second.at, second.length, out, sizeof out), MK_CAUSE_NUMBER));
    CHECK(mk_unwrap(&server, first.at, first.length, out, sizeof out).status == MK_OK && out[0] == '1');
    CHECK(is_refused(mk_unwrap(&server, third.at, third.length, out, sizeof out), MK_CAUSE_NUMBER));
    CHECK(is_refused(mk_unwrap(&server, first.at, first.length, out, sizeof out), MK_CAUSE_REPEATED));
    CHECK(mk_unwrap(&server, second.at, second.length, out, sizeof out).status == MK_OK && out[0] == '2');
    CHECK(mk_mic(&client, text("4"), 1, mic, sizeof mic).status == MK_OK);
    CHECK(is_refused(mk_verify(&server, mic, sizeof mic, text("4"), 1), MK_CAUSE_NUMBER));
    CHECK(mk_unwrap(&server, third.at, third.length, out, sizeof out).status == MK_OK);
    CHECK(mk_verify(&server, mic, sizeof mic, text("4"), 1).status == MK_OK);
    CHECK(is_refused(mk_verify(&server, mic, sizeof mic, text("4"), 1), MK_CAUSE_NUMBER));
    CHECK(mk_session_set_order(&server, 0).status == MK_OK);
    CHECK(mk_verify(&server, mic, sizeof mic, text("4"), 1).status == MK_OK);
    mk_session_free(&client);
    mk_session_free(&server);
}

/* A token past the limit is refused unread, by a copy too. */
static void limit(const exchange *x, const octets *token) {
    mk_acceptor acceptor = MK_EMPTY, copy = MK_EMPTY;
    mk_judged judged = MK_EMPTY;
    CHECK(mk_acceptor_set_token_limit(&acceptor, 9).status == MK_HANDLE);
    make(x, &acceptor);
    CHECK(mk_acceptor_set_token_limit(&acceptor, token->length - 1).status == MK_OK);
    CHECK(mk_acceptor_copy(&acceptor, &copy).status == MK_OK);
    CHECK(is_refused(mk_judge(&acceptor, &judged, token->at, token->length, &x->moment), MK_CAUSE_SHAPE));
    CHECK(is_refused(mk_judge(&copy, &judged, token->at, token->length, &x->moment), MK_CAUSE_SHAPE));
    CHECK(mk_acceptor_set_token_limit(&acceptor, token->length).status == MK_OK);
    CHECK(mk_judge(&acceptor, &judged, token->at, token->length, &x->moment).status == MK_OK);
    mk_judged_free(&judged);
    mk_acceptor_free(&acceptor);
    mk_acceptor_free(&copy);
}

/* One token at a moment that is far ahead moves the book for everybody, until another begins. */
static void begin_again(const exchange *x, const octets *token, const octets *other) {
    mk_acceptor acceptor = MK_EMPTY;
    mk_session session = MK_EMPTY;
    mk_moment late = x->moment;
    late.moment += 3600000000u;
    CHECK(mk_acceptor_new_book(&acceptor, 300).status == MK_HANDLE);
    make(x, &acceptor);
    CHECK(mk_accept(&acceptor, &session, token->at, token->length, &x->moment).status == MK_OK);
    mk_session_free(&session);
    CHECK(is_refused(mk_accept(&acceptor, &session, other->at, other->length, &late), MK_CAUSE_SKEW));
    CHECK(is_refused(mk_accept(&acceptor, &session, other->at, other->length, &x->moment), MK_CAUSE_SKEW));
    CHECK(mk_acceptor_new_book(&acceptor, 300).status == MK_OK && mk_acceptor_kept(&acceptor) == 0);
    CHECK(mk_accept(&acceptor, &session, other->at, other->length, &x->moment).status == MK_OK);
    mk_session_free(&session);
    CHECK(mk_accept(&acceptor, &session, token->at, token->length, &x->moment).status == MK_OK); /* as the header says: once more */
    mk_session_free(&session);
    mk_acceptor_free(&acceptor);
}

/* After a fork each process has its own replay book: both admit a token that was not admitted before, and neither admits one that was. */
static void fork_books(const exchange *x, const octets *before, const octets *after) {
    mk_acceptor acceptor = MK_EMPTY;
    mk_session session = MK_EMPTY;
    int status = -1;
    make(x, &acceptor);
    CHECK(mk_accept(&acceptor, &session, before->at, before->length, &x->moment).status == MK_OK);
    mk_session_free(&session);
    fflush(NULL);
    pid_t child = fork();
    CHECK(child >= 0);
    const int refused = is_refused(mk_accept(&acceptor, &session, before->at, before->length, &x->moment), MK_CAUSE_REPLAYED);
    const int admitted = mk_accept(&acceptor, &session, after->at, after->length, &x->moment).status == MK_OK;
    mk_session_free(&session);
    mk_acceptor_free(&acceptor);
    if (child == 0) _exit(refused && admitted ? 0 : 1);
    CHECK(refused && admitted);
    CHECK(waitpid(child, &status, 0) == child && WIFEXITED(status) && WEXITSTATUS(status) == 0);
}

/* Data of a channel that are too long: more than 16 MiB. */
static void bind_too_much(const exchange *x, const octets *token) {
    mk_acceptor acceptor = MK_EMPTY;
    mk_judged judged = MK_EMPTY;
    const size_t length = ((size_t)1 << 24) + 1;
    uint8_t *large = calloc(length, 1);
    make(x, &acceptor);
    if (large != NULL) {
        CHECK(mk_judge_bound(&acceptor, &judged, token->at, token->length, large, length, &x->moment).status == MK_ARGUMENT);
        CHECK(is_refused(mk_judge_bound(&acceptor, &judged, token->at, token->length, large, length - 1, &x->moment), MK_CAUSE_BINDINGS));
    }
    free(large);
    mk_acceptor_free(&acceptor);
}

/* Each free gives all blocks of its handle back. */
static void give_back(const exchange *x, const octets *token) {
    mk_acceptor acceptor = MK_EMPTY;
    mk_judged judged = MK_EMPTY;
    mk_session client = MK_EMPTY, server = MK_EMPTY;
    mk_initiator initiator = MK_EMPTY;
    const uint8_t number[4] = {1, 2, 3, 4};
    const long none = blocks_held();
    make(x, &acceptor);
    const long made = blocks_held();
    CHECK(mk_judge(&acceptor, &judged, token->at, token->length, &x->moment).status == MK_OK && blocks_held() > made);
    mk_judged_free(&judged);
    CHECK(blocks_held() == made && made > none);
    mk_acceptor_free(&acceptor);
    CHECK(blocks_held() == none);
    meet(x, &client, &server);
    const long met = blocks_held();
    mk_session_free(&client);
    CHECK(blocks_held() < met && blocks_held() > none);
    mk_session_free(&server);
    CHECK(blocks_held() == none);
    CHECK(mk_initiator_new(&initiator, text(x->target), strlen(x->target), text(x->machine), strlen(x->machine), 0, number, 4).status == MK_OK);
    CHECK(blocks_held() > none);
    mk_initiator_free(&initiator);
    CHECK(blocks_held() == none);
}

int main(int count, char **words) {
    static exchange x;
    int rounds = count > 2 ? atoi(words[2]) : 1;
    if (count < 2 || !read_exchange(words[1], &x)) {
        fprintf(stderr, "usage: test_acceptor EXCHANGE [ROUNDS]\n");
        return 2;
    }
    for (int i = 0; i < rounds; i++) {
        octets bound = token_for(&x, CHANNEL), unbound = token_for(&x, NULL);
        if (i == 0) {
            bind_too_much(&x, &unbound);
            fork_books(&x, &bound, &unbound);
        }
        bind_clients(&x, &bound, &unbound);
        know_clients(&x);
        limit(&x, &unbound);
        begin_again(&x, &bound, &unbound);
        give_back(&x, &bound);
        go_in_order(&x);
    }
    return tell_checks();
}
