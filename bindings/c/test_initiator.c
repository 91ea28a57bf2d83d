/* test_initiator LOGIN ANSWERS CCACHE [ROUNDS]: the calls of an initiator, over a log-in at a KDC and a service that was recorded, and over
 * a credential cache of MIT's kinit and kvno in hex: what is done, bad input, and this many rounds. A whole log-in, whose password's key
 * takes its time, is in one round of a thousand, and so is the cache. */
#include "login.h"

#include <stdio.h>
#include <stdlib.h>
#include <string.h>

/* Begins with these flags and rules, and takes the three replies of the KDC. They were recorded with these draws, so all rules may hold. */
static mk_step ask_all(const login *l, mk_initiator *to, uint32_t flags, uint32_t rules) {
    CHECK(mk_initiator_new(to, text(l->target), strlen(l->target), text(l->machine), strlen(l->machine), flags, l->number, 4).status == MK_OK);
    CHECK(mk_initiator_set_rules(to, rules).status == MK_OK);
    CHECK(mk_initiator_set_kdc(to, text(l->url), strlen(l->url)).status == MK_OK);
    set_password(l, to);
    mk_step step = mk_initiator_start(to, &l->steps[0]);
    for (size_t i = 0; i < 3; i++) {
        CHECK(leads_to(step, MK_ASK_KDC));
        step = mk_initiator_answer(to, l->replies[i].at, l->replies[i].length, &l->steps[i + 1]);
    }
    return step;
}

/* Whether its session seals with these flags of RFC 4121, section 4.2.2, and its first message has this as the end of its number. */
static int seals_so(const login *l, mk_initiator *initiator, uint8_t flags, uint8_t number) {
    mk_session session = MK_EMPTY;
    uint8_t out[128] = {0};
    CHECK(mk_initiator_take_session(initiator, &session).status == MK_OK);
    CHECK(mk_wrap(&session, l->text.at, l->text.length, l->confounder.at, l->confounder.length, out, sizeof out).status == MK_OK);
    mk_session_free(&session);
    return out[2] == flags && out[15] == number;
}

/* The log-in with other rules, and without mutual authentication. */
static void log_in_otherwise(const login *l) {
    const uint32_t one_way = ALL_FLAGS & ~(uint32_t)MK_MUTUAL_AUTH;
    mk_initiator initiator = MK_EMPTY;
    mk_session session = MK_EMPTY;
    uint8_t out[4096];
    CHECK(leads_to(ask_all(l, &initiator, ALL_FLAGS, MK_RULES_NONE), MK_SEND_TOKEN));
    CHECK(leads_to(mk_initiator_hear(&initiator, l->answer.at, l->answer.length, &l->steps[13]), MK_ESTABLISHED));
    CHECK(seals_so(l, &initiator, 6, l->sealed.at[15] + 1));
    CHECK(leads_to(ask_all(l, &initiator, one_way, MK_RULES_NONE), MK_SEND_TOKEN));
    CHECK(is_refused(mk_initiator_take_session(&initiator, &session), MK_CAUSE_SEQUENCE));
    mk_initiator_free(&initiator);
    CHECK(leads_to(ask_all(l, &initiator, one_way, MK_ONE_WAY_IS_SETTLED | MK_FRESH_REPLIES), MK_ESTABLISHED));
    mk_reply reply = mk_initiator_get_token(&initiator, out, sizeof out);
    CHECK(reply.status == MK_OK && reply.length > 0);
    CHECK(seals_so(l, &initiator, 6, l->sealed.at[15] + 1));
    CHECK(leads_to(ask_all(l, &initiator, one_way, MK_RULES_RFC), MK_ESTABLISHED));
    CHECK(seals_so(l, &initiator, 2, l->sealed.at[15]));
}

/* The recorded log-in is played back, an hour later, to an initiator that draws other octets: up to the step that is refused, or the end. */
static mk_step play_back(const login *l, mk_initiator *to, const uint32_t *rules) {
    mk_moment later = l->steps[0];
    later.moment += UINT64_C(3600000000);
    memset(later.random, 7, sizeof later.random);
    make_ready(l, to);
    CHECK(rules == NULL || mk_initiator_set_rules(to, *rules).status == MK_OK);
    mk_step step = mk_initiator_start(to, &later);
    for (size_t i = 0; i < 3 && step.reply.status == MK_OK; i++) {
        step = mk_initiator_answer(to, l->replies[i].at, l->replies[i].length, &later);
    }
    if (leads_to(step, MK_SEND_TOKEN)) {
        step = mk_initiator_hear(to, l->answer.at, l->answer.length, &later);
    }
    return step;
}

/* By default a recorded log-in is refused: the KDC's replies are to another request, and the AP-REP is to another authenticator. */
static void refuse_recordings(const login *l) {
    static const uint32_t none = MK_RULES_NONE, answer_alone = MK_ANSWERS_ITS_AUTHENTICATOR;
    mk_initiator initiator = MK_EMPTY;
    CHECK(is_refused(play_back(l, &initiator, NULL).reply, MK_CAUSE_NONCE));
    mk_initiator_free(&initiator);
    CHECK(is_refused(play_back(l, &initiator, &answer_alone).reply, MK_CAUSE_REPLY_TIME));
    mk_initiator_free(&initiator);
    CHECK(leads_to(play_back(l, &initiator, &none), MK_ESTABLISHED)); /* what the two rules are for */
    mk_initiator_free(&initiator);
}

/* The session seals as it was recorded, and keeps what it is. */
static void use_session(const login *l, mk_session *session) {
    uint8_t out[4096];
    mk_times times;
    mk_reply reply = mk_session_get_answer(session, out, sizeof out);
    CHECK(reply.status == MK_OK && reply.length == 0);
    CHECK(is_refused(mk_session_get_local_name(session, out, sizeof out), MK_CAUSE_NO_IDENTITY));
    CHECK(mk_session_get_client(session, out, sizeof out).status == MK_HANDLE);
    CHECK(mk_session_get_times(session, &times).status == MK_HANDLE);
    reply = mk_session_get_key(session, out, sizeof out);
    CHECK(reply.status == MK_OK && reply.length == 32);
    reply = mk_wrap(session, l->text.at, l->text.length, l->confounder.at, l->confounder.length, out, sizeof out);
    CHECK(gives(reply, out, l->sealed.at, l->sealed.length));
    CHECK(is_refused(mk_unwrap(session, out, reply.length, out + 2048, 2048), MK_CAUSE_DIRECTION));
    CHECK(mk_session_set_rules(session, MK_RULES_RFC).status == MK_OK);
    CHECK(mk_session_set_rules(session, 0x1000).status == MK_ARGUMENT);
    CHECK(mk_session_set_rules(session, MK_RULES_NONE).status == MK_OK);
}

/* The whole log-in, octet for octet. */
static void log_in(const login *l) {
    mk_initiator initiator = MK_EMPTY;
    mk_session session = MK_EMPTY, taken = MK_EMPTY;
    uint8_t out[4096];
    make_ready(l, &initiator);
    mk_step step = mk_initiator_start(&initiator, &l->steps[0]);
    for (size_t i = 0; i < 3; i++) {
        CHECK(leads_to(step, MK_ASK_KDC) && asks(l, &initiator, &l->asks[i]));
        CHECK(is_refused(mk_initiator_start(&initiator, &l->steps[0]).reply, MK_CAUSE_SEQUENCE));
        CHECK(is_refused(mk_initiator_hear(&initiator, l->answer.at, l->answer.length, &l->steps[0]).reply, MK_CAUSE_SEQUENCE));
        CHECK(is_refused(mk_initiator_get_token(&initiator, out, sizeof out), MK_CAUSE_SEQUENCE));
        step = mk_initiator_answer(&initiator, l->replies[i].at, l->replies[i].length, &l->steps[i + 1]);
    }
    CHECK(leads_to(step, MK_SEND_TOKEN));
    CHECK(is_refused(mk_initiator_get_request(&initiator, out, sizeof out), MK_CAUSE_SEQUENCE));
    CHECK(is_refused(mk_initiator_get_url(&initiator, out, sizeof out), MK_CAUSE_SEQUENCE));
    CHECK(is_refused(mk_initiator_start(&initiator, &l->steps[0]).reply, MK_CAUSE_SEQUENCE));
    CHECK(is_refused(mk_initiator_fault(&initiator, 1, &l->steps[0]).reply, MK_CAUSE_SEQUENCE));
    CHECK(is_refused(mk_initiator_take_session(&initiator, &session), MK_CAUSE_SEQUENCE) && initiator.count != 0 && session.count == 0);
    CHECK(is_refused(mk_initiator_get_peer(&initiator, out, sizeof out), MK_CAUSE_SEQUENCE));
    CHECK(is_refused(mk_initiator_hear(&initiator, l->token.at, l->token.length, &l->steps[13]).reply, MK_CAUSE_SHAPE));
    mk_reply reply = mk_initiator_get_token(&initiator, out, l->token.length - 1);
    CHECK(reply.status == MK_ROOM && reply.length == l->token.length);
    CHECK(gives(mk_initiator_get_token(&initiator, out, sizeof out), out, l->token.at, l->token.length));
    CHECK(leads_to(mk_initiator_hear(&initiator, l->answer.at, l->answer.length, &l->steps[13]), MK_ESTABLISHED));
    reply = mk_initiator_get_token(&initiator, out, sizeof out);
    CHECK(reply.status == MK_OK && reply.length == 0);
    CHECK(gives(mk_initiator_get_peer(&initiator, out, sizeof out), out, l->target, strlen(l->target)));
    CHECK(is_refused(mk_initiator_hear(&initiator, l->answer.at, l->answer.length, &l->steps[13]).reply, MK_CAUSE_SEQUENCE));
    CHECK(mk_initiator_take_session(&initiator, &session).status == MK_OK);
    CHECK(initiator.count == 0 && session.count != 0);
    CHECK(mk_initiator_take_session(&initiator, &taken).status == MK_HANDLE && taken.count == 0);
    use_session(l, &session);
    mk_initiator_free(&initiator);
    mk_session_free(&session);
    CHECK(session.count == 0);
}

/* No call is served by an empty handle, and none makes an initiator in a full one. */
static void refuse_handles(const login *l, mk_initiator *full) {
    mk_initiator empty = MK_EMPTY;
    mk_session session = MK_EMPTY;
    uint8_t out[64] = {0};
    const uint8_t *a = text("a");
    CHECK(make(l, full).status == MK_HANDLE && full->count != 0);
    CHECK(mk_initiator_set_rules(&empty, MK_RULES_NONE).status == MK_HANDLE);
    CHECK(mk_initiator_set_kdc(&empty, a, 1).status == MK_HANDLE);
    CHECK(mk_initiator_set_password(&empty, a, 1, a, 1, a, 1).status == MK_HANDLE);
    CHECK(mk_initiator_set_key(&empty, a, 1, 18, out, 32).status == MK_HANDLE);
    CHECK(mk_initiator_set_variable(&empty, a, 1, a, 1).status == MK_HANDLE);
    CHECK(mk_initiator_set_file(&empty, a, 1, a, 1).status == MK_HANDLE);
    CHECK(mk_initiator_set_bindings(&empty, a, 1).status == MK_HANDLE);
    CHECK(mk_initiator_start(&empty, &l->steps[0]).reply.status == MK_HANDLE);
    CHECK(mk_initiator_hear(&empty, a, 1, &l->steps[0]).reply.status == MK_HANDLE);
    CHECK(mk_initiator_answer(&empty, a, 1, &l->steps[0]).reply.status == MK_HANDLE);
    CHECK(mk_initiator_fault(&empty, 1, &l->steps[0]).reply.status == MK_HANDLE);
    CHECK(mk_initiator_get_url(&empty, out, sizeof out).status == MK_HANDLE);
    CHECK(mk_initiator_get_request(&empty, out, sizeof out).status == MK_HANDLE);
    CHECK(mk_initiator_get_token(&empty, out, sizeof out).status == MK_HANDLE);
    CHECK(mk_initiator_get_peer(&empty, out, sizeof out).status == MK_HANDLE);
    CHECK(mk_initiator_take_session(&empty, &session).status == MK_HANDLE);
    CHECK(mk_session_set_rules(&session, MK_RULES_NONE).status == MK_HANDLE);
    mk_initiator_free(&empty);
    CHECK(empty.count == 0 && empty.at == NULL && session.count == 0);
}

/* No text past UTF-8, no bit that names nothing, no number of another length. */
static void refuse_arguments(const login *l, mk_initiator *initiator) {
    mk_initiator none = MK_EMPTY;
    uint8_t key[32] = {7};
    const uint8_t *a = text("a"), *bad = text("\xff");
    CHECK(mk_initiator_new(&none, bad, 1, a, 1, ALL_FLAGS, l->number, 4).status == MK_ARGUMENT);
    CHECK(mk_initiator_new(&none, a, 1, bad, 1, ALL_FLAGS, l->number, 4).status == MK_ARGUMENT);
    CHECK(mk_initiator_new(&none, a, 1, a, 1, ALL_FLAGS, l->number, 3).status == MK_ARGUMENT);
    CHECK(mk_initiator_new(&none, a, 1, a, 1, ALL_FLAGS, key, 5).status == MK_ARGUMENT);
    CHECK(is_refused(mk_initiator_new(&none, text("\xc3\xa4"), 2, a, 1, ALL_FLAGS, l->number, 4), MK_CAUSE_NOT_ASCII));
    CHECK(none.count == 0 && none.at == NULL);
    CHECK(mk_initiator_set_rules(initiator, MK_RULES_NONE).status == MK_OK);
    for (int i = 0; i < 32; i++) {
        uint32_t rule = (uint32_t)1 << i;
        CHECK(mk_initiator_set_rules(initiator, rule).status == ((MK_RULES_RFC & rule) != 0 ? MK_OK : MK_ARGUMENT));
    }
    CHECK(mk_initiator_set_rules(initiator, MK_RULES_RFC).status == MK_OK);
    CHECK(mk_initiator_set_kdc(initiator, bad, 1).status == MK_ARGUMENT);
    CHECK(mk_initiator_set_password(initiator, bad, 1, a, 1, a, 1).status == MK_ARGUMENT);
    CHECK(mk_initiator_set_password(initiator, a, 1, bad, 1, a, 1).status == MK_ARGUMENT);
    CHECK(mk_initiator_set_password(initiator, a, 1, a, 1, bad, 1).status == MK_ARGUMENT);
    CHECK(mk_initiator_set_key(initiator, bad, 1, 18, key, 32).status == MK_ARGUMENT);
    CHECK(mk_initiator_set_key(initiator, a, 1, 256 + 18, key, 32).status == MK_ARGUMENT);
    CHECK(is_refused(mk_initiator_set_key(initiator, a, 1, 16, key, 32), MK_CAUSE_ETYPE));
    CHECK(is_refused(mk_initiator_set_key(initiator, text("E\\a@b"), 5, 18, key, 32), MK_CAUSE_BAD_USER));
    CHECK(mk_initiator_set_variable(initiator, bad, 1, a, 1).status == MK_ARGUMENT);
    CHECK(mk_initiator_set_variable(initiator, a, 1, bad, 1).status == MK_ARGUMENT);
    CHECK(mk_initiator_set_file(initiator, bad, 1, a, 1).status == MK_ARGUMENT);
    CHECK(mk_initiator_set_file(initiator, a, 1, bad, 1).status == MK_ARGUMENT);
}

static int is_late(mk_reply reply) { return is_refused(reply, MK_CAUSE_MOMENT); }

/* A step that fails changes nothing, and a fault or a refused answer ends the exchange: it can begin again. */
static void refuse_steps(const login *l, mk_initiator *initiator) {
    mk_moment late = l->steps[0], unfilled = l->steps[0];
    uint8_t out[4096] = {0};
    const octets *ask = &l->asks[0], *needs = &l->replies[0];
    late.moment = UINT64_MAX;
    memset(unfilled.random, 0, sizeof unfilled.random);
    CHECK(mk_initiator_start(initiator, &unfilled).reply.status == MK_ARGUMENT);
    CHECK(mk_initiator_hear(initiator, out, 0, &unfilled).reply.status == MK_ARGUMENT);
    CHECK(is_late(mk_initiator_start(initiator, &late).reply) && is_late(mk_initiator_hear(initiator, out, 0, &late).reply));
    CHECK(is_late(mk_initiator_answer(initiator, out, 0, &late).reply) && is_late(mk_initiator_fault(initiator, 1, &late).reply));
    CHECK(is_refused(mk_initiator_answer(initiator, needs->at, needs->length, &l->steps[0]).reply, MK_CAUSE_SEQUENCE));
    CHECK(is_refused(mk_initiator_fault(initiator, 1, &l->steps[0]).reply, MK_CAUSE_SEQUENCE));
    CHECK(is_refused(mk_initiator_start(initiator, &l->steps[0]).reply, MK_CAUSE_NO_IDENTITY));
    set_password(l, initiator);
    CHECK(is_refused(mk_initiator_start(initiator, &l->steps[0]).reply, MK_CAUSE_NO_KDC));
    CHECK(mk_initiator_set_kdc(initiator, text(l->url), strlen(l->url)).status == MK_OK);
    CHECK(leads_to(mk_initiator_start(initiator, &l->steps[0]), MK_ASK_KDC) && asks(l, initiator, ask));
    CHECK(mk_initiator_get_url(initiator, out, 3).status == MK_ROOM);
    mk_reply reply = mk_initiator_get_request(initiator, out, ask->length - 1);
    CHECK(reply.status == MK_ROOM && reply.length == ask->length);
    CHECK(is_late(mk_initiator_answer(initiator, needs->at, needs->length, &late).reply) && asks(l, initiator, ask));
    CHECK(mk_initiator_answer(initiator, needs->at, needs->length, &unfilled).reply.status == MK_ARGUMENT && asks(l, initiator, ask));
    CHECK(mk_initiator_fault(initiator, 77, &unfilled).reply.status == MK_ARGUMENT && asks(l, initiator, ask));
    mk_step step = mk_initiator_fault(initiator, 77, &l->steps[0]);
    CHECK(is_refused(step.reply, MK_CAUSE_NETWORK) && step.reply.number == 77 && step.next == MK_FAILED);
    CHECK(is_refused(mk_initiator_fault(initiator, 77, &l->steps[0]).reply, MK_CAUSE_SEQUENCE));
    CHECK(leads_to(mk_initiator_start(initiator, &l->steps[0]), MK_ASK_KDC) && asks(l, initiator, ask));
    CHECK(is_refused(mk_initiator_answer(initiator, out, 3, &l->steps[1]).reply, MK_CAUSE_REPLY_SHORT));
    CHECK(mk_initiator_set_rules(initiator, MK_RULES_NONE).status == MK_OK); /* without MK_NO_PREAUTHENTICATION */
    CHECK(leads_to(mk_initiator_start(initiator, &l->steps[0]), MK_ASK_KDC) && asks(l, initiator, ask));
    CHECK(is_refused(mk_initiator_answer(initiator, l->replies[1].at, l->replies[1].length, &l->steps[1]).reply, MK_CAUSE_EARLY_AS_REP));
}

/* A KDC that a file names, and a key in the place of a password. */
static void ask_by_file(const login *l) {
    static const char path[] = "/krb5.conf", file[] = "[realms]\nEXAMPLE.COM = {\nkdc = kdc.example.com:88\n}\n";
    mk_initiator initiator = MK_EMPTY;
    uint8_t out[64], key[32] = {7};
    CHECK(make(l, &initiator).status == MK_OK);
    CHECK(mk_initiator_set_key(&initiator, text("EXAMPLE.COM\\alice"), 17, 18, key, 32).status == MK_OK);
    CHECK(mk_initiator_set_variable(&initiator, text("KRB5_CONFIG"), 11, text(path), strlen(path)).status == MK_OK);
    CHECK(mk_initiator_set_file(&initiator, text(path), strlen(path), text(file), strlen(file)).status == MK_OK);
    CHECK(mk_initiator_set_bindings(&initiator, text("tls-server-end-point:"), 21).status == MK_OK);
    CHECK(leads_to(mk_initiator_start(&initiator, &l->steps[0]), MK_ASK_KDC));
    CHECK(gives(mk_initiator_get_url(&initiator, out, sizeof out), out, "tcp://kdc.example.com:88", 24));
    mk_initiator_free(&initiator);
    CHECK(initiator.count == 0);
}

/* Steps out of their turn, bad input and faults. */
static void refuse_initiators(const login *l) {
    mk_initiator initiator = MK_EMPTY;
    CHECK(make(l, &initiator).status == MK_OK);
    refuse_handles(l, &initiator);
    refuse_arguments(l, &initiator);
    refuse_steps(l, &initiator);
    mk_initiator_free(&initiator);
    mk_initiator_free(&initiator);
    ask_by_file(l);
}

int main(int count, char **words) {
    static login l;
    int rounds = count > 4 ? atoi(words[4]) : 1;
    if (count < 4 || !read_login(words[1], words[2], words[3], &l)) {
        fprintf(stderr, "usage: test_initiator LOGIN ANSWERS CCACHE [ROUNDS]\n");
        return 2;
    }
    for (int i = 0; i <= rounds / 1000; i++) {
        log_in(&l);
        log_in_otherwise(&l);
        refuse_recordings(&l);
        try_tickets(&l);
    }
    for (int i = 0; i < rounds; i++) {
        refuse_initiators(&l);
    }
    printf("%d rounds\n", rounds);
    return tell_checks();
}
