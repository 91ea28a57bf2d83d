/* The calls with the tickets of a user: those of a credential cache of MIT's kinit and kvno, and those of a log-in that was recorded. */
#include "login.h"

#include <string.h>

/* The cache of alice: options up to 393, then the tickets for krbtgt/EXAMPLE.COM, host/server.example.com and imap/server.example.com, as a
 * second reader of the format finds them: where each entry begins, its key of 32 bytes and its ticket. All are valid in the same seconds. */
static const size_t TGT = 393, HOST = 957, IMAP = 1568;
static const size_t TGT_TICKET = 544, TGT_LENGTH = 409, HOST_KEY = 1048, HOST_TICKET = 1113, HOST_LENGTH = 451;
static const uint64_t VALID_FROM = UINT64_C(1796096853000000), VALID_TO = UINT64_C(1796183253000000);

static mk_initiator initiator_for(const login *l, const char *target) {
    mk_initiator initiator = MK_EMPTY;
    CHECK(mk_initiator_new(&initiator, text(target), strlen(target), text(l->machine), strlen(l->machine), ALL_FLAGS, l->number, 4).status == MK_OK);
    return initiator;
}

static mk_reply set_first(const login *l, mk_initiator *initiator, size_t length, uint64_t moment) {
    return mk_initiator_set_ccache(initiator, l->ccache.at, length, moment);
}

static int is_found(mk_reply reply, size_t which) { return reply.status == MK_OK && reply.length == which; }

static int contains(const uint8_t *out, size_t length, const uint8_t *part, size_t part_length) {
    for (size_t i = 0; i + part_length <= length; i++) {
        if (memcmp(out + i, part, part_length) == 0) {
            return 1;
        }
    }
    return 0;
}

/* The service's ticket is shown at once, whether it comes from the file or by itself, and the TGT is shown to the KDC. */
static void show_tickets(const login *l) {
    mk_moment moment = l->steps[0];
    mk_initiator initiator = initiator_for(l, "host/server.example.com"), other = initiator_for(l, "host/server.example.com");
    uint8_t out[4096], again[4096];
    moment.moment = VALID_FROM;
    CHECK(is_found(set_first(l, &initiator, l->ccache.length, VALID_FROM), 1));
    CHECK(leads_to(mk_initiator_start(&initiator, &moment), MK_SEND_TOKEN));
    mk_reply token = mk_initiator_get_token(&initiator, out, sizeof out);
    CHECK(token.status == MK_OK && contains(out, token.length, l->ccache.at + HOST_TICKET, HOST_LENGTH));
    CHECK(mk_initiator_set_ticket(&other, text("EXAMPLE.COM"), 11, text("alice"), 5, 18, l->ccache.at + HOST_KEY, 32,
                                  l->ccache.at + HOST_TICKET, HOST_LENGTH).status == MK_OK);
    CHECK(leads_to(mk_initiator_start(&other, &moment), MK_SEND_TOKEN));
    CHECK(gives(mk_initiator_get_token(&other, again, sizeof again), again, out, token.length));
    mk_initiator_free(&initiator);
    mk_initiator_free(&other);
    initiator = initiator_for(l, "ldap/server.example.com");
    CHECK(is_found(set_first(l, &initiator, l->ccache.length, VALID_FROM), 2));
    CHECK(is_refused(mk_initiator_start(&initiator, &moment).reply, MK_CAUSE_NO_KDC));
    CHECK(mk_initiator_set_kdc(&initiator, text(l->url), strlen(l->url)).status == MK_OK);
    CHECK(leads_to(mk_initiator_start(&initiator, &moment), MK_ASK_KDC));
    mk_reply request = mk_initiator_get_request(&initiator, out, sizeof out);
    CHECK(request.status == MK_OK && contains(out, request.length, l->ccache.at + TGT_TICKET, TGT_LENGTH));
    mk_initiator_free(&initiator);
}

/* A ticket is taken in the seconds that it is valid in, and what the cache has up to there; the password that is set last counts. */
static void find_tickets(const login *l) {
    mk_initiator initiator = initiator_for(l, "host/server.example.com"), alone = initiator_for(l, "alice");
    mk_moment moment = l->steps[0];
    CHECK(is_refused(set_first(l, &initiator, l->ccache.length, VALID_FROM - 1), MK_CAUSE_NO_IDENTITY));
    CHECK(is_found(set_first(l, &initiator, l->ccache.length, VALID_TO - 1), 1));
    CHECK(is_refused(set_first(l, &initiator, l->ccache.length, VALID_TO), MK_CAUSE_NO_IDENTITY));
    CHECK(is_refused(set_first(l, &initiator, l->ccache.length, UINT64_MAX), MK_CAUSE_NO_IDENTITY));
    CHECK(is_refused(set_first(l, &initiator, TGT, VALID_FROM), MK_CAUSE_NO_IDENTITY));
    CHECK(is_found(set_first(l, &initiator, HOST, VALID_FROM), 2) && is_found(set_first(l, &initiator, IMAP, VALID_FROM), 1));
    CHECK(is_refused(set_first(l, &alone, l->ccache.length, VALID_FROM), MK_CAUSE_TARGET));
    for (size_t length = 0; length < HOST; length++) {
        int is_whole = length == 48 || length == 223 || length == TGT; /* the ends of the head and of the options */
        CHECK(is_refused(set_first(l, &initiator, length, VALID_FROM), is_whole ? MK_CAUSE_NO_IDENTITY : MK_CAUSE_SHAPE));
    }
    set_password(l, &initiator);
    CHECK(mk_initiator_set_kdc(&initiator, text(l->url), strlen(l->url)).status == MK_OK);
    CHECK(leads_to(mk_initiator_start(&initiator, &l->steps[0]), MK_ASK_KDC) && asks(l, &initiator, &l->asks[0]));
    mk_initiator_free(&initiator);
    initiator = initiator_for(l, "host/server.example.com");
    CHECK(is_found(set_first(l, &initiator, l->ccache.length, VALID_FROM), 1));
    CHECK(is_refused(set_first(l, &initiator, 100, VALID_FROM), MK_CAUSE_SHAPE)); /* the ticket that was set stays */
    moment.moment = VALID_FROM;
    CHECK(leads_to(mk_initiator_start(&initiator, &moment), MK_SEND_TOKEN));
    mk_initiator_free(&initiator);
    mk_initiator_free(&alone);
}

/* The tickets of the recorded log-in go into a cache without an entry. From it another initiator asks as was recorded, and shows the token
 * that was recorded. */
static void keep_tickets(const login *l) {
    mk_initiator initiator = MK_EMPTY;
    uint8_t file[4096], out[4096];
    size_t length = 48;
    memcpy(file, l->ccache.at, length);
    make_ready(l, &initiator);
    CHECK(is_refused(mk_initiator_get_ccache(&initiator, file, length, file, 0, &l->steps[1], out, sizeof out), MK_CAUSE_SEQUENCE));
    CHECK(leads_to(mk_initiator_start(&initiator, &l->steps[0]), MK_ASK_KDC));
    for (size_t i = 0; i < 3; i++) {
        const octets *answer = &l->replies[i];
        mk_initiator other = initiator_for(l, l->target);
        mk_reply reply = mk_initiator_get_ccache(&initiator, file, length, answer->at, answer->length, &l->steps[i + 1], out, sizeof out);
        CHECK(reply.status == MK_OK && (reply.length == 0) == (i == 0) && (i == 0 || memcmp(out, file, length) == 0));
        if (i > 0) {
            mk_reply bad = mk_initiator_get_ccache(&initiator, file, length - 1, answer->at, answer->length, &l->steps[i + 1], out, sizeof out);
            CHECK(is_refused(bad, MK_CAUSE_SHAPE));
            mk_moment unfilled = l->steps[i + 1];
            memset(unfilled.random, 0, sizeof unfilled.random);
            bad = mk_initiator_get_ccache(&initiator, file, length, answer->at, answer->length, &unfilled, out, sizeof out);
            CHECK(bad.status == MK_ARGUMENT);
            memcpy(file, out, length = reply.length);
            CHECK(is_found(mk_initiator_set_ccache(&other, file, length, l->steps[i + 1].moment), i == 1 ? 2 : 1));
            CHECK(mk_initiator_set_kdc(&other, text(l->url), strlen(l->url)).status == MK_OK);
            CHECK(leads_to(mk_initiator_start(&other, &l->steps[i + 1]), i == 1 ? MK_ASK_KDC : MK_SEND_TOKEN));
            CHECK(i == 2 || asks(l, &other, &l->asks[2]));
            CHECK(i == 1 || gives(mk_initiator_get_token(&other, out, sizeof out), out, l->token.at, l->token.length));
        }
        CHECK(mk_initiator_answer(&initiator, answer->at, answer->length, &l->steps[i + 1]).reply.status == MK_OK);
        mk_initiator_free(&other);
    }
    mk_initiator_free(&initiator);
}

/* Tickets, keys and names that are none. */
static void refuse_tickets(const login *l) {
    mk_initiator initiator = initiator_for(l, "host/server.example.com"), empty = MK_EMPTY;
    const uint8_t *realm = text("EXAMPLE.COM"), *name = text("alice"), *key = l->ccache.at + HOST_KEY, *ticket = l->ccache.at + HOST_TICKET;
    CHECK(set_first(l, &empty, l->ccache.length, VALID_FROM).status == MK_HANDLE);
    CHECK(mk_initiator_set_ticket(&empty, realm, 11, name, 5, 18, key, 32, ticket, HOST_LENGTH).status == MK_HANDLE);
    CHECK(mk_initiator_set_ticket(&initiator, realm, 11, text("\xff"), 1, 18, key, 32, ticket, HOST_LENGTH).status == MK_ARGUMENT);
    CHECK(is_refused(mk_initiator_set_ticket(&initiator, text("\xff"), 1, name, 5, 18, key, 32, ticket, HOST_LENGTH), MK_CAUSE_NOT_ASCII));
    CHECK(is_refused(mk_initiator_set_ticket(&initiator, realm, 11, text("\xc3\xa4"), 2, 18, key, 32, ticket, HOST_LENGTH), MK_CAUSE_NOT_ASCII));
    CHECK(is_refused(mk_initiator_set_ticket(&initiator, realm, 11, text("a\\b"), 3, 18, key, 32, ticket, HOST_LENGTH), MK_CAUSE_BAD_USER));
    CHECK(is_refused(mk_initiator_set_ticket(&initiator, text("a@b"), 3, name, 5, 18, key, 32, ticket, HOST_LENGTH), MK_CAUSE_BAD_USER));
    CHECK(is_refused(mk_initiator_set_ticket(&initiator, realm, 11, name, 5, 23, key, 32, ticket, HOST_LENGTH), MK_CAUSE_ETYPE));
    CHECK(is_refused(mk_initiator_set_ticket(&initiator, realm, 11, name, 5, 65536 + 18, key, 32, ticket, HOST_LENGTH), MK_CAUSE_ETYPE));
    CHECK(is_refused(mk_initiator_set_ticket(&initiator, realm, 11, name, 5, 18, key, 32, ticket, HOST_LENGTH - 1), MK_CAUSE_SHAPE));
    CHECK(is_refused(mk_initiator_start(&initiator, &l->steps[0]).reply, MK_CAUSE_NO_IDENTITY));
    CHECK(mk_initiator_set_ticket(&initiator, realm, 11, name, 5, 18, key, 31, ticket, HOST_LENGTH).status == MK_OK);
    CHECK(is_refused(mk_initiator_start(&initiator, &l->steps[0]).reply, MK_CAUSE_KEY_LENGTH));
    mk_initiator_free(&initiator);
}

void try_tickets(const login *l) {
    show_tickets(l);
    find_tickets(l);
    keep_tickets(l);
    refuse_tickets(l);
}
