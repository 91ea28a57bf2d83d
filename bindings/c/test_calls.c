/* test_calls CONVERSATION [ROUNDS]: the calls of an acceptor and of a session, over a conversation with a client of MIT's that was
 * recorded: what is done, bad input, and this many rounds of both. Prints how long a call took, and 'N passed, M failed'. */
#include "checks.h"

#include <stdio.h>
#include <stdlib.h>
#include <string.h>
#include <time.h>

typedef struct {
    char name[256];
    octets key;
    mk_moment moment;
    octets token;
    octets messages[4];
    size_t count;
} conversation;

static int read_conversation(const char *path, conversation *c) {
    static char line[8192], first[8192], second[8192], third[8192];
    int clients = 0;
    FILE *file = fopen(path, "r");
    if (file == NULL) {
        return 0;
    }
    while (fgets(line, sizeof line, file) != NULL) {
        if (sscanf(line, "service %255s %8191s", c->name, first) == 2) {
            c->key = from_hex(first);
        } else if (clients == 0 && sscanf(line, "client %8191s %8191s %8191s", first, second, third) == 3) {
            clients = 1;
            c->moment.moment = strtoull(first, NULL, 10);
            memcpy(c->moment.random, from_hex(second).at, 64);
            c->token = from_hex(third);
        } else if (c->count < 4 && sscanf(line, "message %8191s", first) == 1) {
            c->messages[c->count++] = from_hex(first);
        }
    }
    fclose(file);
    return clients == 1 && c->count >= 3;
}

/* A moment whose random octets nobody filled. */
static mk_moment unfilled_of(const conversation *c) {
    mk_moment moment = c->moment;
    memset(moment.random, 0, sizeof moment.random);
    return moment;
}

static mk_reply make(const conversation *c, mk_acceptor *to) {
    return mk_acceptor_new(to, (const uint8_t *)c->name, strlen(c->name), c->key.at, c->key.length, 300);
}

/* The contents of the client's checksum and of its ticket, as libkrb5 decrypts them: the flags REPLAY, SEQUENCE, CONF, INTEG and TRANS, and
 * PRE-AUTHENT, TRANSITED-POLICY-CHECKED and ENC-PA-REP (RFC 4120, 5.3; RFC 6806, 11). */
static void tell_flags(mk_reply flags, mk_reply ticket_flags) {
    CHECK(flags.status == MK_OK && flags.length == 0 && flags.number == 0x13c);
    CHECK(ticket_flags.status == MK_OK && ticket_flags.length == 0 && ticket_flags.number == 0x00290000);
}

/* A moment is that of the clock, and no two are alike. */
static void moments(void) {
    mk_moment first, second;
    uint8_t out[16] = {0}, none[16] = {0};
    time_t before = time(NULL);
    CHECK(mk_now(&first) == 0 && mk_now(&second) == 0);
    CHECK((uint64_t)before <= first.moment / 1000000 && first.moment <= second.moment && second.moment / 1000000 <= (uint64_t)time(NULL));
    CHECK(memcmp(first.random, second.random, sizeof first.random) != 0);
    CHECK(mk_random(out, 0) == 0 && memcmp(out, none, sizeof out) == 0);
    CHECK(mk_random(out, sizeof out) == 0 && memcmp(out, none, sizeof out) != 0);
}

/* A client is admitted once, and each message of its is opened once. */
static void good(const conversation *c) {
    mk_acceptor acceptor = MK_EMPTY;
    mk_session session = MK_EMPTY, again = MK_EMPTY;
    uint8_t out[4096], mic[28];
    mk_times times;
    CHECK(make(c, &acceptor).status == MK_OK);
    CHECK(mk_acceptor_reserve(&acceptor, 4).status == MK_OK);
    CHECK(mk_acceptor_add_key(&acceptor, (const uint8_t *)"HTTP/other.example.com", 22, c->key.at, 16).status == MK_OK);
    mk_reply reply = mk_accept(&acceptor, &session, c->token.at, c->token.length, &c->moment);
    CHECK(reply.status == MK_OK && reply.length == 0);
    CHECK(mk_acceptor_kept(&acceptor) == 1);
    CHECK(is_refused(mk_accept(&acceptor, &again, c->token.at, c->token.length, &c->moment), MK_CAUSE_REPLAYED));
    CHECK(again.count == 0 && again.at == NULL);
    reply = mk_session_get_answer(&session, out, sizeof out);
    CHECK(reply.status == MK_OK && reply.length == 0);
    reply = mk_session_get_local_name(&session, out, sizeof out);
    CHECK(reply.status == MK_OK && reply.length == 17 && memcmp(out, "alice@example.com", 17) == 0);
    reply = mk_session_get_client(&session, out, sizeof out);
    CHECK(reply.status == MK_OK && reply.length == 17 && memcmp(out, "alice@EXAMPLE.COM", 17) == 0);
    CHECK(mk_session_get_times(&session, &times).status == MK_OK && times.authtime <= times.starttime && times.starttime < times.endtime);
    tell_flags(mk_session_get_flags(&session), mk_session_get_ticket_flags(&session));
    reply = mk_unwrap(&session, c->messages[1].at, c->messages[1].length, out, c->messages[1].length);
    CHECK(reply.status == MK_OK && reply.length == 1 && out[0] == 0x22 && mk_is_sealed(c->messages[1].at));
    CHECK(is_refused(mk_unwrap(&session, c->messages[1].at, c->messages[1].length, out, sizeof out), MK_CAUSE_REPEATED));
    reply = mk_wrap(&session, (const uint8_t *)"text", 4, c->moment.random, 16, out, sizeof out);
    CHECK(reply.status == MK_OK && reply.length == 64 && mk_is_sealed(out));
    CHECK(is_refused(mk_unwrap(&session, out, reply.length, out + 2048, 2048), MK_CAUSE_DIRECTION));
    reply = mk_wrap_in_clear(&session, (const uint8_t *)"text", 4, out, sizeof out);
    CHECK(reply.status == MK_OK && reply.length == 32 && !mk_is_sealed(out) && memcmp(out + 16, "text", 4) == 0);
    reply = mk_mic(&session, (const uint8_t *)"text", 4, mic, sizeof mic);
    CHECK(reply.status == MK_OK && reply.length == 28);
    CHECK(is_refused(mk_verify(&session, mic, sizeof mic, (const uint8_t *)"text", 4), MK_CAUSE_DIRECTION));
    CHECK((mic[2] & 4) == 0); /* no answer went to this client, so none brought a key */
    CHECK(mk_session_set_rules(&session, 0x1000).status == MK_ARGUMENT);
    CHECK(mk_session_set_rules(&session, MK_RULES_NONE).status == MK_OK);
    CHECK(mk_mic(&session, (const uint8_t *)"text", 4, mic, sizeof mic).status == MK_OK);
    CHECK((mic[2] & 4) != 0); /* the flag by MK_SUBKEY_FLAG_BY_ORIGIN alone */
    mk_session_free(&session);
    CHECK(session.count == 0);
    mk_session_free(&session);
    mk_acceptor_free(&acceptor);
    CHECK(acceptor.count == 0);
}

/* The two halves: a copy of the acceptor judges, and the one book admits once. */
static void halves(const conversation *c) {
    mk_acceptor book = MK_EMPTY, keys = MK_EMPTY;
    mk_judged judged = MK_EMPTY, again = MK_EMPTY;
    mk_session session = MK_EMPTY;
    uint8_t out[64];
    mk_times times;
    mk_reply reply;
    CHECK(mk_session_get_times(&session, &times).status == MK_HANDLE);
    CHECK(mk_session_get_client(&session, out, sizeof out).status == MK_HANDLE);
    CHECK(mk_acceptor_copy(&book, &keys).status == MK_HANDLE);
    CHECK(make(c, &book).status == MK_OK);
    CHECK(mk_acceptor_copy(&book, &keys).status == MK_OK);
    CHECK(mk_acceptor_copy(&book, &keys).status == MK_HANDLE);
    CHECK(mk_admit(&book, &judged, &session).status == MK_HANDLE);
    CHECK(is_refused(mk_judge(&keys, &judged, c->key.at, c->key.length, &c->moment), MK_CAUSE_SHAPE));
    mk_moment unfilled = unfilled_of(c);
    CHECK(mk_judge(&keys, &judged, c->token.at, c->token.length, &unfilled).status == MK_ARGUMENT);
    CHECK(mk_judge_bound(&keys, &judged, c->token.at, c->token.length, c->token.at, 1, &unfilled).status == MK_ARGUMENT);
    CHECK(mk_judge(&keys, &judged, c->token.at, c->token.length, &c->moment).status == MK_OK);
    CHECK(mk_judge(&keys, &judged, c->token.at, c->token.length, &c->moment).status == MK_HANDLE);
    CHECK(mk_judge(&keys, &again, c->token.at, c->token.length, &c->moment).status == MK_OK);
    CHECK(mk_acceptor_kept(&book) == 0 && mk_acceptor_kept(&keys) == 0);
    reply = mk_admit(&book, &judged, &session);
    CHECK(reply.status == MK_OK && reply.length == 0 && judged.count == 0);
    CHECK(mk_acceptor_kept(&book) == 1);
    CHECK(mk_admit(&book, &again, &session).status == MK_HANDLE && again.count == 1);
    reply = mk_session_get_local_name(&session, out, sizeof out);
    CHECK(reply.status == MK_OK && reply.length == 17 && memcmp(out, "alice@example.com", 17) == 0);
    reply = mk_session_get_client(&session, out, sizeof out);
    CHECK(reply.status == MK_OK && reply.length == 17 && memcmp(out, "alice@EXAMPLE.COM", 17) == 0);
    reply = mk_session_get_client(&session, out, 3);
    CHECK(reply.status == MK_ROOM && reply.length == 17);
    CHECK(mk_session_get_times(&session, &times).status == MK_OK && times.authtime <= times.starttime && times.starttime < times.endtime);
    tell_flags(mk_session_get_flags(&session), mk_session_get_ticket_flags(&session));
    mk_session_free(&session);
    CHECK(is_refused(mk_admit(&book, &again, &session), MK_CAUSE_REPLAYED) && again.count == 0);
    CHECK(mk_judge(&keys, &judged, c->token.at, c->token.length, &c->moment).status == MK_OK);
    mk_judged_free(&judged);
    mk_judged_free(&judged);
    mk_acceptor_free(&keys);
    mk_acceptor_free(&book);
}

/* The client gave no bindings. */
static mk_reply bound(const conversation *c, mk_acceptor *keys, mk_judged *to, const char *data) {
    return mk_judge_bound(keys, to, c->token.at, c->token.length, text(data), strlen(data), &c->moment);
}

/* The facts of a judged token, and an admission by the answer of a store: once if it had no record. */
static void told(const conversation *c) {
    static const char service[] = "host/server.example.com@EXAMPLE.COM";
    mk_acceptor keys = MK_EMPTY;
    mk_judged judged = MK_EMPTY, again = MK_EMPTY, unbound = MK_EMPTY;
    mk_session session = MK_EMPTY;
    uint8_t out[128], other[128], key[32];
    const uint8_t tag[12] = {0xac, 0xa4, 0x0d, 0xdc, 0xbe, 0x93, 0x2f, 0xaa, 0xba, 0x16, 0xf9, 0xdc}; /* the end of the token */
    const uint64_t moment = c->moment.moment;
    CHECK(mk_judged_get_record(&judged, out, sizeof out).status == MK_HANDLE);
    CHECK(mk_judged_get_flags(&judged).status == MK_HANDLE && mk_judged_get_tag(&judged, out, 12).status == MK_HANDLE);
    CHECK(mk_judged_get_delegation(&judged, out, sizeof out).status == MK_HANDLE);
    CHECK(mk_admit_told(&judged, &session, 300, moment, 0).status == MK_HANDLE);
    CHECK(make(c, &keys).status == MK_OK);
    CHECK(mk_judge(&keys, &judged, c->token.at, c->token.length, &c->moment).status == MK_OK);
    CHECK(mk_judge(&keys, &again, c->token.at, c->token.length, &c->moment).status == MK_OK);
    mk_reply reply = mk_judged_get_client(&judged, out, sizeof out);
    CHECK(reply.status == MK_OK && reply.length == 17 && memcmp(out, "alice@EXAMPLE.COM", 17) == 0);
    reply = mk_judged_get_service(&judged, out, sizeof out);
    CHECK(reply.status == MK_OK && reply.length == sizeof service - 1 && memcmp(out, service, reply.length) == 0);
    reply = mk_judged_get_record(&judged, out, sizeof out);
    CHECK(reply.status == MK_OK && reply.length > 33 && memcmp(out + 14, "Zalice@EXAMPLE.COM", 19) == 0);
    CHECK(mk_judged_get_record(&again, other, sizeof other).length == reply.length && memcmp(out, other, reply.length) == 0);
    CHECK(mk_judged_get_record(&judged, out, 20).status == MK_ROOM && judged.count == 1);
    reply = mk_judged_get_flags(&judged);
    CHECK(reply.status == MK_OK && reply.length == 0 && reply.number == 0x13c);
    CHECK(mk_judged_get_tag(&judged, out, 11).status == MK_ROOM);
    reply = mk_judged_get_tag(&judged, out, 12);
    CHECK(reply.status == MK_OK && reply.length == 12 && memcmp(out, tag, 12) == 0);
    reply = mk_judged_get_delegation(&judged, out, 0);
    CHECK(reply.status == MK_OK && reply.length == 0); /* it asked for none */
    CHECK(is_refused(bound(c, &keys, &unbound, "tls-unique:1"), MK_CAUSE_BINDINGS) && unbound.count == 0);
    CHECK(is_refused(mk_admit_told(&again, &session, 300, moment, 1), MK_CAUSE_REPLAYED) && again.count == 0);
    CHECK(mk_judge(&keys, &again, c->token.at, c->token.length, &c->moment).status == MK_OK);
    CHECK(is_refused(mk_admit_told(&again, &session, 300, moment + 302000000, 0), MK_CAUSE_SKEW) && session.count == 0);
    reply = mk_admit_told(&judged, &session, 300, moment, 0);
    CHECK(reply.status == MK_OK && reply.length == 0 && judged.count == 0 && session.count == 1);
    reply = mk_session_get_client(&session, out, sizeof out);
    CHECK(reply.status == MK_OK && reply.length == 17 && memcmp(out, "alice@EXAMPLE.COM", 17) == 0);
    reply = mk_session_get_delegation(&session, out, 0);
    CHECK(reply.status == MK_OK && reply.length == 0);
    CHECK(mk_session_get_key(&session, key, 31).status == MK_ROOM);
    reply = mk_session_get_key(&session, key, sizeof key);
    CHECK(reply.status == MK_OK && reply.length == 32);
    CHECK(mk_acceptor_kept(&keys) == 0);
    mk_session_free(&session);
    CHECK(mk_session_get_key(&session, key, sizeof key).status == MK_HANDLE);
    CHECK(mk_session_get_delegation(&session, out, sizeof out).status == MK_HANDLE);
    mk_acceptor_free(&keys);
}

/* Whether these octets are among those. */
static int has(const uint8_t *at, size_t length, const uint8_t *part, size_t part_length) {
    for (size_t i = 0; i + part_length <= length; i++) {
        if (memcmp(at + i, part, part_length) == 0) {
            return 1;
        }
    }
    return 0;
}

static void put(octets *o, const void *from, size_t length) {
    memcpy(o->at + o->length, from, length);
    o->length += length;
}

static void put_counted(octets *o, const char *text) {
    const uint8_t length[2] = {0, (uint8_t)strlen(text)};
    put(o, length, 2);
    put(o, text, strlen(text));
}

/* A keytab with one entry of host/server.example.com in EXAMPLE.COM: the version 05 02, and the entry after its size. */
static octets keytab_of(const octets *key, uint8_t version) {
    octets entry = {{0}, 0}, file = {{0}, 0};
    const uint8_t two[2] = {0, 2}, type_and_time[8] = {0, 0, 0, 3, 0, 0, 0, 1}, suite_and_size[4] = {0, 18, 0, 32};
    put(&entry, two, 2);
    put_counted(&entry, "EXAMPLE.COM");
    put_counted(&entry, "host");
    put_counted(&entry, "server.example.com");
    put(&entry, type_and_time, 8);
    put(&entry, &version, 1);
    put(&entry, suite_and_size, 4);
    put(&entry, key->at, 32);
    const uint8_t head[6] = {5, 2, 0, 0, 0, (uint8_t)entry.length};
    put(&file, head, 6);
    put(&file, entry.at, entry.length);
    return file;
}

/* An acceptor of a keytab's services: of two keys of one name the newer is its key. */
static void keytabs(const conversation *c) {
    const uint8_t *realm = (const uint8_t *)"EXAMPLE.COM";
    mk_acceptor acceptor = MK_EMPTY;
    mk_session session = MK_EMPTY;
    const octets other = {{1, 2, 3}, 32};
    octets file = keytab_of(&c->key, 2), newer = keytab_of(&other, 3);
    CHECK(is_refused(mk_acceptor_new_keytab(&acceptor, file.at, 1, realm, 11, 300), MK_CAUSE_SHAPE));
    CHECK(is_refused(mk_acceptor_new_keytab(&acceptor, file.at, file.length - 1, realm, 11, 300), MK_CAUSE_SHAPE));
    CHECK(is_refused(mk_acceptor_new_keytab(&acceptor, file.at, file.length, realm, 7, 300), MK_CAUSE_NO_SERVICE_KEY));
    CHECK(mk_acceptor_new_keytab(&acceptor, file.at, file.length, (const uint8_t *)"\xff", 1, 300).status == MK_ARGUMENT);
    CHECK(acceptor.count == 0);
    mk_reply reply = mk_acceptor_new_keytab(&acceptor, file.at, file.length, realm, 11, 300);
    CHECK(reply.status == MK_OK && reply.length == 1);
    CHECK(mk_acceptor_new_keytab(&acceptor, file.at, file.length, realm, 11, 300).status == MK_HANDLE);
    CHECK(mk_accept(&acceptor, &session, c->token.at, c->token.length, &c->moment).status == MK_OK);
    mk_session_free(&session);
    mk_acceptor_free(&acceptor);
    put(&file, newer.at + 2, newer.length - 2);
    reply = mk_acceptor_new_keytab(&acceptor, file.at, file.length, realm, 11, 300);
    CHECK(reply.status == MK_OK && reply.length == 1);
    CHECK(is_refused(mk_accept(&acceptor, &session, c->token.at, c->token.length, &c->moment), MK_CAUSE_ALTERED));
    mk_acceptor_free(&acceptor);
}

/* A keyring judges by the keys of its keytabs, and an acceptor without a key admits what it judged, once. */
static void keyrings(const conversation *c) {
    mk_keyring ring = MK_EMPTY;
    mk_acceptor book = MK_EMPTY, other_book = MK_EMPTY;
    mk_judged judged = MK_EMPTY;
    mk_session session = MK_EMPTY;
    const uint8_t none[1] = {0};
    const octets other = {{1, 2, 3}, 32};
    octets file = keytab_of(&c->key, 2), newer = keytab_of(&other, 3);
    uint8_t tag[12], again[12];
    int32_t type = 7;
    CHECK(mk_keyring_count(&ring) == 0 && mk_keyring_add_keytab(&ring, file.at, file.length).status == MK_HANDLE);
    CHECK(mk_keyring_set_token_limit(&ring, 9).status == MK_HANDLE);
    CHECK(mk_keyring_judge(&ring, &judged, c->token.at, c->token.length, 0, none, 0, &c->moment).status == MK_HANDLE);
    CHECK(mk_keyring_new(&ring).status == MK_OK && mk_keyring_new(&ring).status == MK_HANDLE && mk_keyring_count(&ring) == 0);
    CHECK(is_refused(mk_keyring_judge(&ring, &judged, c->token.at, c->token.length, 0, none, 0, &c->moment), MK_CAUSE_NO_SERVICE_KEY));
    CHECK(is_refused(mk_keyring_add_keytab(&ring, file.at, file.length - 1), MK_CAUSE_SHAPE) && mk_keyring_count(&ring) == 0);
    mk_reply reply = mk_keyring_add_keytab(&ring, newer.at, newer.length);
    CHECK(reply.status == MK_OK && reply.length == 1 && mk_keyring_count(&ring) == 1);
    CHECK(is_refused(mk_keyring_judge(&ring, &judged, c->token.at, c->token.length, 0, none, 0, &c->moment), MK_CAUSE_ALTERED));
    reply = mk_keyring_add_keytab(&ring, file.at, file.length);
    CHECK(reply.status == MK_OK && reply.length == 1 && mk_keyring_count(&ring) == 2);
    /* The ticket names version 2. */
    CHECK(mk_keyring_judge(&ring, &judged, c->token.at, c->token.length, 0, none, 0, &c->moment).status == MK_OK);
    CHECK(mk_keyring_judge(&ring, &judged, c->token.at, c->token.length, 0, none, 0, &c->moment).status == MK_HANDLE);
    CHECK(mk_judged_get_tag(&judged, tag, sizeof tag).status == MK_OK);
    CHECK(mk_judged_get_authorization(&judged, SIZE_MAX, &type, again, 0).status == MK_ARGUMENT && type == 7);
    CHECK(mk_acceptor_new_keyless(&book, 300).status == MK_OK && mk_acceptor_new_keyless(&book, 300).status == MK_HANDLE);
    CHECK(mk_judge(&book, &judged, c->token.at, c->token.length, &c->moment).status == MK_HANDLE);
    CHECK(mk_admit(&other_book, &judged, &session).status == MK_HANDLE && judged.count == 1);
    CHECK(mk_admit(&book, &judged, &session).status == MK_OK && judged.count == 0);
    CHECK(mk_session_get_tag(&session, again, 11).status == MK_ROOM);
    reply = mk_session_get_tag(&session, again, sizeof again);
    CHECK(reply.status == MK_OK && reply.length == 12 && memcmp(tag, again, 12) == 0);
    CHECK(mk_session_get_authorization(&session, SIZE_MAX, &type, again, 0).status == MK_ARGUMENT && type == 7);
    mk_session_free(&session);
    CHECK(is_refused(mk_judge(&book, &judged, c->token.at, c->token.length, &c->moment), MK_CAUSE_NO_SERVICE_KEY));
    /* This client gave no bindings of a channel. */
    CHECK(is_refused(mk_keyring_judge(&ring, &judged, c->token.at, c->token.length, 1, none, 1, &c->moment), MK_CAUSE_BINDINGS));
    CHECK(mk_keyring_judge(&ring, &judged, c->token.at, c->token.length, 0, none, 1, &c->moment).status == MK_OK);
    CHECK(is_refused(mk_admit(&book, &judged, &session), MK_CAUSE_REPLAYED) && judged.count == 0);
    CHECK(mk_keyring_set_token_limit(&ring, c->token.length - 1).status == MK_OK);
    CHECK(is_refused(mk_keyring_judge(&ring, &judged, c->token.at, c->token.length, 0, none, 0, &c->moment), MK_CAUSE_SHAPE));
    mk_moment late = c->moment, unfilled = unfilled_of(c);
    late.moment = UINT64_MAX;
    CHECK(mk_keyring_judge(&ring, &judged, c->token.at, c->token.length, 0, none, 0, &late).status == MK_ARGUMENT);
    CHECK(mk_keyring_judge(&ring, &judged, c->token.at, c->token.length, 0, none, 0, &unfilled).status == MK_ARGUMENT);
    CHECK(mk_judged_get_authorization(&judged, 0, &type, again, 0).status == MK_HANDLE);
    CHECK(mk_session_get_tag(&session, again, sizeof again).status == MK_HANDLE);
    CHECK(mk_session_get_authorization(&session, 0, &type, again, 0).status == MK_HANDLE && type == 7);
    mk_keyring_free(&ring);
    mk_acceptor_free(&book);
    CHECK(ring.count == 0 && book.count == 0);
}

/* The token of a refusal: the mechanism's name, 03 00 (RFC 4121, 4.1), and a KRB-ERROR (RFC 4120, 5.9.1). */
static void tell_refusals(void) {
    static const uint8_t head[] = {0x06, 0x09, 0x2a, 0x86, 0x48, 0x86, 0xf7, 0x12, 0x01, 0x02, 0x02, 0x03, 0x00, 0x7e};
    static const uint8_t skew[] = {0xa6, 0x03, 0x02, 0x01, 0x25}, generic[] = {0xa6, 0x03, 0x02, 0x01, 0x3c};
    static const char name[] = "host/server.example.com", realm[] = "EXAMPLE.COM";
    const uint64_t moment = 1700000000123456u; /* 2023-11-14 22:13:20 */
    uint8_t out[256];
    mk_reply reply = mk_error_token(MK_CAUSE_SKEW, text(name), strlen(name), text(realm), 11, moment, out, sizeof out);
    CHECK(reply.status == MK_OK && out[0] == 0x60 && memcmp(out + 3 - (out[1] < 0x80), head, sizeof head) == 0);
    CHECK(has(out, reply.length, skew, sizeof skew) && has(out, reply.length, text("20231114221320Z"), 15));
    CHECK(has(out, reply.length, text("server.example.com"), 18) && has(out, reply.length, text(realm), 11));
    CHECK(mk_error_token(MK_CAUSE_SKEW, text(name), strlen(name), text(realm), 11, moment, out, reply.length - 1).status == MK_ROOM);
    reply = mk_error_token(MK_CAUSE_ALTERED, text(name), strlen(name), text(realm), 11, moment, out, sizeof out);
    CHECK(reply.status == MK_OK && has(out, reply.length, generic, sizeof generic));
    CHECK(mk_error_token(0, text(name), strlen(name), text(realm), 11, moment, out, sizeof out).status == MK_ARGUMENT);
    CHECK(mk_error_token(14, text("\xff"), 1, text(realm), 11, moment, out, sizeof out).status == MK_ARGUMENT);
    CHECK(is_refused(mk_error_token(14, text("\xc3\xa4"), 2, text(realm), 11, moment, out, sizeof out), MK_CAUSE_NOT_ASCII));
    CHECK(is_refused(mk_error_token(14, text(name), strlen(name), text(realm), 11, UINT64_MAX, out, sizeof out), MK_CAUSE_MOMENT));
}

/* Whatever is not done leaves all as it was. */
static void bad(const conversation *c) {
    mk_acceptor acceptor = MK_EMPTY, none = MK_EMPTY;
    mk_session session = MK_EMPTY, empty = MK_EMPTY;
    uint8_t out[4096], spoilt[4096];
    mk_moment late = c->moment, unfilled = unfilled_of(c);
    CHECK(mk_acceptor_new(&acceptor, (const uint8_t *)c->name, strlen(c->name), c->key.at, 24, 300).status == MK_ARGUMENT);
    CHECK(mk_acceptor_new(&acceptor, (const uint8_t *)"\xff", 1, c->key.at, 32, 300).status == MK_ARGUMENT);
    CHECK(is_refused(mk_acceptor_new(&acceptor, (const uint8_t *)"\xc3\xa4", 2, c->key.at, 32, 300), MK_CAUSE_NOT_ASCII));
    CHECK(acceptor.count == 0);
    CHECK(mk_acceptor_add_key(&none, (const uint8_t *)"a", 1, c->key.at, 32).status == MK_HANDLE);
    CHECK(mk_acceptor_reserve(&none, 1).status == MK_HANDLE);
    CHECK(mk_acceptor_kept(&none) == 0);
    CHECK(mk_accept(&none, &session, c->token.at, c->token.length, &c->moment).status == MK_HANDLE);
    CHECK(mk_session_get_answer(&empty, out, sizeof out).status == MK_HANDLE);
    CHECK(mk_session_get_local_name(&empty, out, sizeof out).status == MK_HANDLE);
    CHECK(mk_wrap(&empty, out, 1, out, 16, spoilt, sizeof spoilt).status == MK_HANDLE);
    CHECK(mk_wrap_in_clear(&empty, out, 1, spoilt, sizeof spoilt).status == MK_HANDLE);
    CHECK(mk_unwrap(&empty, out, 1, spoilt, sizeof spoilt).status == MK_HANDLE);
    CHECK(mk_mic(&empty, out, 1, spoilt, sizeof spoilt).status == MK_HANDLE);
    CHECK(mk_verify(&empty, out, 1, spoilt, 1).status == MK_HANDLE);
    CHECK(make(c, &acceptor).status == MK_OK);
    CHECK(make(c, &acceptor).status == MK_HANDLE);
    CHECK(is_refused(mk_accept(&acceptor, &session, c->token.at, 0, &c->moment), MK_CAUSE_SHAPE));
    memcpy(spoilt, c->token.at, c->token.length);
    spoilt[c->token.length - 1] ^= 1;
    CHECK(is_refused(mk_accept(&acceptor, &session, spoilt, c->token.length, &c->moment), MK_CAUSE_ALTERED));
    late.moment = UINT64_MAX;
    CHECK(mk_accept(&acceptor, &session, c->token.at, c->token.length, &late).status == MK_ARGUMENT);
    CHECK(mk_accept(&acceptor, &session, c->token.at, c->token.length, &unfilled).status == MK_ARGUMENT);
    CHECK(mk_accept(&none, &session, c->token.at, c->token.length, &unfilled).status == MK_ARGUMENT);
    unfilled.random[63] = 1; /* one bit is enough */
    CHECK(is_refused(mk_accept(&acceptor, &session, spoilt, c->token.length, &unfilled), MK_CAUSE_ALTERED));
    late.moment = c->moment.moment + 301000000;
    CHECK(mk_acceptor_kept(&acceptor) == 0);
    CHECK(mk_accept(&acceptor, &session, c->token.at, c->token.length, &c->moment).status == MK_OK);
    CHECK(mk_accept(&acceptor, &session, c->token.at, c->token.length, &c->moment).status == MK_HANDLE);
    CHECK(is_refused(mk_accept(&acceptor, &empty, c->token.at, c->token.length, &late), MK_CAUSE_SKEW));
    mk_reply reply = mk_session_get_local_name(&session, out, 16);
    CHECK(reply.status == MK_ROOM && reply.length == 17);
    reply = mk_unwrap(&session, c->messages[1].at, c->messages[1].length, out, 0);
    CHECK(reply.status == MK_ROOM && reply.length == 1);
    CHECK(mk_unwrap(&session, c->messages[1].at, c->messages[1].length, out, 1).status == MK_OK);
    CHECK(is_refused(mk_unwrap(&session, out, 0, out + 1, 64), MK_CAUSE_HEADER));
    CHECK(mk_wrap(&session, out, 1, out, 15, spoilt, sizeof spoilt).status == MK_ARGUMENT);
    reply = mk_wrap(&session, c->token.at, 4, c->moment.random, 16, out, 63);
    CHECK(reply.status == MK_ROOM && reply.length == 64);
    CHECK(mk_wrap(&session, c->token.at, 4, c->moment.random, 16, out, 64).status == MK_OK);
    CHECK(mk_wrap(&session, c->token.at, 4, c->moment.random, 16, spoilt, 64).status == MK_OK);
    CHECK(out[15] + 1 == spoilt[15]); /* a call that had no room took no number */
    CHECK(mk_mic(&session, out, 0, spoilt, 27).status == MK_ROOM);
    CHECK(is_refused(mk_verify(&session, spoilt, 0, out, 0), MK_CAUSE_HEADER));
    mk_session_free(&session);
    CHECK(mk_session_get_local_name(&session, out, sizeof out).status == MK_HANDLE);
    mk_acceptor_free(&acceptor);
    mk_acceptor_free(&acceptor);
}

/* The names, and a token longer than 16 MiB. */
static void once(const conversation *c) {
    mk_acceptor acceptor = MK_EMPTY;
    mk_session session = MK_EMPTY;
    uint8_t out[64];
    size_t length = (size_t)17 << 20;
    uint8_t *large = calloc(length, 1);
    mk_reply reply = mk_cause_name(MK_CAUSE_REPLAYED, out, sizeof out);
    CHECK(reply.status == MK_OK && reply.length == 8 && memcmp(out, "Replayed", 8) == 0);
    reply = mk_kind_name(MK_KIND_TIME_SKEW, out, sizeof out);
    CHECK(reply.status == MK_OK && reply.length == 8 && memcmp(out, "TimeSkew", 8) == 0);
    CHECK(mk_kind_name(0, out, sizeof out).status == MK_ARGUMENT);
    CHECK(mk_cause_name(1000, out, sizeof out).status == MK_ARGUMENT);
    CHECK(mk_kind_name(1, out, 3).status == MK_ROOM);
    reply = mk_version(out, sizeof out);
    static const char version[] = "0.1.0";
    CHECK(reply.status == MK_OK && reply.length == sizeof version - 1 && memcmp(out, version, sizeof version - 1) == 0);
    CHECK(strcmp(MK_VERSION, version) == 0);
    CHECK(make(c, &acceptor).status == MK_OK);
    if (large != NULL) {
        memcpy(large, c->token.at, c->token.length);
        CHECK(mk_accept(&acceptor, &session, large, length, &c->moment).status == MK_REFUSED);
        CHECK(mk_accept(&acceptor, &session, c->token.at, c->token.length, &c->moment).status == MK_OK);
        CHECK(mk_unwrap(&session, large, length, large, 0).status == MK_REFUSED);
    }
    free(large);
    mk_session_free(&session);
    mk_acceptor_free(&acceptor);
}

static double seconds_of(const conversation *c, int rounds) {
    uint8_t out[256];
    mk_acceptor acceptor = MK_EMPTY;
    clock_t start;
    double seconds;
    CHECK(make(c, &acceptor).status == MK_OK);
    mk_session session = MK_EMPTY;
    CHECK(mk_accept(&acceptor, &session, c->token.at, c->token.length, &c->moment).status == MK_OK);
    start = clock();
    for (int i = 0; i < rounds; i++) {
        CHECK(mk_wrap(&session, c->token.at, 64, c->moment.random, 16, out, sizeof out).status == MK_OK);
    }
    seconds = (double)(clock() - start) / CLOCKS_PER_SEC;
    mk_session_free(&session);
    mk_acceptor_free(&acceptor);
    return seconds;
}

int main(int count, char **words) {
    static conversation c;
    int rounds = count > 2 ? atoi(words[2]) : 1;
    if (count < 2 || !read_conversation(words[1], &c)) {
        fprintf(stderr, "usage: test_calls CONVERSATION [ROUNDS]\n");
        return 2;
    }
    moments();
    once(&c);
    for (int i = 0; i < rounds; i++) {
        good(&c);
        halves(&c);
        told(&c);
        keytabs(&c);
        keyrings(&c);
        tell_refusals();
        bad(&c);
    }
    printf("%d rounds; %.2f microseconds for a wrap of 64 octets\n", rounds, seconds_of(&c, 10000) * 100);
    return tell_checks();
}
