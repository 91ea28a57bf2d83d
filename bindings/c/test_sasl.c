/* test_sasl EXCHANGE [ROUNDS]: the security layers of SASL GSSAPI between two ends of the library: what is done, bad input, short rooms,
 * memory that is refused, and this many rounds, but at least four, each with one of four conversations. What tokens and frames are to be is
 * that of RFC 4752, section 3, RFC 4422, section 3.7, and RFC 4121, section 4.2. */
#include "meeting.h"

#include <stdio.h>
#include <stdlib.h>
#include <string.h>

static int is_done(mk_reply reply, size_t length) {
    return reply.status == MK_OK && reply.length == length && reply.kind == 0 && reply.cause == 0 && reply.number == 0;
}

static int is_short(mk_reply reply, size_t length) { return reply.status == MK_ROOM && reply.length == length; }

/* Whether the rules of the layers refuse it so. */
static int breaks(mk_reply reply, uint32_t refusal) {
    return reply.status == MK_SASL && reply.number == refusal && reply.kind == 0 && reply.cause == 0 && reply.length == 0;
}

static int gives(mk_reply reply, const uint8_t *out, const void *wanted, size_t length) {
    return is_done(reply, length) && memcmp(out, wanted, length) == 0;
}

/* Whether a token has this text in the clear, with a checksum (RFC 4121, section 4.2.4): after a header of 16 octets, before 12 others. */
static int is_in_clear(const uint8_t *token, size_t length, const void *wanted, size_t wanted_length) {
    const uint8_t spelt[] = {5, 4}, counts[] = {0xff, 0, 12, 0, 0};
    return length == wanted_length + 28 && memcmp(token, spelt, 2) == 0 && !mk_is_sealed(token) && memcmp(token + 3, counts, 5) == 0 &&
           memcmp(token + 16, wanted, wanted_length) == 0;
}

/* True if a message contains the first of some data, which are more than a few, in the clear. */
static int holds(const uint8_t *message, size_t length, const uint8_t *data, size_t data_length) {
    for (size_t i = 0; data_length >= 16 && i + 16 <= length; i++) {
        if (memcmp(message + i, data, 16) == 0) {
            return 1;
        }
    }
    return 0;
}

/* Whether a message of a layer has these data (RFC 4752, section 3.3). */
static int is_message(const uint8_t *message, size_t length, uint32_t layer, const uint8_t *data, size_t data_length) {
    if (layer == MK_LAYER_NONE) {
        return length == data_length && memcmp(message, data, length) == 0;
    }
    if (layer == MK_LAYER_INTEGRITY) {
        return is_in_clear(message, length, data, data_length);
    }
    return length == data_length + 60 && message[0] == 5 && message[1] == 4 && mk_is_sealed(message) && !holds(message, length, data, data_length);
}

/* The text of an offer or an answer: the layers, the greatest size in three octets, and a name (RFC 4752, sections 3.1 and 3.2). */
static octets choice(uint32_t layers, uint32_t size, const char *user) {
    octets o = {{(uint8_t)layers, (uint8_t)(size >> 16), (uint8_t)(size >> 8), (uint8_t)size}, 4 + strlen(user)};
    memcpy(o.at + 4, user, strlen(user));
    return o;
}

/* A text of a session's end in the clear, as another peer would send it. */
static octets said(mk_session *from, const void *words, size_t length) {
    octets token = {{0}, 0};
    mk_reply reply = mk_wrap_in_clear(from, words, length, token.at, sizeof token.at);
    CHECK(reply.status == MK_OK);
    token.length = reply.length;
    return token;
}

static octets says_choice(mk_session *from, uint32_t layers, uint32_t size, const char *user) {
    octets words = choice(layers, size, user);
    return said(from, words.at, words.length);
}

/* A message after its length. */
static octets framed(const uint8_t *message, size_t length) {
    octets frame = {{0, 0, (uint8_t)(length >> 8), (uint8_t)length}, length + 4};
    memcpy(frame.at + 4, message, length);
    return frame;
}

static mk_reply serve(mk_session *from, mk_sasl *to, uint32_t layers, uint32_t most) { return mk_sasl_new_server(from, to, layers, most); }

static mk_reply wish(mk_session *from, mk_sasl *to, uint32_t layer, uint32_t most, const char *user) {
    return mk_sasl_new_client(from, to, layer, most, text(user), strlen(user));
}

static mk_reply accept(mk_sasl *server, const octets *token, uint8_t *out, size_t room) {
    return mk_sasl_accept(server, token->at, token->length, out, room);
}

static mk_reply answer(mk_sasl *client, const octets *offer, uint8_t *out, size_t room) {
    return mk_sasl_answer(client, offer->at, offer->length, out, room);
}

static const uint8_t CONFOUNDER[16] = {0xc0, 0x4f, 0x0d, 0xe5};

static mk_reply seal(mk_sasl *end, const void *data, size_t length, uint8_t *out, size_t room) {
    return mk_sasl_seal(end, data, length, CONFOUNDER, sizeof CONFOUNDER, out, room);
}

static mk_reply unseal(mk_sasl *end, const octets *frame, uint8_t *out, size_t room) {
    return mk_sasl_unseal(end, frame->at, frame->length, out, room);
}

/* Two ends that agree on a layer: what the server offers and receives, and what the client chooses, receives and says who it is. */
typedef struct {
    uint32_t layers, server_most, layer, client_most;
    const char *user;
} terms;

static void agree(mk_sasl *server, mk_sasl *client, const terms *t) {
    octets offer = {{0}, 32}, token = {{0}, 0};
    const octets offered = choice(t->layers, t->server_most, ""), chosen = choice(t->layer, t->client_most, t->user);
    uint8_t name[64];
    CHECK(is_done(mk_sasl_offer(server, offer.at, 32), 32) && is_in_clear(offer.at, 32, offered.at, 4));
    mk_reply reply = answer(client, &offer, token.at, sizeof token.at);
    token.length = reply.length;
    CHECK(reply.status == MK_OK && is_in_clear(token.at, token.length, chosen.at, chosen.length));
    CHECK(gives(accept(server, &token, name, sizeof name), name, t->user, strlen(t->user)));
}

static void begin(const exchange *x, mk_sasl *server, mk_sasl *client, const terms *t) {
    mk_session initiator = MK_EMPTY, acceptor = MK_EMPTY;
    meet(x, &initiator, &acceptor);
    CHECK(is_done(serve(&acceptor, server, t->layers, t->server_most), 0) && acceptor.count == 0 && server->count == 1);
    CHECK(is_done(wish(&initiator, client, t->layer, t->client_most, t->user), 0) && initiator.count == 0 && client->count == 1);
    agree(server, client, t);
}

static void end_both(mk_sasl *server, mk_sasl *client) {
    mk_sasl_free(server);
    mk_sasl_free(client);
    CHECK(server->count == 0 && client->count == 0);
    mk_sasl_free(server);
}

/* Data that go from one end to the other. A frame of a layer is opened once. */
static void carry(mk_sasl *from, mk_sasl *to, uint32_t layer, size_t length) {
    uint8_t data[2000], out[2000];
    octets frame;
    memset(data, 'd', sizeof data);
    mk_reply reply = seal(from, data, length, frame.at, sizeof frame.at);
    frame.length = reply.length;
    CHECK(reply.status == MK_OK && frame.length >= 4 + length && frame.at[0] == 0 && frame.at[1] == 0);
    if (reply.status != MK_OK) {
        return;
    }
    CHECK((size_t)(frame.at[2] << 8 | frame.at[3]) == frame.length - 4);
    CHECK(is_message(frame.at + 4, frame.length - 4, layer, data, length));
    CHECK(gives(unseal(to, &frame, out, length), out, data, length));
    reply = unseal(to, &frame, out, sizeof out);
    CHECK(layer == MK_LAYER_NONE ? is_done(reply, length) : is_refused(reply, MK_CAUSE_REPEATED));
    reply = unseal(from, &frame, out, sizeof out);
    CHECK(layer == MK_LAYER_NONE ? is_done(reply, length) : is_refused(reply, MK_CAUSE_DIRECTION));
}

/* Both ends in a layer, with messages both ways. */
static void converse(const exchange *x, int i) {
    static const terms all[] = {{7, 65536, MK_LAYER_NONE, 0, ""},
                                {7, 0xffffff, MK_LAYER_INTEGRITY, 4096, "alice@example.com"},
                                {7, 65536, MK_LAYER_CONFIDENTIALITY, 0xffffff, "b\xc3\xb6rje"},
                                {MK_LAYER_NONE, 0, MK_LAYER_NONE, 0, "bob"}};
    static const size_t added[] = {0, 28, 60, 0}, lengths[] = {0, 1, 16, 1000};
    mk_sasl server = MK_EMPTY, client = MK_EMPTY;
    uint8_t out[1];
    begin(x, &server, &client, &all[i]);
    CHECK(mk_sasl_get_layer(&server) == all[i].layer && mk_sasl_get_layer(&client) == all[i].layer);
    CHECK(is_short(seal(&server, "", 0, out, 0), 4 + added[i]) && is_short(seal(&client, "", 0, out, 0), 4 + added[i]));
    for (size_t j = 0; j < 4; j++) {
        carry(&client, &server, all[i].layer, lengths[j]);
        carry(&server, &client, all[i].layer, lengths[j]);
    }
    end_both(&server, &client);
}

/* An end that began a session may be the server of its layers: the roles are of SASL. */
static void turn(const exchange *x) {
    static const terms turned = {MK_LAYER_CONFIDENTIALITY, 1000, MK_LAYER_CONFIDENTIALITY, 1000, ""};
    mk_session initiator = MK_EMPTY, acceptor = MK_EMPTY;
    mk_sasl server = MK_EMPTY, client = MK_EMPTY;
    meet(x, &initiator, &acceptor);
    CHECK(is_done(serve(&initiator, &server, turned.layers, turned.server_most), 0));
    CHECK(is_done(wish(&acceptor, &client, turned.layer, turned.client_most, turned.user), 0));
    agree(&server, &client, &turned);
    carry(&client, &server, turned.layer, 3);
    carry(&server, &client, turned.layer, 3);
    end_both(&server, &client);
}

/* No end is made of unknown layers and sizes, and none if a handle is not as it should be: the session stays. */
static void refuse_ends(const exchange *x) {
    static const uint32_t offers[][2] = {{0, 0}, {8, 0}, {256 + 4, 9}, {UINT32_MAX, 9}, {1, 1}, {4, 1 << 24}, {7, UINT32_MAX}};
    static const uint32_t wishes[][2] = {{0, 0}, {3, 0}, {6, 9}, {8, 9}, {256 + 4, 9}, {UINT32_MAX, 9}, {1, 1}, {2, 1 << 24}, {4, UINT32_MAX}};
    mk_session initiator = MK_EMPTY, acceptor = MK_EMPTY, none = MK_EMPTY;
    mk_sasl server = MK_EMPTY, client = MK_EMPTY;
    uint8_t out[64];
    meet(x, &initiator, &acceptor);
    for (size_t i = 0; i < sizeof offers / sizeof *offers; i++) {
        CHECK(breaks(serve(&acceptor, &server, offers[i][0], offers[i][1]), MK_SASL_LAYERS));
    }
    for (size_t i = 0; i < sizeof wishes / sizeof *wishes; i++) {
        CHECK(breaks(wish(&initiator, &client, wishes[i][0], wishes[i][1], "bob"), MK_SASL_LAYERS));
    }
    CHECK(wish(&initiator, &client, 4, 9, "\xff").status == MK_ARGUMENT && wish(&initiator, &client, 4, 9, "b\xc3").status == MK_ARGUMENT);
    CHECK(serve(&none, &server, 4, 9).status == MK_HANDLE && wish(&none, &client, 4, 9, "").status == MK_HANDLE);
    CHECK(server.count == 0 && server.at == NULL && client.count == 0 && client.at == NULL);
    CHECK(initiator.count == 1 && mk_wrap_in_clear(&initiator, out, 0, out + 32, 32).status == MK_OK);
    CHECK(acceptor.count == 1 && gives(mk_session_get_local_name(&acceptor, out, sizeof out), out, "alice@example.com", 17));
    CHECK(is_done(serve(&acceptor, &server, 7, 0xffffff), 0) && is_done(wish(&initiator, &client, 2, 0, ""), 0));
    CHECK(serve(&acceptor, &server, 7, 9).status == MK_HANDLE && wish(&initiator, &client, 2, 9, "").status == MK_HANDLE);
    meet(x, &initiator, &acceptor);
    CHECK(serve(&acceptor, &server, 7, 9).status == MK_HANDLE && wish(&initiator, &client, 2, 9, "").status == MK_HANDLE);
    CHECK(acceptor.count == 1 && initiator.count == 1 && server.count == 1 && client.count == 1);
    mk_session_free(&initiator);
    mk_session_free(&acceptor);
    end_both(&server, &client);
}

/* No call is served by an empty handle, and none by an end of the other side. */
static void refuse_handles(mk_sasl *server, mk_sasl *client) {
    mk_sasl none = MK_EMPTY;
    uint8_t out[64];
    const octets token = {{5, 4}, 32};
    CHECK(mk_sasl_offer(&none, out, sizeof out).status == MK_HANDLE && mk_sasl_offer(client, out, sizeof out).status == MK_HANDLE);
    CHECK(accept(&none, &token, out, sizeof out).status == MK_HANDLE && accept(client, &token, out, sizeof out).status == MK_HANDLE);
    CHECK(answer(&none, &token, out, sizeof out).status == MK_HANDLE && answer(server, &token, out, sizeof out).status == MK_HANDLE);
    CHECK(seal(&none, "a", 1, out, sizeof out).status == MK_HANDLE && unseal(&none, &token, out, sizeof out).status == MK_HANDLE);
    mk_sasl_free(&none);
    CHECK(none.count == 0 && none.at == NULL);
}

/* Steps out of their turn. They change nothing. (Each session of the library is established, so none is refused for that.) */
static void refuse_steps(const exchange *x) {
    static const terms usual = {6, 1000, MK_LAYER_CONFIDENTIALITY, 1000, "bob"};
    mk_session initiator = MK_EMPTY, acceptor = MK_EMPTY;
    mk_sasl server = MK_EMPTY, client = MK_EMPTY;
    const octets token = {{5, 4}, 32};
    uint8_t out[128];
    meet(x, &initiator, &acceptor);
    CHECK(is_done(serve(&acceptor, &server, 6, 1000), 0) && is_done(wish(&initiator, &client, 4, 1000, "bob"), 0));
    refuse_handles(&server, &client);
    CHECK(mk_sasl_get_layer(&server) == 0 && mk_sasl_get_layer(&client) == 0);
    CHECK(breaks(accept(&server, &token, out, sizeof out), MK_SASL_STATE));
    CHECK(breaks(seal(&server, "a", 1, out, sizeof out), MK_SASL_STATE) && breaks(unseal(&server, &token, out, sizeof out), MK_SASL_STATE));
    CHECK(breaks(seal(&client, "a", 1, out, sizeof out), MK_SASL_STATE) && breaks(unseal(&client, &token, out, sizeof out), MK_SASL_STATE));
    agree(&server, &client, &usual);
    CHECK(breaks(mk_sasl_offer(&server, out, sizeof out), MK_SASL_STATE) && breaks(accept(&server, &token, out, sizeof out), MK_SASL_STATE));
    CHECK(breaks(answer(&client, &token, out, sizeof out), MK_SASL_STATE));
    refuse_handles(&server, &client);
    CHECK(mk_sasl_seal(&server, out, 1, CONFOUNDER, 15, out + 8, 100).status == MK_ARGUMENT);
    CHECK(mk_sasl_seal(&client, out, 1, CONFOUNDER, 0, out + 8, 100).status == MK_ARGUMENT);
    carry(&client, &server, usual.layer, 5);
    carry(&server, &client, usual.layer, 5);
    end_both(&server, &client);
}

/* A server hears answers that it may not accept, and then one that it may. What is refused for its text is not opened again. */
static void refuse_answers(const exchange *x) {
    static const char *const texts[] = {"", "\4", "\4\0\1", "\4\0\1\0\xff", "\4\0\1\0b\xc3"};
    static const size_t lengths[] = {0, 1, 3, 5, 6};
    static const uint32_t choices[][2] = {{2, 9}, {0, 9}, {5, 9}, {4 + 8, 9}, {64, 9}, {1, 1}, {1, 0xffffff}};
    mk_session initiator = MK_EMPTY, acceptor = MK_EMPTY;
    mk_sasl server = MK_EMPTY;
    uint8_t out[64], offer[32];
    meet(x, &initiator, &acceptor);
    CHECK(is_done(serve(&acceptor, &server, 5, 100), 0) && is_done(mk_sasl_offer(&server, offer, 32), 32));
    for (size_t i = 0; i < 5; i++) {
        octets token = said(&initiator, texts[i], lengths[i]);
        CHECK(breaks(accept(&server, &token, out, sizeof out), MK_SASL_OFFER));
        CHECK(is_refused(accept(&server, &token, out, sizeof out), MK_CAUSE_REPEATED));
    }
    for (size_t i = 0; i < 7; i++) {
        octets token = says_choice(&initiator, choices[i][0], choices[i][1], "bob");
        CHECK(breaks(accept(&server, &token, out, sizeof out), MK_SASL_LAYER));
        CHECK(is_refused(accept(&server, &token, out, sizeof out), MK_CAUSE_REPEATED));
    }
    octets token = says_choice(&initiator, 4, 104, "alice");
    CHECK(is_refused(mk_sasl_accept(&server, offer, 32, out, sizeof out), MK_CAUSE_DIRECTION));
    CHECK(is_refused(mk_sasl_accept(&server, token.at, 0, out, sizeof out), MK_CAUSE_HEADER));
    token.at[20] ^= 1;
    CHECK(is_refused(accept(&server, &token, out, sizeof out), MK_CAUSE_ALTERED));
    token.at[20] ^= 1;
    CHECK(gives(accept(&server, &token, out, sizeof out), out, "alice", 5));
    CHECK(breaks(seal(&server, x->name, 45, out, sizeof out), MK_SASL_TOO_LARGE)); /* 60 and 45 octets, and the client receives 104 */
    mk_sasl_free(&server);
    mk_session_free(&initiator);
}

/* A client hears offers that it may not answer, and then one that it may. */
static void refuse_offers(const exchange *x) {
    static const uint8_t words[5] = {1, 0, 0, 0, 0};
    mk_session initiator = MK_EMPTY, acceptor = MK_EMPTY;
    mk_sasl client = MK_EMPTY;
    uint8_t out[64];
    meet(x, &initiator, &acceptor);
    CHECK(is_done(wish(&initiator, &client, MK_LAYER_NONE, 0, ""), 0));
    for (size_t i = 0; i <= 5; i += i == 3 ? 2 : 1) {
        octets token = said(&acceptor, words, i);
        CHECK(breaks(answer(&client, &token, out, sizeof out), MK_SASL_OFFER));
        CHECK(is_refused(answer(&client, &token, out, sizeof out), MK_CAUSE_REPEATED));
    }
    for (size_t i = 0; i < 3; i++) {
        static const uint32_t offers[][2] = {{6, 9}, {0, 0}, {1, 1}}; /* the last has a size, and no layer */
        octets token = says_choice(&acceptor, offers[i][0], offers[i][1], "");
        CHECK(breaks(answer(&client, &token, out, sizeof out), MK_SASL_LAYER));
        CHECK(is_refused(answer(&client, &token, out, sizeof out), MK_CAUSE_REPEATED));
    }
    octets offer = says_choice(&acceptor, 3, 9, "");
    offer.at[offer.length - 1] ^= 1;
    CHECK(is_refused(answer(&client, &offer, out, sizeof out), MK_CAUSE_ALTERED));
    offer.at[offer.length - 1] ^= 1;
    CHECK(is_done(answer(&client, &offer, out, sizeof out), 32) && is_in_clear(out, 32, words, 4));
    mk_sasl_free(&client);
    mk_session_free(&acceptor);
}

/* A server's end in a layer, and a session that is its client and says what it likes. */
static void begin_alone(const exchange *x, mk_sasl *server, mk_session *client, uint32_t layer, uint32_t most) {
    mk_session acceptor = MK_EMPTY;
    uint8_t out[32];
    meet(x, client, &acceptor);
    CHECK(is_done(serve(&acceptor, server, 7, most), 0) && is_done(mk_sasl_offer(server, out, 32), 32));
    octets token = says_choice(client, layer, layer == MK_LAYER_NONE ? 0 : 200, "");
    CHECK(is_done(accept(server, &token, out, 0), 0));
}

/* Octets that are not a frame of the layer, or too long, are refused and change nothing: the next frame is decrypted. */
static void refuse_frames(const exchange *x, uint32_t layer) {
    const size_t over = layer == MK_LAYER_INTEGRITY ? 28 : 60;
    mk_session client = MK_EMPTY;
    mk_sasl server = MK_EMPTY;
    octets sealed = {{0}, 0}, clear = {{0}, 0}, frame;
    uint8_t data[200] = {'d'}, out[400];
    begin_alone(x, &server, &client, layer, 100);
    CHECK(is_short(seal(&server, data, 200 - over, out, 0), 204) && breaks(seal(&server, data, 201 - over, out, sizeof out), MK_SASL_TOO_LARGE));
    if (layer == MK_LAYER_INTEGRITY) clear = said(&client, data, 72); /* the one that is opened has the next number */
    sealed.length = mk_wrap(&client, data, 40, CONFOUNDER, 16, sealed.at, sizeof sealed.at).length;
    if (layer != MK_LAYER_INTEGRITY) clear = said(&client, data, 72);
    CHECK(sealed.length == 100 && clear.length == 100);
    const octets *wanted = layer == MK_LAYER_INTEGRITY ? &clear : &sealed, *other = layer == MK_LAYER_INTEGRITY ? &sealed : &clear;
    frame = framed(other->at, other->length);
    CHECK(breaks(unseal(&server, &frame, out, sizeof out), MK_SASL_FRAME));
    frame = framed(wanted->at, wanted->length);
    for (size_t length = 0; length < 104; length++) {
        CHECK(breaks(mk_sasl_unseal(&server, frame.at, length, out, sizeof out), MK_SASL_FRAME));
    }
    CHECK(breaks(mk_sasl_unseal(&server, frame.at, 105, out, sizeof out), MK_SASL_FRAME));
    frame = framed(frame.at, 101);
    CHECK(breaks(unseal(&server, &frame, out, sizeof out), MK_SASL_TOO_LARGE));
    frame = framed(wanted->at, wanted->length);
    frame.at[50] ^= 1;
    CHECK(is_refused(unseal(&server, &frame, out, sizeof out), MK_CAUSE_ALTERED));
    frame.at[50] ^= 1;
    CHECK(is_short(unseal(&server, &frame, out, 100 - over - 1), 100 - over));
    CHECK(gives(unseal(&server, &frame, out, 100 - over), out, data, 100 - over));
    CHECK(is_refused(unseal(&server, &frame, out, sizeof out), MK_CAUSE_REPEATED));
    frame = framed(data, 0);
    CHECK(is_refused(unseal(&server, &frame, out, sizeof out), MK_CAUSE_HEADER));
    mk_sasl_free(&server);
    mk_session_free(&client);
}

/* If a room is too short the length is returned, nothing is written or lost, and the same call with room is done. */
static void refuse_rooms(const exchange *x) {
    mk_session initiator = MK_EMPTY, acceptor = MK_EMPTY;
    mk_sasl server = MK_EMPTY, client = MK_EMPTY;
    octets offer = {{0}, 32}, token = {{0}, 35}, first = {{0}, 69}, next = {{0}, 69};
    uint8_t out[64] = {0xaa}, name[3];
    meet(x, &initiator, &acceptor);
    CHECK(is_done(serve(&acceptor, &server, 4, 100), 0) && is_done(wish(&initiator, &client, 4, 100, "bob"), 0));
    CHECK(is_short(mk_sasl_offer(&server, out, 0), 32) && is_short(mk_sasl_offer(&server, out, 31), 32));
    CHECK(is_done(mk_sasl_offer(&server, offer.at, 32), 32));
    CHECK(is_short(answer(&client, &offer, out, 0), 35) && is_short(answer(&client, &offer, out, 34), 35));
    CHECK(is_done(answer(&client, &offer, token.at, 35), 35));
    CHECK(is_short(accept(&server, &token, out, 0), 3) && is_short(accept(&server, &token, out, 2), 3));
    CHECK(breaks(seal(&server, "", 0, out, sizeof out), MK_SASL_STATE));
    CHECK(gives(accept(&server, &token, name, 3), name, "bob", 3));
    CHECK(is_done(seal(&client, "first", 5, first.at, 69), 69));
    CHECK(is_short(seal(&client, "next", 5, out, 0), 69) && is_short(seal(&client, "next", 5, out, 64), 69));
    CHECK(is_done(seal(&client, "next", 5, next.at, 69), 69));
    CHECK(next.at[4 + 15] == (uint8_t)(first.at[4 + 15] + 1)); /* a call that had no room took no number */
    CHECK(is_refused(unseal(&server, &next, out, 5), MK_CAUSE_NUMBER));
    CHECK(is_short(unseal(&server, &first, out, 0), 5) && is_short(unseal(&server, &first, out, 4), 5));
    CHECK(out[0] == 0xaa && out[1] == 0);
    CHECK(gives(unseal(&server, &first, out, 5), out, "first", 5) && gives(unseal(&server, &next, out, 5), out, "next", 5));
    end_both(&server, &client);
}

/* Frames come in their order, each once: one that comes early is refused and can come again, and one that comes late is refused. */
static void refuse_late(const exchange *x) {
    static const terms usual = {4, 100, 4, 100, ""};
    static octets frames[65];
    mk_sasl server = MK_EMPTY, client = MK_EMPTY;
    uint8_t out[8];
    begin(x, &server, &client, &usual);
    for (uint8_t i = 0; i < 65; i++) {
        frames[i].length = seal(&server, &i, 1, frames[i].at, sizeof frames[i].at).length;
    }
    CHECK(is_refused(unseal(&client, &frames[64], out, 1), MK_CAUSE_NUMBER));
    for (uint8_t i = 0; i < 65; i++) {
        CHECK(gives(unseal(&client, &frames[i], out, 1), out, &i, 1));
    }
    CHECK(is_refused(unseal(&client, &frames[0], out, 1), MK_CAUSE_OLD));
    CHECK(is_refused(unseal(&client, &frames[1], out, 1), MK_CAUSE_REPEATED));
    end_both(&server, &client);
}

/* An end goes on in the order of its session: a client's first token is not passed over, and a count that began goes on. */
static void keep_order(const exchange *x) {
    mk_session initiator = MK_EMPTY, acceptor = MK_EMPTY;
    mk_sasl server = MK_EMPTY, client = MK_EMPTY;
    uint8_t out[64], offer[32];
    meet(x, &initiator, &acceptor);
    CHECK(is_done(serve(&acceptor, &server, 7, 100), 0) && is_done(mk_sasl_offer(&server, offer, 32), 32));
    octets first = says_choice(&initiator, 4, 200, "bob"), second = says_choice(&initiator, 4, 200, "alice");
    CHECK(is_refused(accept(&server, &second, out, sizeof out), MK_CAUSE_NUMBER));
    CHECK(gives(accept(&server, &first, out, sizeof out), out, "bob", 3));
    mk_sasl_free(&server);
    mk_session_free(&initiator);
    meet(x, &initiator, &acceptor);
    CHECK(mk_session_set_order(&acceptor, 1).status == MK_OK && mk_session_set_order(&initiator, 1).status == MK_OK);
    first = said(&initiator, "to it", 5);
    CHECK(gives(mk_unwrap(&acceptor, first.at, first.length, out, sizeof out), out, "to it", 5));
    first = said(&acceptor, "from it", 7);
    CHECK(gives(mk_unwrap(&initiator, first.at, first.length, out, sizeof out), out, "from it", 7));
    said(&acceptor, "lost", 4);
    CHECK(is_done(serve(&acceptor, &server, 7, 100), 0) && is_done(wish(&initiator, &client, 4, 100, "bob"), 0));
    octets lent = {{0}, 32};
    CHECK(is_done(mk_sasl_offer(&server, lent.at, 32), 32) && is_refused(answer(&client, &lent, out, sizeof out), MK_CAUSE_NUMBER));
    end_both(&server, &client);
}

/* Makes a call with memory refused at its first growth, at its second and so on, until it is done. Before that nothing is changed. */
#define PATIENTLY(reply, call)                                                                            \
    do {                                                                                                  \
        long growths = 0;                                                                                 \
        do {                                                                                              \
            refuse_growth(growths++);                                                                     \
            reply = (call);                                                                               \
            refuse_growth(-1);                                                                            \
        } while (reply.status == MK_MEMORY && reply.kind == MK_KIND_OUT_OF_MEMORY && reply.length == 0); \
        CHECK(growths > 1);                                                                               \
    } while (0)

static void refuse_memory(const exchange *x) {
    mk_session initiator = MK_EMPTY, acceptor = MK_EMPTY;
    mk_sasl server = MK_EMPTY, client = MK_EMPTY;
    octets offer = {{0}, 32}, token = {{0}, 35}, frame = {{0}, 68};
    uint8_t out[8];
    mk_reply reply;
    meet(x, &initiator, &acceptor);
    PATIENTLY(reply, serve(&acceptor, &server, 4, 1000));
    CHECK(is_done(reply, 0) && acceptor.count == 0 && server.count == 1);
    PATIENTLY(reply, wish(&initiator, &client, 4, 1000, "bob"));
    CHECK(is_done(reply, 0) && initiator.count == 0 && client.count == 1);
    PATIENTLY(reply, mk_sasl_offer(&server, offer.at, 32));
    CHECK(is_done(reply, 32));
    PATIENTLY(reply, answer(&client, &offer, token.at, 35));
    CHECK(is_done(reply, 35));
    PATIENTLY(reply, accept(&server, &token, out, sizeof out));
    CHECK(gives(reply, out, "bob", 3));
    PATIENTLY(reply, seal(&client, "data", 4, frame.at, 68));
    CHECK(is_done(reply, 68));
    PATIENTLY(reply, unseal(&server, &frame, out, sizeof out));
    CHECK(gives(reply, out, "data", 4));
    end_both(&server, &client);
}

/* Without a layer data of up to 2^24 - 1 octets are taken, and what is no frame is not. */
static void once(const exchange *x) {
    static const terms plain = {MK_LAYER_NONE, 0, MK_LAYER_NONE, 0, ""};
    const size_t most = 0xffffff;
    mk_sasl server = MK_EMPTY, client = MK_EMPTY;
    uint8_t *data = calloc(most + 1, 1), *frame = calloc(most + 5, 1);
    begin(x, &server, &client, &plain);
    if (data != NULL && frame != NULL) {
        data[most - 1] = 'd';
        CHECK(breaks(seal(&client, data, most + 1, frame, most + 5), MK_SASL_TOO_LARGE));
        CHECK(is_done(seal(&client, data, most, frame, most + 4), most + 4) && memcmp(frame, "\0\xff\xff\xff", 4) == 0 && frame[most + 3] == 'd');
        CHECK(gives(mk_sasl_unseal(&server, frame, most + 4, data, most), data, frame + 4, most));
        CHECK(breaks(mk_sasl_unseal(&server, frame, most + 3, data, most), MK_SASL_FRAME));
        CHECK(breaks(mk_sasl_unseal(&server, frame, most + 5, data, most), MK_SASL_FRAME));
        memcpy(frame, "\1\0\0\0", 4);
        CHECK(breaks(mk_sasl_unseal(&server, frame, most + 5, data, most), MK_SASL_TOO_LARGE));
    }
    end_both(&server, &client);
    free(data);
    free(frame);
}

int main(int count, char **words) {
    static exchange x;
    int rounds = count > 2 ? atoi(words[2]) : 1;
    if (count < 2 || !read_exchange(words[1], &x)) {
        fprintf(stderr, "usage: test_sasl EXCHANGE [ROUNDS]\n");
        return 2;
    }
    once(&x);
    for (int i = 0; i < rounds || i < 4; i++) {
        converse(&x, i % 4);
        refuse_ends(&x);
        keep_order(&x);
        refuse_steps(&x);
        refuse_answers(&x);
        refuse_offers(&x);
        refuse_frames(&x, i % 2 == 0 ? MK_LAYER_INTEGRITY : MK_LAYER_CONFIDENTIALITY);
        refuse_rooms(&x);
        refuse_memory(&x);
        if (i % 4 == 0) {
            turn(&x);
            refuse_late(&x);
        }
    }
    CHECK(blocks_held() == 0); /* before the first line: a buffer of stdout may be counted, too */
    printf("%d rounds\n", rounds);
    return tell_checks();
}
