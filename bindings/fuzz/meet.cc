/* An honest KDC, and an initiator and an acceptor of the library that meet over its replies. */
#include "common.h"

static const char NOW[] = "20231114221320Z", LATER[] = "20231115081320Z";

bytes nonce_of(const bytes &request) {
    const uint8_t head[] = {0xa7, 6, 2, 4};
    for (size_t i = request.size(); i >= 8; i--) {
        if (memcmp(&request[i - 8], head, 4) == 0) return bytes(request.begin() + long(i - 4), request.begin() + long(i));
    }
    return {};
}

static bytes field(int number, const bytes &value) { return tlv(uint8_t(0xa0 + number), value); }
static bytes time_field(int number, const char *at) { return field(number, tlv(0x18, of(at))); }

bytes reply_part(bool for_ticket, const bytes &key, const bytes &nonce, const bytes &service_name) {
    bytes last = tlv(0x30, tlv(0x30, join({field(0, integer(0)), time_field(1, NOW)})));
    bytes flags = tlv(3, hex("0040a10000"));
    bytes fields = join({field(0, key_value(etype_of(key), key)), field(1, last), field(2, tlv(2, nonce)), field(4, flags), time_field(5, NOW),
                         time_field(6, NOW), time_field(7, LATER), time_field(8, LATER), field(9, general("EXAMPLE.COM")), field(10, service_name)});
    return tlv(for_ticket ? 0x7a : 0x79, tlv(0x30, fields));
}

bytes ticket_part(const bytes &key) {
    bytes transited = tlv(0x30, join({field(0, integer(1)), field(1, tlv(4, {}))}));
    bytes fields = join({field(0, tlv(3, hex("0040a10000"))), field(1, key_value(etype_of(key), key)), field(2, general("EXAMPLE.COM")),
                         field(3, names(1, {"alice"})), field(4, transited), time_field(5, NOW), time_field(7, LATER)});
    return tlv(0x63, tlv(0x30, fields));
}

static bytes ask(mk_initiator *initiator) {
    return get("mk_initiator_get_request", [&](uint8_t *out, size_t room) { return mk_initiator_get_request(initiator, out, room); }).octets;
}

static void answer(mk_initiator *initiator, const bytes &reply, uint32_t next) {
    mk_moment moment = moment_at();
    mk_step told = mk_initiator_answer(initiator, reply.data(), reply.size(), &moment);
    PROMISE(told.reply.status == MK_OK && told.next == next, "an honest reply: status %u, cause %u, next %u", told.reply.status, told.reply.cause, told.next);
}

/* The tokens of the first meeting. All draws are the same each time, so each later meeting uses them, and MIT's library seals nothing anew. */
static struct {
    bytes replies[2], token, answer, key;
} said;

void log_in(mk_initiator *to, const std::function<void(const bytes &reply)> &before) {
    const uint32_t flags = MK_MUTUAL_AUTH | MK_REPLAY_DETECT | MK_SEQUENCE_DETECT | MK_CONFIDENTIALITY | MK_INTEGRITY;
    const uint8_t number[4] = {0, 0, 0, 9};
    const bytes first(32, 0x11), second(32, 0x55), target = of(SERVICE), user = of(USER), url = of("tcp://k");
    const bytes granting = names(2, {"krbtgt", "EXAMPLE.COM"}), service = names(2, {"host", "server.example.com"});
    mk_moment moment = moment_at();
    PROMISE(mk_initiator_new(to, target.data(), target.size(), url.data(), 3, flags, number, 4).status == MK_OK, "no initiator");
    PROMISE(mk_initiator_set_kdc(to, url.data(), url.size()).status == MK_OK, "no KDC");
    PROMISE(mk_initiator_set_key(to, user.data(), user.size(), 18, USER_KEY.data(), 32).status == MK_OK, "no key");
    PROMISE(mk_initiator_start(to, &moment).reply.status == MK_OK, "no start");
    if (said.replies[0].empty()) {
        bytes part = reply_part(false, first, nonce_of(ask(to)), granting);
        said.replies[0] = kdc_reply(false, ticket(granting, SERVICE_KEY, part), USER_KEY, part);
    }
    if (before) before(said.replies[0]);
    answer(to, said.replies[0], MK_ASK_KDC);
    if (said.replies[1].empty()) {
        bytes part = reply_part(true, second, nonce_of(ask(to)), service);
        said.replies[1] = kdc_reply(true, ticket(service, SERVICE_KEY, ticket_part(second)), first, part);
    }
    if (before) before(said.replies[1]);
    answer(to, said.replies[1], MK_SEND_TOKEN);
}

static bytes key_of(mk_session *session) {
    return get("mk_session_get_key", [&](uint8_t *out, size_t room) { return mk_session_get_key(session, out, room); }).octets;
}

static void admit(mk_session *to) {
    mk_acceptor acceptor = MK_EMPTY;
    const bytes name = of(SERVICE);
    mk_moment moment = moment_at();
    PROMISE(mk_acceptor_new(&acceptor, name.data(), name.size(), SERVICE_KEY.data(), 32, 300).status == MK_OK, "no acceptor");
    PROMISE(mk_accept(&acceptor, to, said.token.data(), said.token.size(), &moment).status == MK_OK, "not admitted");
    mk_acceptor_free(&acceptor);
}

/* Both ends, and what they say. */
static void meet_first() {
    mk_initiator initiator = MK_EMPTY;
    mk_session server = MK_EMPTY;
    log_in(&initiator);
    said.token = get("mk_initiator_get_token", [&](uint8_t *out, size_t room) { return mk_initiator_get_token(&initiator, out, room); }).octets;
    admit(&server);
    said.answer = get("mk_session_get_answer", [&](uint8_t *out, size_t room) { return mk_session_get_answer(&server, out, room); }).octets;
    said.key = key_of(&server);
    mk_session_free(&server);
    mk_initiator_free(&initiator);
}

bytes meet(mk_session *to, bool is_client) {
    if (said.key.empty()) meet_first();
    if (!is_client) {
        admit(to);
    } else {
        mk_initiator initiator = MK_EMPTY;
        mk_moment moment = moment_at();
        log_in(&initiator);
        mk_step told = mk_initiator_hear(&initiator, said.answer.data(), said.answer.size(), &moment);
        PROMISE(told.reply.status == MK_OK && told.next == MK_ESTABLISHED, "an honest answer: status %u, cause %u", told.reply.status, told.reply.cause);
        PROMISE(mk_initiator_take_session(&initiator, to).status == MK_OK && initiator.count == 0, "no session");
    }
    PROMISE(key_of(to) == said.key, "two keys");
    return said.key;
}
