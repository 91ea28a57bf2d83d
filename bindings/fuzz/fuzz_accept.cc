/* Clients' tokens, to an acceptor: mk_accept, and mk_judge with mk_admit or mk_admit_told, which have to agree, and mk_judge_bound. Records:
 *   1 the plain text of a ticket, and 2 that of an authenticator: both are sealed, and shown
 *   3 a token unchanged   4 options of the AP-REQ   6 a service's name, an octet 0, its key   7 the moment, eight octets */
#include "common.h"

static Count accepted("accepted"), halves("admitted in halves"), refused("refused"), bound("bound to the channel");

struct Service {
    bytes name = of(SERVICE), key = SERVICE_KEY, options = {0, 0, 0, 0};
    mk_moment moment = moment_at();
};

static void make(const Service &it, mk_acceptor *to) {
    Lent name(it.name), key(it.key), other(of("HTTP/x"));
    mk_reply reply = mk_acceptor_new(to, name.at, name.length, key.at, key.length, 300);
    check_reply("mk_acceptor_new", reply, 0);
    PROMISE((reply.status == MK_OK) == (to->count == 1), "an acceptor that was refused");
    if (reply.status == MK_OK) PROMISE(mk_acceptor_add_key(to, other.at, other.length, SERVICE_KEY.data(), 16).status == MK_OK, "another service");
}

/* The key of the session, with which its messages have the lengths that the header names. */
static void send(mk_session *s) {
    const bytes text = of("hello");
    const uint8_t confounder[16] = {7};
    Got key = get("mk_session_get_key", [&](uint8_t *out, size_t room) { return mk_session_get_key(s, out, room); });
    PROMISE(key.octets.size() == 16 || key.octets.size() == 32, "a key of %zu", key.octets.size());
    Got sealed = get("mk_wrap", [&](uint8_t *out, size_t room) { return mk_wrap(s, text.data(), text.size(), confounder, 16, out, room); });
    PROMISE(sealed.reply.status == MK_OK && (sealed.octets.size() == 65 || sealed.octets.size() == 81), "a message of %zu", sealed.octets.size());
    Got clear = get("mk_wrap_in_clear", [&](uint8_t *out, size_t room) { return mk_wrap_in_clear(s, text.data(), text.size(), out, room); });
    PROMISE(clear.octets.size() == 33, "a message in the clear of %zu", clear.octets.size());
    Got mic = get("mk_mic", [&](uint8_t *out, size_t room) { return mk_mic(s, text.data(), text.size(), out, room); });
    PROMISE(mic.octets.size() == 28 || is_refused(mic.reply, MK_CAUSE_NO_SUB_KEY), "a MIC of %zu, cause %u", mic.octets.size(), mic.reply.cause);
    for (const bytes &own : {sealed.octets, clear.octets}) {
        Room out(own.size());
        PROMISE(mk_unwrap(s, own.data(), own.size(), out.at, out.length).status == MK_REFUSED, "its own message is opened");
    }
}

/* The calls about a session that was admitted: its answer has the length that was returned. */
static void ask(mk_session *s, size_t answer_length) {
    mk_times times;
    Got answer = get("mk_session_get_answer", [&](uint8_t *out, size_t room) { return mk_session_get_answer(s, out, room); });
    PROMISE(answer.reply.status == MK_OK && answer.octets.size() == answer_length, "an answer of %zu", answer.octets.size());
    Got peer = get("mk_session_get_local_name", [&](uint8_t *out, size_t room) { return mk_session_get_local_name(s, out, room); });
    PROMISE(peer.reply.status == MK_OK || is_refused(peer.reply, MK_CAUSE_NO_IDENTITY), "no peer: %u", peer.reply.status);
    Got client = get("mk_session_get_client", [&](uint8_t *out, size_t room) { return mk_session_get_client(s, out, room); });
    PROMISE(client.reply.status == MK_OK && mk_session_get_times(s, &times).status == MK_OK, "no client");
    mk_reply flags = mk_session_get_flags(s);
    PROMISE(flags.status == MK_OK || is_refused(flags, MK_CAUSE_CHECKSUM), "no flags: %u", flags.status);
    PROMISE(mk_session_get_ticket_flags(s).status == MK_OK, "no flags of the ticket");
    send(s);
}

static mk_reply accept(const Service &service, mk_acceptor *acceptor, const Lent &token) {
    mk_session session = MK_EMPTY;
    uint64_t kept = mk_acceptor_kept(acceptor);
    mk_reply reply = mk_accept(acceptor, &session, token.at, token.length, &service.moment);
    check_reply("mk_accept", reply, SIZE_MAX - 1);
    PROMISE((reply.status == MK_OK) == (session.count == 1), "a session, and status %u", reply.status);
    if (reply.status == MK_OK) {
        accepted++;
        PROMISE(mk_acceptor_kept(acceptor) == kept + 1, "no record is kept");
        ask(&session, reply.length);
        mk_session_free(&session);
        PROMISE(is_refused(mk_accept(acceptor, &session, token.at, token.length, &service.moment), MK_CAUSE_REPLAYED), "it comes again");
    } else {
        refused++;
    }
    PROMISE(session.count == 0, "a session is left");
    return reply;
}

/* The candidate's name: the record of one token is the same each time. */
static void ask_judged(mk_judged *judged) {
    Got client = get("mk_judged_get_client", [&](uint8_t *out, size_t room) { return mk_judged_get_client(judged, out, room); });
    Got service = get("mk_judged_get_service", [&](uint8_t *out, size_t room) { return mk_judged_get_service(judged, out, room); });
    Got record = get("mk_judged_get_record", [&](uint8_t *out, size_t room) { return mk_judged_get_record(judged, out, room); });
    Got again = get("mk_judged_get_record", [&](uint8_t *out, size_t room) { return mk_judged_get_record(judged, out, room); });
    PROMISE(client.reply.status == MK_OK && service.reply.status == MK_OK && record.reply.status == MK_OK, "no candidate");
    PROMISE(record.octets == again.octets && holds(record.octets, client.octets), "another record");
    Got tag = get("mk_judged_get_tag", [&](uint8_t *out, size_t room) { return mk_judged_get_tag(judged, out, room); });
    PROMISE(tag.octets.size() == 12 && holds(record.octets, tag.octets), "a tag of %zu", tag.octets.size());
    mk_reply flags = mk_judged_get_flags(judged);
    PROMISE(flags.status == MK_OK || is_refused(flags, MK_CAUSE_CHECKSUM), "no flags: %u", flags.status);
}

/* A client that is held to a channel: what mk_judge refuses is refused so, and who passes is bound, or refused for its bindings. */
static void bind(const Service &service, mk_acceptor *keys, const Lent &token, const mk_reply &plain) {
    const bytes channel = of("tls-unique:7");
    Lent data(channel);
    mk_judged judged = MK_EMPTY;
    mk_reply reply = mk_judge_bound(keys, &judged, token.at, token.length, data.at, data.length, &service.moment);
    check_reply("mk_judge_bound", reply, SIZE_MAX - 1);
    PROMISE((reply.status == MK_OK) == (judged.count == 1), "a bound candidate, and status %u", reply.status);
    if (plain.status == MK_OK) {
        PROMISE(reply.status == MK_OK || is_refused(reply, MK_CAUSE_CHECKSUM) || is_refused(reply, MK_CAUSE_BINDINGS), "cause %u", reply.cause);
    } else {
        PROMISE(plain.status == reply.status && plain.cause == reply.cause, "mk_judge %u, mk_judge_bound %u", plain.cause, reply.cause);
    }
    if (reply.status == MK_OK) {
        bound++;
        PROMISE(mk_judged_get_flags(&judged).status == MK_OK, "bindings without flags");
    }
    mk_judged_free(&judged);
}

static mk_reply admit(const Service &service, mk_acceptor *book, mk_judged *judged, bool told) {
    mk_session session = MK_EMPTY;
    mk_reply reply = told ? mk_admit_told(judged, &session, 300, service.moment.moment, 0) : mk_admit(book, judged, &session);
    check_reply("mk_admit", reply, SIZE_MAX - 1);
    PROMISE(judged->count == 0, "the candidate is not used up");
    PROMISE((reply.status == MK_OK) == (session.count == 1), "a session, and status %u", reply.status);
    if (reply.status == MK_OK) {
        halves++;
        ask(&session, reply.length);
        mk_session_free(&session);
    }
    return reply;
}

static void judge(const Service &service, mk_acceptor *keys, mk_acceptor *book, const Lent &token, const mk_reply &one, bool told) {
    mk_judged judged = MK_EMPTY;
    mk_reply reply = mk_judge(keys, &judged, token.at, token.length, &service.moment);
    check_reply("mk_judge", reply, SIZE_MAX - 1);
    PROMISE((reply.status == MK_OK) == (judged.count == 1) && mk_acceptor_kept(keys) == 0, "a candidate, and status %u", reply.status);
    bind(service, keys, token, reply);
    if (reply.status == MK_OK) {
        ask_judged(&judged);
        reply = admit(service, book, &judged, told);
    }
    if (is_refused(one, MK_CAUSE_REPLAYED) || is_refused(reply, MK_CAUSE_REPLAYED)) return; /* two books, two records */
    PROMISE(one.status == reply.status && (one.status != MK_REFUSED || (one.kind == reply.kind && one.cause == reply.cause)),
            "mk_accept %u %u, the halves %u %u", one.status, one.cause, reply.status, reply.cause);
}

/* One acceptor takes the token, and then the two halves do over two others. */
static void show(const Service &service, const std::vector<bytes> &tokens) {
    mk_acceptor acceptor = MK_EMPTY, keys = MK_EMPTY, book = MK_EMPTY;
    make(service, &acceptor);
    if (acceptor.count) {
        PROMISE(mk_acceptor_copy(&acceptor, &keys).status == MK_OK && mk_acceptor_copy(&acceptor, &book).status == MK_OK, "no copy");
        for (size_t i = 0; i < tokens.size(); i++) {
            Lent token(tokens[i]);
            judge(service, &keys, &book, token, accept(service, &acceptor, token), i & 1);
        }
    }
    mk_acceptor_free(&acceptor);
    mk_acceptor_free(&keys);
    mk_acceptor_free(&book);
}

static void read_service(const bytes &b, Service &to) {
    size_t i = 0;
    while (i < b.size() && b[i] != 0) i++;
    to.name.assign(b.begin(), b.begin() + long(i));
    to.key.assign(b.begin() + long(i < b.size() ? i + 1 : i), b.end());
}

static void read_moment(const bytes &b, Service &to) {
    uint64_t moment = 0;
    for (uint8_t octet : b) moment = moment << 8 | octet;
    to.moment.moment = moment;
}

extern "C" int LLVMFuzzerTestOneInput(const uint8_t *at, size_t length) {
    Service service;
    std::vector<bytes> tokens;
    bytes part, authenticator;
    for (const Record &it : read_records(at, length)) {
        if (it.tag == 1) part = it.octets;
        if (it.tag == 2) authenticator = it.octets;
        if (it.tag == 3 && tokens.size() < 8) tokens.push_back(it.octets);
        if (it.tag == 4 && it.octets.size() >= 4) service.options.assign(it.octets.begin(), it.octets.begin() + 4);
        if (it.tag == 6) read_service(it.octets, service);
        if (it.tag == 7) read_moment(it.octets, service);
    }
    if (!part.empty()) {
        bytes sealed = ticket(names(2, {"host", "server.example.com"}), service.key, part);
        tokens.push_back(ap_req(sealed, service.options, key_in(part, 0xa1), authenticator));
    }
    Memory memory(length);
    show(service, tokens);
    return 0;
}
