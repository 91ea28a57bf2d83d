/* Messages of a peer in a session, to its acceptor or its initiator: mk_unwrap and mk_verify. Records, in their order:
 *   0 (at any place) the end is the initiator's   9 rules   1 octets for mk_unwrap
 *   2 header and text that are sealed under the session's key   4 the same in the clear, with a right checksum
 *   3 a MIC and a payload: the first octet says where the one ends   5 flags and a payload with a right MIC */
#include "common.h"

static Count opened("opened"), refused("refused"), verified("verified"), altered("not verified");

struct End {
    mk_session *session;
    bytes key;
    uint8_t flags; /* those of the peer's messages */
    int seal_usage, mic_usage;
    uint32_t newest = 0;
    bool has_opened = false;
};

/* The number of a token. The library takes numbers round 2^32: one that is less than half the way round ahead is newer. */
static uint32_t number_of(const bytes &token) {
    uint32_t number = 0;
    for (size_t i = 12; i < 16; i++) number = number << 8 | token[i];
    return number;
}

static bool is_newer(uint32_t number, uint32_t than) { return number != than && number - than < UINT32_C(0x80000000); }

/* A token that was opened comes again, whole and with its last octet changed. */
static void open_again(End &end, bytes token) {
    Room out(token.size());
    PROMISE(mk_unwrap(end.session, token.data(), token.size(), out.at, out.length).status == MK_REFUSED, "it is opened twice");
    if (!token.empty()) token.back() ^= 1;
    PROMISE(mk_unwrap(end.session, token.data(), token.size(), out.at, out.length).status == MK_REFUSED, "it is opened, altered");
}

static bool unwrap(End &end, const bytes &octets, const bytes *wanted) {
    Lent token(octets);
    Got text = get("mk_unwrap", [&](uint8_t *out, size_t room) { return mk_unwrap(end.session, token.at, token.length, out, room); });
    PROMISE(text.reply.status == MK_OK || text.reply.status == MK_REFUSED, "mk_unwrap: status %u", text.reply.status);
    PROMISE(!wanted || text.reply.status == MK_OK, "an honest message is refused: cause %u", text.reply.cause);
    if (text.reply.status != MK_OK) {
        refused++;
        return false;
    }
    opened++;
    PROMISE(text.octets.size() + 28 <= octets.size(), "a text of %zu in a token of %zu", text.octets.size(), octets.size());
    PROMISE(!wanted || text.octets == *wanted, "another text than was sealed");
    uint32_t number = number_of(octets);
    if (!end.has_opened || is_newer(number, end.newest)) end.newest = number;
    end.has_opened = true;
    open_again(end, octets);
    return true;
}

static void verify(End &end, const bytes &octets, const bytes &over) {
    Lent token(octets), payload(over);
    mk_reply reply = mk_verify(end.session, token.at, token.length, payload.at, payload.length);
    check_reply("mk_verify", reply, 0);
    PROMISE(reply.status == MK_OK || reply.status == MK_REFUSED, "mk_verify: status %u", reply.status);
    bool is_right = octets.size() == 28 && mic(end.mic_usage, end.key, bytes(octets.begin(), octets.begin() + 16), over) == octets;
    PROMISE(reply.status != MK_OK || is_right, "a MIC that is none is verified");
    if (reply.status == MK_OK) verified++;
    else altered++;
    mk_reply again = mk_verify(end.session, token.at, token.length, payload.at, payload.length);
    PROMISE(again.status == reply.status && again.cause == reply.cause, "it is not verified again");
}

/* Whatever came, an honest message with a newer number is opened, and an honest MIC verified. */
static void go_on(End &end) {
    const bytes text = of("behind all that");
    uint32_t number = end.has_opened ? end.newest + 1 : 9;
    bytes of_text = header(false, uint8_t(end.flags | 2), 0, 0, number), of_mic = header(true, end.flags, 0, 0, 1);
    unwrap(end, sealed(end.seal_usage, end.key, of_text, text), &text);
    bytes token = mic(end.mic_usage, end.key, of_mic, text);
    PROMISE(mk_verify(end.session, token.data(), token.size(), text.data(), text.size()).status == MK_OK, "an honest MIC");
}

static void take(End &end, const Record &it) {
    size_t split = it.octets.empty() ? 0 : it.octets[0] % it.octets.size();
    bytes head(it.octets.begin(), it.octets.begin() + (it.octets.size() < 16 ? 0 : 16)), text(it.octets.begin() + long(head.size()), it.octets.end());
    bytes behind(it.octets.begin() + !it.octets.empty(), it.octets.end());
    bytes front(behind.begin(), behind.begin() + long(split)), payload(behind.begin() + long(split), behind.end());
    if (it.tag == 1) unwrap(end, it.octets, nullptr);
    if (it.tag == 2 && !head.empty()) unwrap(end, sealed(end.seal_usage, end.key, head, text), nullptr);
    if (it.tag == 4 && !head.empty()) unwrap(end, in_clear(end.seal_usage, end.key, head, text), nullptr);
    if (it.tag == 3) verify(end, front, payload);
    if (it.tag == 5 && !it.octets.empty()) verify(end, mic(end.mic_usage, end.key, header(true, it.octets[0], 0, 0, 5), behind), behind);
    if (it.tag == 9 && it.octets.size() >= 4) {
        uint32_t rules = uint32_t(it.octets[0]) << 24 | uint32_t(it.octets[1]) << 16 | uint32_t(it.octets[2]) << 8 | it.octets[3];
        uint32_t wanted = rules & ~uint32_t(MK_RULES_RFC) ? MK_ARGUMENT : MK_OK;
        PROMISE(mk_session_set_rules(end.session, rules).status == wanted, "rules %x", rules);
    }
}

extern "C" int LLVMFuzzerTestOneInput(const uint8_t *at, size_t length) {
    std::vector<Record> all = read_records(at, length);
    mk_session session = MK_EMPTY;
    bool is_client = false;
    for (const Record &it : all) is_client = is_client || it.tag == 0;
    Memory memory(length);
    End end = {&session, meet(&session, is_client), uint8_t(is_client ? 5 : 4), is_client ? 22 : 24, is_client ? 23 : 25};
    for (const Record &it : all) take(end, it);
    PROMISE(mk_session_set_rules(end.session, MK_RULES_RFC).status == MK_OK, "no rules");
    go_on(end);
    mk_session_free(&session);
    return 0;
}
