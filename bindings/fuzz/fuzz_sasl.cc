/* The layers of SASL, at a server's end or a client's, and what the other one sends. Records, in their order:
 *   0 (at any place) the end is the client's   9 (at any place) layers, and three octets for the longest message   10 the user
 *   1 octets as the token of the negotiation   2 its text, in a right token   3 octets as a frame   4 text that is sealed in a right frame
 *   5 text in the clear in a right frame */
#include "common.h"

static Count agreed("agreed"), opened("frames opened"), refused("refused");

struct End {
    bool is_client;
    bytes key;
    mk_session session = MK_EMPTY;
    mk_sasl it = MK_EMPTY;
    uint64_t number = 0;       /* of the peer's next message: a layer takes messages in order */
    bool is_agreed = false;
    uint8_t layers = 6;
    uint32_t most = 65536;
    uint8_t flags() const { return is_client ? 5 : 4; }
    int usage() const { return is_client ? 22 : 24; }
};

static bytes right_token(End &end, const bytes &text) {
    return in_clear(end.usage(), end.key, header(false, end.flags(), 12, 0, end.number), text);
}

/* A token that has the next number uses it up if it is accepted, or if its text alone is refused. */
static Got negotiate(End &end, const bytes &octets, bool is_right) {
    Lent token(octets);
    Got got = get("mk_sasl_accept", [&](uint8_t *out, size_t room) {
        return end.is_client ? mk_sasl_answer(&end.it, token.at, token.length, out, room) : mk_sasl_accept(&end.it, token.at, token.length, out, room);
    });
    PROMISE(got.reply.status == MK_OK || got.reply.status == MK_REFUSED || got.reply.status == MK_SASL, "status %u", got.reply.status);
    bool is_read = got.reply.status == MK_SASL && (got.reply.number == MK_SASL_OFFER || got.reply.number == MK_SASL_LAYER);
    if (is_right && (got.reply.status == MK_OK || is_read)) end.number++;
    if (got.reply.status != MK_OK) refused++;
    if (got.reply.status == MK_OK) {
        agreed++;
        PROMISE(!end.is_agreed, "it is agreed on twice");
        PROMISE(end.is_client ? got.octets.size() >= 32 : got.octets.size() + 32 <= octets.size(), "%zu octets", got.octets.size());
        end.is_agreed = true;
    }
    return got;
}

static bytes frame_of(End &end, const bytes &text, bool is_sealed) {
    bytes head = header(false, uint8_t(end.flags() | (is_sealed ? 2 : 0)), is_sealed ? 0 : 12, 0, end.number);
    return framed(is_sealed ? sealed(end.usage(), end.key, head, text) : in_clear(end.usage(), end.key, head, text));
}

static Got unseal(End &end, const bytes &octets, const bytes *wanted) {
    Lent frame(octets);
    Got got = get("mk_sasl_unseal", [&](uint8_t *out, size_t room) { return mk_sasl_unseal(&end.it, frame.at, frame.length, out, room); });
    PROMISE(got.reply.status == MK_OK || got.reply.status == MK_REFUSED || got.reply.status == MK_SASL, "status %u", got.reply.status);
    if (got.reply.status != MK_OK) {
        refused++;
        return got;
    }
    opened++;
    uint32_t layer = mk_sasl_get_layer(&end.it);
    if (wanted && layer != MK_LAYER_NONE) end.number++;
    PROMISE(end.is_agreed && (layer == 0 || layer & 7), "a frame is opened in layer %u", layer);
    PROMISE(!wanted || layer == MK_LAYER_NONE || got.octets == *wanted, "another text than was sealed"); /* without a layer it is the frame's */
    if (layer != MK_LAYER_NONE) {
        Room out(octets.size());
        mk_reply again = mk_sasl_unseal(&end.it, octets.data(), octets.size(), out.at, out.length);
        PROMISE(again.status != MK_OK || layer == 0, "a frame is opened twice in layer %u", layer);
    }
    return got;
}

/* Our own frames: as long as the layer says, or refused as too large. */
static void seal_one(End &end) {
    const uint8_t confounder[16] = {1};
    const bytes data = of("answer");
    Got got = get("mk_sasl_seal", [&](uint8_t *out, size_t room) { return mk_sasl_seal(&end.it, data.data(), data.size(), confounder, 16, out, room); });
    PROMISE(got.reply.status == MK_OK || got.reply.status == MK_SASL, "status %u", got.reply.status);
    if (got.reply.status == MK_OK) {
        uint32_t layer = mk_sasl_get_layer(&end.it);
        size_t more = layer == MK_LAYER_NONE ? 4 : layer == MK_LAYER_INTEGRITY ? 32 : 64;
        PROMISE(end.is_agreed && got.octets.size() == data.size() + more, "a frame of %zu in layer %u", got.octets.size(), layer);
    } else {
        PROMISE(got.reply.number == MK_SASL_TOO_LARGE || (got.reply.number == MK_SASL_STATE && !end.is_agreed), "number %u", got.reply.number);
    }
}

/* Whatever was refused: a right token, with a number of its own, is taken where none was, and then a right frame where the layer has such. */
static void go_on(End &end) {
    bytes text = end.is_client ? bytes{7, 1, 0, 0} : bytes{uint8_t(end.layers & 4 ? 4 : end.layers & 2 ? 2 : 1), 0, 0, 0};
    if (text[0] & 6 && !end.is_client) text[1] = 1;
    if (!end.is_agreed) {
        Got got = negotiate(end, right_token(end, text), true);
        PROMISE(got.reply.status == MK_OK, "the right token: status %u, number %u, cause %u", got.reply.status, got.reply.number, got.reply.cause);
    }
    uint32_t layer = end.is_agreed ? mk_sasl_get_layer(&end.it) : 0;
    if (layer == MK_LAYER_NONE || layer == 0 || end.most < 128) return;
    const bytes data = of("behind all that");
    PROMISE(unseal(end, frame_of(end, data, layer == MK_LAYER_CONFIDENTIALITY), &data).reply.status == MK_OK, "a right frame in layer %u", layer);
}

static void take(End &end, const Record &it) {
    if (it.tag == 1) negotiate(end, it.octets, false);
    if (it.tag == 2) negotiate(end, right_token(end, it.octets), true);
    if (it.tag == 3) unseal(end, it.octets, nullptr);
    if (it.tag == 4 || it.tag == 5) unseal(end, frame_of(end, it.octets, it.tag == 4), &it.octets);
    if (it.tag >= 3 && it.tag <= 5) seal_one(end);
}

/* Makes the end: where the layers are none the session stays. */
static bool begin(End &end, const bytes &user) {
    Lent name(user);
    mk_reply reply = end.is_client ? mk_sasl_new_client(&end.session, &end.it, end.layers, end.most, name.at, name.length)
                                   : mk_sasl_new_server(&end.session, &end.it, end.layers, end.most);
    check_reply("an end of SASL", reply, SIZE_MAX - 1);
    PROMISE((reply.status == MK_OK) == (end.it.count == 1) && (reply.status == MK_OK) == (end.session.count == 0), "status %u", reply.status);
    if (reply.status != MK_OK) return false;
    if (end.is_client) return true;
    Got offer = get("mk_sasl_offer", [&](uint8_t *out, size_t room) { return mk_sasl_offer(&end.it, out, room); });
    PROMISE(offer.reply.status == MK_OK && offer.octets.size() == 32, "no offer: status %u", offer.reply.status);
    Room again(64);
    mk_reply second = mk_sasl_offer(&end.it, again.at, again.length);
    PROMISE(second.status == MK_SASL && second.number == MK_SASL_STATE && again.is_unchanged(), "an offer that is made twice");
    return true;
}

extern "C" int LLVMFuzzerTestOneInput(const uint8_t *at, size_t length) {
    std::vector<Record> all = read_records(at, length);
    End end = {};
    end.layers = 6;
    end.most = 65536;
    bytes user;
    for (const Record &it : all) {
        end.is_client = end.is_client || it.tag == 0;
        if (it.tag == 10) user = it.octets;
        if (it.tag == 9 && it.octets.size() >= 4) {
            end.layers = it.octets[0];
            end.most = uint32_t(it.octets[1]) << 16 | uint32_t(it.octets[2]) << 8 | it.octets[3];
        }
    }
    Memory memory(length);
    end.key = meet(&end.session, end.is_client);
    end.number = 10;
    if (begin(end, user)) {
        for (const Record &it : all) take(end, it);
        go_on(end);
    }
    mk_sasl_free(&end.it);
    mk_session_free(&end.session);
    return 0;
}
