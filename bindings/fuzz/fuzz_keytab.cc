/* A keytab: mk_acceptor_new_keytab, and the acceptor that it makes. Records: 1 the file, 2 a realm, 3 a token. */
#include "common.h"

static Count made("made"), refused("refused");

static void check(const mk_acceptor &acceptor, mk_reply reply) {
    check_reply("mk_acceptor_new_keytab", reply, SIZE_MAX - 1);
    PROMISE(reply.status == MK_OK || reply.status == MK_REFUSED || reply.status == MK_ARGUMENT, "status %u", reply.status);
    PROMISE((reply.status == MK_OK) == (acceptor.count == 1), "an acceptor, and status %u", reply.status);
    if (reply.status == MK_OK) PROMISE(reply.length >= 1, "an acceptor of no service");
    if (reply.status == MK_REFUSED) {
        PROMISE(reply.cause == MK_CAUSE_SHAPE || reply.cause == MK_CAUSE_NO_SERVICE_KEY, "cause %u", reply.cause);
    }
}

static void accept(mk_acceptor *acceptor, const bytes &octets) {
    Lent token(octets);
    mk_session session = MK_EMPTY;
    mk_moment moment = moment_at();
    mk_reply reply = mk_accept(acceptor, &session, token.at, token.length, &moment);
    check_reply("mk_accept", reply, SIZE_MAX - 1);
    PROMISE((reply.status == MK_OK) == (session.count == 1), "a session, and status %u", reply.status);
    mk_session_free(&session);
}

extern "C" int LLVMFuzzerTestOneInput(const uint8_t *at, size_t length) {
    bytes file, realm = of("EXAMPLE.COM"), token;
    for (const Record &it : read_records(at, length)) {
        if (it.tag == 1) file = it.octets;
        if (it.tag == 2) realm = it.octets;
        if (it.tag == 3) token = it.octets;
    }
    Memory memory(length);
    mk_acceptor acceptor = MK_EMPTY, copy = MK_EMPTY;
    Lent octets(file), name(realm);
    mk_reply reply = mk_acceptor_new_keytab(&acceptor, octets.at, octets.length, name.at, name.length, 300);
    check(acceptor, reply);
    if (reply.status == MK_OK) {
        made++;
        PROMISE(file.size() >= 2 && file[0] == 5 && file[1] == 2 && reply.length < file.size() / 8, "%zu services in a keytab of %zu", reply.length, file.size());
        PROMISE(mk_acceptor_copy(&acceptor, &copy).status == MK_OK, "no copy");
        accept(&copy, token);
    } else {
        refused++;
    }
    mk_acceptor_free(&acceptor);
    mk_acceptor_free(&copy);
    PROMISE(acceptor.count == 0 && copy.count == 0, "a handle that was freed is not empty");
    return 0;
}
