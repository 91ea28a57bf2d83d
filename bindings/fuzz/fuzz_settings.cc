/* The settings of an initiator, and its first step: names, files, variables, addresses. Records:
 *   1 the text of /etc/krb5.conf   2 the text of /b   3 KRB5_CONFIG   4 the address of a KDC   5 a user   6 a realm   7 the target
 *   8 SSPI_KDC_URL   9 flags   10 the name of a key's owner   11 the machine   12 data of a channel */
#include "common.h"

static Count asked("asked a KDC"), refused("refused");

static bytes settings[13];

static void check(const char *call, mk_reply reply) {
    check_reply(call, reply, SIZE_MAX - 1);
    PROMISE(reply.status == MK_OK || reply.status == MK_REFUSED || reply.status == MK_ARGUMENT, "%s: status %u", call, reply.status);
}

static void set_file(mk_initiator *it, const char *path, const bytes &text) {
    Lent name(of(path)), octets(text);
    check("mk_initiator_set_file", mk_initiator_set_file(it, name.at, name.length, octets.at, octets.length));
}

static void set_variable(mk_initiator *it, const char *variable, const bytes &value) {
    Lent name(of(variable)), octets(value);
    if (!value.empty()) check("mk_initiator_set_variable", mk_initiator_set_variable(it, name.at, name.length, octets.at, octets.length));
}

static void set_owner(mk_initiator *it) {
    Lent user(settings[5]), realm(settings[6]), owner(settings[10]), secret(of("secret")), key(USER_KEY);
    if (settings[10].empty()) {
        check("mk_initiator_set_password", mk_initiator_set_password(it, user.at, user.length, realm.at, realm.length, secret.at, secret.length));
    } else {
        check("mk_initiator_set_key", mk_initiator_set_key(it, owner.at, owner.length, 18, key.at, key.length));
    }
}

static void set_all(mk_initiator *it) {
    Lent address(settings[4]), channel(settings[12]);
    set_file(it, "/etc/krb5.conf", settings[1]);
    set_file(it, "/b", settings[2]);
    set_variable(it, "KRB5_CONFIG", settings[3]);
    set_variable(it, "SSPI_KDC_URL", settings[8]);
    if (!settings[4].empty()) check("mk_initiator_set_kdc", mk_initiator_set_kdc(it, address.at, address.length));
    if (!settings[12].empty()) check("mk_initiator_set_bindings", mk_initiator_set_bindings(it, channel.at, channel.length));
    set_owner(it);
}

/* The first step, the same step again, which is out of its turn, and a fault of the network. */
static void start(mk_initiator *it) {
    mk_moment moment = moment_at();
    mk_step step = mk_initiator_start(it, &moment);
    mk_reply reply = step.reply;
    check("mk_initiator_start", reply);
    Got url = get("mk_initiator_get_url", [&](uint8_t *out, size_t room) { return mk_initiator_get_url(it, out, room); });
    Got request = get("mk_initiator_get_request", [&](uint8_t *out, size_t room) { return mk_initiator_get_request(it, out, room); });
    bool asks = reply.status == MK_OK && step.next == MK_ASK_KDC;
    PROMISE(asks == (url.reply.status == MK_OK) && asks == (request.reply.status == MK_OK), "status %u, and a request", reply.status);
    if (!asks) {
        refused++;
        return;
    }
    asked++;
    PROMISE(is_refused(mk_initiator_start(it, &moment).reply, MK_CAUSE_SEQUENCE), "a start out of its turn");
    Got again = get("mk_initiator_get_request", [&](uint8_t *out, size_t room) { return mk_initiator_get_request(it, out, room); });
    PROMISE(again.octets == request.octets && !request.octets.empty(), "another request");
    reply = mk_initiator_fault(it, 7, &moment).reply;
    PROMISE(is_refused(reply, MK_CAUSE_NETWORK) && reply.number == 7, "a fault: status %u, cause %u", reply.status, reply.cause);
    PROMISE(mk_initiator_start(it, &moment).reply.status == MK_OK, "no start after a fault");
}

extern "C" int LLVMFuzzerTestOneInput(const uint8_t *at, size_t length) {
    for (bytes &it : settings) it.clear();
    settings[5] = of("alice");
    settings[6] = of("EXAMPLE.COM");
    settings[7] = of(SERVICE);
    settings[9] = {0, 1, 0, 0x1e};
    settings[11] = of("desk");
    for (const Record &it : read_records(at, length)) {
        if (it.tag >= 1 && it.tag <= 12) settings[it.tag] = it.octets;
    }
    uint32_t flags = 0;
    for (uint8_t octet : settings[9]) flags = flags << 8 | octet;
    Memory memory(length);
    mk_initiator initiator = MK_EMPTY;
    const uint8_t number[4] = {0x7f, 2, 3, 4};
    Lent target(settings[7]), machine(settings[11]);
    mk_reply reply = mk_initiator_new(&initiator, target.at, target.length, machine.at, machine.length, flags, number, 4);
    check("mk_initiator_new", reply);
    PROMISE((reply.status == MK_OK) == (initiator.count == 1), "an initiator, and status %u", reply.status);
    if (reply.status == MK_OK) {
        set_all(&initiator);
        start(&initiator);
    }
    mk_initiator_free(&initiator);
    return 0;
}
