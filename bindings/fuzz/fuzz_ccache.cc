/* Credential caches and tickets that an initiator begins with, and caches that it writes. Records, in their order:
 *   1 octets of the file   2 a ticket: an entry of the file, with what 3 to 7 set   3 its client   4 its service   5 type of key, and key
 *   6 four times, is_skey, flags   7 addresses and what is after them   8 how often the last entry comes again
 *   9 the moment   10 the target   11 realm, 12 name, 13 type of key, for the last ticket by itself */
#include "common.h"

#include <algorithm>

static Count services("tickets of services"), grantings("ticket-granting tickets"), refused("refused"), alone("tickets by themselves"),
    written("written"), agreed("read by MIT krb5 too");

static const size_t LARGEST = 40000;

struct Input {
    bytes file, entry, target = of(SERVICE), realm = of("EXAMPLE.COM"), name = of("alice"), ticket;
    bytes client = join({hex("0000000100000001"), framed(of("EXAMPLE.COM")), framed(of("alice"))});
    bytes service = join({hex("0000000300000002"), framed(of("EXAMPLE.COM")), framed(of("host")), framed(of("server.example.com"))});
    bytes key = join({hex("0012"), USER_KEY}), facts = hex("6553f1006553f10065547da0000000000040a10000"), lists = bytes(8);
    uint32_t key_type = 18;
    uint64_t moment = UINT64_C(1700000000000000);
};

static uint64_t number_of(const bytes &b) {
    uint64_t number = 0;
    for (uint8_t octet : b) number = number << 8 | octet;
    return number;
}

static void add_entry(Input &in) {
    bytes type(in.key.begin(), in.key.begin() + 2), again = in.file.size() > 1 && in.file[1] == 3 ? type : bytes{};
    bytes key = framed(bytes(in.key.begin() + 2, in.key.end()));
    in.entry = join({in.client, in.service, type, again, key, in.facts, in.lists, framed(in.ticket), framed({})});
    in.file = join({in.file, in.entry});
}

static void repeat_entry(Input &in, uint64_t times) {
    times = in.entry.empty() ? 0 : times;
    for (; times > 0 && in.file.size() + in.entry.size() < LARGEST; times--) in.file.insert(in.file.end(), in.entry.begin(), in.entry.end());
}

static void put(Input &in, const Record &it) {
    bytes *const texts[] = {&in.client, &in.service, &in.key, &in.facts, &in.lists};
    if (it.tag == 1) in.file = join({in.file, it.octets});
    if (it.tag >= 3 && it.tag <= 7) *texts[it.tag - 3] = it.octets;
    in.key.resize(std::max<size_t>(in.key.size(), 2));
    if (it.tag == 2) {
        in.ticket = it.octets;
        add_entry(in);
    }
    if (it.tag == 8) repeat_entry(in, number_of(it.octets));
    if (it.tag == 9) in.moment = number_of(it.octets);
    if (it.tag == 10) in.target = it.octets;
    if (it.tag == 11) in.realm = it.octets;
    if (it.tag == 12) in.name = it.octets;
    if (it.tag == 13) in.key_type = uint32_t(number_of(it.octets));
}

static bool has(const bytes &text, uint8_t octet) { return std::find(text.begin(), text.end(), octet) != text.end(); }

static bool is_past_ascii(const bytes &text) {
    return std::any_of(text.begin(), text.end(), [](uint8_t octet) { return octet >= 0x80; });
}

static bool make(mk_initiator *it, const bytes &target) {
    const uint8_t number[4] = {1, 2, 3, 4};
    const bytes url = of("tcp://k");
    Lent name(target);
    mk_reply reply = mk_initiator_new(it, name.at, name.length, url.data(), 3, MK_MUTUAL_AUTH, number, 4);
    check_reply("mk_initiator_new", reply, SIZE_MAX - 1);
    if (reply.status != MK_OK) return false;
    PROMISE(mk_initiator_set_kdc(it, url.data(), url.size()).status == MK_OK, "no KDC");
    return true;
}

/* The two parts of a target, or none. */
static std::vector<bytes> parts_of(const bytes &target) {
    auto at = std::find(target.begin(), target.end(), '/');
    if (at == target.begin() || at == target.end() || at + 1 == target.end()) return {};
    return {bytes(target.begin(), at), bytes(at + 1, target.end())};
}

/* A ticket that is found is refused for what is in it, or in its client's name. */
static void check_found(const Entry &it, mk_reply reply) {
    bytes text = it.client.realm;
    for (const bytes &component : it.client.components) text = join({text, component});
    bool is_bad = is_refused(reply, MK_CAUSE_BAD_USER) && (has(text, '\\') || has(text, '@'));
    PROMISE(is_bad || (is_refused(reply, MK_CAUSE_NOT_ASCII) && is_past_ascii(text)) || is_refused(reply, MK_CAUSE_SHAPE),
            "a ticket that is found: status %u, cause %u", reply.status, reply.cause);
}

/* Sets the tickets of a cache, and returns the one that counts; no octets if it was refused. */
static bytes set_cache(mk_initiator *it, const bytes &file, const bytes &target, uint64_t moment) {
    Cache cache;
    Lent octets(file);
    std::vector<bytes> service = parts_of(target);
    uint32_t second = uint32_t(std::min<uint64_t>(moment / 1000000, UINT32_MAX));
    bool is_cache = read_cache(file, cache);
    mk_reply reply = mk_initiator_set_ccache(it, octets.at, octets.length, moment);
    check_reply("mk_initiator_set_ccache", reply, 2);
    const Entry *own = find_entry(cache, service, second), *entry = own ? own : find_entry(cache, {of("krbtgt"), cache.owner.realm}, second);
    uint32_t cause = !is_cache ? MK_CAUSE_SHAPE : service.empty() ? MK_CAUSE_TARGET : !entry ? MK_CAUSE_NO_IDENTITY : 0;
    if (cause) {
        PROMISE(is_refused(reply, cause), "status %u, cause %u, and not %u", reply.status, reply.cause, cause);
    } else if (reply.status != MK_OK) {
        check_found(*entry, reply);
    } else {
        PROMISE(reply.length == (own ? 1 : 2), "ticket %zu", reply.length);
        (*(own ? &services : &grantings))++;
        return entry->ticket;
    }
    refused++;
    return {};
}

/* The ticket that was set is shown, to the service or to a KDC. A key of another length is refused first. */
static void show(mk_initiator *it, const bytes &ticket, bool has_key) {
    mk_moment moment = moment_at();
    mk_step step = mk_initiator_start(it, &moment);
    mk_reply reply = step.reply;
    check_reply("mk_initiator_start", reply, SIZE_MAX - 1);
    PROMISE(has_key || is_refused(reply, MK_CAUSE_KEY_LENGTH), "a key of another length: status %u, cause %u", reply.status, reply.cause);
    PROMISE(!is_refused(reply, MK_CAUSE_NO_IDENTITY), "a ticket was set, and nobody asks");
    if (reply.status != MK_OK) return;
    bool asks = step.next == MK_ASK_KDC;
    PROMISE(asks || step.next == MK_SEND_TOKEN, "next %u", step.next);
    Got out = get("what shows a ticket", [&](uint8_t *to, size_t room) {
        return asks ? mk_initiator_get_request(it, to, room) : mk_initiator_get_token(it, to, room);
    });
    PROMISE(out.reply.status == MK_OK && holds(out.octets, ticket), "another ticket is shown, of %zu octets", ticket.size());
}

static mk_reply set_ticket(mk_initiator *it, const bytes &realm, const bytes &name, uint32_t key_type, const bytes &key, const bytes &ticket) {
    Lent a(realm), b(name), c(key), d(ticket);
    mk_reply reply = mk_initiator_set_ticket(it, a.at, a.length, b.at, b.length, key_type, c.at, c.length, d.at, d.length);
    check_reply("mk_initiator_set_ticket", reply, 0);
    PROMISE(reply.status == MK_OK || reply.status == MK_REFUSED || reply.status == MK_ARGUMENT, "status %u", reply.status);
    return reply;
}

static const bytes &honest_ticket() {
    static const bytes it = ticket(names(2, {"host", "server.example.com"}), SERVICE_KEY, ticket_part(USER_KEY));
    return it;
}

/* The input's file, at an initiator that has nothing, and at one that has a ticket, which stays if the file is refused. */
static void try_file(const Input &in) {
    mk_initiator fresh = MK_EMPTY, other = MK_EMPTY;
    if (make(&fresh, in.target)) {
        bytes ticket = set_cache(&fresh, in.file, in.target, in.moment);
        mk_moment moment = moment_at();
        if (!ticket.empty()) show(&fresh, ticket, true);
        else PROMISE(mk_initiator_start(&fresh, &moment).reply.status == MK_REFUSED, "nothing was set, and it begins");
        PROMISE(make(&other, of(SERVICE)), "no initiator");
        PROMISE(set_ticket(&other, of("EXAMPLE.COM"), of("alice"), 18, USER_KEY, honest_ticket()).status == MK_OK, "no ticket");
        ticket = set_cache(&other, in.file, of(SERVICE), in.moment);
        show(&other, ticket.empty() ? honest_ticket() : ticket, true);
    }
    mk_initiator_free(&fresh);
    mk_initiator_free(&other);
}

static void try_ticket(const Input &in) {
    mk_initiator it = MK_EMPTY;
    const bytes key(in.key.begin() + 2, in.key.end());
    bool has_type = in.key_type == 17 || in.key_type == 18, is_ascii = !is_past_ascii(in.realm) && !is_past_ascii(in.name);
    bool is_bad = has(in.realm, '\\') || has(in.realm, '@') || has(in.name, '\\');
    PROMISE(make(&it, of(SERVICE)), "no initiator");
    mk_reply reply = set_ticket(&it, in.realm, in.name, in.key_type, key, in.ticket);
    PROMISE(reply.status != MK_ARGUMENT || is_past_ascii(in.name), "a name in ASCII");
    PROMISE(reply.status == MK_ARGUMENT || has_type != is_refused(reply, MK_CAUSE_ETYPE), "type %u: cause %u", in.key_type, reply.cause);
    PROMISE(!is_refused(reply, MK_CAUSE_NOT_ASCII) || !is_ascii, "names in ASCII");
    PROMISE(!is_refused(reply, MK_CAUSE_BAD_USER) || is_bad, "names without marks");
    if (reply.status == MK_OK) {
        alone++;
        PROMISE(is_ascii && !is_bad, "names that are none");
        show(&it, in.ticket, key.size() == (in.key_type == 17 ? 16 : 32));
    } else if (reply.status == MK_REFUSED) {
        const std::initializer_list<uint32_t> causes = {MK_CAUSE_ETYPE, MK_CAUSE_SHAPE, MK_CAUSE_NOT_ASCII, MK_CAUSE_BAD_USER};
        PROMISE(std::find(causes.begin(), causes.end(), reply.cause) != causes.end(), "cause %u", reply.cause);
    }
    mk_initiator_free(&it);
}

/* The file has the ticket of this reply after its entries, by both readers. */
static void check_written(const bytes &file, const bytes &out, const bytes &reply) {
    Cache before, after;
    bytes ticket;
    PROMISE(read_cache(file, before) && read_cache(out, after) && after.entries.size() == before.entries.size() + 1, "no entry more");
    const Entry &last = after.entries.back();
    PROMISE(std::equal(file.begin(), file.end(), out.begin()) && holds(reply, last.ticket) && !last.ticket.empty(), "other entries");
    PROMISE(last.client == (Principal{of("EXAMPLE.COM"), {of("alice")}}) && last.key_type == 18 && last.key.size() == 32, "another client");
    int count = read_by_mit(file, ticket);
    if (count < 0) return;
    PROMISE(read_by_mit(out, ticket) == count + 1 && ticket == last.ticket, "MIT krb5's library reads another ticket");
    agreed++;
}

/* Writes the ticket of this reply into a cache, which is read again, and returns the cache. */
static bytes keep_one(mk_initiator *it, const bytes &file, const bytes &reply) {
    Cache cache;
    mk_moment moment = moment_at();
    Got got = get("mk_initiator_get_ccache", [&](uint8_t *out, size_t room) {
        Lent octets(file), answer(reply);
        return mk_initiator_get_ccache(it, octets.at, octets.length, answer.at, answer.length, &moment, out, room);
    });
    if (!read_cache(file, cache)) {
        PROMISE(is_refused(got.reply, MK_CAUSE_SHAPE), "status %u, cause %u, and no cache", got.reply.status, got.reply.cause);
        return file;
    }
    PROMISE(got.reply.status == MK_OK, "a cache: status %u, cause %u", got.reply.status, got.reply.cause);
    check_written(file, got.octets, reply);
    mk_initiator other = MK_EMPTY;
    PROMISE(make(&other, of(SERVICE)), "no initiator");
    bytes ticket = set_cache(&other, got.octets, of(SERVICE), moment.moment);
    if (!ticket.empty()) show(&other, ticket, true);
    mk_initiator_free(&other);
    written++;
    return got.octets;
}

extern "C" int LLVMFuzzerTestOneInput(const uint8_t *at, size_t length) {
    Input in;
    for (const Record &it : read_records(at, length)) put(in, it);
    honest_ticket();
    Memory memory(length + in.file.size());
    mk_initiator initiator = MK_EMPTY;
    bytes file = in.file;
    try_file(in);
    try_ticket(in);
    log_in(&initiator, [&](const bytes &reply) { file = keep_one(&initiator, file, reply); });
    mk_initiator_free(&initiator);
    return 0;
}
