/* Shared by the harnesses: records, octets next to guard pages, replies that are checked, and DER that is sealed by MIT krb5's library. */
#ifndef COMMON_H
#define COMMON_H

#include "menolavuri.h"

#include <cstdint>
#include <cstdio>
#include <cstdlib>
#include <cstring>
#include <functional>
#include <initializer_list>
#include <vector>

typedef std::vector<uint8_t> bytes;

/* Ends the process where a promise of the header is not kept: libFuzzer then stores the input. */
#define PROMISE(test, ...)                                      \
    do {                                                        \
        if (!(test)) {                                          \
            fprintf(stderr, "PROMISE: not so: %s: ", #test);    \
            fprintf(stderr, __VA_ARGS__);                       \
            fprintf(stderr, "\n");                              \
            abort();                                            \
        }                                                       \
    } while (0)

/* An input is records: a tag, three octets of length, octets. */
struct Record {
    uint8_t tag;
    bytes octets;
};
std::vector<Record> read_records(const uint8_t *at, size_t length);
bytes write_records(const std::vector<Record> &);

/* Counts what it reaches; each harness has a few of them, which are printed at the end. */
struct Count {
    explicit Count(const char *name);
    void operator++(int) { times++; }
    const char *name;
    unsigned long times = 0;
};

/* A copy of octets that ends at a page which cannot be touched, or begins after one. Eight can be in use. */
struct Lent {
    explicit Lent(const bytes &);
    const uint8_t *at;
    size_t length;
};

/* Room that ends at such a page, or begins after one, and is filled. */
struct Room {
    explicit Room(size_t length);
    bool is_unchanged() const;
    uint8_t *at;
    size_t length;
};

/* Whether a reply may be one of a call with so much room. A handle is never the wrong one here. */
void check_reply(const char *call, mk_reply, size_t room);
bool is_refused(mk_reply, uint32_t cause);

/* A reply, and what was written. */
struct Got {
    mk_reply reply;
    bytes octets;
};

/* Calls with no room, with one octet too few, and with as much as is needed: it is the same length each time, and too short a room changes
 * nothing in it. */
template <class Call> Got get(const char *name, Call call) {
    Room none(0);
    mk_reply reply = call(none.at, 0);
    check_reply(name, reply, 0);
    if (reply.status != MK_ROOM) return {reply, {}};
    size_t wanted = reply.length;
    PROMISE(wanted > 0, "%s needs no room, and refuses it", name);
    Room less(wanted - 1);
    mk_reply again = call(less.at, less.length);
    PROMISE(again.status == MK_ROOM && again.length == wanted && less.is_unchanged(), "%s: status %u, length %zu, wanted %zu", name,
            again.status, again.length, wanted);
    Room right(wanted);
    reply = call(right.at, right.length);
    check_reply(name, reply, wanted);
    PROMISE(reply.status != MK_ROOM, "%s needs more than the room that it named", name);
    if (reply.status != MK_OK) return {reply, {}};
    PROMISE(reply.length == wanted, "%s: length %zu, wanted %zu", name, reply.length, wanted);
    return {reply, bytes(right.at, right.at + reply.length)};
}

/* The memory of one input: how much was alive at its peak, and that nothing is left at its end. */
struct Memory {
    explicit Memory(size_t input);
    ~Memory();
    size_t input, before;
};

/* DER. */
bytes of(const char *text);
bytes hex(const char *text);
bytes join(std::initializer_list<bytes>);
bytes tlv(uint8_t tag, const bytes &);
bytes integer(int64_t);
bytes general(const char *text);
bytes names(int type, std::initializer_list<const char *>);
bytes key_value(int etype, const bytes &key);
bytes encrypted(int etype, const bytes &cipher);
bytes framed(const bytes &); /* after four octets of length */
bool holds(const bytes &in, const bytes &part);

/* The key in a part that was to be sealed, after this context tag; empty where there is none. */
bytes key_in(const bytes &part, uint8_t tag);

/* Seals for encryption type 18 or 17, by the length of the key, and makes its checksum. Empty where the key has another length. */
bytes seal(int usage, const bytes &key, const bytes &plain);
bytes checksum(int usage, const bytes &key, const bytes &over);
inline int etype_of(const bytes &key) { return key.size() == 16 ? 17 : 18; }

/* Octets and a moment that all harnesses use. */
extern const bytes SERVICE_KEY, USER_KEY;
extern const char *const SERVICE, *const USER;
mk_moment moment_at(uint64_t moment = UINT64_C(1700000000000000));

/* Messages of Kerberos around parts that are sealed on the way. */
bytes ticket(const bytes &service_name, const bytes &service_key, const bytes &part);
bytes ap_req(const bytes &ticket, const bytes &options, const bytes &session_key, const bytes &authenticator);
bytes kdc_reply(bool for_ticket, const bytes &ticket, const bytes &key, const bytes &part);
bytes ap_rep(const bytes &key, const bytes &part, bool bare);

/* The nonce of a request for a KDC, four octets; and plain parts as an honest KDC makes them, at the moment of moment_at(). */
bytes nonce_of(const bytes &request);
bytes reply_part(bool for_ticket, const bytes &key, const bytes &nonce, const bytes &service_name);
bytes ticket_part(const bytes &key);

/* Credential caches, by a second reader: whether octets are one, and the entry for a service in this second that is valid for longest. The
 * head is that of a cache of alice without an entry. */
struct Principal {
    bytes realm;
    std::vector<bytes> components;
};
bool operator==(const Principal &, const Principal &);
struct Entry {
    Principal client, service;
    uint32_t key_type, times[4], is_skey, flags;
    bytes key, ticket;
};
struct Cache {
    Principal owner;
    std::vector<Entry> entries;
};
extern const bytes CACHE_HEAD;
bool read_cache(const bytes &file, Cache &);
const Entry *find_entry(const Cache &, const std::vector<bytes> &service, uint32_t second);

/* How many entries of a cache MIT krb5's library reads, and the ticket of the last one; -1 if it does not read to the end. */
int read_by_mit(const bytes &file, bytes &last);

/* Makes an initiator of the user in an empty handle, whose honest KDC gives both tickets. Each reply is passed to `before`, then taken. */
void log_in(mk_initiator *to, const std::function<void(const bytes &reply)> &before = {});

/* A session of the library, in an empty handle, whose two ends met over such messages: the client's or the server's. The key is that of its
 * messages; the numbers of the client's begin at 10. */
bytes meet(mk_session *to, bool is_client);

/* A message of RFC 4121, section 4.2.6: header, and text after it that is sealed, or in the clear with a checksum; a MIC. */
bytes header(bool mic, uint8_t flags, uint16_t extra, uint16_t rotated, uint64_t number);
bytes sealed(int usage, const bytes &key, bytes header, const bytes &text);
bytes in_clear(int usage, const bytes &key, bytes header, const bytes &text);
bytes mic(int usage, const bytes &key, const bytes &header, const bytes &payload);

#endif
