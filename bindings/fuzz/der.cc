/* DER, and messages of Kerberos that are sealed by MIT krb5's library, and caches that it reads. */
#include "common.h"

#include <algorithm>
#include <krb5/krb5.h>
#include <sys/mman.h>
#include <unistd.h>

static bytes counting(uint8_t step) {
    bytes b;
    for (int i = 0; i < 32; i++) b.push_back(uint8_t(i * step));
    return b;
}

const bytes SERVICE_KEY = counting(1), USER_KEY = counting(7);
const char *const SERVICE = "host/server.example.com", *const USER = "EXAMPLE.COM\\alice";

bytes of(const char *text) { return bytes(text, text + strlen(text)); }

bytes hex(const char *text) {
    bytes b;
    for (unsigned octet; sscanf(text, "%2x", &octet) == 1; text += 2) b.push_back(uint8_t(octet));
    return b;
}

bytes join(std::initializer_list<bytes> parts) {
    bytes all;
    for (const bytes &part : parts) all.insert(all.end(), part.begin(), part.end());
    return all;
}

static bytes number(uint64_t value, int octets) {
    bytes b;
    for (int i = octets - 1; i >= 0; i--) b.push_back(uint8_t(value >> (8 * i)));
    return b;
}

bytes tlv(uint8_t tag, const bytes &contents) {
    size_t n = contents.size();
    int octets = n < 256 ? 1 : n < 65536 ? 2 : 3;
    bytes length = n < 128 ? bytes{uint8_t(n)} : join({bytes{uint8_t(0x80 | octets)}, number(n, octets)});
    return join({bytes{tag}, length, contents});
}

bytes integer(int64_t value) {
    int octets = 8;
    while (octets > 1 && (value >> (8 * octets - 9) == 0 || value >> (8 * octets - 9) == -1)) octets--;
    return tlv(2, number(uint64_t(value), octets));
}

bytes general(const char *text) { return tlv(0x1b, of(text)); }

static bytes record(std::initializer_list<std::pair<int, bytes>> fields) {
    bytes all;
    for (auto &field : fields) {
        bytes one = tlv(uint8_t(0xa0 + field.first), field.second);
        all.insert(all.end(), one.begin(), one.end());
    }
    return tlv(0x30, all);
}

bytes names(int type, std::initializer_list<const char *> parts) {
    bytes all;
    for (const char *part : parts) all = join({all, general(part)});
    return record({{0, integer(type)}, {1, tlv(0x30, all)}});
}

bytes key_value(int etype, const bytes &key) { return record({{0, integer(etype)}, {1, tlv(4, key)}}); }
bytes encrypted(int etype, const bytes &cipher) { return record({{0, integer(etype)}, {2, tlv(4, cipher)}}); }
bytes framed(const bytes &b) { return join({number(b.size(), 4), b}); }

bool holds(const bytes &in, const bytes &part) { return std::search(in.begin(), in.end(), part.begin(), part.end()) != in.end(); }

bytes key_in(const bytes &part, uint8_t tag) {
    for (size_t i = 0; i + 13 < part.size(); i++) { /* tag l 30 l a0 03 02 01 type a1 l 04 l key */
        if (part[i] == tag && part[i + 2] == 0x30 && part[i + 4] == 0xa0 && part[i + 9] == 0xa1 && part[i + 11] == 4) {
            size_t from = i + 13, length = part[i + 12];
            if (length <= part.size() - from) return bytes(part.begin() + long(from), part.begin() + long(from + length));
        }
    }
    return {};
}

static krb5_context mit() {
    static krb5_context context;
    if (!context) PROMISE(krb5_init_context(&context) == 0, "MIT krb5's library does not begin");
    return context;
}

static bool is_key(const bytes &key) { return key.size() == 16 || key.size() == 32; }

static krb5_keyblock block_of(const bytes &key) {
    krb5_keyblock it = {};
    it.enctype = etype_of(key);
    it.length = unsigned(key.size());
    it.contents = const_cast<krb5_octet *>(key.data());
    return it;
}

static krb5_data data_of(const bytes &b) {
    krb5_data it = {};
    it.length = unsigned(b.size());
    it.data = reinterpret_cast<char *>(const_cast<uint8_t *>(b.data()));
    return it;
}

bytes seal(int usage, const bytes &key, const bytes &plain) {
    if (!is_key(key)) return {};
    krb5_keyblock block = block_of(key);
    krb5_data in = data_of(plain);
    size_t length = 0;
    krb5_c_encrypt_length(mit(), block.enctype, plain.size(), &length);
    bytes out(length);
    krb5_enc_data to = {};
    to.ciphertext = data_of(out);
    PROMISE(krb5_c_encrypt(mit(), &block, usage, 0, &in, &to) == 0, "MIT krb5's library does not seal");
    out.resize(to.ciphertext.length);
    return out;
}

bytes checksum(int usage, const bytes &key, const bytes &over) {
    if (!is_key(key)) return {};
    krb5_keyblock block = block_of(key);
    krb5_data in = data_of(over);
    krb5_checksum sum = {};
    PROMISE(krb5_c_make_checksum(mit(), key.size() == 16 ? 15 : 16, &block, usage, &in, &sum) == 0, "MIT krb5's library makes no checksum");
    bytes out(sum.contents, sum.contents + sum.length);
    krb5_free_checksum_contents(mit(), &sum);
    return out;
}

bytes ticket(const bytes &service_name, const bytes &service_key, const bytes &part) {
    bytes sealed_part = encrypted(etype_of(service_key), seal(2, service_key, part));
    return tlv(0x61, record({{0, integer(5)}, {1, general("EXAMPLE.COM")}, {2, service_name}, {3, sealed_part}}));
}

bytes ap_req(const bytes &ticket, const bytes &options, const bytes &key, const bytes &authenticator) {
    bytes bits = tlv(3, join({bytes{0}, options}));
    bytes sealed_part = encrypted(etype_of(key), seal(11, key, authenticator));
    bytes request = tlv(0x6e, record({{0, integer(5)}, {1, integer(14)}, {2, bits}, {3, ticket}, {4, sealed_part}}));
    return tlv(0x60, join({hex("06092a864886f7120102020100"), request}));
}

bytes kdc_reply(bool for_ticket, const bytes &ticket, const bytes &key, const bytes &part) {
    bytes sealed_part = encrypted(etype_of(key), seal(for_ticket ? 8 : 3, key, part));
    return framed(tlv(for_ticket ? 0x6d : 0x6b, record({{0, integer(5)}, {1, integer(for_ticket ? 13 : 11)}, {3, general("EXAMPLE.COM")},
                                                         {4, names(1, {"alice"})}, {5, ticket}, {6, sealed_part}})));
}

bytes ap_rep(const bytes &key, const bytes &part, bool bare) {
    bytes reply = tlv(0x6f, record({{0, integer(5)}, {1, integer(15)}, {2, encrypted(etype_of(key), seal(12, key, part))}}));
    return bare ? reply : tlv(0x60, join({hex("06092a864886f7120102020200"), reply}));
}

bytes header(bool mic, uint8_t flags, uint16_t extra, uint16_t rotated, uint64_t sequence) {
    bytes numbers = mic ? bytes{0xff, 0xff, 0xff, 0xff} : join({number(extra, 2), number(rotated, 2)});
    return join({bytes{uint8_t(mic ? 4 : 5), 4, flags, 0xff}, numbers, number(sequence, 8)});
}

bytes sealed(int usage, const bytes &key, bytes header, const bytes &text) {
    bytes inner = header;
    inner[6] = inner[7] = 0;
    bytes cipher = seal(usage, key, join({text, inner}));
    size_t rotated = cipher.empty() ? 0 : size_t(header[6] << 8 | header[7]) % cipher.size();
    std::rotate(cipher.begin(), cipher.end() - long(rotated), cipher.end());
    return join({header, cipher});
}

bytes in_clear(int usage, const bytes &key, bytes header, const bytes &text) {
    bytes inner = header;
    inner[4] = inner[5] = inner[6] = inner[7] = 0;
    bytes body = join({text, checksum(usage, key, join({text, inner}))});
    std::rotate(body.begin(), body.end() - long(size_t(header[6] << 8 | header[7]) % body.size()), body.end());
    return join({header, body});
}

bytes mic(int usage, const bytes &key, const bytes &header, const bytes &payload) {
    return join({header, checksum(usage, key, join({payload, header}))});
}

/* A cache that is in memory, and has the name of a file. */
static krb5_ccache cache_of(const bytes &file) {
    static int number = memfd_create("cache", 0);
    char name[40];
    krb5_ccache cache;
    PROMISE(ftruncate(number, 0) == 0 && pwrite(number, file.data(), file.size(), 0) == ssize_t(file.size()), "no file in memory");
    snprintf(name, sizeof name, "FILE:/proc/self/fd/%d", number);
    PROMISE(krb5_cc_resolve(mit(), name, &cache) == 0, "MIT krb5's library has no such cache");
    return cache;
}

int read_by_mit(const bytes &file, bytes &last) {
    krb5_ccache cache = cache_of(file);
    krb5_cc_cursor cursor;
    krb5_creds entry;
    int count = 0;
    krb5_error_code told = krb5_cc_start_seq_get(mit(), cache, &cursor);
    if (told == 0) {
        while ((told = krb5_cc_next_cred(mit(), cache, &cursor, &entry)) == 0) {
            last.assign(entry.ticket.data, entry.ticket.data + entry.ticket.length);
            krb5_free_cred_contents(mit(), &entry);
            count++;
        }
        krb5_cc_end_seq_get(mit(), cache, &cursor);
    }
    krb5_cc_close(mit(), cache);
    return told == KRB5_CC_END ? count : -1;
}
