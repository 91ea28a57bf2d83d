/* A second reader of credential caches, written from MIT krb5's description of the format, and the choice of a ticket in one. */
#include "common.h"

const bytes CACHE_HEAD = hex("0504000c0001000800000000000000000000000100000001"
                             "0000000b4558414d504c452e434f4d00000005616c696365");

namespace {

/* The rest of a file. After the first part that does not fit nothing is left. */
struct Rest {
    const bytes &in;
    size_t at;
    bool fits = true;

    size_t step(size_t length) {
        fits = fits && length <= in.size() - at;
        size_t from = at;
        at = fits ? at + length : in.size();
        return from;
    }

    uint32_t number(size_t octets) {
        uint32_t value = 0;
        for (size_t from = step(octets); fits && octets > 0; octets--) value = value << 8 | in[from++];
        return value;
    }

    bytes counted() {
        size_t length = number(4), from = step(length);
        return fits ? bytes(in.begin() + long(from), in.begin() + long(from + length)) : bytes{};
    }

    Principal principal() {
        Principal it;
        number(4);
        uint32_t count = number(4);
        it.realm = counted();
        for (; fits && count > 0; count--) it.components.push_back(counted());
        return it;
    }

    void list() {
        for (uint32_t count = number(4); fits && count > 0; count--) {
            number(2);
            counted();
        }
    }

    Entry entry(bool is_three) {
        Entry it;
        it.client = principal();
        it.service = principal();
        it.key_type = number(2);
        if (is_three) fits = number(2) == it.key_type && fits;
        it.key = counted();
        for (uint32_t &time : it.times) time = number(4);
        it.is_skey = number(1);
        it.flags = number(4);
        list();
        list();
        it.ticket = counted();
        counted();
        return it;
    }
};

bool is_valid(const Entry &it, uint32_t second) {
    uint32_t start = it.times[1] ? it.times[1] : it.times[0];
    return start <= second && second < it.times[2] && !(it.flags & 0x01000000);
}

} // namespace

bool operator==(const Principal &one, const Principal &other) { return one.realm == other.realm && one.components == other.components; }

bool read_cache(const bytes &file, Cache &cache) {
    if (file.size() < 2 || file[0] != 5 || (file[1] != 3 && file[1] != 4)) return false;
    Rest rest{file, 2};
    if (file[1] == 4) rest.step(rest.number(2));
    cache.owner = rest.principal();
    while (rest.fits && rest.at < file.size()) cache.entries.push_back(rest.entry(file[1] == 3));
    return rest.fits;
}

const Entry *find_entry(const Cache &cache, const std::vector<bytes> &service, uint32_t second) {
    const Entry *best = nullptr;
    for (const Entry &it : cache.entries) {
        bool has_key = (it.key_type == 18 && it.key.size() == 32) || (it.key_type == 17 && it.key.size() == 16);
        bool is_option = it.service.realm == of("X-CACHECONF:");
        if (!has_key || is_option || it.is_skey || !is_valid(it, second)) continue;
        if (it.client == cache.owner && it.service.components == service && (!best || it.times[2] >= best->times[2])) best = &it;
    }
    return best;
}
