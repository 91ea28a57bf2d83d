/* Inputs are records, and one record at a time is mutated: as a tree of DER, or as octets. */
#include "common.h"

#include <random>

extern "C" size_t LLVMFuzzerMutate(uint8_t *, size_t, size_t);

std::vector<Record> read_records(const uint8_t *at, size_t length) {
    std::vector<Record> all;
    for (size_t i = 0; i + 4 <= length && all.size() < 64;) {
        size_t wanted = size_t(at[i + 1]) << 16 | size_t(at[i + 2]) << 8 | at[i + 3];
        uint8_t tag = at[i];
        i += 4;
        size_t there = wanted < length - i ? wanted : length - i;
        all.push_back({tag, bytes(at + i, at + i + there)});
        i += there;
    }
    return all;
}

bytes write_records(const std::vector<Record> &all) {
    bytes out;
    for (const Record &it : all) {
        size_t n = it.octets.size();
        out = join({out, bytes{it.tag, uint8_t(n >> 16), uint8_t(n >> 8), uint8_t(n)}, it.octets});
    }
    return out;
}

namespace {

enum Form { SHORTEST, FOUR_OCTETS, WITHOUT_END };

struct Node {
    uint8_t tag = 0;
    bool has_parts = false;
    Form form = SHORTEST;
    bytes octets;
    std::vector<Node> parts;
};

typedef std::mt19937 Chance;

bool read_length(const uint8_t *at, size_t length, size_t &i, size_t &wanted) {
    wanted = at[i++];
    if (wanted & 0x80) {
        size_t octets = wanted & 0x7f;
        if (octets < 1 || octets > 4 || length - i < octets) return false;
        for (wanted = 0; octets > 0; octets--) wanted = wanted << 8 | at[i++];
    }
    return wanted <= length - i;
}

bool read_tree(const uint8_t *at, size_t length, std::vector<Node> &out, int depth) {
    for (size_t i = 0; i < length;) {
        Node node;
        size_t wanted = 0;
        if (length - i < 2 || depth > 12) return false;
        node.tag = at[i++];
        if (!read_length(at, length, i, wanted)) return false;
        node.has_parts = (node.tag & 0x20) && read_tree(at + i, wanted, node.parts, depth + 1);
        if (!node.has_parts) {
            node.parts.clear();
            node.octets.assign(at + i, at + i + wanted);
        }
        i += wanted;
        out.push_back(std::move(node));
    }
    return true;
}

bytes write_node(const Node &node) {
    bytes contents = node.octets;
    if (node.has_parts) {
        contents.clear();
        for (const Node &part : node.parts) contents = join({contents, write_node(part)});
    }
    size_t n = contents.size();
    if (node.form == WITHOUT_END) return join({bytes{node.tag, 0x80}, contents, bytes{0, 0}});
    if (node.form == FOUR_OCTETS) return join({bytes{node.tag, 0x84, uint8_t(n >> 24), uint8_t(n >> 16), uint8_t(n >> 8), uint8_t(n)}, contents});
    return tlv(node.tag, contents);
}

struct Place {
    std::vector<Node> *in;
    size_t at;
};

void list_places(std::vector<Node> &nodes, std::vector<Place> &out) {
    for (size_t i = 0; i < nodes.size(); i++) {
        out.push_back({&nodes, i});
        if (nodes[i].has_parts) list_places(nodes[i].parts, out);
    }
}

/* Octets that fit the tag: numbers at bounds, times, names with the marks that names have. */
void put_value(Node &node, Chance &chance) {
    static const int64_t NUMBERS[] = {0, 1, -1, 127, 128, 255, 256, 0x7fffffff, -0x7fffffff - 1, 0xffffffff, INT64_MAX};
    static const char *const TIMES[] = {"99991231235959Z", "00000101000000Z",   "19700101000000Z", "20260230000000Z",
                                        "20231114221320Z", "20231114221320.5Z", "20231114221360Z", "99991228000000Z"};
    static const char *const NAMES[] = {"", "@", "\\", "a@b", "a\\b", "alice\n", "\xff", "a\\b@c", "EXAMPLE.COM", "krbtgt", "host", "server.example.com"};
    if (node.tag == 0x18) {
        node.octets = of(TIMES[chance() % 8]);
    } else if (node.tag == 0x1b) {
        node.octets = of(NAMES[chance() % 12]);
    } else {
        bytes whole = integer(NUMBERS[chance() % 11]);
        node.octets.assign(whole.begin() + 2, whole.end());
    }
}

void mutate_octets(bytes &b, size_t most) {
    size_t n = b.size();
    if (most == 0) return;
    b.resize(most);
    b.resize(LLVMFuzzerMutate(b.data(), n < most ? n : most, most));
}

void change_contents(Node &node, Chance &chance) {
    if (!node.has_parts) {
        unsigned way = chance() % 4;
        if (way == 0) node.octets.assign(chance() % 3 ? chance() % 40 : chance() % 3000, uint8_t(chance()));
        else if (way == 1) mutate_octets(node.octets, node.octets.size() + 16);
        else put_value(node, chance);
    } else if (!node.parts.empty()) {
        Node part = node.parts[chance() % node.parts.size()];
        node.parts.insert(node.parts.end(), 1 + chance() % (chance() % 8 ? 4 : 200), part);
    }
}

void change_tree(std::vector<Node> &tree, Chance &chance) {
    std::vector<Place> places;
    list_places(tree, places);
    if (places.empty()) return;
    Place to = places[chance() % places.size()], from = places[chance() % places.size()];
    Node &node = (*to.in)[to.at];
    Node copy = (*from.in)[from.at], own = node;
    switch (chance() % 10) {
    case 0: to.in->erase(to.in->begin() + long(to.at)); break;
    case 1: to.in->insert(to.in->begin() + long(to.at), own); break;
    case 2: std::swap(node, (*to.in)[chance() % to.in->size()]); break;
    case 3: node.tag = uint8_t(chance() % 2 ? node.tag + (chance() % 2 ? 1 : -1) : chance()); break;
    case 4: node.form = chance() % 2 ? FOUR_OCTETS : WITHOUT_END; break;
    case 5: node = copy; break;
    case 6: node = Node(); node.tag = 0x30; node.has_parts = true; node.parts.push_back(own); break;
    default: change_contents(node, chance);
    }
}

bool mutate_tree(bytes &b, Chance &chance, size_t most) {
    std::vector<Node> tree;
    if (b.empty() || !read_tree(b.data(), b.size(), tree, 0)) return false;
    for (unsigned times = 1 + chance() % 3; times > 0; times--) change_tree(tree, chance);
    bytes out;
    for (const Node &node : tree) out = join({out, write_node(node)});
    if (out.size() > most) return false;
    b = out;
    return true;
}

void mutate_record(Record &it, Chance &chance, size_t more) {
    size_t most = it.octets.size() + (more < 4096 ? more : 4096);
    if (chance() % 2 || !mutate_tree(it.octets, chance, most)) mutate_octets(it.octets, most);
}

} // namespace

extern "C" size_t LLVMFuzzerCustomMutator(uint8_t *at, size_t length, size_t most, unsigned seed) {
    Chance chance(seed);
    std::vector<Record> all = read_records(at, length);
    unsigned way = chance() % 12;
    if (all.empty() || way == 0) return LLVMFuzzerMutate(at, length, most);
    size_t i = chance() % all.size(), other = chance() % all.size();
    if (way == 1) all.insert(all.begin() + long(other), Record(all[i]));
    else if (way == 2 && all.size() > 1) all.erase(all.begin() + long(i));
    else if (way == 3) std::swap(all[i], all[other]);
    else if (way == 4) all[i].tag = uint8_t(chance() % 8 ? chance() % 16 : chance());
    else mutate_record(all[i], chance, most > length ? most - length : 0);
    bytes out = write_records(all);
    if (out.size() > most) return length;
    memcpy(at, out.data(), out.size());
    return out.size();
}
