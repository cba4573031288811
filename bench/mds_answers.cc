// Asks the policy code of Debian's ceph-mds of one release, 16, 18 or 20, what it makes of texts of grants; `bench/bench mds` builds and runs
// it, preloaded into that program. Its standard input is a table of lines: a text, then each question on that, then the next text. Columns
// stand a tab apart, and bytes are written as two hexadecimal digits each.
//
//     text   BYTES
//     ask    FS UID GID GROUPS PATH OWNER GROUP MODE MASK NEW_UID NEW_GID ADDRESSES
//
// FS and PATH are bytes, PATH without a slash in front; MODE is octal, with the inode's kind; GROUPS and ADDRESSES are lists with commas
// behind each, and in the place of an address may stand a - for a client of none. To a text it answers a line, `read ALL FORM`, where ALL is
// whether its allow_all says yes, and FORM the grants as it prints them, or `unread MESSAGE`; to each question on a text that it reads a 1 or
// a 0 for each address.
#include "mds_process.h"

#include <arpa/inet.h>
#include <cstdint>
#include <cstring>
#include <iostream>
#include <memory>
#include <sstream>
#include <string>
#include <string_view>
#include <vector>

// As far as the policy looks at it: the kind of an address and its bytes stand behind eight others.
struct entity_addr_t {
    uint32_t type = 0, nonce = 0;
    union {
        sockaddr_in four;
        sockaddr_in6 six;
        char room[248];
    };

    entity_addr_t() { memset(room, 0, sizeof room); }
};

// Its grants stand in room of ours, which is greater than it needs.
class MDSAuthCaps {
public:
    char room[4096] = {};
    bool parse(std::string_view text, std::ostream *errors);
    bool allow_all() const;
};
std::ostream &operator<<(std::ostream &out, const MDSAuthCaps &caps);

namespace {

struct Question {
    std::string fs, path;
    unsigned uid, gid, owner, group, mode, mask, new_uid, new_gid;
    std::vector<unsigned long> groups;
    std::vector<entity_addr_t> addresses;
};

using Judge = bool (*)(const MDSAuthCaps *, std::string_view path, unsigned owner, unsigned group, unsigned mode, unsigned uid, unsigned gid,
                       const std::vector<unsigned long> *groups, unsigned mask, unsigned new_uid, unsigned new_gid, const entity_addr_t &address);
// From 20 on it is told the file system, and a text for its log.
using JudgeOfFs = bool (*)(const MDSAuthCaps *, std::string_view fs, std::string_view path, unsigned owner, unsigned group, unsigned mode,
                           unsigned uid, unsigned gid, const std::vector<unsigned long> *groups, unsigned mask, unsigned new_uid, unsigned new_gid,
                           const entity_addr_t &address, std::string_view trimmed);

const char *const JUDGE = "_ZNK11MDSAuthCaps10is_capableESt17basic_string_viewIcSt11char_traitsIcEEjjjjjPKSt6vectorImSaImEEjjjRK13entity_addr_t";
const char *const JUDGE_OF_FS =
    "_ZNK11MDSAuthCaps10is_capableESt17basic_string_viewIcSt11char_traitsIcEES3_jjjjjPKSt6vectorImSaImEEjjjRK13entity_addr_tS3_";

bool is_capable(const MDSAuthCaps &caps, const Question &q, const entity_addr_t &address) {
    static const auto judge = reinterpret_cast<Judge>(dlsym(RTLD_DEFAULT, JUDGE));
    static const auto judge_of_fs = reinterpret_cast<JudgeOfFs>(dlsym(RTLD_DEFAULT, JUDGE_OF_FS));
    if (judge_of_fs != nullptr) {
        return judge_of_fs(&caps, q.fs, q.path, q.owner, q.group, q.mode, q.uid, q.gid, &q.groups, q.mask, q.new_uid, q.new_gid, address, "");
    }
    if (judge == nullptr) {
        std::cerr << "this ceph-mds has no is_capable that is known\n";
        _Exit(2);
    }
    return judge(&caps, q.path, q.owner, q.group, q.mode, q.uid, q.gid, &q.groups, q.mask, q.new_uid, q.new_gid, address);
}

std::vector<std::string> split(const std::string &text, char mark) {
    std::vector<std::string> parts;
    std::istringstream rest(text);
    for (std::string part; std::getline(rest, part, mark);) {
        parts.push_back(part);
    }
    return parts;
}

std::string bytes_of(const std::string &digits) {
    std::string bytes;
    for (size_t at = 0; at + 1 < digits.size(); at += 2) {
        bytes += char(std::stoi(digits.substr(at, 2), nullptr, 16));
    }
    return bytes;
}

std::string digits_of(const std::string &bytes) {
    static const char *const digits = "0123456789abcdef";
    std::string text;
    for (unsigned char byte : bytes) {
        text += {digits[byte >> 4], digits[byte & 15]};
    }
    return text;
}

entity_addr_t address_of(const std::string &text) {
    entity_addr_t address;
    if (inet_pton(AF_INET, text.c_str(), &address.four.sin_addr) == 1) {
        address.four.sin_family = AF_INET;
    } else if (inet_pton(AF_INET6, text.c_str(), &address.six.sin6_addr) == 1) {
        address.six.sin6_family = AF_INET6;
    } else if (text != "-") {
        std::cerr << text << " is no address\n";
        _Exit(2);
    }
    return address;
}

Question question_of(const std::vector<std::string> &columns) {
    const auto number = [&](int column) { return unsigned(std::stoul(columns.at(column))); };
    Question q{};
    q.fs = bytes_of(columns.at(1));
    q.uid = number(2);
    q.gid = number(3);
    for (const std::string &gid : split(columns.at(4), ',')) {
        q.groups.push_back(std::stoul(gid));
    }
    q.path = bytes_of(columns.at(5));
    q.owner = number(6);
    q.group = number(7);
    q.mode = unsigned(std::stoul(columns.at(8), nullptr, 8));
    q.mask = number(9);
    q.new_uid = number(10);
    q.new_gid = number(11);
    for (const std::string &address : split(columns.at(12), ',')) {
        q.addresses.push_back(address_of(address));
    }
    return q;
}

// The grants of the text, or null where it reads none, once that is answered.
std::unique_ptr<MDSAuthCaps> read(const std::string &text) {
    auto caps = std::make_unique<MDSAuthCaps>();
    std::ostringstream message, form;
    if (!caps->parse(text, &message)) {
        std::cout << "unread " << digits_of(message.str()) << "\n";
        return nullptr;
    }
    form << *caps;
    std::cout << "read " << caps->allow_all() << " " << digits_of(form.str()) << "\n";
    return caps;
}

void judge(const MDSAuthCaps &caps, const Question &q) {
    for (const entity_addr_t &address : q.addresses) {
        std::cout << is_capable(caps, q, address);
    }
    std::cout << "\n";
}

}  // namespace

int run(int, char **, char **) {
    if (!make_context()) {
        std::cerr << "this ceph-mds has no context that is known\n";
        _Exit(2);
    }
    std::ios::sync_with_stdio(false);
    std::unique_ptr<MDSAuthCaps> caps;
    for (std::string line; std::getline(std::cin, line);) {
        const auto columns = split(line, '\t');
        if (columns.at(0) == "text") {
            caps = read(bytes_of(columns.size() > 1 ? columns.at(1) : ""));
        } else if (caps) {
            judge(*caps, question_of(columns));
        }
    }
    std::cout.flush();
    _Exit(0);
}
