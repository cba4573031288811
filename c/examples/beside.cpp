// The library beside a check that a server has already: both are asked, the server goes on by its own answer, and where they differ
// it logs why the library says otherwise. The check here is a small one with a fault that such checks have: it takes /ab to lie
// below /a. docs/EMBED.md has more of this way of use.
#include "baybowl.h"

#include <cstdlib>
#include <iostream>
#include <memory>
#include <new>
#include <sstream>
#include <stdexcept>
#include <string>
#include <string_view>
#include <vector>

namespace {

// The grants of a session on a file system. They are read once, where the session opens; a text that is none is refused there.
class Grants {
public:
    Grants(std::string_view text, std::string_view fs)
        : len_(BAYBOWL_BLOCK_ROOM(text.size())), block_(static_cast<baybowl_block *>(std::malloc(len_))) {
        if (block_ == nullptr) {
            throw std::bad_alloc();
        }
        baybowl_fault fault;
        uint64_t needed;
        uint32_t status = baybowl_grants_read(text.data(), text.size(), fs.data(), fs.size(), block_.get(), len_, &needed, &fault);
        if (status != BAYBOWL_OK) {
            const char *word = baybowl_fault_word(fault.kind);
            throw std::invalid_argument(word != nullptr ? word + (" at " + std::to_string(fault.at)) : "status " + std::to_string(status));
        }
    }

    // Any number of threads may ask at once.
    uint32_t ask(std::string_view path, const std::vector<uint32_t> &groups, const baybowl_question &question,
                 baybowl_answer &answer) const {
        return baybowl_verdict_by(block_.get(), len_, path.data(), path.size(), groups.data(), groups.size(), &question, &answer);
    }

private:
    struct Freed {
        void operator()(void *room) const { std::free(room); }
    };

    size_t len_;
    std::unique_ptr<baybowl_block, Freed> block_;
};

struct Caller {
    uint32_t uid, gid;
    std::vector<uint32_t> groups;
};

struct Inode {
    std::string path;
    uint32_t owner, group, mode;
};

// What the library says: nothing where it allows, else why it denies.
std::string denial(const Grants &grants, const Caller &caller, const Inode &inode, baybowl_access access) {
    baybowl_question question = {caller.uid, caller.gid, inode.owner, inode.group, inode.mode, uint32_t(access), 0};
    baybowl_answer answer;
    uint32_t status = grants.ask(inode.path, caller.groups, question, answer);
    std::ostringstream why;
    if (status != BAYBOWL_OK) {
        why << "status " << status;
    } else if (answer.grant == 0) {
        for (uint32_t place = 0; place < answer.count; place++) {
            why << (place > 0 ? ", " : "") << "grant " << place + 1 << " " << baybowl_rule_word(answer.rules[place]);
        }
    }
    return why.str();
}

// The check that the server has: one grant for one directory, and no look at what stands behind its name.
bool is_below(std::string_view directory, std::string_view path) { return path.substr(0, directory.size()) == directory; }

} // namespace

int main() {
    if (baybowl_version() != BAYBOWL_VERSION) {
        std::cerr << "header and library differ\n";
        return 1;
    }
    const Grants grants("allow rw path=/a", "cephfs");
    const Caller caller = {9, 50, {}};
    for (const char *path : {"/a/x", "/ab/x", "/b/x"}) {
        const Inode inode = {path, 9, 50, 0644};
        const std::string why = denial(grants, caller, inode, BAYBOWL_WRITE);
        const bool own = is_below("/a", path);
        std::cout << "write " << path << ": " << (own ? "allowed" : "denied");
        if (own != why.empty()) {
            std::cout << ", but the library says " << (why.empty() ? "allowed" : "denied, " + why);
        }
        std::cout << "\n";
    }
    try {
        Grants("allow rw path=\"/a", "cephfs");
    } catch (const std::invalid_argument &why) {
        std::cout << "refused: " << why.what() << "\n";
    }
    return 0;
}
