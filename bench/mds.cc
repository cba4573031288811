// Asks the policy code of Debian's ceph-mds of Ceph 16, in its own process: preloaded, it takes the place of main. `bench/bench count mds` and
// `bench/bench mds --library` build and run it.
//
//     MDS_WORK="GRANTS NAMES IDS N"    N verdicts on a write, by the grants of `count policy`, read once
//     MDS_TIME="GRANTS NAMES IDS N"    the time of one such verdict, of the program and of the library
//     MDS_ASK="SEED N"                 N random questions, each of the program and of the library, by a mask, a block and a text
//
// In the place of the number of grants may stand `csi`, one grant for a directory as containers have it and an inode in it, or `beside`,
// the same with an inode of another directory, which is denied.
#include "baybowl.h"
#include "mds_process.h"

#include <algorithm>
#include <chrono>
#include <cstdio>
#include <cstdlib>
#include <cstring>
#include <iosfwd>
#include <memory>
#include <string>
#include <string_view>
#include <vector>

struct entity_addr_t {
    char room[256];
};

// Its grants stand in room of ours, which is greater than it needs.
class MDSAuthCaps {
public:
    char room[4096];
    bool parse(std::string_view text, std::ostream *errors);
    bool is_capable(std::string_view path, unsigned owner, unsigned group, unsigned mode, unsigned uid, unsigned gid,
                    const std::vector<unsigned long> *groups, unsigned mask, unsigned new_uid, unsigned new_gid,
                    const entity_addr_t &address) const;
};

namespace {

constexpr unsigned WRITE = 2;

// As capbench makes them: all but the last have another last name, and only the last allows.
std::string make_grants(int count, int depth, bool has_ids) {
    std::string text;
    for (int grant = 0; grant < count; grant++) {
        text += grant > 0 ? ", allow rw path=" : "allow rw path=";
        for (int name = 0; name < depth; name++) {
            bool is_other = name + 1 == depth && grant + 1 < count;
            text += is_other ? "/x" + std::to_string(grant) : "/p" + std::to_string(name);
        }
        text += has_ids ? " uid=1000 gids=1000,1001" : "";
    }
    return text;
}

// Random numbers that are the same wherever this runs.
class Picks {
public:
    explicit Picks(uint64_t seed) : state_(seed) {}

    uint32_t below(uint32_t bound) {
        state_ = state_ * 6364136223846793005u + 1442695040888963407u;
        return uint32_t(state_ >> 33) % bound;
    }

    bool one_in(uint32_t bound) { return below(bound) == 0; }

private:
    uint64_t state_;
};

// A grant as both read it: its items stand in an order that version 16 takes.
struct Grant {
    std::string flags, fs, path;
    bool is_squashed = false, has_uid = false;
    uint32_t uid = 0;
    std::vector<uint32_t> gids;
};

std::string text_of(const std::vector<Grant> &grants) {
    std::string text;
    for (const Grant &grant : grants) {
        text += (text.empty() ? "allow " : ", allow ") + grant.flags;
        text += grant.fs.empty() ? "" : " fsname=" + grant.fs;
        text += grant.path.empty() ? "" : " path=" + grant.path;
        text += grant.is_squashed ? " root_squash" : "";
        text += grant.has_uid ? " uid=" + std::to_string(grant.uid) : "";
        for (size_t at = 0; at < grant.gids.size(); at++) {
            text += (at == 0 ? " gids=" : ",") + std::to_string(grant.gids[at]);
        }
    }
    return text;
}

std::string some_path(Picks &picks, uint32_t most) {
    static const char *const names[] = {"a", "b", "ab", "c.d", "x_y"};
    std::string path;
    for (uint32_t left = picks.below(most + 1); left > 0; left--) {
        path += (path.empty() ? "" : "/") + std::string(names[picks.below(5)]);
    }
    return path;
}

uint32_t some_uid(Picks &picks) { return picks.one_in(12) ? 2147483648u : picks.below(3); }

Grant some_grant(Picks &picks) {
    static const char *const flags[] = {"r", "rw", "rwp", "rws", "rwps"};
    Grant grant;
    grant.flags = flags[picks.below(5)];
    if (!picks.one_in(4)) {
        const std::string path = some_path(picks, 3);
        const size_t slash = path.find('/');
        grant.path = "/" + path;
        if (slash != std::string::npos && picks.one_in(12)) {
            grant.path.insert(slash + 1, "/");
        }
        grant.path += !path.empty() && picks.one_in(10) ? "/" : "";
    }
    if (picks.one_in(3)) {
        grant.has_uid = true;
        grant.uid = some_uid(picks);
        if (picks.one_in(2)) {
            grant.gids = {picks.below(3), 3 + picks.below(2)};
        }
        return grant;
    }
    if (picks.one_in(4)) {
        grant.fs = picks.one_in(2) ? "cephfs" : "other";
    }
    grant.is_squashed = picks.one_in(5);
    return grant;
}

// What is asked, as a server has it: a path without a slash in front, the mode with the inode's kind, the groups as they come.
struct Question {
    std::vector<Grant> grants;
    std::string path;
    std::vector<uint32_t> groups;
    baybowl_check check;
    // A change of the mode, for which the program has no mask but that of a write.
    bool is_chmod;
};

Question some_question(Picks &picks) {
    // Those that its requests have.
    static const uint32_t masks[] = {1, 2, 3, 16, 18, 32, 34, 64, 130};
    static const uint32_t kinds[] = {0100000, 040000, 0120000};
    Question q{};
    for (uint32_t left = picks.one_in(8) ? 16 : 1 + picks.below(3); left > 0; left--) {
        q.grants.push_back(some_grant(picks));
    }
    q.path = some_path(picks, 5);
    for (uint32_t left = picks.one_in(20) ? 17 + picks.below(8) : picks.below(4); left > 0; left--) {
        q.groups.push_back(picks.below(5));
    }
    q.is_chmod = picks.one_in(9);
    q.check = {some_uid(picks), picks.below(5), some_uid(picks), picks.below(5), kinds[picks.below(3)] | picks.below(01000),
               q.is_chmod ? WRITE : masks[picks.below(9)], some_uid(picks), picks.below(5)};
    return q;
}

// The differences that docs/GRANTS.md names, by their number there.
enum Difference { FS_NAME, SLASH_AT_END, TWO_SLASHES, QUOTA, CHMOD, UNSORTED, GREAT_UID, OWNER_ALONE, ONE_GRANT, DIFFERENCES };
const int numbers[] = {1, 2, 3, 4, 6, 7, 8, 10, 11};

// The policy once more, by the grants as they were made, with some of these differences: none is how the library has it, and all how the
// program has it.
class Policy {
public:
    Policy(const Question &q, unsigned differences) : q_(q), differences_(differences) {}

    bool allows() const {
        return has(ONE_GRANT) ? std::any_of(q_.grants.begin(), q_.grants.end(), [&](const Grant &grant) { return allows_all(grant); })
                              : allows_each();
    }

private:
    bool has(Difference difference) const { return (differences_ >> difference & 1) != 0; }

    std::vector<baybowl_access> accesses() const {
        static const baybowl_access all[] = {BAYBOWL_READ, BAYBOWL_WRITE, BAYBOWL_CHOWN, BAYBOWL_CHGRP, BAYBOWL_SET_VXATTR, BAYBOWL_SNAPSHOT};
        static const uint32_t bits[] = {1, 2, 16, 32, 64, 128};
        std::vector<baybowl_access> asked;
        for (int at = 0; at < 6; at++) {
            if ((q_.check.mask & bits[at]) != 0) {
                asked.push_back(q_.is_chmod && !has(CHMOD) ? BAYBOWL_CHMOD : all[at]);
            }
        }
        return asked;
    }

    bool allows_all(const Grant &grant) const {
        const auto asked = accesses();
        return std::all_of(asked.begin(), asked.end(), [&](baybowl_access access) { return allows_one(grant, access); });
    }

    bool allows_each() const {
        const auto asked = accesses();
        return std::all_of(asked.begin(), asked.end(), [&](baybowl_access access) {
            return std::any_of(q_.grants.begin(), q_.grants.end(), [&](const Grant &grant) { return allows_one(grant, access); });
        });
    }

    // Whether a request asks for the flag w, for root_squash and for the bits of the mode: by a mask without a write the program doesn't.
    bool is_change(baybowl_access access) const {
        if (access == BAYBOWL_READ) {
            return false;
        }
        const bool is_alone = (q_.check.mask & BAYBOWL_MAY_WRITE) == 0;
        return !(is_alone && has(access == BAYBOWL_SET_VXATTR ? QUOTA : OWNER_ALONE));
    }

    bool allows_one(const Grant &grant, baybowl_access access) const {
        const baybowl_check &c = q_.check;
        const bool has_w = grant.flags != "r", is_root = c.uid == 0 || c.gid == 0;
        if ((!has(FS_NAME) && !grant.fs.empty() && grant.fs != "cephfs") || !is_for_caller(grant) || !is_above(grant) ||
            (is_change(access) && (!has_w || (grant.is_squashed && is_root))) ||
            (access == BAYBOWL_SET_VXATTR && grant.flags.find('p') == std::string::npos) ||
            (access == BAYBOWL_SNAPSHOT && grant.flags.find('s') == std::string::npos)) {
            return false;
        }
        return !grant.has_uid || (may_own(grant, access) && has_bit(grant, access));
    }

    static bool contains(const std::vector<uint32_t> &numbers, uint32_t number) {
        return std::find(numbers.begin(), numbers.end(), number) != numbers.end();
    }

    bool is_for_caller(const Grant &grant) const {
        if (!grant.has_uid) {
            return true;
        }
        const bool is_listed = grant.gids.empty() || contains(grant.gids, q_.check.gid) ||
                               std::any_of(q_.groups.begin(), q_.groups.end(), [&](uint32_t gid) { return contains(grant.gids, gid); });
        return grant.uid == q_.check.uid && is_listed && !(has(GREAT_UID) && grant.uid >= 2147483648u);
    }

    // The program compares texts, of which only the first slash was dropped.
    bool is_above(const Grant &grant) const {
        std::string dir = grant.path.empty() ? "" : grant.path.substr(1);
        const size_t two = dir.find("//");
        if (two != std::string::npos && !has(TWO_SLASHES)) {
            dir.erase(two, 1);
        }
        if (!dir.empty() && dir.back() == '/' && !has(SLASH_AT_END)) {
            dir.pop_back();
        }
        const std::string &path = q_.path;
        return path.compare(0, dir.size(), dir) == 0 &&
               (dir.empty() || dir.back() == '/' || path.size() <= dir.size() || path[dir.size()] == '/');
    }

    // The caller's gids that the grant lists. The program looks for them as in a list that is in order.
    std::vector<uint32_t> listed(const Grant &grant) const {
        std::vector<uint32_t> gids = grant.gids, found;
        std::sort(gids.begin(), gids.end());
        if (contains(gids, q_.check.gid)) {
            found.push_back(q_.check.gid);
        }
        std::vector<uint32_t> groups = q_.groups;
        if (!has(UNSORTED)) {
            std::sort(groups.begin(), groups.end());
        }
        // What std::set_intersection does with any list.
        for (auto one = gids.begin(), other = groups.begin(); one != gids.end() && other != groups.end();) {
            if (*one < *other) {
                ++one;
            } else if (*other < *one) {
                ++other;
            } else {
                found.push_back(*one);
                ++one;
                ++other;
            }
        }
        return found;
    }

    bool may_own(const Grant &grant, baybowl_access access) const {
        const baybowl_check &c = q_.check;
        const bool is_owner = c.owner == c.uid;
        switch (access) {
        case BAYBOWL_CHMOD:
            return is_owner;
        case BAYBOWL_CHOWN:
            return is_owner && c.new_uid == c.uid;
        case BAYBOWL_CHGRP:
            return is_owner && contains(listed(grant), c.new_gid);
        default:
            return true;
        }
    }

    bool has_bit(const Grant &grant, baybowl_access access) const {
        const baybowl_check &c = q_.check;
        const bool is_read = access == BAYBOWL_READ;
        if (access == BAYBOWL_CHMOD || access == BAYBOWL_CHOWN || access == BAYBOWL_CHGRP || (!is_read && !is_change(access))) {
            return true;
        }
        const int shift = c.owner == c.uid ? 6 : contains(listed(grant), c.group) ? 3 : 0;
        return ((c.mode >> shift) & (is_read ? 4u : 2u)) != 0;
    }

    const Question &q_;
    unsigned differences_;
};

bool mds_allows(const MDSAuthCaps &caps, const Question &q) {
    static const entity_addr_t address{};
    const std::vector<unsigned long> groups(q.groups.begin(), q.groups.end());
    const baybowl_check &c = q.check;
    return caps.is_capable(q.path, c.owner, c.group, c.mode, c.uid, c.gid, &groups, c.mask, c.new_uid, c.new_gid, address);
}

// The accesses of a mask, one after the other, by an access: whether the block and the text say what the mask was told, by either form of
// the path.
bool agree(const Question &q, const std::string &text, const baybowl_block *block, size_t needed, const std::string &path,
           const baybowl_answer &told, uint32_t asked) {
    static const uint32_t bits[] = {1, 2, 16, 32, 64, 128};
    static const baybowl_access accesses[] = {BAYBOWL_READ, BAYBOWL_WRITE, BAYBOWL_CHOWN, BAYBOWL_CHGRP, BAYBOWL_SET_VXATTR, BAYBOWL_SNAPSHOT};
    const baybowl_check &c = q.check;
    baybowl_answer by_block{}, by_text{};
    uint32_t last = 0;
    for (int at = 0; at < 6 && (last == 0 || by_block.grant != 0); at++) {
        if ((c.mask & bits[at]) == 0) {
            continue;
        }
        const baybowl_question question{c.uid, c.gid, c.owner, c.group, c.mode & BAYBOWL_MODE_BITS, accesses[at], bits[at] == 16 ? c.new_uid : c.new_gid};
        baybowl_fault fault;
        if (baybowl_verdict_by(block, needed, path.data(), path.size(), q.groups.data(), q.groups.size(), &question, &by_block) != BAYBOWL_OK ||
            baybowl_verdict(text.data(), text.size(), "cephfs", 6, path.data(), path.size(), q.groups.data(), q.groups.size(), &question, &by_text,
                            &fault) != BAYBOWL_OK ||
            memcmp(&by_block, &by_text, sizeof by_text) != 0) {
            return false;
        }
        last = accesses[at] + 1;
    }
    return last == asked + 1 && memcmp(&by_block, &told, sizeof told) == 0;
}

// What the library says: 0 and 1 are denied and allowed, 2 is that it says two things, or nothing.
int library_allows(const Question &q) {
    static uint64_t room[4096];
    const auto block = reinterpret_cast<baybowl_block *>(room);
    const std::string text = text_of(q.grants), with_slash = "/" + q.path;
    baybowl_answer told, other;
    baybowl_fault fault;
    uint64_t needed;
    uint32_t access = 0, other_access = 0;
    if (baybowl_grants_read(text.data(), text.size(), "cephfs", 6, block, sizeof room, &needed, &fault) != BAYBOWL_OK) {
        return 2;
    }
    if (q.is_chmod) {
        const baybowl_check &c = q.check;
        const baybowl_question question{c.uid, c.gid, c.owner, c.group, c.mode & BAYBOWL_MODE_BITS, BAYBOWL_CHMOD, 0};
        const size_t few = std::min<size_t>(q.groups.size(), 16);
        return baybowl_verdict_by(block, needed, q.path.data(), q.path.size(), q.groups.data(), few, &question, &told) != BAYBOWL_OK ? 2 : told.grant != 0;
    }
    if (baybowl_verdict_mask(block, needed, q.path.data(), q.path.size(), q.groups.data(), q.groups.size(), &q.check, &told, &access) != BAYBOWL_OK ||
        baybowl_verdict_mask(block, needed, with_slash.data(), with_slash.size(), q.groups.data(), q.groups.size(), &q.check, &other,
                             &other_access) != BAYBOWL_OK ||
        access != other_access || memcmp(&told, &other, sizeof told) != 0) {
        return 2;
    }
    if (q.groups.size() <= 16 && !(agree(q, text, block, needed, q.path, told, access) && agree(q, text, block, needed, with_slash, told, access))) {
        return 2;
    }
    return told.grant != 0;
}

// The fewest differences by which the program's answer follows from the library's, as bits; 0 where there are none.
unsigned named(const Question &q, bool mds, bool library) {
    const unsigned all = (1u << DIFFERENCES) - 1;
    if (Policy(q, 0).allows() != library || Policy(q, all).allows() != mds) {
        return 0;
    }
    unsigned best = all;
    for (unsigned some = 1; some <= all; some++) {
        if (__builtin_popcount(some) < __builtin_popcount(best) && Policy(q, some).allows() == mds) {
            best = some;
        }
    }
    return best;
}

void print_question(const Question &q, int mds, int library) {
    const baybowl_check &c = q.check;
    printf("mds %d, library %d: '%s' /%s uid %u gid %u groups", mds, library, text_of(q.grants).c_str(), q.path.c_str(), c.uid, c.gid);
    for (uint32_t gid : q.groups) {
        printf(" %u", gid);
    }
    printf(" owner %u:%u mode %o mask %u new %u:%u%s\n", c.owner, c.group, c.mode, c.mask, c.new_uid, c.new_gid, q.is_chmod ? " chmod" : "");
}

int ask(const char *work) {
    long seed, times, allowed = 0, differing = 0, left_over = 0;
    std::vector<long> names(1u << DIFFERENCES);
    if (sscanf(work, "%ld %ld", &seed, &times) != 2) {
        return 2;
    }
    Picks picks{uint64_t(seed)};
    for (long left = times; left > 0; left--) {
        Question q = some_question(picks);
        if (q.is_chmod && q.groups.size() > 16) {
            q.groups.resize(16);
        }
        auto caps = std::make_unique<MDSAuthCaps>();
        if (!caps->parse(text_of(q.grants), nullptr)) {
            printf("not read: %s\n", text_of(q.grants).c_str());
            return 1;
        }
        const int mds = mds_allows(*caps, q), library = library_allows(q);
        allowed += mds;
        if (mds == library) {
            continue;
        }
        differing++;
        const unsigned why = library == 2 ? 0 : named(q, mds != 0, library != 0);
        names[why]++;
        left_over += why == 0;
        if (why == 0 && left_over <= 5) {
            print_question(q, mds, library);
        }
    }
    printf("%ld questions, %ld allowed by ceph-mds, %ld answered differently\n", times, allowed, differing);
    for (unsigned some = 1; some < names.size(); some++) {
        if (names[some] != 0) {
            printf("%8ld by", names[some]);
            for (int difference = 0; difference < DIFFERENCES; difference++) {
                if ((some >> difference & 1) != 0) {
                    printf(" %d", numbers[difference]);
                }
            }
            printf("\n");
        }
    }
    printf("%8ld left over\n", left_over);
    return left_over != 0;
}

// A cell of the table: the grants of `count policy`, read once, and the inode's path.
struct Cell {
    long times, allowed;
    std::string grants, path;
};

bool read_cell(const char *work, Cell &cell) {
    int depth, has_ids;
    char what[16];
    if (sscanf(work, "%15s %d %d %ld", what, &depth, &has_ids, &cell.times) != 4) {
        return false;
    }
    const std::string kind = what, volume = "volumes/csi/csi-vol-6f1c6d5e-58a4-11ee-9c1f-0242ac12000", dir = "/0b3a3c8a-4cf2-4b0e-8d5d-3a1f6f0f7f10";
    if (kind == "csi" || kind == "beside") {
        cell.grants = "allow rw path=/" + volume + "2" + dir + (has_ids != 0 ? " uid=1000 gids=1000,1001" : "");
        cell.path = volume + (kind == "csi" ? "2" : "3") + dir + "/abcdefghijklmnopqrstuvwxyz";
        cell.allowed = kind == "csi" ? cell.times : 0;
        return true;
    }
    cell.grants = make_grants(atoi(what), depth, has_ids != 0);
    for (int name = 0; name < depth; name++) {
        cell.path += (name > 0 ? "/p" : "p") + std::to_string(name);
    }
    cell.allowed = cell.times;
    return true;
}

// How many of the verdicts of a cell allow, by the program.
long mds_verdicts(const Cell &cell) {
    static MDSAuthCaps caps;
    static entity_addr_t address;
    const std::vector<unsigned long> groups{1001};
    if (!caps.parse(cell.grants, nullptr)) {
        return -1;
    }
    long allowed = 0;
    for (long left = cell.times; left > 0; left--) {
        allowed += caps.is_capable(cell.path, 1000, 1000, 0644, 1000, 1000, &groups, WRITE, 0, 0, address);
    }
    return allowed;
}

// The same by the library.
long library_verdicts(const Cell &cell) {
    static uint64_t room[4096];
    const auto block = reinterpret_cast<baybowl_block *>(room);
    const baybowl_question question{1000, 1000, 1000, 1000, 0644, BAYBOWL_WRITE, 0};
    const uint32_t groups[] = {1001};
    const std::string &path = cell.path;
    baybowl_fault fault;
    uint64_t needed;
    if (baybowl_grants_read(cell.grants.data(), cell.grants.size(), "cephfs", 6, block, sizeof room, &needed, &fault) != BAYBOWL_OK) {
        return -1;
    }
    long allowed = 0;
    for (long left = cell.times; left > 0; left--) {
        baybowl_answer answer;
        baybowl_verdict_by(block, needed, path.data(), path.size(), groups, 1, &question, &answer);
        allowed += answer.grant != 0;
    }
    return allowed;
}

// Prints the nanoseconds of one verdict, of the least of five turns.
int time_both(const Cell &cell) {
    using Clock = std::chrono::steady_clock;
    double least[2] = {1e18, 1e18};
    for (int turn = 0; turn < 10; turn++) {
        const auto begin = Clock::now();
        if ((turn % 2 == 0 ? mds_verdicts(cell) : library_verdicts(cell)) != cell.allowed) {
            return 1;
        }
        const std::chrono::duration<double, std::nano> taken = Clock::now() - begin;
        least[turn % 2] = std::min(least[turn % 2], taken.count() / double(cell.times));
    }
    printf("%.1f %.1f\n", least[0], least[1]);
    return 0;
}

}  // namespace

int run(int, char **, char **) {
    const char *ask_work = getenv("MDS_ASK"), *time_work = getenv("MDS_TIME"), *work = getenv("MDS_WORK");
    Cell cell;
    int status = 2;
    if (!make_context()) {
        return status;
    }
    if (ask_work != nullptr) {
        status = ask(ask_work);
    } else if (read_cell(time_work != nullptr ? time_work : work, cell)) {
        if (time_work != nullptr) {
            status = time_both(cell);
        } else {
            const long allowed = mds_verdicts(cell);
            printf("allowed %ld\n", allowed);
            status = allowed != cell.allowed;
        }
    }
    fflush(stdout);
    _Exit(status);
}
