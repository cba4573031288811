/* Grants that are read once: a block says what their text says, whatever is asked, and soon where they are for everybody; a room that is
 * too short, a block that is cut off and one with other bytes, each of its own in turn too, get a status or a verdict, and never a crash;
 * eight threads ask the same blocks. */
#include "baybowl.h"
#include "check.h"

#include <pthread.h>
#include <stdint.h>
#include <stdlib.h>
#include <string.h>
#include <sys/mman.h>
#include <unistd.h>

#define TEXT(text) text, strlen(text)

enum { ROUNDS = 20000, DAMAGES = 40000, THREADS = 8, CALLS = 125000, ROOM = 8192 };

static const struct baybowl_question question = {9, 50, 7, 50, 0640, BAYBOWL_WRITE, 0};
static const size_t absurd[] = {(size_t)BAYBOWL_MAX_LEN + 1, SIZE_MAX / 2, SIZE_MAX / 2 + 1, SIZE_MAX - 1, SIZE_MAX};
enum { ABSURD = sizeof absurd / sizeof absurd[0] };
static const char *const some_grants = "allow rw path=/a fsname=cephfs uid=9 gids=50,51, allow r root_squash, allow rwps path=\"/b c\"";
/* Grants for everybody, which are answered another way. */
static const char *const open_grants =
    "allow rwps path=/b, allow rw path=/a/long/path/to/somewhere, allow rw path=/a fsname=cephfs root_squash, allow r";

static uint64_t seed = 1;

static uint32_t below(uint32_t bound) {
    seed = seed * 6364136223846793005u + 1442695040888963407u;
    return (uint32_t)(seed >> 33) % bound;
}

/* A piece of memory, behind which there is none. */
static void *at_the_end(size_t len) {
    size_t page = (size_t)sysconf(_SC_PAGESIZE), pages = (len + page - 1) / page * page;
    char *at = mmap(NULL, pages + page, PROT_READ | PROT_WRITE, MAP_PRIVATE | MAP_ANONYMOUS, -1, 0);
    if (at == MAP_FAILED || mprotect(at + pages, page, PROT_NONE) != 0) {
        perror("blocks");
        _exit(2);
    }
    return at + pages - len;
}

/* The lengths of rooms are multiples of 8, so that each is aligned where it ends with memory. */
static size_t up(uint64_t len) { return (size_t)((len + 7) / 8 * 8); }

static struct baybowl_block *read_at_the_end(const char *grants, size_t *len) {
    struct baybowl_fault fault;
    struct baybowl_block *block;
    uint64_t needed = 0, again = 0;
    CHECK(baybowl_grants_read(TEXT(grants), TEXT("cephfs"), NULL, 0, &needed, &fault) == BAYBOWL_ROOM);
    CHECK(needed <= BAYBOWL_BLOCK_ROOM(strlen(grants)));
    *len = up(needed);
    block = at_the_end(*len);
    CHECK(baybowl_grants_read(TEXT(grants), TEXT("cephfs"), block, *len, &again, &fault) == BAYBOWL_OK);
    CHECK(again == needed && fault.kind == 0);
    return block;
}

static uint32_t asked(const struct baybowl_block *block, size_t len, struct baybowl_answer *answer) {
    return baybowl_verdict_by(block, len, TEXT("/a/x"), NULL, 0, &question, answer);
}

static void rooms(void) {
    static uint64_t room[ROOM / 8], before[ROOM / 8];
    struct baybowl_block *block = (struct baybowl_block *)room;
    struct baybowl_fault fault;
    uint64_t needed = 0;
    memset(room, 255, sizeof room);
    memcpy(before, room, sizeof room);
    CHECK(baybowl_grants_read(TEXT(some_grants), TEXT("cephfs"), NULL, 0, &needed, &fault) == BAYBOWL_ROOM);
    for (uint64_t len = 0; len < needed; len++) {
        uint64_t told = 0;
        CHECK(baybowl_grants_read(TEXT(some_grants), TEXT("cephfs"), block, (size_t)len, &told, &fault) == BAYBOWL_ROOM);
        CHECK(told == needed && memcmp(room, before, sizeof room) == 0);
    }
    CHECK(baybowl_grants_read(TEXT(some_grants), TEXT("cephfs"), block, (size_t)needed, &needed, &fault) == BAYBOWL_OK);
    CHECK(memcmp((char *)room + needed, (char *)before + needed, sizeof room - (size_t)needed) == 0);
    memcpy(room, before, sizeof room);
    CHECK(baybowl_grants_read("allow w", 7, TEXT("cephfs"), block, ROOM, &needed, &fault) == BAYBOWL_GRANTS && needed == 0);
    CHECK(fault.kind == BAYBOWL_FAULT_BAD_FLAGS && fault.at == 6);
    CHECK(baybowl_grants_read("allow r", 7, TEXT("a/b"), block, ROOM, &needed, &fault) == BAYBOWL_FS && needed == 0);
    CHECK(memcmp(room, before, sizeof room) == 0);
}

static void pointers(void) {
    static uint64_t room[ROOM / 8];
    struct baybowl_block *block = (struct baybowl_block *)room, *odd = (struct baybowl_block *)((char *)room + 4);
    struct baybowl_answer answer;
    struct baybowl_fault fault;
    uint64_t needed = 0;
    char *text = (char *)room + 64;
    CHECK(baybowl_grants_read("allow r", 7, TEXT("cephfs"), NULL, ROOM, &needed, &fault) == BAYBOWL_POINTER);
    CHECK(baybowl_grants_read("allow r", 7, TEXT("cephfs"), odd, ROOM - 4, &needed, &fault) == BAYBOWL_POINTER);
    CHECK(baybowl_grants_read("allow r", 7, TEXT("cephfs"), block, ROOM, NULL, &fault) == BAYBOWL_POINTER);
    CHECK(baybowl_grants_read("allow r", 7, TEXT("cephfs"), block, ROOM, &needed, NULL) == BAYBOWL_POINTER);
    CHECK(baybowl_grants_read(NULL, 7, TEXT("cephfs"), block, ROOM, &needed, &fault) == BAYBOWL_POINTER);
    CHECK(baybowl_grants_read("allow r", 7, NULL, 6, block, ROOM, &needed, &fault) == BAYBOWL_POINTER);
    memcpy(text, "allow r", 7);
    CHECK(baybowl_grants_read(text, 7, TEXT("cephfs"), block, ROOM, &needed, &fault) == BAYBOWL_POINTER);
    CHECK(baybowl_grants_read("allow r", 7, text, 5, block, ROOM, &needed, &fault) == BAYBOWL_POINTER);
    CHECK(baybowl_grants_read("allow r", 7, TEXT("cephfs"), block, ROOM, &needed, &fault) == BAYBOWL_OK);
    CHECK(asked(block, ROOM, &answer) == BAYBOWL_OK);
    CHECK(asked(NULL, ROOM, &answer) == BAYBOWL_POINTER);
    CHECK(asked(odd, ROOM - 4, &answer) == BAYBOWL_POINTER);
    CHECK(asked(block, ROOM, NULL) == BAYBOWL_POINTER);
    CHECK(baybowl_verdict_by(block, ROOM, NULL, 2, NULL, 0, &question, &answer) == BAYBOWL_POINTER);
    CHECK(baybowl_verdict_by(block, ROOM, "/a", 2, NULL, 3, &question, &answer) == BAYBOWL_POINTER);
    CHECK(baybowl_verdict_by(block, ROOM, "/a", 2, (const uint32_t *)(const void *)(text + 1), 3, &question, &answer) == BAYBOWL_POINTER);
    CHECK(baybowl_verdict_by(block, ROOM, "/a", 2, NULL, 0, NULL, &answer) == BAYBOWL_POINTER);
    CHECK(baybowl_verdict_by(block, ROOM, NULL, 0, NULL, 0, &question, &answer) == BAYBOWL_OK);
}

static void pointers_of_masks(void) {
    static uint64_t room[ROOM / 8];
    static const struct baybowl_check check = {9, 50, 7, 50, 0100640, BAYBOWL_MAY_READ, 0, 0};
    struct baybowl_block *block = (struct baybowl_block *)room;
    struct baybowl_answer answer;
    struct baybowl_fault fault;
    uint64_t needed = 0;
    uint32_t access = 99;
    CHECK(baybowl_grants_read("allow r", 7, TEXT("cephfs"), block, ROOM, &needed, &fault) == BAYBOWL_OK);
    CHECK(baybowl_verdict_mask(block, ROOM, "a", 1, NULL, 0, &check, &answer, &access) == BAYBOWL_OK && access == BAYBOWL_READ);
    CHECK(baybowl_verdict_mask(block, ROOM, NULL, 0, NULL, 0, &check, &answer, &access) == BAYBOWL_OK);
    CHECK(baybowl_verdict_mask(NULL, ROOM, "a", 1, NULL, 0, &check, &answer, &access) == BAYBOWL_POINTER);
    CHECK(baybowl_verdict_mask(block, ROOM, NULL, 2, NULL, 0, &check, &answer, &access) == BAYBOWL_POINTER);
    CHECK(baybowl_verdict_mask(block, ROOM, "a", 1, NULL, 3, &check, &answer, &access) == BAYBOWL_POINTER);
    CHECK(baybowl_verdict_mask(block, ROOM, "a", 1, NULL, 0, NULL, &answer, &access) == BAYBOWL_POINTER);
    CHECK(baybowl_verdict_mask(block, ROOM, "a", 1, NULL, 0, &check, NULL, &access) == BAYBOWL_POINTER);
    CHECK(baybowl_verdict_mask(block, ROOM, "a", 1, NULL, 0, &check, &answer, NULL) == BAYBOWL_POINTER);
    CHECK(baybowl_verdict_mask(block, ROOM, "a", 1, NULL, 0, &check, &answer, (uint32_t *)(void *)((char *)room + 1)) == BAYBOWL_POINTER);
    CHECK(baybowl_verdict_mask(block, sizeof *block - 8, "a", 1, NULL, 0, &check, &answer, &access) == BAYBOWL_BLOCK && access == 0);
    for (int at = 0; at < ABSURD; at++) {
        CHECK(baybowl_verdict_mask(block, absurd[at], "a", 1, NULL, 0, &check, &answer, &access) == BAYBOWL_LENGTH);
        CHECK(baybowl_verdict_mask(block, ROOM, "a", absurd[at], NULL, 0, &check, &answer, &access) == BAYBOWL_LENGTH);
        CHECK(baybowl_verdict_mask(block, ROOM, "a", 1, NULL, absurd[at], &check, &answer, &access) == BAYBOWL_LENGTH);
    }
}

static void lengths(void) {
    static uint64_t room[ROOM / 8];
    struct baybowl_block *block = (struct baybowl_block *)room;
    struct baybowl_answer answer;
    struct baybowl_fault fault;
    uint64_t needed = 0;
    CHECK(baybowl_grants_read("allow r", 7, TEXT("cephfs"), block, ROOM, &needed, &fault) == BAYBOWL_OK);
    for (int at = 0; at < ABSURD; at++) {
        const size_t len = absurd[at];
        CHECK(baybowl_grants_read("allow r", len, TEXT("cephfs"), block, ROOM, &needed, &fault) == BAYBOWL_LENGTH);
        CHECK(baybowl_grants_read("allow r", 7, "cephfs", len, block, ROOM, &needed, &fault) == BAYBOWL_LENGTH);
        CHECK(baybowl_grants_read("allow r", 7, TEXT("cephfs"), block, len, &needed, &fault) == BAYBOWL_LENGTH);
        CHECK(baybowl_grants_read(NULL, len, NULL, len, NULL, len, NULL, NULL) == BAYBOWL_LENGTH);
        CHECK(asked(block, len, &answer) == BAYBOWL_LENGTH);
        CHECK(baybowl_verdict_by(block, ROOM, "/a", len, NULL, 0, &question, &answer) == BAYBOWL_LENGTH);
        CHECK(baybowl_verdict_by(block, ROOM, "/a", 2, NULL, len, &question, &answer) == BAYBOWL_LENGTH);
        CHECK(baybowl_verdict_by(NULL, len, NULL, len, NULL, len, NULL, NULL) == BAYBOWL_LENGTH);
    }
    CHECK(asked(block, (size_t)needed, &answer) == BAYBOWL_OK && answer.grant == 0 && answer.count == 1);
}

/* A block that is shorter than it says, at each length. */
static void cut(void) {
    struct baybowl_answer answer, zeros;
    size_t len;
    struct baybowl_block *block = read_at_the_end(some_grants, &len);
    uint64_t needed = sizeof *block + block->text_len;
    memset(&zeros, 0, sizeof zeros);
    for (size_t left = 0; left <= len; left++) {
        memset(&answer, 255, sizeof answer);
        uint32_t status = asked(block, left, &answer);
        CHECK(status == (left < needed ? BAYBOWL_BLOCK : BAYBOWL_OK));
        CHECK(status == BAYBOWL_OK || memcmp(&answer, &zeros, sizeof zeros) == 0);
    }
    block->version++;
    CHECK(asked(block, len, &answer) == BAYBOWL_BLOCK);
    block->version--;
    block->count = 17;
    CHECK(asked(block, len, &answer) == BAYBOWL_BLOCK);
}

/* Whether a block of any bytes was answered: zeros beside a status, or a verdict of as many grants as the block says. */
static int is_answered(const struct baybowl_block *block, size_t len, const char *path) {
    static const struct baybowl_answer zeros;
    struct baybowl_answer answer;
    uint32_t status;
    memset(&answer, 255, sizeof answer);
    status = baybowl_verdict_by(block, len, path, strlen(path), NULL, 0, &question, &answer);
    if (status != BAYBOWL_OK) {
        return status == BAYBOWL_BLOCK && memcmp(&answer, &zeros, sizeof zeros) == 0;
    }
    for (uint32_t place = 0; place < 16; place++) {
        if (place < answer.count ? answer.rules[place] < 1 || answer.rules[place] > 11 : answer.rules[place] != 0) {
            return 0;
        }
    }
    return answer.grant != 0 ? answer.grant <= block->count && answer.count == 0 : answer.count == block->count;
}

static int are_answered(const struct baybowl_block *block, size_t len) {
    return is_answered(block, len, "/a/x") && is_answered(block, len, "a//x/") && is_answered(block, len, "/a/long/path/to/somewhere/else");
}

/* Each byte of a block is each other one in turn, and the block stands where memory ends. What counts for no grant changes nothing. */
static void changed(const char *grants) {
    size_t len;
    struct baybowl_block *block = read_at_the_end(grants, &len);
    const size_t used = offsetof(struct baybowl_block, entries) + block->count * sizeof block->entries[0];
    uint8_t *bytes = (uint8_t *)block;
    struct baybowl_answer wanted, answer;
    CHECK(asked(block, len, &wanted) == BAYBOWL_OK);
    for (size_t at = 0; at < len; at++) {
        const uint8_t byte = bytes[at];
        for (unsigned bits = 1; bits < 256; bits++) {
            bytes[at] = (uint8_t)(byte ^ bits);
            CHECK(are_answered(block, len));
            if (at >= used && at < sizeof *block) {
                CHECK(asked(block, len, &answer) == BAYBOWL_OK && memcmp(&answer, &wanted, sizeof wanted) == 0);
            }
        }
        bytes[at] = byte;
    }
    CHECK(asked(block, len, &answer) == BAYBOWL_OK && memcmp(&answer, &wanted, sizeof wanted) == 0);
}

/* Blocks with some other bytes, each where memory ends. */
static void damaged(const char *grants) {
    size_t len;
    struct baybowl_block *block = read_at_the_end(grants, &len), *good = malloc(len);
    memcpy(good, block, len);
    for (int round = 0; round < DAMAGES; round++) {
        uint32_t bytes = 1 + below(6);
        memcpy(block, good, len);
        for (uint32_t byte = 0; byte < bytes; byte++) {
            uint32_t at = below(2) ? below(160) : below((uint32_t)len);
            ((uint8_t *)block)[at] = (uint8_t)(below(2) ? below(256) : 255);
        }
        CHECK(are_answered(block, len));
    }
    free(good);
}

static const char *const names[] = {"a", "b", "ab", "b c", "..", "n\"'"};
static const char *const flags[] = {"r", "rw", "rwp", "rws", "rwps", "*"};
static const char *const systems[] = {"cephfs", "other", "*"};

static size_t make_path(char *at, uint32_t most, const char *slash) {
    size_t len = 0;
    for (uint32_t left = below(most + 1); left > 0; left--) {
        len += (size_t)sprintf(at + len, "%s%s", slash, names[below(5)]);
    }
    return len;
}

static size_t make_grants(char *at) {
    size_t len = 0;
    uint32_t count = below(8) == 0 ? 16 : 1 + below(3);
    for (uint32_t grant = 0; grant < count; grant++) {
        len += (size_t)sprintf(at + len, "%sallow %s", grant > 0 ? ", " : "", flags[below(6)]);
        if (below(4) == 0) {
            len += (size_t)sprintf(at + len, " fsname=%s", systems[below(3)]);
        }
        if (below(4) != 0) {
            len += (size_t)sprintf(at + len, " path=\"/");
            len += make_path(at + len, 3, "/");
            len += (size_t)sprintf(at + len, "\"");
        }
        if (below(3) == 0) {
            len += (size_t)sprintf(at + len, " uid=%u%s", below(3), below(2) ? "" : " gids=0,2,1");
        }
        if (below(6) == 0) {
            len += (size_t)sprintf(at + len, " root_squash");
        }
    }
    return len;
}

/* What is asked of a block is answered as what is asked of its text. */
static void same_verdicts(void) {
    static uint64_t room[ROOM / 8];
    struct baybowl_block *block = (struct baybowl_block *)room;
    static char grants[4096], path[8192];
    const uint32_t groups[17] = {1, 2, 50};
    unsigned long allowed = 0, denied = 0, none = 0;
    for (int round = 0; round < ROUNDS; round++) {
        struct baybowl_answer by, answer;
        struct baybowl_fault fault;
        struct baybowl_question q = {below(3), below(3), below(3), below(4), below(040) ? below(010000) : 010000, below(8), below(3)};
        uint64_t needed = 0;
        size_t grants_len = make_grants(grants);
        size_t path_len = make_path(path, below(20) == 0 ? 33 : below(3) == 0 ? 16 : 5, below(4) == 0 ? "//" : "/");
        size_t skip = path_len > 0 && below(8) == 0, groups_len = below(30) == 0 ? 17 : below(4);
        uint32_t status = baybowl_grants_read(grants, grants_len, TEXT("cephfs"), block, sizeof room, &needed, &fault);
        CHECK(status == BAYBOWL_OK && needed <= BAYBOWL_BLOCK_ROOM(grants_len));
        memset(&by, 255, sizeof by);
        memset(&answer, 255, sizeof answer);
        status = baybowl_verdict(grants, grants_len, TEXT("cephfs"), path + skip, path_len - skip, groups, groups_len, &q, &answer, &fault);
        CHECK(baybowl_verdict_by(block, (size_t)needed, path + skip, path_len - skip, groups, groups_len, &q, &by) == status);
        CHECK(memcmp(&by, &answer, sizeof by) == 0);
        allowed += answer.grant != 0;
        denied += answer.count != 0;
        none += status != BAYBOWL_OK;
    }
    CHECK(allowed > ROUNDS / 20 && denied > ROUNDS / 20 && none > ROUNDS / 50);
}

/* What a mask is told is what its accesses are, one after the other until one is denied, whatever the kind of the inode. */
static void masks(void) {
    static const uint32_t bits[] = {1, 2, 16, 32, 64, 128};
    static const uint32_t accesses[] = {BAYBOWL_READ, BAYBOWL_WRITE, BAYBOWL_CHOWN, BAYBOWL_CHGRP, BAYBOWL_SET_VXATTR, BAYBOWL_SNAPSHOT};
    static uint64_t room[ROOM / 8];
    struct baybowl_block *block = (struct baybowl_block *)room;
    static char grants[4096], path[8192];
    const uint32_t groups[40] = {1, 2, 50};
    unsigned long allowed = 0, denied = 0, none = 0;
    for (int round = 0; round < ROUNDS; round++) {
        struct baybowl_answer told, wanted;
        struct baybowl_fault fault;
        struct baybowl_check c = {below(3), below(3), below(3), below(4), below(0200000), below(256) & ~12u, below(3), below(3)};
        uint32_t access = 99, last = 99;
        uint64_t needed = 0;
        size_t grants_len = make_grants(grants), path_len = make_path(path, 8, below(4) == 0 ? "//" : "/"), skip = path_len > 0 && below(2) == 0;
        c.mask |= below(20) == 0 ? 1u << (2 + below(2) + 6 * below(2)) : 0;
        CHECK(baybowl_grants_read(grants, grants_len, TEXT("cephfs"), block, sizeof room, &needed, &fault) == BAYBOWL_OK);
        uint32_t status = baybowl_verdict_mask(block, (size_t)needed, path + skip, path_len - skip, groups, below(2) ? 16 : 40, &c, &told, &access);
        memset(&wanted, 0, sizeof wanted);
        if (c.mask == 0 || c.mask > 255 || (c.mask & 12) != 0) {
            CHECK(status == BAYBOWL_ACCESS && access == 0 && memcmp(&told, &wanted, sizeof told) == 0);
            none++;
            continue;
        }
        for (int at = 0; at < 6 && (last == 99 || wanted.grant != 0); at++) {
            if ((c.mask & bits[at]) != 0) {
                const struct baybowl_question q = {c.uid, c.gid, c.owner, c.group, c.mode & BAYBOWL_MODE_BITS, accesses[at],
                                                   bits[at] == BAYBOWL_MAY_CHOWN ? c.new_uid : c.new_gid};
                CHECK(baybowl_verdict_by(block, (size_t)needed, path, path_len, groups, 16, &q, &wanted) == BAYBOWL_OK);
                last = accesses[at];
            }
        }
        CHECK(status == BAYBOWL_OK && access == last && memcmp(&told, &wanted, sizeof told) == 0);
        allowed += told.grant != 0;
        denied += told.count != 0;
    }
    CHECK(allowed > ROUNDS / 20 && denied > ROUNDS / 20 && none > ROUNDS / 100);
}

/* Two slashes side by side, at each place of paths of each length: what is asked of a block is answered as what is asked of its text. */
static void slashes(void) {
    static const char *const grants = "allow rw path=/aaa/aaaa, allow rw path=/aaa, allow r path=/aaaa, allow r path=/aaaa/aaaaaaaaaaaaaaaa";
    char path[80];
    size_t len;
    struct baybowl_block *block = read_at_the_end(grants, &len);
    for (size_t path_len = 2; path_len < sizeof path; path_len++) {
        for (size_t at = 1; at < path_len; at++) {
            for (size_t slashes = 1; slashes <= 3 && at + slashes <= path_len; slashes++) {
                struct baybowl_answer by, answer;
                struct baybowl_fault fault;
                memset(path, 'a', sizeof path);
                path[0] = '/';
                memset(path + at, '/', slashes);
                CHECK(baybowl_verdict(TEXT(grants), TEXT("cephfs"), path, path_len, NULL, 0, &question, &answer, &fault) == BAYBOWL_OK);
                CHECK(baybowl_verdict_by(block, len, path, path_len, NULL, 0, &question, &by) == BAYBOWL_OK);
                CHECK(memcmp(&by, &answer, sizeof by) == 0);
            }
        }
    }
}

static struct baybowl_block *shared[2];
static size_t shared_len[2];

static void *ask_shared(void *given) {
    size_t *wrong = given;
    *wrong = 0;
    for (uint32_t call = 0; call < CALLS; call++) {
        struct baybowl_question q = {call % 2 ? 9 : 0, 50, 9, 50, 0640, call % 3 ? BAYBOWL_WRITE : BAYBOWL_READ, 0};
        struct baybowl_answer answer;
        /* Of some_grants the first is for user 9 and the second lets all read; of open_grants the third lets all but root write. */
        uint32_t is_open = call / 6 % 2, grant = is_open ? call % 2 || call % 3 == 0 ? 3 : 0 : call % 2 ? 1 : call % 3 ? 0 : 2;
        uint32_t status = baybowl_verdict_by(shared[is_open], shared_len[is_open], TEXT("/a/x"), NULL, 0, &q, &answer);
        *wrong += status != BAYBOWL_OK || answer.grant != grant;
    }
    return NULL;
}

static uint32_t fast_answer_of(const struct baybowl_block *block, size_t len, const char *path, int by_mask, struct baybowl_answer *denied) {
    static const struct baybowl_check check = {9, 50, 7, 50, 0640, BAYBOWL_MAY_WRITE, 0, 0};
    const uint8_t *text = (const uint8_t *)(block + 1), *at = (const uint8_t *)path;
    size_t text_len = len - sizeof *block;
    return by_mask ? capffi_fast_verdict_mask(block, text, text_len, at, strlen(path), &check, denied)
                   : capffi_fast_verdict(block, text, text_len, at, strlen(path), &question, denied);
}

/* One grant or several, which are for everybody, have a fast answer, to a question and to a mask. If they had not, the whole verdict
 * would say the same, and only take longer. */
static void fast_verdicts(void) {
    const struct {
        const char *grants, *path;
        uint32_t told, count;
        uint8_t rules[16];
    } rows[] = {
        {"allow rw path=/a", "/a/x", 1, 0, {0}},
        {"allow rw path=/a", "/c", 17, 1, {BAYBOWL_RULE_PATH}},
        {open_grants, "/a/x", 3, 0, {0}},
        {open_grants, "/c", 17, 4, {BAYBOWL_RULE_PATH, BAYBOWL_RULE_PATH, BAYBOWL_RULE_PATH, BAYBOWL_RULE_NO_WRITE}},
    };
    for (size_t row = 0; row < sizeof rows / sizeof rows[0]; row++) {
        size_t len;
        const struct baybowl_block *block = read_at_the_end(rows[row].grants, &len);
        for (int by_mask = 0; by_mask < 2; by_mask++) {
            struct baybowl_answer denied = {0};
            CHECK(fast_answer_of(block, len, rows[row].path, by_mask, &denied) == rows[row].told);
            CHECK(denied.grant == 0 && denied.count == rows[row].count);
            CHECK(memcmp(denied.rules, rows[row].rules, sizeof denied.rules) == 0);
        }
    }
}

static void threads(void) {
    pthread_t running[THREADS];
    size_t wrong[THREADS];
    shared[0] = read_at_the_end(some_grants, &shared_len[0]);
    shared[1] = read_at_the_end(open_grants, &shared_len[1]);
    for (size_t at = 0; at < THREADS; at++) {
        CHECK(pthread_create(&running[at], NULL, ask_shared, &wrong[at]) == 0);
    }
    for (size_t at = 0; at < THREADS; at++) {
        pthread_join(running[at], NULL);
        CHECK(wrong[at] == 0);
    }
}

int main(void) {
    rooms();
    pointers();
    pointers_of_masks();
    lengths();
    cut();
    changed(some_grants);
    changed(open_grants);
    damaged(some_grants);
    damaged(open_grants);
    slashes();
    same_verdicts();
    masks();
    fast_verdicts();
    threads();
    return told();
}
