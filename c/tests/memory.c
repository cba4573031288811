/* Paths of each length up to 4,096 bytes, as a server has them: a block is asked without memory, with a slash in front and without, and
 * answers as the text of its grants does. */
#include "baybowl.h"
#include "check.h"

#include <string.h>

enum { LONGEST = 4096, ROOM = 8192, GROUPS = 40 };

static unsigned long taken;

extern void *__libc_malloc(size_t len);

/* What the library calls. */
void *malloc(size_t len) {
    taken++;
    return __libc_malloc(len);
}

static struct baybowl_block *block;
static size_t block_len;
static uint32_t groups[GROUPS];
static const char *const grants = "allow rw path=/b, allow r, allow rw fsname=other, allow rwps path=/a uid=9 gids=50,51";

/* Asks one path, behind a slash, in both forms. */
static void ask(const char *path, size_t len, uint32_t access, uint32_t mask) {
    const struct baybowl_question question = {9, 8, 9, 50, 0640, access, 0};
    const struct baybowl_check check = {9, 8, 9, 50, 0100640, mask, 0, 0};
    struct baybowl_answer wanted, by;
    struct baybowl_fault fault;
    unsigned long before;
    uint32_t asked = 99;
    CHECK(baybowl_verdict(grants, strlen(grants), "cephfs", 6, path, len, groups, 16, &question, &wanted, &fault) == BAYBOWL_OK);
    before = taken;
    for (size_t skip = 0; skip < 2; skip++) {
        CHECK(baybowl_verdict_by(block, block_len, path + skip, len - skip, groups, 16, &question, &by) == BAYBOWL_OK);
        CHECK(memcmp(&by, &wanted, sizeof by) == 0);
        CHECK(baybowl_verdict_mask(block, block_len, path + skip, len - skip, groups, 16, &check, &by, &asked) == BAYBOWL_OK);
        CHECK(asked == access && memcmp(&by, &wanted, sizeof by) == 0);
    }
    CHECK(taken == before);
}

/* A path of so many bytes behind its first slash, with a slash behind each name of so many bytes. */
static void ask_path(size_t len, size_t name_len) {
    static char path[LONGEST + 1];
    for (size_t at = 0; at <= len; at++) {
        path[at] = at % (name_len + 1) == 0 ? '/' : 'a';
    }
    if (len == 0 || path[len] != '/') {
        ask(path, len + 1, BAYBOWL_READ, BAYBOWL_MAY_READ);
        ask(path, len + 1, BAYBOWL_WRITE, BAYBOWL_MAY_WRITE);
        ask(path, len + 1, BAYBOWL_SNAPSHOT, BAYBOWL_MAY_SNAPSHOT);
    }
}

/* What is too long, and what has too many names, has a status. */
static void ask_too_much(void) {
    static char path[LONGEST];
    const struct baybowl_question question = {9, 8, 9, 50, 0640, BAYBOWL_READ, 0};
    struct baybowl_answer by;
    for (size_t at = 0; at < LONGEST; at++) {
        path[at] = at % 2 == 0 ? 'a' : '/';
    }
    for (size_t len = 1; len < LONGEST; len += 2) {
        CHECK(baybowl_verdict_by(block, block_len, path, len, NULL, 0, &question, &by) == (len < 64 ? BAYBOWL_OK : BAYBOWL_PATH));
    }
    memset(path, 'a', sizeof path);
    for (size_t len = 1; len < LONGEST; len++) {
        CHECK(baybowl_verdict_by(block, block_len, path, len, NULL, 0, &question, &by) == (len < 256 ? BAYBOWL_OK : BAYBOWL_PATH));
    }
}

/* The last of many groups is the one that a grant lists. */
static void ask_with_groups(void) {
    const struct baybowl_check check = {9, 8, 7, 50, 0100660, BAYBOWL_MAY_WRITE, 0, 0};
    struct baybowl_answer by;
    uint32_t asked;
    const unsigned long before = taken;
    CHECK(baybowl_verdict_mask(block, block_len, "a/x", 3, groups, GROUPS - 1, &check, &by, &asked) == BAYBOWL_OK);
    CHECK(by.grant == 0 && by.rules[3] == BAYBOWL_RULE_GIDS);
    CHECK(baybowl_verdict_mask(block, block_len, "a/x", 3, groups, GROUPS, &check, &by, &asked) == BAYBOWL_OK && by.grant == 4);
    CHECK(taken == before);
}

int main(void) {
    static uint64_t room[ROOM / 8];
    struct baybowl_fault fault;
    uint64_t needed;
    block = (struct baybowl_block *)room;
    groups[GROUPS - 1] = 50;
    CHECK(baybowl_grants_read(grants, strlen(grants), "cephfs", 6, block, sizeof room, &needed, &fault) == BAYBOWL_OK);
    block_len = (size_t)needed;
    for (size_t len = 0; len < LONGEST; len++) {
        ask_path(len, len / 32 + 1);
        ask_path(len, 130);
        ask_path(len, 200);
        ask_path(len, 255);
    }
    ask_too_much();
    ask_with_groups();
    CHECK(taken > 0);
    return told();
}
