/* What is no pointer, no length and no number gets a status. Texts and rooms end where memory ends, so a byte read or written too
 * far is a crash. */
#include "baybowl.h"
#include "check.h"

#include <stdint.h>
#include <string.h>
#include <sys/mman.h>
#include <unistd.h>

#define TEXT(text) text, strlen(text)

static const struct baybowl_question question = {9, 50, 7, 50, 0640, BAYBOWL_WRITE, 0};
static const size_t absurd[] = {(size_t)BAYBOWL_MAX_LEN + 1, SIZE_MAX / 2, SIZE_MAX / 2 + 1, SIZE_MAX - 1, SIZE_MAX};
enum { ABSURD = sizeof absurd / sizeof absurd[0] };

/* The last bytes of a page, behind which there is no memory. */
static char *before_the_end(const char *text, size_t len) {
    size_t page = (size_t)sysconf(_SC_PAGESIZE);
    char *at = mmap(NULL, 2 * page, PROT_READ | PROT_WRITE, MAP_PRIVATE | MAP_ANONYMOUS, -1, 0);
    if (at == MAP_FAILED || len > page || mprotect(at + page, page, PROT_NONE) != 0) {
        perror("pointers");
        _exit(2);
    }
    memcpy(at + page - len, text, len);
    return at + page - len;
}

static uint32_t verdict(const char *grants, size_t grants_len, const char *fs, size_t fs_len, const char *path, size_t path_len,
                        const uint32_t *groups, size_t groups_len) {
    struct baybowl_answer answer;
    struct baybowl_fault fault;
    uint32_t caps;
    uint32_t one = baybowl_verdict(grants, grants_len, fs, fs_len, path, path_len, groups, groups_len, &question, &answer, &fault);
    uint32_t other =
        baybowl_permitted(grants, grants_len, fs, fs_len, path, path_len, groups, groups_len, &question, &caps, &fault);
    CHECK(one == other);
    return one;
}

static void texts(void) {
    const uint32_t groups[17] = {1, 2, 3};
    char *unaligned = (char *)groups + 1;
    CHECK(verdict(TEXT("allow r"), TEXT("cephfs"), TEXT("/x"), groups, 16) == BAYBOWL_OK);
    CHECK(verdict(TEXT("allow r"), TEXT("cephfs"), TEXT("/x"), groups, 17) == BAYBOWL_GROUPS);
    CHECK(verdict(NULL, 0, TEXT("cephfs"), TEXT("/x"), groups, 3) == BAYBOWL_GRANTS);
    CHECK(verdict(TEXT("allow r"), NULL, 0, TEXT("/x"), groups, 3) == BAYBOWL_FS);
    CHECK(verdict(TEXT("allow r"), TEXT("cephfs"), NULL, 0, NULL, 0) == BAYBOWL_OK);
    CHECK(verdict(NULL, 7, TEXT("cephfs"), TEXT("/x"), groups, 3) == BAYBOWL_POINTER);
    CHECK(verdict(TEXT("allow r"), NULL, 6, TEXT("/x"), groups, 3) == BAYBOWL_POINTER);
    CHECK(verdict(TEXT("allow r"), TEXT("cephfs"), NULL, 2, groups, 3) == BAYBOWL_POINTER);
    CHECK(verdict(TEXT("allow r"), TEXT("cephfs"), TEXT("/x"), NULL, 3) == BAYBOWL_POINTER);
    CHECK(verdict(TEXT("allow r"), TEXT("cephfs"), TEXT("/x"), (uint32_t *)unaligned, 3) == BAYBOWL_POINTER);
    for (int at = 0; at < ABSURD; at++) {
        CHECK(verdict("allow r", absurd[at], TEXT("cephfs"), TEXT("/x"), groups, 3) == BAYBOWL_LENGTH);
        CHECK(verdict(TEXT("allow r"), "cephfs", absurd[at], TEXT("/x"), groups, 3) == BAYBOWL_LENGTH);
        CHECK(verdict(TEXT("allow r"), TEXT("cephfs"), "/x", absurd[at], groups, 3) == BAYBOWL_LENGTH);
        CHECK(verdict(TEXT("allow r"), TEXT("cephfs"), TEXT("/x"), groups, absurd[at]) == BAYBOWL_LENGTH);
        CHECK(verdict(NULL, absurd[at], NULL, absurd[at], NULL, absurd[at], NULL, absurd[at]) == BAYBOWL_LENGTH);
    }
}

static void structs(void) {
    struct baybowl_answer answer;
    struct baybowl_fault fault;
    uint32_t caps;
    uint64_t room[8];
    char *odd = (char *)room + 1;
    CHECK(baybowl_verdict(TEXT("allow r"), TEXT("cephfs"), TEXT("/x"), NULL, 0, NULL, &answer, &fault) == BAYBOWL_POINTER);
    CHECK(baybowl_verdict(TEXT("allow r"), TEXT("cephfs"), TEXT("/x"), NULL, 0, &question, NULL, &fault) == BAYBOWL_POINTER);
    CHECK(baybowl_verdict(TEXT("allow r"), TEXT("cephfs"), TEXT("/x"), NULL, 0, &question, &answer, NULL) == BAYBOWL_POINTER);
    CHECK(baybowl_verdict(TEXT("allow r"), TEXT("cephfs"), TEXT("/x"), NULL, 0, (void *)odd, &answer, &fault) == BAYBOWL_POINTER);
    CHECK(baybowl_verdict(TEXT("allow r"), TEXT("cephfs"), TEXT("/x"), NULL, 0, &question, (void *)odd, &fault) == BAYBOWL_POINTER);
    CHECK(baybowl_verdict(TEXT("allow r"), TEXT("cephfs"), TEXT("/x"), NULL, 0, &question, &answer, (void *)odd) == BAYBOWL_POINTER);
    CHECK(baybowl_permitted(TEXT("allow r"), TEXT("cephfs"), TEXT("/x"), NULL, 0, NULL, &caps, &fault) == BAYBOWL_POINTER);
    CHECK(baybowl_permitted(TEXT("allow r"), TEXT("cephfs"), TEXT("/x"), NULL, 0, &question, NULL, &fault) == BAYBOWL_POINTER);
    CHECK(baybowl_permitted(TEXT("allow r"), TEXT("cephfs"), TEXT("/x"), NULL, 0, &question, &caps, NULL) == BAYBOWL_POINTER);
    CHECK(baybowl_grants_check(TEXT("allow r"), NULL) == BAYBOWL_POINTER);
    CHECK(baybowl_grants_check(NULL, 7, &fault) == BAYBOWL_POINTER);
    CHECK(baybowl_grants_check("allow r", SIZE_MAX, &fault) == BAYBOWL_LENGTH);
}

static void rooms(void) {
    const char *text = "allow * path=srv//www/", *form = "allow rwps path=/srv/www";
    struct baybowl_fault fault;
    uint64_t len = 0;
    char room[64];
    for (size_t room_len = 0; room_len <= strlen(form); room_len++) {
        char *at = before_the_end("........................", room_len);
        uint32_t status = baybowl_grants_write(text, strlen(text), at, room_len, &len, &fault);
        CHECK(len == strlen(form));
        CHECK(status == (room_len < strlen(form) ? BAYBOWL_ROOM : BAYBOWL_OK));
        CHECK(memcmp(at, room_len < strlen(form) ? "........................" : form, room_len) == 0);
    }
    CHECK(baybowl_grants_write(text, strlen(text), NULL, 0, &len, &fault) == BAYBOWL_ROOM && len == strlen(form));
    CHECK(baybowl_grants_write(text, strlen(text), NULL, 9, &len, &fault) == BAYBOWL_POINTER);
    CHECK(baybowl_grants_write(text, strlen(text), room, SIZE_MAX, &len, &fault) == BAYBOWL_LENGTH);
    CHECK(baybowl_grants_write(text, strlen(text), room, sizeof room, NULL, &fault) == BAYBOWL_POINTER);
    CHECK(baybowl_grants_write(text, strlen(text), room, sizeof room, &len, NULL) == BAYBOWL_POINTER);
    memcpy(room, "allow r", 7);
    CHECK(baybowl_grants_write(room, 7, room, sizeof room, &len, &fault) == BAYBOWL_POINTER);
    CHECK(baybowl_grants_write(room, 7, room + 6, sizeof room - 6, &len, &fault) == BAYBOWL_POINTER);
    CHECK(baybowl_grants_write(room, 7, room + 7, sizeof room - 7, &len, &fault) == BAYBOWL_OK && len == 7);
    CHECK(baybowl_grants_write("allow w", 7, room, sizeof room, &len, &fault) == BAYBOWL_GRANTS && len == 0);
    CHECK(fault.kind == BAYBOWL_FAULT_BAD_FLAGS && fault.at == 6);
}

/* The greatest grants that there are, written in the room that is said to be enough. */
static void greatest(void) {
    static char text[BAYBOWL_FORM_ROOM], room[BAYBOWL_FORM_ROOM];
    struct baybowl_fault fault;
    uint64_t len = 0;
    size_t at = 0;
    for (int grant = 0; grant < 16; grant++) {
        at += (size_t)sprintf(text + at, "%sallow rwps fsname=%064d path=\"", grant > 0 ? ", " : "", 0);
        for (int name = 0; name < 32; name++) {
            text[at++] = '/';
            memset(text + at, ' ', 255);
            at += 255;
        }
        at += (size_t)sprintf(text + at, "\" uid=4294967295 gids=4294967295");
        for (int gid = 1; gid < 16; gid++) {
            at += (size_t)sprintf(text + at, ",4294967295");
        }
        at += (size_t)sprintf(text + at, " root_squash");
    }
    CHECK(baybowl_grants_write(text, at, room, sizeof room, &len, &fault) == BAYBOWL_OK);
    CHECK(len == at && memcmp(text, room, at) == 0);
}

/* Each text stands where memory ends. */
static void ends(void) {
    static const char *const grants[] = {"allow r", "allow", "allow rw path=\"/a", "allow rw uid=1 gids=1,", "allow r,", ""};
    for (size_t at = 0; at < sizeof grants / sizeof grants[0]; at++) {
        char *text = before_the_end(grants[at], strlen(grants[at]));
        char *fs = before_the_end("cephfs", 6), *path = before_the_end("/a/b", 4);
        uint32_t *groups = (uint32_t *)(void *)before_the_end("\1\0\0\0\2\0\0\0", 8);
        uint32_t status = verdict(text, strlen(grants[at]), fs, 6, path, 4, groups, 2);
        CHECK(status == (at == 0 ? BAYBOWL_OK : BAYBOWL_GRANTS));
    }
}

static void numbers(void) {
    struct baybowl_question odd = question;
    struct baybowl_answer answer, zeros;
    struct baybowl_fault fault;
    memset(&zeros, 0, sizeof zeros);
    for (uint32_t access = 0; access < 9; access++) {
        odd.access = access;
        memset(&answer, 255, sizeof answer);
        uint32_t status =
            baybowl_verdict(TEXT("allow r"), TEXT("cephfs"), TEXT("/x"), NULL, 0, &odd, &answer, &fault);
        CHECK(status == (access <= BAYBOWL_CHGRP ? BAYBOWL_OK : BAYBOWL_ACCESS));
        CHECK(status == BAYBOWL_OK || memcmp(&answer, &zeros, sizeof zeros) == 0);
    }
    odd.access = UINT32_MAX;
    CHECK(baybowl_verdict(TEXT("allow r"), TEXT("cephfs"), TEXT("/x"), NULL, 0, &odd, &answer, &fault) == BAYBOWL_ACCESS);
    odd.mode = 010000;
    CHECK(baybowl_verdict(TEXT("allow r"), TEXT("cephfs"), TEXT("/x"), NULL, 0, &odd, &answer, &fault) == BAYBOWL_MODE);
    odd.mode = 0200000 | 07777;
    CHECK(baybowl_verdict(TEXT("allow r"), TEXT("cephfs"), TEXT("/x"), NULL, 0, &odd, &answer, &fault) == BAYBOWL_MODE);
    for (uint32_t word = 0; word < 20; word++) {
        CHECK((baybowl_rule_word(word) != NULL) == (word >= 1 && word <= 11));
        CHECK((baybowl_fault_word(word) != NULL) == (word >= 1 && word <= 11));
    }
}

static void locks(void) {
    struct baybowl_stable_state excl = {BAYBOWL_STATE_EXCL, 1}, none = {4, 0}, target;
    struct baybowl_lock lock = {excl, none, 0}, bad = {none, excl, 0}, gather = {excl, none, 1};
    struct baybowl_wants wants = {0, 0, 0, 0, 2, BAYBOWL_CAP_FR}, loner = {0, 0, 1, 1, 2, BAYBOWL_CAP_FR};
    uint32_t caps = 1;
    for (uint32_t part = 0; part < 6; part++) {
        int is_part = part <= BAYBOWL_PART_F;
        CHECK(baybowl_allowed(part, &lock, 1, &caps) == (is_part ? BAYBOWL_OK : BAYBOWL_PART));
        CHECK((caps != 0) == is_part);
        CHECK(baybowl_allowed(part, &bad, 1, &caps) == (is_part ? BAYBOWL_STATE : BAYBOWL_PART));
        CHECK(baybowl_target(part, &excl, &wants, &target) == (is_part ? BAYBOWL_OK : BAYBOWL_PART));
    }
    CHECK(baybowl_allowed(BAYBOWL_PART_F, &gather, 1, &caps) == BAYBOWL_STATE && caps == 0);
    CHECK(baybowl_allowed(UINT32_MAX, &lock, 1, &caps) == BAYBOWL_PART);
    CHECK(baybowl_allowed(BAYBOWL_PART_F, NULL, 1, &caps) == BAYBOWL_POINTER);
    CHECK(baybowl_allowed(BAYBOWL_PART_F, &lock, 1, NULL) == BAYBOWL_POINTER);
    CHECK(baybowl_target(BAYBOWL_PART_F, &none, &wants, &target) == BAYBOWL_STATE);
    CHECK(baybowl_target(BAYBOWL_PART_F, &excl, &loner, &target) == BAYBOWL_CAPS);
    wants.wanted = 2;
    CHECK(baybowl_target(BAYBOWL_PART_F, &excl, &wants, &target) == BAYBOWL_CAPS);
    wants.wanted = 65536;
    CHECK(baybowl_target(BAYBOWL_PART_F, &excl, &wants, &target) == BAYBOWL_CAPS);
    wants.head = 3;
    CHECK(baybowl_target(BAYBOWL_PART_F, &excl, &wants, &target) == BAYBOWL_HEAD);
    CHECK(baybowl_target(BAYBOWL_PART_F, NULL, &wants, &target) == BAYBOWL_POINTER);
    CHECK(baybowl_target(BAYBOWL_PART_F, &excl, NULL, &target) == BAYBOWL_POINTER);
    CHECK(baybowl_target(BAYBOWL_PART_F, &excl, &wants, NULL) == BAYBOWL_POINTER);
}

int main(void) {
    CHECK(baybowl_version() == BAYBOWL_VERSION);
    texts();
    structs();
    rooms();
    greatest();
    ends();
    numbers();
    locks();
    return told();
}
