/* The calls of baybowl.h over those of crates/capffi. What is proved is proved of values; a pointer that is NULL or not aligned
 * and a length that no text has are no values, so they are turned away here. Nothing else is decided here. */
#include "exports.h"

#define ALIGNED(pointer, type) ((pointer) != NULL && (uintptr_t)(pointer) % _Alignof(type) == 0)

/* What a text of length 0 points to. */
static const uint8_t no_bytes[1] = {0};
static const uint32_t no_groups[1] = {0};

/* The texts and the groups of a question. */
struct texts {
    const uint8_t *grants, *fs, *path;
    const uint32_t *groups;
};

static const uint8_t *bytes(const char *text, size_t len) { return len == 0 ? no_bytes : (const uint8_t *)text; }

static uint32_t text_status(const char *text, size_t len) {
    if (len > BAYBOWL_MAX_LEN) {
        return BAYBOWL_LENGTH;
    }
    return text == NULL && len != 0 ? BAYBOWL_POINTER : BAYBOWL_OK;
}

static uint32_t groups_status(const uint32_t *groups, size_t len) {
    if (len > BAYBOWL_MAX_LEN) {
        return BAYBOWL_LENGTH;
    }
    return len != 0 && !ALIGNED(groups, uint32_t) ? BAYBOWL_POINTER : BAYBOWL_OK;
}

/* The first of some statuses that is not BAYBOWL_OK. */
static uint32_t first_of(uint32_t a, uint32_t b, uint32_t c, uint32_t d) {
    return a != BAYBOWL_OK ? a : b != BAYBOWL_OK ? b : c != BAYBOWL_OK ? c : d;
}

/* Whether two pieces of memory have no byte in common. */
static int are_apart(const void *one, size_t one_len, const void *other, size_t other_len) {
    uintptr_t a = (uintptr_t)one, b = (uintptr_t)other;
    return one_len == 0 || other_len == 0 || (a < b ? b - a >= one_len : a - b >= other_len);
}

uint32_t baybowl_version(void) { return capffi_version(); }

uint32_t baybowl_verdict(const char *grants, size_t grants_len, const char *fs, size_t fs_len, const char *path, size_t path_len,
                         const uint32_t *groups, size_t groups_len, const struct baybowl_question *question,
                         struct baybowl_answer *answer, struct baybowl_fault *fault) {
    struct capffi_text_verdict said;
    uint32_t status = first_of(text_status(grants, grants_len), text_status(fs, fs_len), text_status(path, path_len),
                               groups_status(groups, groups_len));
    if (status != BAYBOWL_OK) {
        return status;
    }
    if (!ALIGNED(question, struct baybowl_question) || !ALIGNED(answer, struct baybowl_answer) ||
        !ALIGNED(fault, struct baybowl_fault)) {
        return BAYBOWL_POINTER;
    }
    /* Both are written at the end, so that they may overlap with what is read. */
    said = capffi_verdict(bytes(grants, grants_len), grants_len, bytes(fs, fs_len), fs_len, bytes(path, path_len), path_len,
                          groups_len == 0 ? no_groups : groups, groups_len, question);
    *answer = said.answer;
    *fault = said.fault;
    return said.status;
}

uint32_t baybowl_permitted(const char *grants, size_t grants_len, const char *fs, size_t fs_len, const char *path, size_t path_len,
                           const uint32_t *groups, size_t groups_len, const struct baybowl_question *question, uint32_t *caps,
                           struct baybowl_fault *fault) {
    struct capffi_text_permitted said;
    uint32_t status = first_of(text_status(grants, grants_len), text_status(fs, fs_len), text_status(path, path_len),
                               groups_status(groups, groups_len));
    if (status != BAYBOWL_OK) {
        return status;
    }
    if (!ALIGNED(question, struct baybowl_question) || !ALIGNED(caps, uint32_t) || !ALIGNED(fault, struct baybowl_fault)) {
        return BAYBOWL_POINTER;
    }
    said = capffi_permitted(bytes(grants, grants_len), grants_len, bytes(fs, fs_len), fs_len, bytes(path, path_len), path_len,
                            groups_len == 0 ? no_groups : groups, groups_len, question);
    *caps = said.caps;
    *fault = said.fault;
    return said.status;
}

uint32_t baybowl_grants_check(const char *grants, size_t grants_len, struct baybowl_fault *fault) {
    struct baybowl_fault why;
    uint32_t status = text_status(grants, grants_len);
    if (status != BAYBOWL_OK) {
        return status;
    }
    if (!ALIGNED(fault, struct baybowl_fault)) {
        return BAYBOWL_POINTER;
    }
    status = capffi_grants_check(bytes(grants, grants_len), grants_len, &why);
    *fault = why;
    return status;
}

uint32_t baybowl_grants_write(const char *grants, size_t grants_len, char *room, size_t room_len, uint64_t *len,
                              struct baybowl_fault *fault) {
    uint8_t no_room[1];
    uint64_t written;
    struct baybowl_fault why;
    uint32_t status = first_of(text_status(grants, grants_len), text_status(room, room_len), BAYBOWL_OK, BAYBOWL_OK);
    if (status != BAYBOWL_OK) {
        return status;
    }
    if (!ALIGNED(len, uint64_t) || !ALIGNED(fault, struct baybowl_fault) || !are_apart(grants, grants_len, room, room_len)) {
        return BAYBOWL_POINTER;
    }
    status = capffi_grants_write(bytes(grants, grants_len), grants_len, room_len == 0 ? no_room : (uint8_t *)room, room_len,
                                 &written, &why);
    *len = written;
    *fault = why;
    return status;
}

uint32_t baybowl_grants_read(const char *grants, size_t grants_len, const char *fs, size_t fs_len, struct baybowl_block *block,
                             size_t block_len, uint64_t *needed, struct baybowl_fault *fault) {
    /* What is written where there is no room for a block; its text never fits. */
    struct baybowl_block none;
    uint8_t no_text[1], *text = no_text;
    size_t text_len = 0;
    struct capffi_text_read said;
    uint32_t status = first_of(text_status(grants, grants_len), text_status(fs, fs_len),
                               block_len > BAYBOWL_MAX_LEN ? BAYBOWL_LENGTH : BAYBOWL_OK, BAYBOWL_OK);
    if (status != BAYBOWL_OK) {
        return status;
    }
    if ((block_len != 0 && !ALIGNED(block, struct baybowl_block)) || !ALIGNED(needed, uint64_t) ||
        !ALIGNED(fault, struct baybowl_fault) || !are_apart(grants, grants_len, block, block_len) ||
        !are_apart(fs, fs_len, block, block_len)) {
        return BAYBOWL_POINTER;
    }
    if (block_len < sizeof *block) {
        block = &none;
    } else {
        text = (uint8_t *)(block + 1);
        text_len = block_len - sizeof *block;
    }
    said = capffi_grants_read(bytes(grants, grants_len), grants_len, bytes(fs, fs_len), fs_len, block, text, text_len);
    *needed = said.status == BAYBOWL_OK || said.status == BAYBOWL_ROOM ? sizeof *block + said.needed : 0;
    *fault = said.fault;
    return said.status;
}

/* The calls that the header has inline, for a program that can't take them from there. */
extern inline int baybowl_is_sound(const struct baybowl_block *block, size_t block_len, const char *path, size_t path_len,
                                   const uint32_t *groups, size_t groups_len, const void *question, const void *answer);
extern inline int baybowl_is_fast_answer(uint32_t fast, const struct baybowl_answer *denied, struct baybowl_answer *answer);
extern inline uint32_t baybowl_verdict_mask(const struct baybowl_block *block, size_t block_len, const char *path, size_t path_len,
                                            const uint32_t *groups, size_t groups_len, const struct baybowl_check *check,
                                            struct baybowl_answer *answer, uint32_t *access);
extern inline uint32_t baybowl_verdict_by(const struct baybowl_block *block, size_t block_len, const char *path, size_t path_len,
                                          const uint32_t *groups, size_t groups_len, const struct baybowl_question *question,
                                          struct baybowl_answer *answer);

uint32_t baybowl_whole_verdict_by(const struct baybowl_block *block, size_t block_len, const char *path, size_t path_len,
                                  const uint32_t *groups, size_t groups_len, const struct baybowl_question *question,
                                  struct baybowl_answer *answer) {
    static const struct baybowl_answer none;
    struct capffi_block_verdict said;
    uint32_t status = first_of(block_len > BAYBOWL_MAX_LEN ? BAYBOWL_LENGTH : BAYBOWL_OK, text_status(path, path_len),
                               groups_status(groups, groups_len), BAYBOWL_OK);
    if (status != BAYBOWL_OK) {
        return status;
    }
    if (!ALIGNED(block, struct baybowl_block) || !ALIGNED(question, struct baybowl_question) ||
        !ALIGNED(answer, struct baybowl_answer)) {
        return BAYBOWL_POINTER;
    }
    if (block_len < sizeof *block) {
        *answer = none;
        return BAYBOWL_BLOCK;
    }
    said = capffi_verdict_by(block, (const uint8_t *)(block + 1), block_len - sizeof *block, bytes(path, path_len), path_len,
                             groups_len == 0 ? no_groups : groups, groups_len, question);
    *answer = said.answer;
    return said.status;
}

uint32_t baybowl_whole_verdict_mask(const struct baybowl_block *block, size_t block_len, const char *path, size_t path_len,
                                    const uint32_t *groups, size_t groups_len, const struct baybowl_check *check,
                                    struct baybowl_answer *answer, uint32_t *access) {
    static const struct baybowl_answer none;
    struct capffi_check_verdict said;
    uint32_t status = first_of(block_len > BAYBOWL_MAX_LEN ? BAYBOWL_LENGTH : BAYBOWL_OK, text_status(path, path_len),
                               groups_status(groups, groups_len), BAYBOWL_OK);
    if (status != BAYBOWL_OK) {
        return status;
    }
    if (!ALIGNED(block, struct baybowl_block) || !ALIGNED(check, struct baybowl_check) ||
        !ALIGNED(answer, struct baybowl_answer) || !ALIGNED(access, uint32_t)) {
        return BAYBOWL_POINTER;
    }
    if (block_len < sizeof *block) {
        *answer = none;
        *access = 0;
        return BAYBOWL_BLOCK;
    }
    said = capffi_verdict_mask(block, (const uint8_t *)(block + 1), block_len - sizeof *block, bytes(path, path_len), path_len,
                               groups_len == 0 ? no_groups : groups, groups_len, check);
    *answer = said.answer;
    *access = said.access;
    return said.status;
}

uint32_t baybowl_allowed(uint32_t part, const struct baybowl_lock *lock, uint32_t client, uint32_t *caps) {
    uint32_t said, status;
    if (!ALIGNED(lock, struct baybowl_lock) || !ALIGNED(caps, uint32_t)) {
        return BAYBOWL_POINTER;
    }
    status = capffi_allowed(part, lock, client, &said);
    *caps = said;
    return status;
}

uint32_t baybowl_target(uint32_t part, const struct baybowl_stable_state *state, const struct baybowl_wants *wants,
                        struct baybowl_stable_state *target) {
    struct baybowl_stable_state said;
    uint32_t status;
    if (!ALIGNED(state, struct baybowl_stable_state) || !ALIGNED(wants, struct baybowl_wants) ||
        !ALIGNED(target, struct baybowl_stable_state)) {
        return BAYBOWL_POINTER;
    }
    status = capffi_target(part, state, wants, &said);
    *target = said;
    return status;
}

const char *baybowl_rule_word(uint32_t rule) {
    static const char *const words[] = {"fsname", "uid",  "gids", "path",      "no-write",      "root-squash",
                                        "no-p",   "no-s", "not-owner", "not-own-group", "mode-bits"};
    return rule >= 1 && rule <= sizeof words / sizeof words[0] ? words[rule - 1] : NULL;
}

const char *baybowl_fault_word(uint32_t kind) {
    static const char *const words[] = {"Empty",     "NotAllow",       "BadFlags", "BadItem", "Twice",  "BadNumber",
                                        "OpenQuote", "GidsWithoutUid", "LeftOut",  "TooMany", "BadPath"};
    return kind >= 1 && kind <= sizeof words / sizeof words[0] ? words[kind - 1] : NULL;
}
