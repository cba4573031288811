/* The calls that crates/capffi exports, as C sees them. tools/dev c-library compares each with its source. A pointer here may not be
 * NULL, also where the length behind it is 0, and a length stays below 2 to the 63rd: baybowl.c sees to both. */
#ifndef BAYBOWL_EXPORTS_H
#define BAYBOWL_EXPORTS_H

#include "baybowl.h"

/* What calls return that have more to tell than a status: zeros, where there is no answer. */
struct capffi_text_verdict {
    uint32_t status;
    struct baybowl_answer answer;
    struct baybowl_fault fault;
};

struct capffi_text_permitted {
    uint32_t status;
    uint32_t caps; /* as bits */
    struct baybowl_fault fault;
};

struct capffi_text_read {
    uint32_t status;
    uint64_t needed; /* how long the text behind the block is */
    struct baybowl_fault fault;
};

struct capffi_block_verdict {
    uint32_t status;
    struct baybowl_answer answer;
};

struct capffi_check_verdict {
    uint32_t status;
    uint32_t access; /* the access that the answer is to */
    struct baybowl_answer answer;
};

uint32_t capffi_version(void);
struct capffi_text_verdict capffi_verdict(const uint8_t *grants, size_t grants_len, const uint8_t *fs, size_t fs_len,
                                          const uint8_t *path, size_t path_len, const uint32_t *groups, size_t groups_len,
                                          const struct baybowl_question *question);
struct capffi_text_permitted capffi_permitted(const uint8_t *grants, size_t grants_len, const uint8_t *fs, size_t fs_len,
                                              const uint8_t *path, size_t path_len, const uint32_t *groups, size_t groups_len,
                                              const struct baybowl_question *question);
uint32_t capffi_grants_check(const uint8_t *grants, size_t grants_len, struct baybowl_fault *fault);
uint32_t capffi_grants_write(const uint8_t *grants, size_t grants_len, uint8_t *room, size_t room_len, uint64_t *len,
                             struct baybowl_fault *fault);
struct capffi_text_read capffi_grants_read(const uint8_t *grants, size_t grants_len, const uint8_t *fs, size_t fs_len,
                                           struct baybowl_block *block, uint8_t *text, size_t text_len);
uint32_t capffi_fast_verdict(const struct baybowl_block *block, const uint8_t *text, size_t text_len, const uint8_t *path,
                             size_t path_len, const struct baybowl_question *question, struct baybowl_answer *answer);
struct capffi_block_verdict capffi_verdict_by(const struct baybowl_block *block, const uint8_t *text, size_t text_len,
                                              const uint8_t *path, size_t path_len, const uint32_t *groups, size_t groups_len,
                                              const struct baybowl_question *question);
uint32_t capffi_fast_verdict_mask(const struct baybowl_block *block, const uint8_t *text, size_t text_len, const uint8_t *path,
                                  size_t path_len, const struct baybowl_check *check, struct baybowl_answer *answer);
struct capffi_check_verdict capffi_verdict_mask(const struct baybowl_block *block, const uint8_t *text, size_t text_len,
                                                const uint8_t *path, size_t path_len, const uint32_t *groups, size_t groups_len,
                                                const struct baybowl_check *check);
uint32_t capffi_allowed(uint32_t part, const struct baybowl_lock *lock, uint32_t client, uint32_t *caps);
uint32_t capffi_target(uint32_t part, const struct baybowl_stable_state *state, const struct baybowl_wants *wants,
                       struct baybowl_stable_state *target);

#endif
