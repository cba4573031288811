/* Baybowl for C and C++: the verdict on the grants of a CephFS client, the reading and the writing of their text, the caps that
 * they permit, and the table of the locks. docs/EMBED.md says how a metadata server uses it, docs/GRANTS.md what grants mean.
 *
 * Grants can be read once, into a block of the caller's, and asked often.
 *
 * Every call
 *   - takes texts as bytes with a length. They need no byte 0 at the end, and may hold any byte. A text of length 0 may be NULL.
 *   - answers a status: BAYBOWL_OK, or why there is no answer. What it writes where there is none is zeros, but for
 *     BAYBOWL_POINTER and BAYBOWL_LENGTH, where it writes nothing.
 *   - keeps nothing and gives back all memory that it took before it returns. So any number of threads may be in calls at once,
 *     as long as no thread writes what another's call reads or writes.
 *   - is not for a signal handler, nor for the forked child of a process with threads, since it may call malloc and free.
 *
 * It is for C since C99, and for C++.
 */
#ifndef BAYBOWL_H
#define BAYBOWL_H

#include <stddef.h>
#include <stdint.h>
#include <string.h>

#ifdef __cplusplus
extern "C" {
#endif

/* The version of this header. It changes whenever a call, a struct or a number of it does; baybowl_version tells the library's. */
#define BAYBOWL_VERSION 3

/* How long a text may be, in bytes, and how many groups may be passed: more is BAYBOWL_LENGTH. */
#define BAYBOWL_MAX_LEN 0x1000000

/* A room that the written form of every grant text fits into, in bytes. */
#define BAYBOWL_FORM_ROOM 0x22000

/* A room that the block of a grant text of so many bytes fits into, in bytes. */
#define BAYBOWL_BLOCK_ROOM(grants_len) (sizeof(struct baybowl_block) + 64 + (grants_len))

/* The permission bits of a mode. `mode & BAYBOWL_MODE_BITS` drops the inode's kind, which stat(2) and a server have in front of them. */
#define BAYBOWL_MODE_BITS 07777

/* What a call answers. */
enum baybowl_status {
    BAYBOWL_OK = 0,       /* there is an answer; a denial is one too */
    BAYBOWL_GRANTS = 1,   /* the grant text has a fault; see struct baybowl_fault */
    BAYBOWL_FS = 2,       /* the file system's name is none: 1 to 64 bytes of A-Z a-z 0-9 _ . - */
    BAYBOWL_GROUPS = 3,   /* more than 16 groups */
    BAYBOWL_PATH = 4,     /* the path has more than 32 names, or one of more than 255 bytes */
    BAYBOWL_MODE = 5,     /* the mode is greater than 07777 */
    BAYBOWL_ACCESS = 6,   /* the number of the access is none, or the mask has another bit or asks for nothing */
    BAYBOWL_PART = 7,     /* the number of the part is none */
    BAYBOWL_STATE = 8,    /* the number of a state is none */
    BAYBOWL_HEAD = 9,     /* the number of what stands first in the queue is none */
    BAYBOWL_CAPS = 10,    /* the bits of caps have one that is no cap's */
    BAYBOWL_ROOM = 11,    /* the room for the text is too short; how long the text is was written */
    BAYBOWL_MEMORY = 12,  /* no memory was left */
    BAYBOWL_POINTER = 13, /* a pointer that may not be NULL is, or is not aligned, or room and text overlap */
    BAYBOWL_LENGTH = 14,  /* a length is greater than BAYBOWL_MAX_LEN */
    BAYBOWL_BLOCK = 15    /* the block is shorter than it says, or was filled by no library of this version */
};

/* What is asked for. */
enum baybowl_access {
    BAYBOWL_READ = 0,
    BAYBOWL_WRITE = 1,
    BAYBOWL_SET_VXATTR = 2, /* an attribute whose name begins with `ceph.`, such as a quota */
    BAYBOWL_SNAPSHOT = 3,   /* to make or remove one */
    BAYBOWL_CHMOD = 4,
    BAYBOWL_CHOWN = 5, /* to give the inode to the owner `number` */
    BAYBOWL_CHGRP = 6  /* to give the inode to the group `number` */
};

/* The bits of a mask, each of which asks for an access, as the MDS of Ceph has them. */
enum baybowl_may {
    BAYBOWL_MAY_READ = 1,
    BAYBOWL_MAY_WRITE = 2,
    BAYBOWL_MAY_CHOWN = 16, /* to give the inode to the owner `new_uid` */
    BAYBOWL_MAY_CHGRP = 32, /* to give the inode to the group `new_gid` */
    BAYBOWL_MAY_SET_VXATTR = 64,
    BAYBOWL_MAY_SNAPSHOT = 128
};

/* The rules that a grant can fail by, in the order in which they are tested. docs/GRANTS.md has each. */
enum baybowl_rule {
    BAYBOWL_RULE_FS_NAME = 1,
    BAYBOWL_RULE_UID = 2,
    BAYBOWL_RULE_GIDS = 3,
    BAYBOWL_RULE_PATH = 4,
    BAYBOWL_RULE_NO_WRITE = 5,
    BAYBOWL_RULE_ROOT_SQUASH = 6,
    BAYBOWL_RULE_NO_P = 7,
    BAYBOWL_RULE_NO_S = 8,
    BAYBOWL_RULE_NOT_OWNER = 9,
    BAYBOWL_RULE_NOT_OWN_GROUP = 10,
    BAYBOWL_RULE_MODE_BITS = 11
};

/* What is wrong with a grant text. docs/GRANTS.md has each. */
enum baybowl_fault_kind {
    BAYBOWL_FAULT_EMPTY = 1,
    BAYBOWL_FAULT_NOT_ALLOW = 2,
    BAYBOWL_FAULT_BAD_FLAGS = 3,
    BAYBOWL_FAULT_BAD_ITEM = 4,
    BAYBOWL_FAULT_TWICE = 5,
    BAYBOWL_FAULT_BAD_NUMBER = 6,
    BAYBOWL_FAULT_OPEN_QUOTE = 7,
    BAYBOWL_FAULT_GIDS_WITHOUT_UID = 8,
    BAYBOWL_FAULT_LEFT_OUT = 9,
    BAYBOWL_FAULT_TOO_MANY = 10,
    BAYBOWL_FAULT_BAD_PATH = 11
};

/* The parts of an inode that have a lock each. */
enum baybowl_part {
    BAYBOWL_PART_A = 0, /* owner, group and mode */
    BAYBOWL_PART_L = 1, /* the link count */
    BAYBOWL_PART_X = 2, /* extended attributes */
    BAYBOWL_PART_F = 3  /* the file, with size and times */
};

/* The stable states of a lock. */
enum baybowl_state {
    BAYBOWL_STATE_SYNC = 0,
    BAYBOWL_STATE_LOCK = 1,
    BAYBOWL_STATE_MIX = 2,
    BAYBOWL_STATE_EXCL = 3 /* of the client `holder` */
};

/* What stands first in the queue of a lock. */
enum baybowl_head {
    BAYBOWL_HEAD_EMPTY = 0,
    BAYBOWL_HEAD_CHANGE = 1, /* a request to change the part */
    BAYBOWL_HEAD_READ = 2    /* a request of the client `asker` to read it */
};

/* The bits of caps, as the messages of Ceph have them. */
enum baybowl_cap {
    BAYBOWL_CAP_P = 1,
    BAYBOWL_CAP_AS = 4,
    BAYBOWL_CAP_AX = 8,
    BAYBOWL_CAP_LS = 16,
    BAYBOWL_CAP_LX = 32,
    BAYBOWL_CAP_XS = 64,
    BAYBOWL_CAP_XX = 128,
    BAYBOWL_CAP_FS = 256,
    BAYBOWL_CAP_FX = 512,
    BAYBOWL_CAP_FC = 1024,
    BAYBOWL_CAP_FR = 2048,
    BAYBOWL_CAP_FW = 4096,
    BAYBOWL_CAP_FB = 8192,
    BAYBOWL_CAP_FA = 16384,
    BAYBOWL_CAP_FL = 32768
};

/* Who asks for what, and whose the inode is. */
struct baybowl_question {
    uint32_t uid;    /* the caller's uid */
    uint32_t gid;    /* the caller's gid */
    uint32_t owner;  /* the uid of the inode's owner */
    uint32_t group;  /* the gid of the inode's group */
    uint32_t mode;   /* the inode's permission bits, at most 07777: see BAYBOWL_MODE_BITS */
    uint32_t access; /* enum baybowl_access */
    uint32_t number; /* the new owner or group of a chown or a chgrp, else without meaning */
};

/* The same, as a server has it. */
struct baybowl_check {
    uint32_t uid;     /* the caller's uid */
    uint32_t gid;     /* the caller's gid */
    uint32_t owner;   /* the uid of the inode's owner */
    uint32_t group;   /* the gid of the inode's group */
    uint32_t mode;    /* the inode's mode; what stands before its last twelve bits, as the inode's kind, has no part in the answer */
    uint32_t mask;    /* a sum of enum baybowl_may */
    uint32_t new_uid; /* the new owner of BAYBOWL_MAY_CHOWN, else without meaning */
    uint32_t new_gid; /* the new group of BAYBOWL_MAY_CHGRP, else without meaning */
};

/* What the grants say. */
struct baybowl_answer {
    uint32_t grant;    /* the number of the first grant that allows, from 1; 0 where none does */
    uint32_t count;    /* how many grants failed: each, where none allows, else 0 */
    uint8_t rules[16]; /* enum baybowl_rule, the first that each grant fails by, in their order */
};

/* What is wrong with a grant text: its first fault. */
struct baybowl_fault {
    uint64_t at;   /* how many bytes of the text stand before the word that is wrong */
    uint32_t kind; /* enum baybowl_fault_kind; 0 where there is no fault */
};

/* A stable state of a lock. */
struct baybowl_stable_state {
    uint32_t kind;   /* enum baybowl_state */
    uint32_t holder; /* the client that has the part for itself in EXCL, else without meaning */
};

/* The lock of a part. */
struct baybowl_lock {
    struct baybowl_stable_state from; /* the state that it is in, or leaves */
    struct baybowl_stable_state to;   /* the state that it goes to; without meaning where it rests */
    uint32_t gathers;                 /* 0 where it rests, else it is on its way */
};

/* What decides where a lock is to go. */
struct baybowl_wants {
    uint32_t head;        /* enum baybowl_head */
    uint32_t asker;       /* the client of a request to read, else without meaning */
    uint32_t loners;      /* 0 where not exactly one client effectively wants more than the pin, else there is a loner */
    uint32_t loner;       /* that client */
    uint32_t loner_wants; /* the caps that it effectively wants, as bits */
    uint32_t wanted;      /* the caps that all clients effectively want, as bits */
};

/* A grant of a block. The text of its path, and behind it the name of its file system, stand in the text behind the block, behind
 * those of the entries before it. */
struct baybowl_entry {
    uint64_t path_len;    /* how many bytes of the text are its path, with a '/' before each name */
    uint64_t fs_len;      /* how many are the name of its file system; 0 where it is for every one */
    uint64_t gid_count;   /* how many of its groups count */
    uint32_t flags;       /* 0 r, 1 rw, 2 rwp, 3 rws, 4 rwps; others are r */
    uint32_t has_uid;     /* 0 where it is for every caller */
    uint32_t uid;         /* else the one that it is for */
    uint32_t root_squash; /* 0 where root is as others are */
    uint32_t gids[16];    /* the groups that count for it */
};

/* The grants of a client on a file system, read once. A text stands behind it, in the same room: first the name of the file system,
 * then those of the entries. It has no pointer, so it may be copied and moved, together with its text; its numbers are in the order
 * of the machine. A caller needs none of its fields: baybowl_grants_read writes it, and baybowl_verdict_by reads it. */
struct baybowl_block {
    uint32_t version;  /* BAYBOWL_BLOCK_VERSION */
    uint32_t count;    /* how many entries count */
    uint64_t text_len; /* how long the text behind the block is */
    uint64_t fs_len;   /* how many bytes of it are the name of the file system */
    struct baybowl_entry entries[16];
};

/* The version of a block's layout. */
#define BAYBOWL_BLOCK_VERSION 1

/* The version of the library: equal to BAYBOWL_VERSION where header and library fit. */
uint32_t baybowl_version(void);

/* Whether the grants let a caller make an access to an inode: the first grant that allows, or for each grant the first rule that
 * it fails by. `fs` is the name of the inode's file system, `path` its place from the root down, split at each '/', and `groups`
 * the caller's groups besides `gid`.
 * The values are tested in the order grants, fs, groups, path, mode, access, and the first bad one is told: BAYBOWL_GRANTS,
 * BAYBOWL_FS, BAYBOWL_GROUPS, BAYBOWL_PATH, BAYBOWL_MODE, BAYBOWL_ACCESS. Else BAYBOWL_MEMORY, BAYBOWL_POINTER, BAYBOWL_LENGTH. */
uint32_t baybowl_verdict(const char *grants, size_t grants_len, const char *fs, size_t fs_len, const char *path, size_t path_len,
                         const uint32_t *groups, size_t groups_len, const struct baybowl_question *question,
                         struct baybowl_answer *answer, struct baybowl_fault *fault);

/* The caps, as bits, that the grants permit a caller to hold of an inode. `access` and `number` of the question have no meaning.
 * Errors as those of baybowl_verdict, but for BAYBOWL_ACCESS. */
uint32_t baybowl_permitted(const char *grants, size_t grants_len, const char *fs, size_t fs_len, const char *path, size_t path_len,
                           const uint32_t *groups, size_t groups_len, const struct baybowl_question *question, uint32_t *caps,
                           struct baybowl_fault *fault);

/* Whether a text is one of grants: BAYBOWL_OK, or BAYBOWL_GRANTS with its first fault. Else BAYBOWL_MEMORY, BAYBOWL_POINTER,
 * BAYBOWL_LENGTH. */
uint32_t baybowl_grants_check(const char *grants, size_t grants_len, struct baybowl_fault *fault);

/* Writes the one written form of the grants of a text into `room`, without a byte 0 behind it, and its length in bytes into
 * `len`. Where it does not fit: BAYBOWL_ROOM, with its length, and the room as it was. Else errors as those of
 * baybowl_grants_check. Room and text may not overlap. */
uint32_t baybowl_grants_write(const char *grants, size_t grants_len, char *room, size_t room_len, uint64_t *len,
                              struct baybowl_fault *fault);

/* Reads a grant text once: writes the grants of a client on the file system `fs` as a block with its text into a room of
 * `block_len` bytes, aligned as struct baybowl_block is. `needed` is how long a room has to be, or 0 where there are no grants.
 * Where the room is shorter: BAYBOWL_ROOM, with `needed`, and the room as it was; so a first call with NULL and 0 tells how much is
 * needed, and BAYBOWL_BLOCK_ROOM how much always is enough. BAYBOWL_GRANTS, then BAYBOWL_FS, else BAYBOWL_MEMORY,
 * BAYBOWL_POINTER, BAYBOWL_LENGTH. The room may not overlap with the texts. */
uint32_t baybowl_grants_read(const char *grants, size_t grants_len, const char *fs, size_t fs_len, struct baybowl_block *block,
                             size_t block_len, uint64_t *needed, struct baybowl_fault *fault);

/* What baybowl_verdict_by and baybowl_verdict_mask call: the fast verdict, which is an answer where grants are for everybody, and the
 * whole verdict. These are no calls for a program: those that begin with capffi take what they are given as it is, and return the
 * number of the grant that allows, 17 with the answer of a denial, or 0. */
uint32_t capffi_fast_verdict(const struct baybowl_block *block, const uint8_t *text, size_t text_len, const uint8_t *path,
                             size_t path_len, const struct baybowl_question *question, struct baybowl_answer *answer);
uint32_t baybowl_whole_verdict_by(const struct baybowl_block *block, size_t block_len, const char *path, size_t path_len,
                                  const uint32_t *groups, size_t groups_len, const struct baybowl_question *question,
                                  struct baybowl_answer *answer);
uint32_t capffi_fast_verdict_mask(const struct baybowl_block *block, const uint8_t *text, size_t text_len, const uint8_t *path,
                                  size_t path_len, const struct baybowl_check *check, struct baybowl_answer *answer);
uint32_t baybowl_whole_verdict_mask(const struct baybowl_block *block, size_t block_len, const char *path, size_t path_len,
                                    const uint32_t *groups, size_t groups_len, const struct baybowl_check *check,
                                    struct baybowl_answer *answer, uint32_t *access);

/* gcc calls an inline call that takes nine values, unless it is told not to. That takes half as long as a verdict. */
#ifdef __GNUC__
#define BAYBOWL_INLINE inline __attribute__((always_inline))
#else
#define BAYBOWL_INLINE inline
#endif

/* Whether these are pointers and lengths that need no further test: `question` and `answer` are of structs of 32-bit numbers. */
inline int baybowl_is_sound(const struct baybowl_block *block, size_t block_len, const char *path, size_t path_len,
                            const uint32_t *groups, size_t groups_len, const void *question, const void *answer) {
    return block != NULL && path != NULL && question != NULL && answer != NULL && (groups != NULL || groups_len == 0) &&
           (uintptr_t)block % 8 == 0 && ((uintptr_t)groups | (uintptr_t)question | (uintptr_t)answer) % 4 == 0 &&
           block_len >= sizeof *block && block_len <= BAYBOWL_MAX_LEN && path_len <= BAYBOWL_MAX_LEN && groups_len <= BAYBOWL_MAX_LEN;
}

/* Whether a number of capffi_fast_verdict or capffi_fast_verdict_mask is an answer, which is written then: that the grant of this number
 * allows, or a denial. */
inline int baybowl_is_fast_answer(uint32_t fast, const struct baybowl_answer *denied, struct baybowl_answer *answer) {
    if (fast - 1 < 16) {
        answer->grant = fast;
        answer->count = 0;
        memset(answer->rules, 0, sizeof answer->rules);
        return 1;
    }
    if (fast != 0) {
        *answer = *denied;
        return 1;
    }
    return 0;
}

/* The verdict of the grants that a block says, on the file system that it says: as baybowl_verdict on the text and the name that
 * baybowl_grants_read was given. `block_len` is how long the room is, at least `needed`.
 * The values are tested in the order block, groups, path, mode, access, and the first bad one is told: BAYBOWL_BLOCK,
 * BAYBOWL_GROUPS, BAYBOWL_PATH, BAYBOWL_MODE, BAYBOWL_ACCESS. Else BAYBOWL_MEMORY, BAYBOWL_POINTER, BAYBOWL_LENGTH.
 * It takes memory only for a path that has two '/' side by side, or one behind its last name. One in front of the first name may be
 * there or not. Any number of threads may ask one block, as long as none writes it. A block that was overwritten gets BAYBOWL_BLOCK, or
 * the verdict of the grants that it then says: what is read of it stays within `block_len`.
 * It is inline, since a server asks often: what a compiler sees of the pointers need not be tested. */
inline uint32_t baybowl_verdict_by(const struct baybowl_block *block, size_t block_len, const char *path, size_t path_len,
                                   const uint32_t *groups, size_t groups_len, const struct baybowl_question *question,
                                   struct baybowl_answer *answer) {
    if (baybowl_is_sound(block, block_len, path, path_len, groups, groups_len, question, answer) && groups_len <= 16) {
        struct baybowl_answer denied;
        const uint32_t fast = capffi_fast_verdict(block, (const uint8_t *)(block + 1), block_len - sizeof *block,
                                                  (const uint8_t *)path, path_len, question, &denied);
        if (baybowl_is_fast_answer(fast, &denied, answer)) {
            return BAYBOWL_OK;
        }
    }
    return baybowl_whole_verdict_by(block, block_len, path, path_len, groups, groups_len, question, answer);
}

/* The verdict of the grants that a block says on all that a mask asks for, by what a server has in hand: a path with or without a '/'
 * in front, a mode with the inode's kind, and any number of groups. The accesses are judged from the lowest bit on, each as
 * baybowl_verdict_by does it, until one is denied: `access`, of enum baybowl_access, is the one that the answer is to, the first that
 * is denied, or else the last of them.
 * The values are tested in the order block, path, mask, and the first bad one is told: BAYBOWL_BLOCK, BAYBOWL_PATH, BAYBOWL_ACCESS.
 * Else BAYBOWL_MEMORY, BAYBOWL_POINTER, BAYBOWL_LENGTH. Memory, threads and blocks as with baybowl_verdict_by. */
BAYBOWL_INLINE uint32_t baybowl_verdict_mask(const struct baybowl_block *block, size_t block_len, const char *path, size_t path_len,
                                     const uint32_t *groups, size_t groups_len, const struct baybowl_check *check,
                                     struct baybowl_answer *answer, uint32_t *access) {
    if (baybowl_is_sound(block, block_len, path, path_len, groups, groups_len, check, answer) && access != NULL &&
        (uintptr_t)access % 4 == 0) {
        const uint32_t mask = check->mask;
        struct baybowl_answer denied;
        const uint32_t fast = capffi_fast_verdict_mask(block, (const uint8_t *)(block + 1), block_len - sizeof *block,
                                                       (const uint8_t *)path, path_len, check, &denied);
        if (baybowl_is_fast_answer(fast, &denied, answer)) {
            /* It answers masks of one bit, to read or to write. */
            *access = mask == BAYBOWL_MAY_READ ? BAYBOWL_READ : BAYBOWL_WRITE;
            return BAYBOWL_OK;
        }
    }
    return baybowl_whole_verdict_mask(block, block_len, path, path_len, groups, groups_len, check, answer, access);
}

/* The caps of a part, as bits, that a client may hold while the part's lock is so: BAYBOWL_OK, else the first that is so of
 * BAYBOWL_POINTER, BAYBOWL_PART, BAYBOWL_STATE. It takes no memory. */
uint32_t baybowl_allowed(uint32_t part, const struct baybowl_lock *lock, uint32_t client, uint32_t *caps);

/* Where the lock of a part, at rest in `state`, is to go: BAYBOWL_OK, else the first that is so of BAYBOWL_POINTER, BAYBOWL_PART,
 * BAYBOWL_STATE, BAYBOWL_HEAD, BAYBOWL_CAPS. It takes no memory. */
uint32_t baybowl_target(uint32_t part, const struct baybowl_stable_state *state, const struct baybowl_wants *wants,
                        struct baybowl_stable_state *target);

/* The words of a rule and of a fault's kind, as docs/GRANTS.md has them: texts that end in a byte 0 and stay. NULL for a number
 * that is none. */
const char *baybowl_rule_word(uint32_t rule);
const char *baybowl_fault_word(uint32_t kind);

#ifdef __cplusplus
}
#endif

#endif
