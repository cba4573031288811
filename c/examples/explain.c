/* Whether grants let a caller make an access, as `capd explain` tells it: the same options for the values of a question, the same
 * line, and the same values refused in the same order.
 *
 *     explain --fs cephfs --grants 'allow rw path=/a, allow r' --uid 9 --gid 50 --path /b/x --owner 7 --group 50 --mode 0640 \
 *         --access write
 *
 * prints
 *
 *     denied write /b/x grant 1 rule 4 path, grant 2 rule 5 no-write
 *
 * The grants are read once, into a block, and the block is asked, as a server does that asks often. With `--by mask` it is asked by the
 * mask of a server, and with `--by text` the text of the grants is asked, as one does that asks once. All print the same.
 */
#include "baybowl.h"

#include <errno.h>
#include <stdio.h>
#include <stdlib.h>
#include <string.h>

/* In the order in which the values are tested. */
static const char *const names[] = {"grants", "fs", "uid", "gid", "groups", "path", "owner", "group", "mode", "access", "by"};
enum { GRANTS, FS, UID, GID, GROUPS, PATH, OWNER, GROUP, MODE, ACCESS, BY, OPTIONS };

static const char *const accesses[] = {"read", "write", "vxattr", "snapshot", "chmod", "chown:", "chgrp:"};
/* The mask that asks for each; none asks for a new mode. */
static const uint32_t masks[] = {BAYBOWL_MAY_READ,     BAYBOWL_MAY_WRITE, BAYBOWL_MAY_SET_VXATTR,
                                 BAYBOWL_MAY_SNAPSHOT, 0,                 BAYBOWL_MAY_CHOWN,
                                 BAYBOWL_MAY_CHGRP};

/* The octal digits of the kinds of inodes: file, directory, link, pipe, devices of characters and of blocks, socket. */
static const char *const kinds[] = {"010", "04", "012", "01", "02", "06", "014"};
enum { KINDS = sizeof kinds / sizeof kinds[0] };

/* What is asked, but for the grants. */
struct asked {
    const char *path;
    uint32_t groups[16];
    size_t groups_len;
    struct baybowl_question question;
};

static void stop(int status, const char *what, const char *word) {
    fprintf(stderr, "explain: %s%s\n", what, word);
    exit(status);
}

static void bad(int option) {
    fprintf(stderr, "explain: bad value of --%s\n", names[option]);
    exit(1);
}

/* The number that digits write, up to `end` and with nothing else. */
static uint32_t number(int option, const char *digits, char end, int base) {
    char *rest;
    unsigned long found;
    errno = 0;
    found = strtoul(digits, &rest, base);
    if (*digits < '0' || *digits > '9' || *rest != end || errno != 0 || found > UINT32_MAX) {
        bad(option);
    }
    return (uint32_t)found;
}

static size_t read_groups(const char *text, uint32_t *groups, size_t room) {
    size_t count = 0;
    while (text != NULL) {
        const char *comma = strchr(text, ',');
        if (count == room) {
            bad(GROUPS);
        }
        groups[count++] = number(GROUPS, text, comma != NULL ? ',' : '\0', 10);
        text = comma != NULL ? comma + 1 : NULL;
    }
    return count;
}

/* Up to four octal digits, or the kind of an inode and four of them, which is dropped. */
static uint32_t read_mode(const char *text) {
    size_t len = strlen(text), kind_len = len > 4 ? len - 4 : 0;
    int is_kind = kind_len == 0;
    for (size_t kind = 0; kind < KINDS; kind++) {
        is_kind |= strlen(kinds[kind]) == kind_len && strncmp(text, kinds[kind], kind_len) == 0;
    }
    if (!is_kind) {
        bad(MODE);
    }
    return number(MODE, text, '\0', 8) & BAYBOWL_MODE_BITS;
}

static void read_access(const char *word, struct baybowl_question *question) {
    for (uint32_t access = BAYBOWL_READ; access <= BAYBOWL_CHGRP; access++) {
        size_t len = strlen(accesses[access]);
        int has_number = access == BAYBOWL_CHOWN || access == BAYBOWL_CHGRP;
        if (strncmp(word, accesses[access], len) == 0 && (has_number || word[len] == '\0')) {
            question->access = access;
            question->number = has_number ? number(ACCESS, word + len, '\0', 10) : 0;
            return;
        }
    }
    bad(ACCESS);
}

/* Ends where there is no answer. */
static void told(uint32_t status, const struct baybowl_fault *fault) {
    switch (status) {
    case BAYBOWL_OK:
        return;
    case BAYBOWL_GRANTS:
        fprintf(stderr, "explain: grants: %s at %llu\n", baybowl_fault_word(fault->kind), (unsigned long long)fault->at);
        exit(1);
    case BAYBOWL_FS:
        bad(FS);
        return;
    case BAYBOWL_PATH:
        bad(PATH);
        return;
    case BAYBOWL_MEMORY:
        stop(1, "no memory", "");
        return;
    default:
        fprintf(stderr, "explain: status %u\n", status);
        exit(1);
    }
}

/* The option that a word names, up to its end or a `=`. */
static int option_of(const char *word) {
    for (int option = 0; strncmp(word, "--", 2) == 0 && option < OPTIONS; option++) {
        size_t len = strlen(names[option]);
        if (strncmp(word + 2, names[option], len) == 0 && (word[2 + len] == '\0' || word[2 + len] == '=')) {
            return option;
        }
    }
    stop(2, "unknown word ", word);
    return OPTIONS;
}

/* Takes the values of the options from the command line, as `--name value` or `--name=value`. */
static void read_values(int argc, char **argv, const char **values) {
    for (int at = 1; at < argc; at++) {
        int option = option_of(argv[at]);
        const char *equals = strchr(argv[at], '=');
        if (values[option] != NULL) {
            stop(2, "given twice: --", names[option]);
        }
        if (equals == NULL && (at + 1 == argc || (argv[at + 1][0] == '-' && argv[at + 1][1] != '\0'))) {
            stop(2, "no value of --", names[option]);
        }
        values[option] = equals != NULL ? equals + 1 : argv[++at];
    }
    for (int option = 0; option < OPTIONS; option++) {
        if (values[option] == NULL && option != GROUPS && option != BY) {
            stop(2, "missing: --", names[option]);
        }
    }
    if (values[BY] != NULL && strcmp(values[BY], "block") != 0 && strcmp(values[BY], "text") != 0 && strcmp(values[BY], "mask") != 0) {
        bad(BY);
    }
}

/* Reads the grants into a block, as a server does where a session opens. */
static struct baybowl_block *read_grants(const char *const *values, size_t *block_len) {
    size_t grants_len = strlen(values[GRANTS]), room = BAYBOWL_BLOCK_ROOM(grants_len);
    struct baybowl_block *block = malloc(room);
    struct baybowl_fault fault;
    uint64_t needed;
    if (block == NULL) {
        stop(1, "no memory", "");
    }
    told(baybowl_grants_read(values[GRANTS], grants_len, values[FS], strlen(values[FS]), block, room, &needed, &fault), &fault);
    *block_len = needed;
    return block;
}

/* A server asks so each time that a request of the session comes. */
static uint32_t ask_block(const struct baybowl_block *block, size_t block_len, const struct asked *asked, struct baybowl_answer *answer) {
    return baybowl_verdict_by(block, block_len, asked->path, strlen(asked->path), asked->groups, asked->groups_len, &asked->question,
                              answer);
}

/* And so where it has a mask in hand. */
static uint32_t ask_mask(const struct baybowl_block *block, size_t block_len, const struct asked *asked, struct baybowl_answer *answer) {
    const struct baybowl_question *q = &asked->question;
    const struct baybowl_check check = {q->uid, q->gid, q->owner, q->group, q->mode, masks[q->access], q->number, q->number};
    uint32_t access;
    if (check.mask == 0) {
        stop(1, "no mask asks for ", accesses[q->access]);
    }
    return baybowl_verdict_mask(block, block_len, asked->path, strlen(asked->path), asked->groups, asked->groups_len, &check, answer,
                                &access);
}

/* Asks the text of the grants, which is read for this one answer. */
static uint32_t ask_text(const char *const *values, const struct asked *asked, struct baybowl_answer *answer) {
    struct baybowl_fault fault;
    return baybowl_verdict(values[GRANTS], strlen(values[GRANTS]), values[FS], strlen(values[FS]), asked->path, strlen(asked->path),
                           asked->groups, asked->groups_len, &asked->question, answer, &fault);
}

/* Prints a `/` before each name of a path, or `/` alone. */
static void print_path(const char *path) {
    int has_name = 0;
    for (const char *at = path; *at != '\0'; at++) {
        if (*at != '/') {
            if (at == path || at[-1] == '/') {
                putchar('/');
            }
            putchar(*at);
            has_name = 1;
        }
    }
    if (!has_name) {
        putchar('/');
    }
}

static void print_answer(const struct asked *asked, const struct baybowl_answer *answer) {
    const struct baybowl_question *question = &asked->question;
    printf("%s %s", answer->grant != 0 ? "allowed" : "denied", accesses[question->access]);
    if (question->access >= BAYBOWL_CHOWN) {
        printf("%u", question->number);
    }
    putchar(' ');
    print_path(asked->path);
    if (answer->grant != 0) {
        printf(" grant %u", answer->grant);
    }
    for (uint32_t place = 0; place < answer->count; place++) {
        uint32_t rule = answer->rules[place];
        printf("%s grant %u rule %u %s", place > 0 ? "," : "", place + 1, rule, baybowl_rule_word(rule));
    }
    putchar('\n');
}

/* Reads the values behind the grants and the file system, in their order. */
static void read_asked(const char *const *values, const struct baybowl_block *block, size_t block_len, struct asked *asked) {
    struct baybowl_answer answer;
    asked->path = values[PATH];
    asked->question.uid = number(UID, values[UID], '\0', 10);
    asked->question.gid = number(GID, values[GID], '\0', 10);
    asked->groups_len = read_groups(values[GROUPS], asked->groups, sizeof asked->groups / sizeof asked->groups[0]);
    /* Nothing but the path can be wrong with this question, which is to read. */
    told(ask_block(block, block_len, asked, &answer), NULL);
    asked->question.owner = number(OWNER, values[OWNER], '\0', 10);
    asked->question.group = number(GROUP, values[GROUP], '\0', 10);
    asked->question.mode = read_mode(values[MODE]);
    read_access(values[ACCESS], &asked->question);
}

int main(int argc, char **argv) {
    const char *values[OPTIONS] = {NULL};
    struct asked asked = {NULL, {0}, 0, {0, 0, 0, 0, 0, BAYBOWL_READ, 0}};
    struct baybowl_answer answer;
    struct baybowl_block *block;
    size_t block_len;

    read_values(argc, argv, values);
    block = read_grants(values, &block_len);
    read_asked(values, block, block_len, &asked);
    switch (values[BY] != NULL ? values[BY][0] : 'b') {
    case 't':
        told(ask_text(values, &asked, &answer), NULL);
        break;
    case 'm':
        told(ask_mask(block, block_len, &asked, &answer), NULL);
        break;
    default:
        told(ask_block(block, block_len, &asked, &answer), NULL);
    }
    free(block);
    print_answer(&asked, &answer);
    if (fflush(stdout) != 0 || ferror(stdout)) {
        stop(1, "write failed", "");
    }
    return 0;
}
