/* One piece of work N times, for `bench/bench count library`: a verdict by the grants that `count policy` has, read once or each time,
 * or permitted caps, a check of their text, or a look into the table of the locks. It prints a sum over all answers.
 *
 * Grants that are read once are asked by a path with a slash in front, or as a server has it, without: by an access or by a mask. In the
 * place of how many grants there are may stand `csi`, one grant for a directory as containers have it and an inode in it, with a path of
 * 120 bytes, or `beside`, the same with an inode of another directory, which is denied. */
#include "baybowl.h"

#include <stdio.h>
#include <stdlib.h>
#include <string.h>

static char grants[16384], path[256];

/* As capbench makes them: all but the last have another last name, and only the last allows. */
static void make(int count, int depth, int has_ids) {
    size_t at = 0, end = 0;
    for (int grant = 0; grant < count; grant++) {
        at += (size_t)sprintf(grants + at, "%sallow rw path=", grant > 0 ? ", " : "");
        for (int name = 0; name < depth; name++) {
            if (name + 1 == depth && grant + 1 < count) {
                at += (size_t)sprintf(grants + at, "/x%d", grant);
            } else {
                at += (size_t)sprintf(grants + at, "/p%d", name);
            }
        }
        at += (size_t)sprintf(grants + at, "%s", has_ids ? " uid=1000 gids=1000,1001" : "");
    }
    for (int name = 0; name < depth; name++) {
        end += (size_t)sprintf(path + end, "/p%d", name);
    }
}

/* A directory as containers have it. */
static void make_volume(int is_beside, int has_ids) {
    sprintf(grants, "allow rw path=/volumes/csi/csi-vol-6f1c6d5e-58a4-11ee-9c1f-0242ac120002/0b3a3c8a-4cf2-4b0e-8d5d-3a1f6f0f7f10%s",
            has_ids ? " uid=1000 gids=1000,1001" : "");
    sprintf(path, "/volumes/csi/csi-vol-6f1c6d5e-58a4-11ee-9c1f-0242ac12000%d/0b3a3c8a-4cf2-4b0e-8d5d-3a1f6f0f7f10/abcdefghijklmnopqrstuvwxyz",
            is_beside ? 3 : 2);
}

static const uint32_t groups[] = {1001};
static const struct baybowl_question question = {1000, 1000, 1000, 1000, 0644, BAYBOWL_WRITE, 0};
static const struct baybowl_check check = {1000, 1000, 1000, 1000, 0100644, BAYBOWL_MAY_WRITE, 0, 0};

/* The grants are read once, and asked N times, by a path with a slash in front or without. */
static int once(const char *asked, long times) {
    static uint64_t room[4096];
    struct baybowl_block *block = (struct baybowl_block *)room;
    struct baybowl_fault fault;
    uint64_t needed, sum = 0;
    size_t path_len = strlen(asked);
    if (baybowl_grants_read(grants, strlen(grants), "cephfs", 6, block, sizeof room, &needed, &fault) != BAYBOWL_OK) {
        return 1;
    }
    for (long left = times; left > 0; left--) {
        struct baybowl_answer answer;
        if (baybowl_verdict_by(block, (size_t)needed, asked, path_len, groups, 1, &question, &answer) != BAYBOWL_OK) {
            return 1;
        }
        sum += answer.grant;
    }
    printf("sum %llu\n", (unsigned long long)sum);
    return 0;
}

/* The same by a mask. */
static int by_mask(const char *asked, long times) {
    static uint64_t room[4096];
    struct baybowl_block *block = (struct baybowl_block *)room;
    struct baybowl_fault fault;
    uint64_t needed, sum = 0;
    size_t path_len = strlen(asked);
    if (baybowl_grants_read(grants, strlen(grants), "cephfs", 6, block, sizeof room, &needed, &fault) != BAYBOWL_OK) {
        return 1;
    }
    for (long left = times; left > 0; left--) {
        struct baybowl_answer answer;
        uint32_t access;
        if (baybowl_verdict_mask(block, (size_t)needed, asked, path_len, groups, 1, &check, &answer, &access) != BAYBOWL_OK) {
            return 1;
        }
        sum += answer.grant + access;
    }
    printf("sum %llu\n", (unsigned long long)sum);
    return 0;
}

int main(int argc, char **argv) {
    const struct baybowl_lock lock = {{BAYBOWL_STATE_SYNC, 0}, {BAYBOWL_STATE_MIX, 0}, 1};
    uint64_t sum = 0;
    if (argc != 6) {
        fprintf(stderr, "counted once|own|mask|verdict|permitted|check|allowed GRANTS|csi|beside NAMES plain|ids N\n");
        return 2;
    }
    if (argv[2][0] == 'c' || argv[2][0] == 'b') {
        make_volume(argv[2][0] == 'b', strcmp(argv[4], "ids") == 0);
    } else {
        make(atoi(argv[2]), atoi(argv[3]), strcmp(argv[4], "ids") == 0);
    }
    switch (argv[1][0] == 'o' ? argv[1][1] : argv[1][0]) {
    case 'n':
        return once(path, atol(argv[5]));
    case 'w':
        return once(path + 1, atol(argv[5]));
    case 'm':
        return by_mask(path + 1, atol(argv[5]));
    }
    size_t grants_len = strlen(grants), path_len = strlen(path);
    for (long left = atol(argv[5]); left > 0; left--) {
        struct baybowl_answer answer = {0, 0, {0}};
        struct baybowl_fault fault;
        uint32_t status, caps = 0;
        switch (argv[1][0]) {
        case 'v':
            status = baybowl_verdict(grants, grants_len, "cephfs", 6, path, path_len, groups, 1, &question, &answer, &fault);
            break;
        case 'p':
            status = baybowl_permitted(grants, grants_len, "cephfs", 6, path, path_len, groups, 1, &question, &caps, &fault);
            break;
        case 'c':
            status = baybowl_grants_check(grants, grants_len, &fault);
            break;
        default:
            status = baybowl_allowed(BAYBOWL_PART_F, &lock, (uint32_t)left, &caps);
        }
        if (status != BAYBOWL_OK) {
            fprintf(stderr, "status %u\n", status);
            return 1;
        }
        sum += answer.grant + caps;
    }
    printf("sum %llu\n", (unsigned long long)sum);
    return 0;
}
