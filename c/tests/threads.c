/* Eight threads make a million calls at once. Each answer has to be the one that one thread alone was given before. */
#include "baybowl.h"

#include <pthread.h>
#include <stdio.h>
#include <string.h>

enum { THREADS = 8, CALLS = 125000, QUESTIONS = 48, LOCKS = 64 };

static const char *const grants[] = {
    "allow rw path=/a, allow r",
    "allow rwps path=/a/b uid=1000 gids=1000,1001, allow rw fsname=other",
    "allow * root_squash",
    "allow rw path=\"/a b\";allow r uid=7",
    "allow rw path=/a gids=1",
    "allow rwf",
};
static const char *const paths[] = {"/a/b/c", "/", "/a b/x", "//a//"};

struct asked {
    const char *grants, *path;
    struct baybowl_question question;
    uint32_t status, caps;
    struct baybowl_answer answer;
    struct baybowl_fault fault;
    char form[256];
    uint64_t form_len;
};

struct locked {
    uint32_t part, client, caps;
    struct baybowl_lock lock;
    struct baybowl_wants wants;
    struct baybowl_stable_state target;
};

static const uint32_t groups[] = {1001, 1002};
static struct asked asked[QUESTIONS];
static struct locked locked[LOCKS];

static uint32_t judge(const struct asked *q, struct baybowl_answer *answer, struct baybowl_fault *fault) {
    return baybowl_verdict(q->grants, strlen(q->grants), "cephfs", 6, q->path, strlen(q->path), groups, 2, &q->question, answer,
                           fault);
}

static void permit(const struct asked *q, uint32_t *caps) {
    struct baybowl_fault fault;
    baybowl_permitted(q->grants, strlen(q->grants), "cephfs", 6, q->path, strlen(q->path), groups, 2, &q->question, caps, &fault);
}

static void write_form(const struct asked *q, char *form, uint64_t *len) {
    struct baybowl_fault fault;
    memset(form, 0, sizeof q->form);
    baybowl_grants_write(q->grants, strlen(q->grants), form, sizeof q->form, len, &fault);
}

static void make_tables(void) {
    for (uint32_t at = 0; at < QUESTIONS; at++) {
        struct asked *q = &asked[at];
        q->grants = grants[at % 6];
        q->path = paths[at / 6 % 4];
        q->question = (struct baybowl_question){at % 5 == 0 ? 0 : 1000, 1000, at % 2 ? 1000 : 7, 1001, 0640, at % 7, 1001};
        q->status = judge(q, &q->answer, &q->fault);
        permit(q, &q->caps);
        write_form(q, q->form, &q->form_len);
    }
    for (uint32_t at = 0; at < LOCKS; at++) {
        struct locked *l = &locked[at];
        l->part = at % 4;
        l->client = 1 + at / 32;
        l->lock = (struct baybowl_lock){{at / 4 % 4, 1}, {at / 16 % 4, 2}, at % 3 == 0};
        l->wants = (struct baybowl_wants){at % 3, 2, at % 2, 1, BAYBOWL_CAP_FW | BAYBOWL_CAP_AX, BAYBOWL_CAP_FR | BAYBOWL_CAP_FW};
        baybowl_allowed(l->part, &l->lock, l->client, &l->caps);
        baybowl_target(l->part, &l->lock.from, &l->wants, &l->target);
    }
}

static int is_same_question(const struct asked *q, uint32_t kind) {
    struct baybowl_answer answer;
    struct baybowl_fault fault;
    char form[sizeof q->form];
    uint64_t len;
    uint32_t caps;
    switch (kind) {
    case 0:
        return judge(q, &answer, &fault) == q->status && memcmp(&answer, &q->answer, sizeof answer) == 0 &&
               fault.at == q->fault.at && fault.kind == q->fault.kind;
    case 1:
        permit(q, &caps);
        return caps == q->caps;
    default:
        write_form(q, form, &len);
        return len == q->form_len && memcmp(form, q->form, sizeof form) == 0;
    }
}

static int is_same_lock(const struct locked *l) {
    struct baybowl_stable_state target;
    uint32_t caps;
    if (l->client == 1) {
        return baybowl_allowed(l->part, &l->lock, l->client, &caps) == BAYBOWL_OK && caps == l->caps;
    }
    return baybowl_target(l->part, &l->lock.from, &l->wants, &target) == BAYBOWL_OK &&
           memcmp(&target, &l->target, sizeof target) == 0;
}

static void *run(void *given) {
    size_t *wrong = given, offset = *wrong;
    *wrong = 0;
    for (size_t call = 0; call < CALLS; call++) {
        size_t at = call * 13 + offset;
        int is_same = call % 4 == 3 ? is_same_lock(&locked[at % LOCKS]) : is_same_question(&asked[at % QUESTIONS], call % 4);
        *wrong += !is_same;
    }
    return NULL;
}

int main(void) {
    pthread_t threads[THREADS];
    size_t wrong[THREADS], all = 0;
    make_tables();
    for (size_t at = 0; at < THREADS; at++) {
        wrong[at] = at * 7;
        if (pthread_create(&threads[at], NULL, run, &wrong[at]) != 0) {
            return 2;
        }
    }
    for (size_t at = 0; at < THREADS; at++) {
        pthread_join(threads[at], NULL);
        all += wrong[at];
    }
    printf("%d threads, %d calls, %zu wrong\n", THREADS, THREADS * CALLS, all);
    return all != 0;
}
