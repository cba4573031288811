/* Asks two texts of grants the same questions, for tests/compared. It reads lines, and answers each of the last two kinds by a line:
 *
 *   P OLD <tab> NEW                                 the two texts, up to the next such line
 *   Q FS ACCESS NUMBER UID GID GROUPS OWNER GROUP MODE PATH
 *                                                   which grant of the old text allows this question, and which of the new: `2 0`
 *   S SEED COUNT                                    so many questions at random: `0`, or a question in the form above that the new
 *                                                   text alone allows, of somebody who is not root where there is such a one
 *
 * GROUPS is numbers with commas, or `-`. ACCESS is a number of enum baybowl_access. */
#include <baybowl.h>

#include <inttypes.h>
#include <stdio.h>
#include <stdlib.h>
#include <string.h>

enum { TEXT = 4096, GROUPS = 16 };

/* A question with all that it is asked by. */
struct asked {
    const char *fs;
    const char *path;
    uint32_t groups[GROUPS];
    size_t count;
    struct baybowl_question question;
};

static char texts[2][TEXT];

static void stop(const char *why) {
    fprintf(stderr, "compared: %s\n", why);
    exit(1);
}

/* The number of the first grant of a text that allows the question, or 0. */
static uint32_t allowing(const char *text, const struct asked *asked) {
    struct baybowl_answer answer;
    struct baybowl_fault fault;
    if (baybowl_verdict(text, strlen(text), asked->fs, strlen(asked->fs), asked->path, strlen(asked->path), asked->groups, asked->count,
                        &asked->question, &answer, &fault) != BAYBOWL_OK)
        stop("a question was refused");
    return answer.grant;
}

static uint64_t state;

/* A number below `end`, by a generator of Marsaglia's (xorshift64). */
static uint32_t number(uint32_t end) {
    state ^= state << 13;
    state ^= state >> 7;
    state ^= state << 17;
    return (uint32_t)((state >> 32) % end);
}

static void ask_at_random(struct asked *asked) {
    static const char *const systems[] = {"a", "b", "c"};
    static const char *const paths[] = {"/", "/a", "/a/b", "/a/b/c", "/b", "/ab/c"};
    asked->fs = systems[number(3)];
    asked->path = paths[number(6)];
    asked->count = number(4);
    for (size_t at = 0; at < asked->count; at++)
        asked->groups[at] = number(5);
    struct baybowl_question *question = &asked->question;
    question->uid = number(4);
    question->gid = number(5);
    question->owner = number(4);
    question->group = number(5);
    question->mode = number(01000);
    question->access = number(7);
    question->number = number(5);
}

static void print_asked(const struct asked *asked) {
    const struct baybowl_question *question = &asked->question;
    printf("Q %s %" PRIu32 " %" PRIu32 " %" PRIu32 " %" PRIu32 " ", asked->fs, question->access, question->number, question->uid, question->gid);
    for (size_t at = 0; at < asked->count; at++)
        printf("%s%" PRIu32, at == 0 ? "" : ",", asked->groups[at]);
    printf("%s %" PRIu32 " %" PRIu32 " %" PRIu32 " %s\n", asked->count == 0 ? "-" : "", question->owner, question->group, question->mode, asked->path);
}

static void sample(const char *line) {
    uint64_t seed;
    uint32_t count;
    if (sscanf(line, "S %" SCNu64 " %" SCNu32, &seed, &count) != 2)
        stop("a line of random questions is not understood");
    state = seed * 2 + 1;
    struct asked found;
    int is_found = 0;
    for (uint32_t asked_so_far = 0; asked_so_far < count; asked_so_far++) {
        struct asked asked;
        ask_at_random(&asked);
        if (allowing(texts[0], &asked) != 0 || allowing(texts[1], &asked) == 0)
            continue;
        const int is_of_root = asked.question.uid == 0 || asked.question.gid == 0;
        if (!is_found || !is_of_root) {
            found = asked;
            is_found = 1;
        }
        if (!is_of_root)
            break;
    }
    if (is_found)
        print_asked(&found);
    else
        puts("0");
}

static void ask(char *line) {
    static char fs[TEXT], groups[TEXT], path[TEXT];
    struct asked asked = {.fs = fs, .path = path};
    struct baybowl_question *question = &asked.question;
    if (sscanf(line, "Q %4095s %" SCNu32 " %" SCNu32 " %" SCNu32 " %" SCNu32 " %4095s %" SCNu32 " %" SCNu32 " %" SCNu32 " %4095s", fs, &question->access,
               &question->number, &question->uid, &question->gid, groups, &question->owner, &question->group, &question->mode, path) != 10)
        stop("a question is not understood");
    for (char *rest = groups; strcmp(groups, "-") != 0 && *rest != '\0' && asked.count < GROUPS; asked.count++) {
        asked.groups[asked.count] = (uint32_t)strtoul(rest, &rest, 10);
        if (*rest == ',')
            rest++;
    }
    printf("%" PRIu32 " %" PRIu32 "\n", allowing(texts[0], &asked), allowing(texts[1], &asked));
}

static void take_pair(const char *line) {
    const char *tab = strchr(line, '\t');
    if (tab == NULL)
        stop("a pair is not understood");
    snprintf(texts[0], TEXT, "%.*s", (int)(tab - line), line);
    snprintf(texts[1], TEXT, "%s", tab + 1);
}

int main(void) {
    static char line[2 * TEXT + 8];
    while (fgets(line, sizeof line, stdin) != NULL) {
        line[strcspn(line, "\n")] = '\0';
        switch (line[0]) {
        case 'P':
            take_pair(line + 2);
            break;
        case 'Q':
            ask(line);
            fflush(stdout);
            break;
        case 'S':
            sample(line);
            fflush(stdout);
            break;
        default:
            stop("a line is not understood");
        }
    }
    return 0;
}
