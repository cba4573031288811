/* Counts what held and what did not. Each program ends in `N held, M did not`, with status 1 if one did not. */
#ifndef CHECK_H
#define CHECK_H

#include <stdio.h>

static unsigned long held, failed;

#define CHECK(condition)                                                     \
    do {                                                                     \
        if (condition) {                                                     \
            held++;                                                          \
        } else {                                                             \
            failed++;                                                        \
            fprintf(stderr, "%s:%d: %s\n", __FILE__, __LINE__, #condition);  \
        }                                                                    \
    } while (0)

static int told(void) {
    printf("%lu held, %lu did not\n", held, failed);
    return failed != 0 || held == 0;
}

#endif
