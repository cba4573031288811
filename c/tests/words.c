/* Prints the words of all rules and of all faults, a line each. */
#include "baybowl.h"

#include <stdio.h>

int main(void) {
    for (uint32_t rule = 1; baybowl_rule_word(rule) != NULL; rule++) {
        puts(baybowl_rule_word(rule));
    }
    for (uint32_t kind = 1; baybowl_fault_word(kind) != NULL; kind++) {
        puts(baybowl_fault_word(kind));
    }
    return 0;
}
