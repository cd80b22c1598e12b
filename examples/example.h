/*
 * What the examples share: C strings lent as slices, and answers in words.
 */
#ifndef EXAMPLE_H
#define EXAMPLE_H

#include <stdbool.h>
#include <stdint.h>
#include <stdio.h>
#include <string.h>

#include "burgee.h"

/* A C string as the two arguments that lend a slice. */
#define SLICE(string) (const uint8_t *)(string), strlen(string)

/* Says whether a call was refused, and prints how. */
static inline bool print_refusal(uint64_t answer)
{
    unsigned number = burgee_answer_refusal(answer);
    if (number == 0) {
        return false;
    }
    printf("refused with %u", number);
    if (burgee_answer_line(answer) != 0) {
        printf(" at line %u", (unsigned)burgee_answer_line(answer));
    }
    return true;
}

/* Of a call that has nothing else to say: a word for its success. */
static inline void print_done(const char *word, uint64_t answer)
{
    if (!print_refusal(answer)) {
        printf("%s", word);
    }
}

/* Of a verdict: the action, and the rule that decided. */
static inline void print_action(uint64_t answer)
{
    if (print_refusal(answer)) {
        return;
    }
    printf("%s", burgee_is_permitted(answer) ? "permit" : "deny");
    if (burgee_answer_rule(answer) >= 0) {
        printf(" by rule %d", burgee_answer_rule(answer));
    } else {
        printf(" by default");
    }
}

/* Of a tree verdict: its word, and the rule that MIXED names. */
static inline void print_tree(uint64_t answer)
{
    static const char *const words[] = {"NONE", "ALL", "MIXED"};
    if (print_refusal(answer)) {
        return;
    }
    printf("%s", words[burgee_answer_tree(answer)]);
    if (burgee_answer_tree(answer) == BURGEE_TREE_MIXED) {
        printf(" by rule %d", burgee_answer_rule(answer));
    }
}

#endif /* EXAMPLE_H */
