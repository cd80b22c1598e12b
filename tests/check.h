/*
 * What the tests of include/burgee.h share: one check, counted, and told where it fails.
 */
#ifndef BURGEE_CHECK_H
#define BURGEE_CHECK_H

#include <inttypes.h>
#include <stdio.h>

/* How many checks were made, and how many failed. */
typedef struct {
    unsigned made;
    unsigned failed;
} tally;

/* Only the first failures are told: a fault of a reader fails thousands of checks. */
static inline void check_equal(tally *checks, int line, const char *what, uint64_t got, uint64_t expected)
{
    checks->made++;
    if (got != expected) {
        checks->failed++;
        if (checks->failed <= 5) {
            printf("line %d: %s is 0x%" PRIx64 ", not 0x%" PRIx64 "\n", line, what, got, expected);
        }
    }
}

/* Equal numbers, a negative one too. */
#define EQUAL(checks, got, expected) check_equal(checks, __LINE__, #got, (uint64_t)(got), (uint64_t)(expected))

/* In header_wrappers.c: that each wrapper of a probe hands on what it is given. */
#ifdef __cplusplus
extern "C"
#endif
void check_wrappers(tally *checks);

#endif /* BURGEE_CHECK_H */
