/*
 * Checks a table, counts the groups of some users, and shows a refusal with its line.
 */
#include "example.h"

/* Groups g and h; u is in both, v in h. */
static const char table[] =
    "010276310000000000000001\n"
    "020167\n"
    "020168\n"
    "0301670175\n"
    "0301680175\n"
    "0301680176\n";

static void check(const char *name, const char *text)
{
    printf("%s: ", name);
    print_done("accepted", burgee_table_check(SLICE(text)));
    printf("\n");
}

static void count(const char *user)
{
    uint64_t answer = burgee_group_count(SLICE(table), SLICE(user));
    printf("user `%s`: ", user);
    if (!print_refusal(answer)) {
        printf("%u groups, the first is %d", burgee_answer_group_count(answer), burgee_answer_first_group(answer));
    }
    printf("\n");
}

int main(void)
{
    check("the table", table);
    check("an empty text", "");
    check("a member of no group", "010276310000000000000001\n0301670175\n");
    count("u");
    count("v");
    count("w");
    count("");
    return 0;
}
