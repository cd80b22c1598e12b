/*
 * Checks some policies.
 */
#include "example.h"

static void check(const char *name, const char *text)
{
    printf("%s: ", name);
    print_done("accepted", burgee_policy_check(SLICE(text)));
    printf("\n");
}

int main(void)
{
    check("a policy",
          "{\"name\": \"example\","
          " \"deny_rules\": [{\"name\": \"no-reset\", \"request\": {\"paths\": [\"*/Reset\"]}}],"
          " \"allow_rules\": [{\"name\": \"alice\", \"source\": {\"principals\": [\"alice\"]}}]}");
    check("one that permits nobody", "{\"name\": \"example\", \"allow_rules\": []}");
    check("one without allow_rules", "{\"name\": \"example\"}");
    check("half of one", "{\"name\": \"exam");
    check("an asterisk in the middle",
          "{\"name\": \"example\", \"allow_rules\":"
          " [{\"name\": \"alice\", \"source\": {\"principals\": [\"al*ce\"]}}]}");
    return 0;
}
