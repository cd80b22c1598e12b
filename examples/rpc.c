/*
 * Asks a policy for some RPCs.
 */
#include "example.h"

/* Alice may call all of the service, anyone its Get with the header `stage: test...`;
 * nobody may call Reset. */
static const char policy[] =
    "{\"name\": \"example\","
    " \"deny_rules\": [{\"name\": \"no-reset\", \"request\": {\"paths\": [\"*/Reset\"]}}],"
    " \"allow_rules\": ["
    "  {\"name\": \"alice\", \"source\": {\"principals\": [\"alice\"]}, \"request\": {\"paths\": [\"/p.S/*\"]}},"
    "  {\"name\": \"test\", \"request\": {\"paths\": [\"/p.S/Get\"],"
    "   \"headers\": [{\"key\": \"stage\", \"values\": [\"test*\"]}]}}]}";

static void ask(const char *identity, const char *path, const char *headers)
{
    uint64_t answer = burgee_rpc_verdict(SLICE(policy), SLICE(identity), SLICE(path), SLICE(headers));
    printf("`%s` calls %s: ", identity, path);
    print_action(answer);
    printf("\n");
}

int main(void)
{
    ask("alice", "/p.S/Set", "");
    ask("alice", "/p.S/Reset", "");
    ask("bob", "/p.S/Get", "stage:test\nstage:two\n");
    ask("bob", "/p.S/Get", "");
    ask("", "/p.S/Get", "Stage:test\n");
    return 0;
}
