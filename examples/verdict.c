/*
 * Asks for the verdicts of the marked examples E to K.
 */
#include "example.h"

/* Group g holds u, and may read beneath `/a`, whatever the key k. */
static const char table[] =
    "010276310000000000000001\n"
    "020167\n"
    "0301670175\n"
    "04010101016701720001016101016b012a\n";

static void ask(const char *user, uint32_t mode, const char *path)
{
    uint64_t single = burgee_path_verdict(SLICE(table), SLICE(user), mode, SLICE(""), SLICE(path));
    uint64_t tree = burgee_tree_verdict(SLICE(table), SLICE(user), mode, SLICE(""), SLICE(path));

    printf("%s %s %s: ", user, mode == BURGEE_READ ? "reads" : "writes", path);
    print_action(single);
    printf("; tree ");
    print_tree(tree);
    printf("\n");
}

int main(void)
{
    ask("u", BURGEE_READ, "/a/b");
    ask("u", BURGEE_READ, "/ab");
    ask("v", BURGEE_READ, "/a");
    ask("u", BURGEE_READ, "/a[k=9]");
    ask("u", BURGEE_READ, "/");
    ask("u", BURGEE_READ, "/a");
    ask("u", BURGEE_WRITE, "/a");
    ask("u", BURGEE_READ, "/a/");
    return 0;
}
