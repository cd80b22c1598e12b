/*
 * A small daemon. It keeps a policy and a table, each in a record with its store, and
 * serves commands from standard input, one a line:
 *
 *   start KIND                    begin to try a new text; KIND is `policy` or `table`
 *   upload KIND                   try the text on the lines that follow, up to a line `.`
 *   finalize KIND                 keep the text that is being tried
 *   close KIND                    go back to the text before it
 *   show KIND                     what the record says
 *   path USER read|write PATH     may the user read or write there?
 *   tree USER read|write PATH     and all that lies beneath?
 *   subscribe USER PATH           is the subscription accepted, and must its updates be asked for?
 *   rpc IDENTITY PATH             may the client call this?
 *
 * Each is answered in one line. A line that begins with `#` is a remark. A daemon of a
 * switch would keep its records and stores from one start to the next.
 */
#include "example.h"

/* A record and its store. */
typedef struct {
    burgee_record record;
    uint8_t store[BURGEE_STORE_LEN];
} host;

static host policy_host;
static host table_host;

/* A host as the three arguments that lend it. */
#define HOST(host) &(host)->record, (host)->store, sizeof (host)->store

static bool is(const char *word, const char *name)
{
    return strcmp(word, name) == 0;
}

/* ---- Commands about one host ------------------------------------------------------ */

/* Reads lines up to one that is `.`, and gives their length. What doesn't fit is left
 * out: it is too long for a policy and for a table by then. */
static size_t read_text(uint8_t *text, size_t room)
{
    char line[2048];
    size_t len = 0;
    while (fgets(line, sizeof line, stdin) != NULL && !is(line, ".\n")) {
        size_t more = strlen(line);
        if (more <= room - len) {
            memcpy(text + len, line, more);
            len += more;
        }
    }
    return len;
}

static void upload(host *host)
{
    static uint8_t text[BURGEE_STORE_LEN];
    size_t len = read_text(text, sizeof text);
    print_done("done", burgee_upload(HOST(host), text, len));
}

static void print_length(const char *name, uint32_t len)
{
    if (len == BURGEE_NONE) {
        printf("%s none", name);
    } else {
        printf("%s %u bytes", name, (unsigned)len);
    }
}

static void show(const host *host)
{
    const burgee_record *record = &host->record;
    printf("%s, ", record->rotating != 0 ? "rotating" : "at rest");
    print_length("live", record->live_len);
    if (record->live_len != BURGEE_NONE) {
        printf(" in slot %u", (unsigned)record->live_slot);
    }
    print_length(", candidate", record->candidate_len);
}

static void serve_host(const char *command, host *host)
{
    if (is(command, "start")) {
        print_done("done", burgee_start(HOST(host)));
    } else if (is(command, "upload")) {
        upload(host);
    } else if (is(command, "finalize")) {
        print_done("done", burgee_finalize(HOST(host)));
    } else if (is(command, "close")) {
        print_done("done", burgee_close(HOST(host)));
    } else if (is(command, "show")) {
        show(host);
    } else {
        printf("no such command");
    }
}

/* ---- Questions -------------------------------------------------------------------- */

/* A mode that is none is refused, as any other fault of a request. */
static uint32_t mode_named(const char *name)
{
    return is(name, "read") ? BURGEE_READ : is(name, "write") ? BURGEE_WRITE : 0;
}

/* A subscription is accepted on the path's own verdict; then the tree is ALL or MIXED. */
static void subscribe(const char *user, const char *path)
{
    uint64_t own = burgee_record_probe_path(HOST(&table_host), SLICE(user), BURGEE_READ, SLICE(""), SLICE(path));
    uint64_t tree = burgee_record_probe_tree(HOST(&table_host), SLICE(user), BURGEE_READ, SLICE(""), SLICE(path));
    if (!burgee_is_permitted(own)) {
        printf("not accepted");
    } else if (burgee_answer_tree(tree) == BURGEE_TREE_ALL) {
        printf("accepted, and every update may go out");
    } else {
        printf("accepted, and each update is asked for by its own path");
    }
}

static void serve_question(int words, char word[4][256])
{
    if (words == 4 && is(word[0], "path")) {
        print_action(burgee_record_probe_path(HOST(&table_host), SLICE(word[1]), mode_named(word[2]), SLICE(""),
                                              SLICE(word[3])));
    } else if (words == 4 && is(word[0], "tree")) {
        print_tree(burgee_record_probe_tree(HOST(&table_host), SLICE(word[1]), mode_named(word[2]), SLICE(""),
                                            SLICE(word[3])));
    } else if (words == 3 && is(word[0], "subscribe")) {
        subscribe(word[1], word[2]);
    } else if (words == 3 && is(word[0], "rpc")) {
        print_action(burgee_record_probe_rpc(HOST(&policy_host), SLICE(word[1]), SLICE(word[2]), SLICE("")));
    } else {
        printf("no such command");
    }
}

/* ---- The daemon ------------------------------------------------------------------- */

static void serve(const char *line)
{
    char word[4][256] = {"", "", "", ""};
    int words = sscanf(line, "%255s %255s %255s %255s", word[0], word[1], word[2], word[3]);
    if (words == 2 && is(word[1], "policy")) {
        serve_host(word[0], &policy_host);
    } else if (words == 2 && is(word[1], "table")) {
        serve_host(word[0], &table_host);
    } else {
        serve_question(words, word);
    }
}

int main(void)
{
    char line[1024];
    policy_host.record = burgee_factory_record(BURGEE_KIND_POLICY);
    table_host.record = burgee_factory_record(BURGEE_KIND_TABLE);
    while (fgets(line, sizeof line, stdin) != NULL) {
        line[strcspn(line, "\n")] = '\0';
        printf("%s", line);
        if (line[0] != '#' && line[0] != '\0') {
            printf(": ");
            serve(line);
        }
        printf("\n");
    }
    return 0;
}
