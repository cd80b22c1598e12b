/*
 * Keeps a log of requests in hex lines, and reports how a table decides them.
 */
#include <stdlib.h>

#include "example.h"

/* Members of g may read /a and beneath it; u is one. */
static const char table[] =
    "010276310000000000000001\n"
    "020167\n"
    "0301670175\n"
    "04010101016701720001016100\n";

static char log_text[1000];
static size_t log_len;

static void put(unsigned byte)
{
    log_len += (size_t)snprintf(log_text + log_len, sizeof log_text - log_len, "%02x", byte);
}

static void put_string(const char *string)
{
    put((unsigned)strlen(string));
    while (*string != '\0') {
        put((unsigned char)*string++);
    }
}

/* A line for a request that is judged; one that is refused would make the whole log bad. */
static void log_request(const char *user, uint32_t mode, const char *origin, const char *path)
{
    static uint8_t path_bytes[BURGEE_PATH_BYTES_MAX];
    uint64_t verdict = burgee_path_verdict(SLICE(table), SLICE(user), mode, SLICE(origin), SLICE(path));
    if (burgee_answer_refusal(verdict) != 0) {
        return;
    }
    size_t path_len = burgee_answer_length(burgee_path_read(SLICE(path), path_bytes, sizeof path_bytes));
    put(mode);
    put_string(user);
    put_string(origin);
    for (size_t i = 0; i < path_len; i++) {
        put(path_bytes[i]);
    }
    log_text[log_len++] = '\n';
}

/* The figures that are not 0. */
static void print_report(void)
{
    static const char *const grid[] = {
        "reads permitted", "reads denied by a rule", "reads denied by default",
        "writes permitted", "writes denied by a rule", "writes denied by default",
    };
    static uint8_t report[BURGEE_REPORT_MAX + 1];
    uint64_t answer = burgee_season_report(SLICE(table), (const uint8_t *)log_text, log_len, report, BURGEE_REPORT_MAX);
    if (print_refusal(answer)) {
        printf("\n");
        return;
    }
    report[burgee_answer_length(answer)] = '\0';
    char *at = (char *)report;
    for (unsigned line = 0; line < 256 + 6; line++) {
        unsigned long figure = strtoul(at, &at, 10);
        if (figure > 0 && line < 256) {
            printf("rule %u decided %lu\n", line, figure);
        } else if (figure > 0) {
            printf("%s %lu\n", grid[line - 256], figure);
        }
    }
}

int main(void)
{
    log_request("u", BURGEE_READ, "", "/a/b");
    log_request("u", BURGEE_READ, "", "/a");
    log_request("u", BURGEE_WRITE, "", "/a");
    log_request("u", BURGEE_READ, "", "/a/"); /* not a path: not logged */
    log_request("v", BURGEE_READ, "", "/a");
    printf("%.*s", (int)log_len, log_text);
    print_report();

    log_len--; /* the last line without its LF */
    print_report();
    return 0;
}
