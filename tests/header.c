/*
 * include/burgee.h, tested as the library is: every constant, every reader on words at the corners of each field, and every call. What is
 * expected is written out here from the rules, not taken from the header. C and C++.
 */
#include <stdbool.h>
#include <string.h>

#include "burgee.h"
#include "check.h"

static tally checks;

#define SAME(got, expected) EQUAL(&checks, got, expected)
#define COUNT(array) (sizeof(array) / sizeof(array)[0])

/* A C string as a slice. */
#define SLICE(string) (const uint8_t *)(string), strlen(string)

/* ---- The refusal numbers ------------------------------------------------------------------------------------------------------------ */

typedef struct {
    unsigned named;
    unsigned number;
} refusal;

/* The table of the rules, number by number. */
static const refusal refusals[] = {
    {BURGEE_REFUSED_TABLE_LENGTH, 1},    /* table text over 32,768 bytes */
    {BURGEE_REFUSED_TABLE_HEX, 2},       /* not a hex line */
    {BURGEE_REFUSED_TABLE_FRAME, 3},     /* unknown kind or code byte, frame too short or long */
    {BURGEE_REFUSED_TABLE_ORDER, 4},     /* order of kinds; empty text */
    {BURGEE_REFUSED_TABLE_LIMIT, 5},     /* a limit passed, or an empty string that may not be */
    {BURGEE_REFUSED_TABLE_BYTE, 6},      /* a byte outside its set */
    {BURGEE_REFUSED_TABLE_WILDCARD, 7},  /* wildcard misplaced, or `...` */
    {BURGEE_REFUSED_TABLE_TWICE, 8},     /* group name, member in a group, rule id, or key in an element twice */
    {BURGEE_REFUSED_TABLE_UNLISTED, 9},  /* group not listed */
    {BURGEE_REFUSED_STORE, 11},          /* store shorter than 65,536 bytes */
    {BURGEE_REFUSED_ON, 12},             /* start while on */
    {BURGEE_REFUSED_OFF, 13},            /* upload, finalize or close while off */
    {BURGEE_REFUSED_NO_CANDIDATE, 14},   /* finalize without candidate */
    {BURGEE_REFUSED_RECORD, 15},         /* record: kind, slot, length, candidate while off */
    {BURGEE_REFUSED_KIND, 16},           /* a probe on a record of the other kind */
    {BURGEE_REFUSED_USER_OR_MODE, 20},   /* user or mode not as a table allows */
    {BURGEE_REFUSED_ORIGIN, 21},         /* origin likewise */
    {BURGEE_REFUSED_PATH, 22},           /* path text, or path bytes given to the writer */
    {BURGEE_REFUSED_BUFFER, 23},         /* the result doesn't fit the lent buffer */
    {BURGEE_REFUSED_POLICY_LENGTH, 30},  /* policy over 16,384 bytes */
    {BURGEE_REFUSED_POLICY_JSON, 31},    /* not one JSON value in our bytes and depth */
    {BURGEE_REFUSED_POLICY_TWICE, 32},   /* member name twice in one object */
    {BURGEE_REFUSED_POLICY_SCHEMA, 33},  /* not the schema */
    {BURGEE_REFUSED_POLICY_ESCAPE, 34},  /* backslash in a schema string */
    {BURGEE_REFUSED_POLICY_LIMIT, 35},   /* a limit passed, or empty where not allowed */
    {BURGEE_REFUSED_POLICY_STAR, 36},    /* asterisk */
    {BURGEE_REFUSED_POLICY_KEY, 37},     /* barred or ill-spelt header key */
    {BURGEE_REFUSED_POLICY_RULE, 38},    /* rule name twice in a list */
    {BURGEE_REFUSED_IDENTITY, 40},       /* identity or path of an RPC: too long, or a byte */
    {BURGEE_REFUSED_HEADERS, 41},        /* header lines */
    {BURGEE_REFUSED_LOG_LENGTH, 50},     /* log line number 1,000,001 */
    {BURGEE_REFUSED_LOG_LINE, 51},       /* a log line that is not so framed, or gets 20 to 22 */
};

/* What the command line says, as header.sh finds it in its program. */
static const struct {
    unsigned number;
    const char *text;
} command_line[] = {
#include "command_line_refusals.inc"
};

static void check_refusal_names(void)
{
    for (size_t i = 0; i < COUNT(refusals); i++) {
        SAME(refusals[i].named, refusals[i].number);
    }
}

static bool is_refusal(unsigned number)
{
    for (size_t i = 0; i < COUNT(refusals); i++) {
        if (refusals[i].number == number) {
            return true;
        }
    }
    return false;
}

static bool says(unsigned number, const char *text)
{
    const char *said = burgee_refusal_text(number);
    return said != NULL && strcmp(said, text) == 0;
}

static void check_refusal_texts(void)
{
    SAME(COUNT(command_line), COUNT(refusals));
    for (size_t i = 0; i < COUNT(command_line); i++) {
        SAME(is_refusal(command_line[i].number), true);
        SAME(says(command_line[i].number, command_line[i].text), true);
    }
    SAME(says(0, "not refused"), true);
    for (unsigned number = 1; number <= 1000; number++) {
        if (!is_refusal(number)) {
            SAME(says(number, "no refusal number of this version"), true);
        }
    }
    SAME(says(0xFFFFFFFFu, "no refusal number of this version"), true);
}

/* ---- The other constants, and the record ---------------------------------------------------------------------------------------------- */

static void check_constants(void)
{
    SAME(BURGEE_DENY, 0);
    SAME(BURGEE_PERMIT, 1);
    SAME(BURGEE_TREE_NONE, 0);
    SAME(BURGEE_TREE_ALL, 1);
    SAME(BURGEE_TREE_MIXED, 2);
    SAME(BURGEE_READ, 1);
    SAME(BURGEE_WRITE, 2);
    SAME(BURGEE_KIND_POLICY, 1);
    SAME(BURGEE_KIND_TABLE, 2);
    SAME(BURGEE_NONE, 0xFFFFFFFF);
    SAME(BURGEE_STORE_LEN, 2 * 32768);
    SAME(BURGEE_TABLE_TEXT_MAX, 32768);
    SAME(BURGEE_POLICY_TEXT_MAX, 16384);
    SAME(BURGEE_PATH_BYTES_MAX, 9377);
    SAME(BURGEE_PATH_TEXT_MAX, 13520);
    SAME(BURGEE_LOG_LINES_MAX, 1000000);
    SAME(BURGEE_REPORT_MAX, 262 * 8);

    unsigned major = 0, minor = 0, patch = 0;
    char more = 0;
    SAME(sscanf(BURGEE_VERSION_STRING, "%u.%u.%u%c", &major, &minor, &patch, &more), 3);
    SAME(BURGEE_VERSION, major * 10000 + minor * 100 + patch);
}

static void check_record_is(int line, const burgee_record *record, uint32_t kind, uint32_t live_slot, uint32_t live_len, uint32_t rotating,
                            uint32_t candidate_len)
{
    check_equal(&checks, line, "kind", record->kind, kind);
    check_equal(&checks, line, "live_slot", record->live_slot, live_slot);
    check_equal(&checks, line, "live_len", record->live_len, live_len);
    check_equal(&checks, line, "rotating", record->rotating, rotating);
    check_equal(&checks, line, "candidate_len", record->candidate_len, candidate_len);
}

#define RECORD_IS(record, kind, live_slot, live_len, rotating, candidate_len) \
    check_record_is(__LINE__, record, kind, live_slot, live_len, rotating, candidate_len)

static void check_record(void)
{
    static const uint32_t kinds[] = {0, 1, 2, 3, 0xFFFFFFFFu};
    SAME(sizeof(burgee_record), 20);
    SAME(offsetof(burgee_record, kind), 0);
    SAME(offsetof(burgee_record, live_slot), 4);
    SAME(offsetof(burgee_record, live_len), 8);
    SAME(offsetof(burgee_record, rotating), 12);
    SAME(offsetof(burgee_record, candidate_len), 16);
    for (size_t i = 0; i < COUNT(kinds); i++) {
        burgee_record record = burgee_factory_record(kinds[i]);
        RECORD_IS(&record, kinds[i], 0, 0xFFFFFFFFu, 0, 0xFFFFFFFFu);
    }
}

/* ---- Readers, each on every word ------------------------------------------------------------------------------------------------------ */

/* A refusal: its number and its line, and of all else the safe value. */
static void check_refused(int line_of_test, uint64_t answer, unsigned number, uint64_t line)
{
    check_equal(&checks, line_of_test, "refusal", burgee_answer_refusal(answer), number);
    check_equal(&checks, line_of_test, "line", burgee_answer_line(answer), line);
    check_equal(&checks, line_of_test, "bits of a refusal", burgee_answer_accepted(answer), 0);
    check_equal(&checks, line_of_test, "length of a refusal", burgee_answer_length(answer), 0);
    check_equal(&checks, line_of_test, "count of a refusal", burgee_answer_group_count(answer), 0);
    check_equal(&checks, line_of_test, "group of a refusal", (uint64_t)burgee_answer_first_group(answer), (uint64_t)-1);
    check_equal(&checks, line_of_test, "permitted, of a refusal", (uint64_t)burgee_is_permitted(answer), false);
    check_equal(&checks, line_of_test, "action of a refusal", burgee_answer_action(answer), 0);
    check_equal(&checks, line_of_test, "tree of a refusal", burgee_answer_tree(answer), 0);
    check_equal(&checks, line_of_test, "rule of a refusal", (uint64_t)burgee_answer_rule(answer), (uint64_t)-1);
}

#define REFUSED(answer, number, line) check_refused(__LINE__, answer, number, line)

/* Words are put together by sums here. Bits 8 to 63 of a refusal: */
static const uint64_t above_refusal[] = {
    0, 1, 2, 3, 9, 11, 63, 64, 254, 255, 256, 257, 511, 512, 513, 4095, 4096, 4097, 65535, 65536, 65537, 1000000, 0xFFFFFFFF, 0x100000000, 0x1000000FF, 0xFFFFFFFFFFFFFF,
};

static void check_refused_words(void)
{
    for (unsigned number = 1; number <= 255; number++) {
        for (size_t i = 0; i < COUNT(above_refusal); i++) {
            uint64_t above = above_refusal[i];
            REFUSED(number + 256 * above, number, number <= 9 || number == 51 ? above % 0x100000000 : 0);
        }
    }
}

/* A word of two fields: bits 8 to 15, and 16 to 31; and what stands above them, which no call stores and no reader looks at. */
static void check_two_fields(unsigned low, unsigned high, uint64_t above)
{
    uint64_t answer = 256 * (uint64_t)low + 65536 * (uint64_t)high + 0x100000000 * above;
    SAME(burgee_answer_refusal(answer), 0);
    SAME(burgee_answer_line(answer), 0);
    SAME(burgee_answer_group_count(answer), low);
    SAME(burgee_answer_first_group(answer), (int)high - 1);
    SAME(burgee_is_permitted(answer), low == 1 ? 1 : 0);
    SAME(burgee_answer_action(answer), low == 1 ? 1 : 0);
    SAME(burgee_answer_tree(answer), low == 1 ? 1 : low == 2 ? 2 : 0);
    SAME(burgee_answer_rule(answer), (int)high - 1);
}

static void check_accepted_words(void)
{
    static const unsigned numbers[] = {0, 1, 2, 63, 64, 65, 254, 255, 256, 257, 512, 4096, 32768, 65535};
    static const uint64_t above[] = {0, 1, 0x80, 0xFF, 0x100, 0xFFFFFFFF};
    static const uint64_t lengths[] = {0, 1, 2, 255, 256, 257, 4095, 4096, 4097, 9377, 13520, 32768, 65535, 65536, 0x80000000, 0xFFFFFFFF};
    for (unsigned low = 0; low <= 255; low++) {
        for (size_t i = 0; i < COUNT(numbers); i++) {
            for (size_t k = 0; k < COUNT(above); k++) {
                check_two_fields(low, numbers[i], above[k]);
            }
        }
    }
    for (size_t i = 0; i < COUNT(lengths); i++) {
        for (uint64_t beyond = 0; beyond < 3; beyond++) {
            uint64_t answer = 256 * lengths[i] + 0x10000000000 * beyond;
            SAME(burgee_answer_refusal(answer), 0);
            SAME(burgee_answer_line(answer), 0);
            SAME(burgee_answer_length(answer), lengths[i]);
            SAME(burgee_answer_accepted(answer), lengths[i] + 0x100000000 * beyond);
        }
    }
}

/* ---- Texts ---------------------------------------------------------------------------------------------------------------------------- */

typedef struct {
    uint8_t bytes[40000];
    size_t len;
} text;

#define TEXT(text) (text)->bytes, (text)->len

static void put(text *to, const char *string)
{
    size_t len = strlen(string);
    memcpy(to->bytes + to->len, string, len);
    to->len += len;
}

static void put_times(text *to, unsigned times, const char *string)
{
    while (times-- > 0) {
        put(to, string);
    }
}

static void put_byte(text *to, unsigned byte)
{
    char digits[3];
    snprintf(digits, sizeof digits, "%02x", byte & 0xFFu);
    put(to, digits);
}

/* Its length, then its bytes, as hex. */
static void put_string(text *to, const char *string)
{
    put_byte(to, (unsigned)strlen(string));
    for (size_t i = 0; string[i] != '\0'; i++) {
        put_byte(to, (unsigned char)string[i]);
    }
}

/* A letter and a number, of four bytes always. */
typedef struct {
    char chars[8];
} name;

static name numbered(char letter, unsigned number)
{
    name made;
    snprintf(made.chars, sizeof made.chars, "%c%03u", letter, number % 1000);
    return made;
}

static void put_member(text *table, unsigned group, const char *user)
{
    put(table, "03");
    put_string(table, numbered('g', group).chars);
    put_string(table, user);
    put(table, "\n");
}

#define GROUPS 64u
#define RULES 256u
#define RULE_WITH_ORIGIN 100u
#define RULE_TO_WRITE 101u

static void put_rule(text *table, unsigned number, unsigned action, const char *id)
{
    put(table, "04");
    put_byte(table, action);
    put(table, number == RULE_TO_WRITE ? "02" : "01");
    put(table, "00");
    put_string(table, "u");
    put_string(table, id);
    put_string(table, number == RULE_WITH_ORIGIN ? "home" : "");
    put_byte(table, 1);
    put_string(table, numbered('r', number).chars);
    put(table, "00\n");
}

/*
 * 64 groups: `c1` is in the last one, `c63` in all but the first, `c64` in all. 256 rules for `u`, rule 255 at /r255; this one permits, and has
 * the smallest id; those that are an even number away permit too, the others deny.
 */
static void make_table(text *table, unsigned smallest)
{
    table->len = 0;
    put(table, "010276310000000000000001\n");
    for (unsigned group = 0; group < GROUPS; group++) {
        put(table, "02");
        put_string(table, numbered('g', group).chars);
        put(table, "\n");
    }
    put_member(table, GROUPS - 1, "c1");
    for (unsigned group = 0; group < GROUPS; group++) {
        if (group > 0) {
            put_member(table, group, "c63");
        }
        put_member(table, group, "c64");
    }
    for (unsigned number = 0; number < RULES; number++) {
        put_rule(table, number, (number + smallest + 1) % 2, numbered(number == smallest ? 'a' : 'b', number).chars);
    }
}

/* Where line `number` of a text starts. */
static uint8_t *line_of(text *table, unsigned number)
{
    uint8_t *at = table->bytes;
    while (--number > 0) {
        at = (uint8_t *)memchr(at, '\n', 30000) + 1;
    }
    return at;
}

/* A list of 64 rules, each for the path of its name. Rule 62 of the list `a` asks for an identity and a header as well. */
static void put_rules(text *policy, char letter)
{
    for (unsigned number = 0; number < 64; number++) {
        put(policy, number == 0 ? "{\"name\":\"" : ",{\"name\":\"");
        put(policy, numbered(letter, number).chars);
        if (letter == 'a' && number == 62) {
            put(policy, "\",\"source\":{\"principals\":[\"ident\"]},\"request\":{\"headers\":[{\"key\":\"name\",\"values\":[\"value\"]}],\"paths\":[\"/");
        } else {
            put(policy, "\",\"request\":{\"paths\":[\"/");
        }
        put(policy, numbered(letter, number).chars);
        put(policy, "\"]}}");
    }
}

static void make_policy(text *policy)
{
    policy->len = 0;
    put(policy, "{\"name\":\"p\",\"deny_rules\":[");
    put_rules(policy, 'd');
    put(policy, "],\"allow_rules\":[");
    put_rules(policy, 'a');
    put(policy, "]}");
}

/* ---- Answers of calls ----------------------------------------------------------------------------------------------------------------- */

static void check_action(int line, uint64_t answer, unsigned action, int rule)
{
    check_equal(&checks, line, "the word", answer, 256 * (uint64_t)action + 65536 * (uint64_t)(rule + 1));
    check_equal(&checks, line, "refusal", burgee_answer_refusal(answer), 0);
    check_equal(&checks, line, "line", burgee_answer_line(answer), 0);
    check_equal(&checks, line, "action", burgee_answer_action(answer), action);
    check_equal(&checks, line, "permitted", (uint64_t)burgee_is_permitted(answer), action);
    check_equal(&checks, line, "rule", (uint64_t)burgee_answer_rule(answer), (uint64_t)rule);
}

#define PERMITTED(answer, rule) check_action(__LINE__, answer, 1, rule)
#define DENIED(answer, rule) check_action(__LINE__, answer, 0, rule)

static void check_tree(int line, uint64_t answer, unsigned tree, int rule)
{
    check_equal(&checks, line, "the word", answer, 256 * (uint64_t)tree + 65536 * (uint64_t)(rule + 1));
    check_equal(&checks, line, "refusal", burgee_answer_refusal(answer), 0);
    check_equal(&checks, line, "line", burgee_answer_line(answer), 0);
    check_equal(&checks, line, "tree", burgee_answer_tree(answer), tree);
    check_equal(&checks, line, "rule", (uint64_t)burgee_answer_rule(answer), (uint64_t)rule);
}

#define TREE(answer, tree, rule) check_tree(__LINE__, answer, tree, rule)

static void check_groups(int line, uint64_t answer, unsigned count, int first)
{
    check_equal(&checks, line, "the word", answer, 256 * (uint64_t)count + 65536 * (uint64_t)(first + 1));
    check_equal(&checks, line, "refusal", burgee_answer_refusal(answer), 0);
    check_equal(&checks, line, "count", burgee_answer_group_count(answer), count);
    check_equal(&checks, line, "first group", (uint64_t)burgee_answer_first_group(answer), (uint64_t)first);
}

#define GROUP_COUNT(answer, count, first) check_groups(__LINE__, answer, count, first)

static void check_filled(int line, uint64_t answer, uint32_t len)
{
    check_equal(&checks, line, "the word", answer, 256 * (uint64_t)len);
    check_equal(&checks, line, "refusal", burgee_answer_refusal(answer), 0);
    check_equal(&checks, line, "length", burgee_answer_length(answer), len);
}

#define FILLED(answer, len) check_filled(__LINE__, answer, len)

/* ---- Paths ---------------------------------------------------------------------------------------------------------------------------- */

static uint8_t path_bytes[BURGEE_PATH_BYTES_MAX + 1];
static uint8_t path_text[BURGEE_PATH_TEXT_MAX + 1];

static void check_paths(void)
{
    static const uint8_t two[] = {1, 1, 'a', 1, 1, 'k', 2, 'v', ']'};
    static text longest;
    for (unsigned element = 0; element < 16; element++) {
        put(&longest, "/");
        put_times(&longest, 64, "n");
        for (unsigned key = 0; key < 4; key++) {
            char letter[2] = {(char)('a' + (int)key), '\0'};
            put(&longest, "[");
            put_times(&longest, 64, letter);
            put(&longest, "=");
            put_times(&longest, 64, "\\\\");
            put(&longest, "]");
        }
    }
    SAME(longest.len, 13520);

    FILLED(burgee_path_read(SLICE("/"), path_bytes, sizeof path_bytes), 1);
    path_bytes[sizeof two] = 99;
    FILLED(burgee_path_read(SLICE("/a[k=v\\]]"), path_bytes, sizeof path_bytes), sizeof two);
    SAME(memcmp(path_bytes, two, sizeof two), 0);
    SAME(path_bytes[sizeof two], 99);
    FILLED(burgee_path_write(two, sizeof two, path_text, 9), 9);
    SAME(memcmp(path_text, "/a[k=v\\]]", 9), 0);
    REFUSED(burgee_path_write(two, sizeof two, path_text, 8), BURGEE_REFUSED_BUFFER, 0);

    path_bytes[9377] = 98;
    path_text[13520] = 97;
    FILLED(burgee_path_read(TEXT(&longest), path_bytes, BURGEE_PATH_BYTES_MAX), 9377);
    FILLED(burgee_path_write(path_bytes, 9377, path_text, BURGEE_PATH_TEXT_MAX), 13520);
    SAME(memcmp(path_text, longest.bytes, 13520), 0);
    SAME(path_bytes[9377], 98);
    SAME(path_text[13520], 97);
    REFUSED(burgee_path_read(TEXT(&longest), path_bytes, 9376), BURGEE_REFUSED_BUFFER, 0);
    REFUSED(burgee_path_write(path_bytes, 9377, path_text, 13519), BURGEE_REFUSED_BUFFER, 0);

    /* The first 7 elements, with a key less: 4,096 and more. */
    size_t half = 7 * 845 - 195;
    FILLED(burgee_path_read(longest.bytes, half, path_bytes, sizeof path_bytes), 1 + 7 * 586 - 130);
    FILLED(burgee_path_write(path_bytes, 1 + 7 * 586 - 130, path_text, sizeof path_text), (uint32_t)half);

    REFUSED(burgee_path_read(SLICE("/a/"), path_bytes, sizeof path_bytes), BURGEE_REFUSED_PATH, 0);
    REFUSED(burgee_path_write(two, sizeof two - 1, path_text, sizeof path_text), BURGEE_REFUSED_PATH, 0);
}

/* ---- Tables --------------------------------------------------------------------------------------------------------------------------- */

/* The table of the rules' marked examples, cut in two where another line may stand. */
#define FIRST_LINES "010276310000000000000001\n020167\n0301670175\n"
#define RULE_LINE "04010101016701720001016101016b012a\n"

static void check_table_refusals(void)
{
    static text table;
    SAME(burgee_table_check(SLICE(FIRST_LINES RULE_LINE)), 0);
    make_table(&table, 0);
    SAME(burgee_table_check(TEXT(&table)), 0);

    put_times(&table, (unsigned)(32769 - table.len), " ");
    REFUSED(burgee_table_check(TEXT(&table)), BURGEE_REFUSED_TABLE_LENGTH, 0);
    REFUSED(burgee_table_check(SLICE("0102763100000000000000\n")), BURGEE_REFUSED_TABLE_FRAME, 1);
    REFUSED(burgee_table_check(SLICE("")), BURGEE_REFUSED_TABLE_ORDER, 1);
    REFUSED(burgee_table_check(SLICE(FIRST_LINES "020168\n")), BURGEE_REFUSED_TABLE_ORDER, 4);
    REFUSED(burgee_table_check(SLICE("01000000000000000001\n")), BURGEE_REFUSED_TABLE_LIMIT, 1);
    REFUSED(burgee_table_check(SLICE("01011f0000000000000001\n")), BURGEE_REFUSED_TABLE_BYTE, 1);
    REFUSED(burgee_table_check(SLICE(FIRST_LINES "0401010101670172000103" "2e2e2e" "00\n")), BURGEE_REFUSED_TABLE_WILDCARD, 4);
    REFUSED(burgee_table_check(SLICE(FIRST_LINES "0301670175\n")), BURGEE_REFUSED_TABLE_TWICE, 4);
    REFUSED(burgee_table_check(SLICE(FIRST_LINES "0301680175\n")), BURGEE_REFUSED_TABLE_UNLISTED, 4);

    /* Every call that takes a table, with the fault at these lines. */
    static const unsigned lines[] = {1, 2, 127, 128, 254, 255, 256, 257, 448, 449};
    for (size_t i = 0; i < COUNT(lines); i++) {
        make_table(&table, 0);
        *line_of(&table, lines[i]) = 'z';
        REFUSED(burgee_table_check(TEXT(&table)), BURGEE_REFUSED_TABLE_HEX, lines[i]);
        REFUSED(burgee_group_count(TEXT(&table), SLICE("u")), BURGEE_REFUSED_TABLE_HEX, lines[i]);
        REFUSED(burgee_path_verdict(TEXT(&table), SLICE("u"), BURGEE_READ, SLICE(""), SLICE("/")), BURGEE_REFUSED_TABLE_HEX, lines[i]);
        REFUSED(burgee_tree_verdict(TEXT(&table), SLICE("u"), BURGEE_READ, SLICE(""), SLICE("/")), BURGEE_REFUSED_TABLE_HEX, lines[i]);
        REFUSED(burgee_season_report(TEXT(&table), SLICE("z"), path_bytes, 0), BURGEE_REFUSED_TABLE_HEX, lines[i]);
    }
}

static void check_group_counts(void)
{
    static text table;
    make_table(&table, 0);
    GROUP_COUNT(burgee_group_count(TEXT(&table), SLICE("c0")), 0, -1);
    GROUP_COUNT(burgee_group_count(TEXT(&table), SLICE("c1")), 1, 63);
    GROUP_COUNT(burgee_group_count(TEXT(&table), SLICE("c63")), 63, 1);
    GROUP_COUNT(burgee_group_count(TEXT(&table), SLICE("c64")), 64, 0);
    REFUSED(burgee_group_count(TEXT(&table), SLICE("")), BURGEE_REFUSED_USER_OR_MODE, 0);
}

/* With either table: each rule decides at its own path, one permits and its neighbours deny. */
static void check_table_verdicts(void)
{
    static const unsigned smallest[] = {0, 1, 254, 255};
    static const unsigned asked[] = {0, 1, 2, 63, 64, 127, 128, 253, 254, 255};
    static text table;
    for (size_t i = 0; i < COUNT(smallest); i++) {
        make_table(&table, smallest[i]);
        for (size_t k = 0; k < COUNT(asked); k++) {
            name path = numbered('r', asked[k]);
            char rooted[10];
            snprintf(rooted, sizeof rooted, "/%s", path.chars);
            unsigned action = (asked[k] + smallest[i] + 1) % 2;
            check_action(__LINE__, burgee_path_verdict(TEXT(&table), SLICE("u"), BURGEE_READ, SLICE(""), SLICE(rooted)), action, (int)asked[k]);
            TREE(burgee_tree_verdict(TEXT(&table), SLICE("u"), BURGEE_READ, SLICE(""), SLICE(rooted)), action, -1);
        }
        DENIED(burgee_path_verdict(TEXT(&table), SLICE("u"), BURGEE_READ, SLICE(""), SLICE("/")), -1);
        TREE(burgee_tree_verdict(TEXT(&table), SLICE("u"), BURGEE_READ, SLICE(""), SLICE("/")), 2, (int)smallest[i]);
        TREE(burgee_tree_verdict(TEXT(&table), SLICE("c1"), BURGEE_READ, SLICE(""), SLICE("/")), 0, -1);
    }

    /* Permitted only with each argument at its place; smallest even: rule 100 permits. */
    make_table(&table, 0);
    PERMITTED(burgee_path_verdict(TEXT(&table), SLICE("u"), BURGEE_READ, SLICE("home"), SLICE("/r100")), 100);
    TREE(burgee_tree_verdict(TEXT(&table), SLICE("u"), BURGEE_READ, SLICE("home"), SLICE("/")), 2, 100);
    make_table(&table, 1);
    PERMITTED(burgee_path_verdict(TEXT(&table), SLICE("u"), BURGEE_WRITE, SLICE(""), SLICE("/r101")), 101);
    TREE(burgee_tree_verdict(TEXT(&table), SLICE("u"), BURGEE_WRITE, SLICE(""), SLICE("/")), 2, 101);
    DENIED(burgee_path_verdict(TEXT(&table), SLICE("u"), BURGEE_READ, SLICE(""), SLICE("/r101")), -1);

    REFUSED(burgee_path_verdict(TEXT(&table), SLICE(""), BURGEE_READ, SLICE(""), SLICE("/")), BURGEE_REFUSED_USER_OR_MODE, 0);
    REFUSED(burgee_tree_verdict(TEXT(&table), SLICE("u"), 3, SLICE(""), SLICE("/")), BURGEE_REFUSED_USER_OR_MODE, 0);
    REFUSED(burgee_path_verdict(TEXT(&table), SLICE("u"), BURGEE_READ, SLICE("\x1f"), SLICE("/")), BURGEE_REFUSED_ORIGIN, 0);
    REFUSED(burgee_tree_verdict(TEXT(&table), SLICE("u"), BURGEE_READ, SLICE("\x1f"), SLICE("/")), BURGEE_REFUSED_ORIGIN, 0);
    REFUSED(burgee_path_verdict(TEXT(&table), SLICE("u"), BURGEE_READ, SLICE(""), SLICE("a")), BURGEE_REFUSED_PATH, 0);
    REFUSED(burgee_tree_verdict(TEXT(&table), SLICE("u"), BURGEE_READ, SLICE(""), SLICE("a")), BURGEE_REFUSED_PATH, 0);
}

/* ---- The season report ---------------------------------------------------------------------------------------------------------------- */

static uint8_t report[BURGEE_REPORT_MAX + 1];

/* Asks for a report in a buffer of so many bytes, each of which holds a mark. */
static uint64_t report_of(const text *table, const uint8_t *log, size_t log_len, size_t room)
{
    memset(report, 'x', sizeof report);
    return burgee_season_report(TEXT(table), log, log_len, report, room);
}

#define FIGURES 262u

/* A line for each figure, and the mark behind them. */
static void check_report(int line, uint64_t answer, const unsigned *figures)
{
    static text expected;
    expected.len = 0;
    for (unsigned i = 0; i < FIGURES; i++) {
        char number[12];
        snprintf(number, sizeof number, "%u\n", figures[i]);
        put(&expected, number);
    }
    check_filled(line, answer, (uint32_t)expected.len);
    check_equal(&checks, line, "the report is another", memcmp(report, expected.bytes, expected.len) != 0, false);
    check_equal(&checks, line, "the byte after the report", report[expected.len], 'x');
}

#define REPORTED(answer, figures) check_report(__LINE__, answer, figures)

/* And nothing was stored. */
#define UNREPORTED(answer, number, line) \
    do { \
        REFUSED(answer, number, line); \
        SAME(report[0], 'x'); \
    } while (false)

/* So many requests for a path of one element. */
static void put_requests(text *log, unsigned times, unsigned mode, const char *user, const char *origin, name path)
{
    while (times-- > 0) {
        put_byte(log, mode);
        put_string(log, user);
        put_string(log, origin);
        put_byte(log, 1);
        put_string(log, path.chars);
        put(log, "00\n");
    }
}

/* Each rule that is asked for decides another number of times; 300 reads and 1,000 writes are denied by default. */
static void check_figures(unsigned smallest)
{
    static const unsigned asked[] = {0, 1, 2, 63, 64, 127, 128, 253, 254, 255};
    static text table, log;
    unsigned figures[FIGURES] = {0};
    make_table(&table, smallest);
    log.len = 0;
    for (unsigned k = 0; k < COUNT(asked); k++) {
        put_requests(&log, k + 1, BURGEE_READ, "u", "", numbered('r', asked[k]));
        figures[asked[k]] += k + 1;
        figures[(asked[k] + smallest) % 2 == 0 ? 256 : 257] += k + 1;
    }
    put_requests(&log, 11, BURGEE_READ, "u", "home", numbered('r', RULE_WITH_ORIGIN));
    figures[RULE_WITH_ORIGIN] += 11;
    figures[(RULE_WITH_ORIGIN + smallest) % 2 == 0 ? 256 : 257] += 11;
    put_times(&log, 300, "0101630000\n");
    figures[258] += 300;
    put_requests(&log, 12, BURGEE_WRITE, "u", "", numbered('r', RULE_TO_WRITE));
    figures[RULE_TO_WRITE] += 12;
    figures[(RULE_TO_WRITE + smallest) % 2 == 0 ? 259 : 260] += 12;
    put_times(&log, 1000, "0201750000\n");
    figures[261] += 1000;

    uint64_t answer = report_of(&table, TEXT(&log), BURGEE_REPORT_MAX);
    REPORTED(answer, figures);
    size_t len = burgee_answer_length(answer);
    REPORTED(report_of(&table, TEXT(&log), len), figures);
    UNREPORTED(report_of(&table, TEXT(&log), len - 1), BURGEE_REFUSED_BUFFER, 0);
}

static void check_log_refusals(void)
{
    static const char *const bad[] = {
        "\n",               /* no digits */
        "0101750000",       /* no LF */
        "0101750000 \n",    /* a byte that is no digit */
        "010175000\n",      /* half a byte */
        "01017500\n",       /* no path */
        "010175000000\n",   /* more than a path */
        "0301750000\n",     /* 20: no mode */
        "01000000\n",       /* 20: no user */
        "010175011f00\n",   /* 21 */
        "01017500010000\n", /* 22: an element without a name */
    };
    static const unsigned lines[] = {1, 2, 127, 128, 254, 255, 256, 257, 1000};
    static text table, log;
    table.len = 0;
    put(&table, FIRST_LINES RULE_LINE);
    for (size_t i = 0; i < COUNT(lines); i++) {
        for (size_t k = 0; k < COUNT(bad); k++) {
            log.len = 0;
            put_times(&log, lines[i] - 1, "0101750000\n");
            put(&log, bad[k]);
            UNREPORTED(report_of(&table, TEXT(&log), 0), BURGEE_REFUSED_LOG_LINE, lines[i]);
        }
    }
    table.bytes[table.len - 2] = 'z';
    UNREPORTED(report_of(&table, TEXT(&log), 0), BURGEE_REFUSED_TABLE_HEX, 4);
}

/* As many lines as there may be, and one more, which is bad as well. */
static void check_longest_log(void)
{
    static uint8_t lines[11 * 1000001];
    static text table;
    unsigned figures[FIGURES] = {0};
    make_table(&table, 0);
    for (size_t i = 0; i < sizeof lines; i += 11) {
        memcpy(lines + i, "0201750000\n", 11);
    }
    lines[11 * 1000000] = 'z';
    figures[261] = 1000000;
    REPORTED(report_of(&table, lines, 11 * BURGEE_LOG_LINES_MAX, BURGEE_REPORT_MAX), figures);
    UNREPORTED(report_of(&table, lines, sizeof lines, 0), BURGEE_REFUSED_LOG_LENGTH, 0);
}

static void check_season_reports(void)
{
    static text table, log;
    unsigned figures[FIGURES] = {0};
    put(&table, FIRST_LINES RULE_LINE);
    REPORTED(report_of(&table, SLICE(""), 2 * FIGURES), figures);
    put(&log, "0101750002016100016200\n");
    figures[0] = 1;
    figures[256] = 1;
    REPORTED(report_of(&table, TEXT(&log), 2 * FIGURES), figures);
    check_figures(0);
    check_figures(1);
    check_log_refusals();
    check_longest_log();
}

/* ---- Policies ------------------------------------------------------------------------------------------------------------------------- */

#define ALLOW(rules) "{\"name\":\"p\",\"allow_rules\":[" rules "]}"

static void check_policies(void)
{
    static text policy;
    make_policy(&policy);
    SAME(burgee_policy_check(TEXT(&policy)), 0);
    DENIED(burgee_rpc_verdict(TEXT(&policy), SLICE("anyone"), SLICE("/d000"), SLICE("")), 0);
    DENIED(burgee_rpc_verdict(TEXT(&policy), SLICE("anyone"), SLICE("/d063"), SLICE("")), 63);
    PERMITTED(burgee_rpc_verdict(TEXT(&policy), SLICE("anyone"), SLICE("/a000"), SLICE("")), 0);
    PERMITTED(burgee_rpc_verdict(TEXT(&policy), SLICE("anyone"), SLICE("/a063"), SLICE("")), 63);
    PERMITTED(burgee_rpc_verdict(TEXT(&policy), SLICE("ident"), SLICE("/a062"), SLICE("name:value\n")), 62);
    DENIED(burgee_rpc_verdict(TEXT(&policy), SLICE("ident"), SLICE("/a062"), SLICE("")), -1);
    REFUSED(burgee_rpc_verdict(TEXT(&policy), SLICE("\x1f"), SLICE("/a000"), SLICE("")), BURGEE_REFUSED_IDENTITY, 0);
    REFUSED(burgee_rpc_verdict(TEXT(&policy), SLICE(""), SLICE("/a000"), SLICE("name")), BURGEE_REFUSED_HEADERS, 0);

    put_times(&policy, (unsigned)(16385 - policy.len), " ");
    REFUSED(burgee_policy_check(TEXT(&policy)), BURGEE_REFUSED_POLICY_LENGTH, 0);
    REFUSED(burgee_rpc_verdict(TEXT(&policy), SLICE(""), SLICE(""), SLICE("")), BURGEE_REFUSED_POLICY_LENGTH, 0);
    REFUSED(burgee_policy_check(SLICE("{")), BURGEE_REFUSED_POLICY_JSON, 0);
    REFUSED(burgee_policy_check(SLICE("{\"a\":1,\"a\":2}")), BURGEE_REFUSED_POLICY_TWICE, 0);
    REFUSED(burgee_policy_check(SLICE("{}")), BURGEE_REFUSED_POLICY_SCHEMA, 0);
    REFUSED(burgee_policy_check(SLICE("{\"name\":\"\\n\",\"allow_rules\":[]}")), BURGEE_REFUSED_POLICY_ESCAPE, 0);
    REFUSED(burgee_policy_check(SLICE("{\"name\":\"\",\"allow_rules\":[]}")), BURGEE_REFUSED_POLICY_LIMIT, 0);
    REFUSED(burgee_policy_check(SLICE(ALLOW("{\"name\":\"a\",\"source\":{\"principals\":[\"a*b\"]}}"))), BURGEE_REFUSED_POLICY_STAR, 0);
    REFUSED(burgee_policy_check(SLICE(ALLOW("{\"name\":\"a\",\"request\":{\"headers\":[{\"key\":\"host\",\"values\":[\"a\"]}]}}"))), BURGEE_REFUSED_POLICY_KEY, 0);
    REFUSED(burgee_policy_check(SLICE(ALLOW("{\"name\":\"a\"},{\"name\":\"a\"}"))), BURGEE_REFUSED_POLICY_RULE, 0);
}

/* ---- Rotation ------------------------------------------------------------------------------------------------------------------------- */

static uint8_t store[BURGEE_STORE_LEN];

#define STORE store, sizeof store
#define SLOT(number) (store + (number) * 32768)

/* A table through the whole of a rotation, twice, so that both slots are live once. */
static void check_rotation(void)
{
    static text first, second;
    make_table(&first, 254);
    make_table(&second, 255);
    second.len = (size_t)(line_of(&second, 449) - second.bytes);
    uint32_t first_len = (uint32_t)first.len, second_len = (uint32_t)second.len;
    burgee_record record = burgee_factory_record(BURGEE_KIND_TABLE);

    REFUSED(burgee_start(&record, store, sizeof store - 1), BURGEE_REFUSED_STORE, 0);
    REFUSED(burgee_upload(&record, STORE, TEXT(&first)), BURGEE_REFUSED_OFF, 0);
    REFUSED(burgee_finalize(&record, STORE), BURGEE_REFUSED_OFF, 0);
    REFUSED(burgee_close(&record, STORE), BURGEE_REFUSED_OFF, 0);
    RECORD_IS(&record, 2, 0, BURGEE_NONE, 0, BURGEE_NONE);
    SAME(burgee_start(&record, STORE), 0);
    RECORD_IS(&record, 2, 0, BURGEE_NONE, 1, BURGEE_NONE);
    REFUSED(burgee_start(&record, STORE), BURGEE_REFUSED_ON, 0);
    REFUSED(burgee_finalize(&record, STORE), BURGEE_REFUSED_NO_CANDIDATE, 0);
    REFUSED(burgee_upload(&record, STORE, SLICE(FIRST_LINES "z")), BURGEE_REFUSED_TABLE_HEX, 4);
    REFUSED(burgee_upload(&record, STORE, SLICE("")), BURGEE_REFUSED_TABLE_ORDER, 1);
    SAME(burgee_upload(&record, STORE, TEXT(&first)), 0);
    RECORD_IS(&record, 2, 0, BURGEE_NONE, 1, first_len);
    SAME(memcmp(SLOT(0), first.bytes, first.len), 0);
    SAME(burgee_finalize(&record, STORE), 0);
    RECORD_IS(&record, 2, 0, first_len, 0, BURGEE_NONE);

    SAME(burgee_start(&record, STORE), 0);
    SAME(burgee_upload(&record, STORE, TEXT(&second)), 0);
    RECORD_IS(&record, 2, 0, first_len, 1, second_len);
    SAME(memcmp(SLOT(0), first.bytes, first.len), 0);
    SAME(memcmp(SLOT(1), second.bytes, second.len), 0);
    SAME(burgee_finalize(&record, STORE), 0);
    RECORD_IS(&record, 2, 1, second_len, 0, BURGEE_NONE);

    record.rotating = 2;
    SAME(burgee_upload(&record, STORE, SLICE(FIRST_LINES)), 0);
    RECORD_IS(&record, 2, 1, second_len, 2, (uint32_t)strlen(FIRST_LINES));
    REFUSED(burgee_start(&record, STORE), BURGEE_REFUSED_ON, 0);
    SAME(burgee_close(&record, STORE), 0);
    RECORD_IS(&record, 2, 1, second_len, 0, BURGEE_NONE);

    record.kind = 1;
    record.rotating = 1;
    REFUSED(burgee_upload(&record, STORE, TEXT(&first)), BURGEE_REFUSED_POLICY_JSON, 0);
    record.kind = 3;
    REFUSED(burgee_start(&record, STORE), BURGEE_REFUSED_RECORD, 0);
    REFUSED(burgee_upload(&record, STORE, TEXT(&first)), BURGEE_REFUSED_RECORD, 0);
    REFUSED(burgee_finalize(&record, STORE), BURGEE_REFUSED_RECORD, 0);
    REFUSED(burgee_close(&record, STORE), BURGEE_REFUSED_RECORD, 0);
    RECORD_IS(&record, 3, 1, second_len, 1, BURGEE_NONE);
}

/* A record, and which text is in force: the first, the second, none (0); or the refusal of its probes, by its number. */
typedef struct {
    burgee_record record;
    unsigned in_force;
} probe_case;

#define FIRST 1u
#define SECOND 2u

/* The record's probes of a path and a tree, over the record and by its numbers. */
static void check_table_probes(const probe_case *tried)
{
    const burgee_record *r = &tried->record;
#define NUMBERS r->kind, r->live_slot, r->live_len, r->rotating, r->candidate_len, STORE
#define REQUEST(mode, path) SLICE("u"), mode, SLICE(""), SLICE(path)
    uint64_t last[2] = {burgee_record_probe_path(r, STORE, REQUEST(BURGEE_READ, "/r255")), burgee_probe_path(NUMBERS, REQUEST(BURGEE_READ, "/r255"))};
    uint64_t before[2] = {burgee_record_probe_path(r, STORE, REQUEST(BURGEE_READ, "/r254")), burgee_probe_path(NUMBERS, REQUEST(BURGEE_READ, "/r254"))};
    uint64_t write[2] = {burgee_record_probe_path(r, STORE, REQUEST(BURGEE_WRITE, "/r101")), burgee_probe_path(NUMBERS, REQUEST(BURGEE_WRITE, "/r101"))};
    uint64_t tree[2] = {burgee_record_probe_tree(r, STORE, REQUEST(BURGEE_READ, "/")), burgee_probe_tree(NUMBERS, REQUEST(BURGEE_READ, "/"))};
    uint64_t home[2] = {
        burgee_record_probe_tree(r, STORE, SLICE("u"), BURGEE_READ, SLICE("home"), SLICE("/")),
        burgee_probe_tree(NUMBERS, SLICE("u"), BURGEE_READ, SLICE("home"), SLICE("/")),
    };
#undef REQUEST
#undef NUMBERS
    for (int i = 0; i < 2; i++) {
        switch (tried->in_force) {
        case 0:
            DENIED(last[i], -1);
            TREE(tree[i], 0, -1);
            break;
        case FIRST: /* 254 permits and has the smallest id */
            DENIED(last[i], 255);
            PERMITTED(before[i], 254);
            DENIED(write[i], 101);
            TREE(tree[i], 2, 254);
            TREE(home[i], 2, 100);
            break;
        case SECOND: /* 1 permits and has the smallest id; there is no rule 255 */
            DENIED(last[i], -1);
            DENIED(before[i], 254);
            PERMITTED(write[i], 101);
            TREE(tree[i], 2, 1);
            TREE(home[i], 0, -1);
            break;
        default:
            REFUSED(last[i], tried->in_force, 0);
            REFUSED(tree[i], tried->in_force, 0);
            break;
        }
    }
}

/* Slot 0 has the first table, slot 1 the second, which is shorter; with another length each is no table. */
static void check_probes_of_tables(void)
{
    static text first, second;
    make_table(&first, 254);
    make_table(&second, 1);
    second.len = (size_t)(line_of(&second, 449) - second.bytes);
    memcpy(SLOT(0), first.bytes, first.len);
    memset(SLOT(0) + first.len, ' ', 32768 - first.len);
    memcpy(SLOT(1), second.bytes, second.len);
    memset(SLOT(1) + second.len, ' ', 32768 - second.len);
    const uint32_t none = BURGEE_NONE, one = (uint32_t)first.len, two = (uint32_t)second.len;
    const probe_case cases[] = {
        {{2, 0, none, 0, none}, 0},
        {{2, 9, none, 1, none}, 0},
        {{2, 0, one, 0, none}, FIRST},
        {{2, 0, one, 1, none}, FIRST},
        {{2, 0, one, 2, none}, FIRST},
        {{2, 1, two, 0, none}, SECOND},
        {{2, 1, two, 1, none}, SECOND},
        {{2, 1, two, 2, none}, SECOND},
        {{2, 0, one, 1, two}, SECOND},
        {{2, 0, one, 2, two}, SECOND},
        {{2, 1, two, 1, one}, FIRST},
        {{2, 1, two, 2, one}, FIRST},
        {{2, 0, none, 2, one}, FIRST},
        {{2, 1, none, 1, one}, FIRST},
        {{2, 0, one, 0, two}, BURGEE_REFUSED_RECORD},
        {{2, 1, two, 0, one}, BURGEE_REFUSED_RECORD},
        {{2, 2, two, 0, none}, BURGEE_REFUSED_RECORD},
        {{2, 0, 32769, 0, none}, BURGEE_REFUSED_RECORD},
        {{2, 0, none, 1, 32769}, BURGEE_REFUSED_RECORD},
        {{0, 0, none, 0, none}, BURGEE_REFUSED_RECORD},
        {{3, 0, none, 0, none}, BURGEE_REFUSED_RECORD},
        {{1, 0, none, 0, none}, BURGEE_REFUSED_KIND},
        {{1, 1, two, 2, one}, BURGEE_REFUSED_KIND},
    };
    for (size_t i = 0; i < COUNT(cases); i++) {
        check_table_probes(&cases[i]);
    }

    /* The line of a text in force, and refusals of a request. */
    burgee_record record = {2, 1, two + 1, 0, BURGEE_NONE};
    REFUSED(burgee_record_probe_path(&record, STORE, SLICE("u"), BURGEE_READ, SLICE(""), SLICE("/")), BURGEE_REFUSED_TABLE_HEX, 449);
    REFUSED(burgee_record_probe_tree(&record, STORE, SLICE("u"), BURGEE_READ, SLICE(""), SLICE("/")), BURGEE_REFUSED_TABLE_HEX, 449);
    record = burgee_factory_record(BURGEE_KIND_TABLE);
    REFUSED(burgee_record_probe_path(&record, STORE, SLICE("u"), 0, SLICE(""), SLICE("/")), BURGEE_REFUSED_USER_OR_MODE, 0);
    REFUSED(burgee_record_probe_tree(&record, STORE, SLICE("u"), BURGEE_READ, SLICE("\x1f"), SLICE("/")), BURGEE_REFUSED_ORIGIN, 0);
    REFUSED(burgee_record_probe_path(&record, STORE, SLICE("u"), BURGEE_READ, SLICE(""), SLICE("a")), BURGEE_REFUSED_PATH, 0);
    REFUSED(burgee_record_probe_path(&record, store, sizeof store - 1, SLICE("u"), BURGEE_READ, SLICE(""), SLICE("/")), BURGEE_REFUSED_STORE, 0);
    REFUSED(burgee_record_probe_rpc(&record, STORE, SLICE(""), SLICE("/"), SLICE("")), BURGEE_REFUSED_KIND, 0);
}

/* Slot 0 has the long policy, slot 1 one that denies everyone by its rule 0. */
static void check_probes_of_policies(void)
{
    static text policy;
    static const char nobody[] = "{\"name\":\"n\",\"deny_rules\":[{\"name\":\"all\"}],\"allow_rules\":[]}";
    make_policy(&policy);
    memcpy(SLOT(0), policy.bytes, policy.len);
    memcpy(SLOT(1), nobody, strlen(nobody));
    const uint32_t none = BURGEE_NONE, one = (uint32_t)policy.len, two = (uint32_t)strlen(nobody);
    const probe_case cases[] = {
        {{1, 0, none, 0, none}, 0},
        {{1, 0, one, 0, none}, FIRST},
        {{1, 1, two, 0, none}, SECOND},
        {{1, 1, two, 1, none}, SECOND},
        {{1, 0, one, 2, two}, SECOND},
        {{1, 1, two, 2, one}, FIRST},
        {{1, 1, none, 2, one}, FIRST},
        {{1, 1, two, 0, one}, BURGEE_REFUSED_RECORD},
        {{1, 2, two, 0, none}, BURGEE_REFUSED_RECORD},
        {{4, 0, none, 0, none}, BURGEE_REFUSED_RECORD},
        {{2, 0, one, 0, none}, BURGEE_REFUSED_KIND},
        {{1, 0, one - 1, 0, none}, BURGEE_REFUSED_POLICY_JSON},
    };
    for (size_t i = 0; i < COUNT(cases); i++) {
        const burgee_record *r = &cases[i].record;
        uint64_t answers[2] = {
            burgee_record_probe_rpc(r, STORE, SLICE("ident"), SLICE("/a062"), SLICE("name:value\n")),
            burgee_probe_rpc(r->kind, r->live_slot, r->live_len, r->rotating, r->candidate_len, STORE, SLICE("ident"), SLICE("/a062"),
                             SLICE("name:value\n")),
        };
        for (int k = 0; k < 2; k++) {
            switch (cases[i].in_force) {
            case 0:
                PERMITTED(answers[k], -1);
                break;
            case FIRST:
                PERMITTED(answers[k], 62);
                break;
            case SECOND:
                DENIED(answers[k], 0);
                break;
            default:
                REFUSED(answers[k], cases[i].in_force, 0);
                break;
            }
        }
    }

    burgee_record record = burgee_factory_record(BURGEE_KIND_POLICY);
    REFUSED(burgee_record_probe_rpc(&record, STORE, SLICE(""), SLICE("\x1f"), SLICE("")), BURGEE_REFUSED_IDENTITY, 0);
    REFUSED(burgee_record_probe_rpc(&record, STORE, SLICE(""), SLICE("/"), SLICE("A:b\n")), BURGEE_REFUSED_HEADERS, 0);
    REFUSED(burgee_record_probe_rpc(&record, store, sizeof store - 1, SLICE(""), SLICE("/"), SLICE("")), BURGEE_REFUSED_STORE, 0);
    REFUSED(burgee_record_probe_path(&record, STORE, SLICE("u"), BURGEE_READ, SLICE(""), SLICE("/")), BURGEE_REFUSED_KIND, 0);
    REFUSED(burgee_record_probe_tree(&record, STORE, SLICE("u"), BURGEE_READ, SLICE(""), SLICE("/")), BURGEE_REFUSED_KIND, 0);
}

int main(void)
{
    check_refusal_names();
    check_refusal_texts();
    check_constants();
    check_record();
    check_refused_words();
    check_accepted_words();
    check_paths();
    check_table_refusals();
    check_group_counts();
    check_table_verdicts();
    check_season_reports();
    check_policies();
    check_rotation();
    check_probes_of_tables();
    check_probes_of_policies();
    check_wrappers(&checks);
    printf("%u checks, %u failed\n", checks.made, checks.failed);
    return checks.failed == 0 ? 0 : 1;
}
