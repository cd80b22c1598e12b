/*
 * Burgeehoist: proved authorization for network switches.
 *
 * Every call takes numbers and byte slices and answers one 64-bit number. A slice is
 * a pointer and a length; the pointer is never NULL, also where the length is 0.
 * Slices are not text with a closing NUL: the length says where they end. The slices
 * lent to one call do not overlap.
 *
 * Read an answer with the burgee_answer_... functions below. Of a refusal each of them
 * gives the safe value (deny, NONE, no rule, no group, 0), so that a forgotten look at
 * the refusal number permits nothing. A refused call has stored nothing.
 */
#ifndef BURGEE_H
#define BURGEE_H

#include <stddef.h>
#include <stdint.h>

#ifdef __cplusplus
extern "C" {
#endif

/* ---- The version --------------------------------------------------------------- */

/* Of this header and its library; CHANGELOG.md says what changed. */
#define BURGEE_VERSION_STRING "0.1.0"

/* As one number, which grows with the version: major * 10000 + minor * 100 + patch. */
#define BURGEE_VERSION 100

/* ---- The answer ---------------------------------------------------------------- */

/* Refusal numbers. Those of a table, 1 to 9, and 51 carry a line; 1 has line 0. */
#define BURGEE_REFUSED_TABLE_LENGTH 1u   /* more than 32,768 bytes                        */
#define BURGEE_REFUSED_TABLE_HEX 2u      /* not a line of hex digits with its LF          */
#define BURGEE_REFUSED_TABLE_FRAME 3u    /* unknown kind or code, too short or too long   */
#define BURGEE_REFUSED_TABLE_ORDER 4u    /* kinds out of order, or no line at all         */
#define BURGEE_REFUSED_TABLE_LIMIT 5u    /* past a limit, or empty where not allowed      */
#define BURGEE_REFUSED_TABLE_BYTE 6u     /* a byte outside its set                        */
#define BURGEE_REFUSED_TABLE_WILDCARD 7u /* an asterisk misplaced, or an element `...`    */
#define BURGEE_REFUSED_TABLE_TWICE 8u    /* a group, member, rule id or key twice         */
#define BURGEE_REFUSED_TABLE_UNLISTED 9u /* a group that isn't listed                     */
#define BURGEE_REFUSED_STORE 11u         /* a store shorter than 65,536 bytes             */
#define BURGEE_REFUSED_ON 12u            /* start while a rotation is on                  */
#define BURGEE_REFUSED_OFF 13u           /* upload, finalize or close while off           */
#define BURGEE_REFUSED_NO_CANDIDATE 14u  /* finalize without a candidate                  */
#define BURGEE_REFUSED_RECORD 15u        /* kind, slot or length of no record, or a       */
                                         /* candidate while no rotation is on             */
#define BURGEE_REFUSED_KIND 16u          /* a probe that the record's kind doesn't have   */
#define BURGEE_REFUSED_USER_OR_MODE 20u  /* a user or a mode that no table has            */
#define BURGEE_REFUSED_ORIGIN 21u        /* an origin that no table has                   */
#define BURGEE_REFUSED_PATH 22u          /* not path text, or not the bytes of one path   */
#define BURGEE_REFUSED_BUFFER 23u        /* the result doesn't fit into the lent buffer   */
#define BURGEE_REFUSED_POLICY_LENGTH 30u /* more than 16,384 bytes                        */
#define BURGEE_REFUSED_POLICY_JSON 31u   /* not one JSON value in our bytes and depth     */
#define BURGEE_REFUSED_POLICY_TWICE 32u  /* a member name twice in one object             */
#define BURGEE_REFUSED_POLICY_SCHEMA 33u /* not the schema                                */
#define BURGEE_REFUSED_POLICY_ESCAPE 34u /* a backslash in a string                       */
#define BURGEE_REFUSED_POLICY_LIMIT 35u  /* past a limit, or empty where not allowed      */
#define BURGEE_REFUSED_POLICY_STAR 36u   /* an asterisk misplaced, or two                 */
#define BURGEE_REFUSED_POLICY_KEY 37u    /* a barred or ill-spelt header key              */
#define BURGEE_REFUSED_POLICY_RULE 38u   /* a rule name twice in a list                   */
#define BURGEE_REFUSED_IDENTITY 40u      /* identity or path too long, or a byte in them  */
#define BURGEE_REFUSED_HEADERS 41u       /* header lines ill-formed or too long           */
#define BURGEE_REFUSED_LOG_LENGTH 50u    /* more than 1,000,000 lines                     */
#define BURGEE_REFUSED_LOG_LINE 51u      /* a line that is no request, or 20 to 22 of it  */

/* The refusal number, or 0 where the call was not refused. */
static inline unsigned burgee_answer_refusal(uint64_t answer)
{
    return (unsigned)(answer & 0xFFu);
}

/* What a refusal number means, in the words of the command line; never NULL. */
static inline const char *burgee_refusal_text(unsigned number)
{
    switch (number) {
    case 0:
        return "not refused";
    case BURGEE_REFUSED_TABLE_LENGTH:
        return "the table text is over 32,768 bytes";
    case BURGEE_REFUSED_TABLE_HEX:
        return "not a hex line: an even, nonzero count of digits 0-9a-f, then LF";
    case BURGEE_REFUSED_TABLE_FRAME:
        return "unknown kind or code byte, or the frame is too short or too long";
    case BURGEE_REFUSED_TABLE_ORDER:
        return "order of kinds: one version line first, then groups, members, rules";
    case BURGEE_REFUSED_TABLE_LIMIT:
        return "a limit passed, or an empty string that may not be empty";
    case BURGEE_REFUSED_TABLE_BYTE:
        return "a byte outside its set";
    case BURGEE_REFUSED_TABLE_WILDCARD:
        return "a wildcard misplaced, or an element named ...";
    case BURGEE_REFUSED_TABLE_TWICE:
        return "group name, member in a group, rule id, or key in an element twice";
    case BURGEE_REFUSED_TABLE_UNLISTED:
        return "the group is not listed";
    case BURGEE_REFUSED_STORE:
        return "the store is shorter than 65,536 bytes";
    case BURGEE_REFUSED_ON:
        return "a rotation is on already";
    case BURGEE_REFUSED_OFF:
        return "no rotation is on";
    case BURGEE_REFUSED_NO_CANDIDATE:
        return "there is no candidate";
    case BURGEE_REFUSED_RECORD:
        return "not a record: its kind, its slot, a length, or a candidate while no rotation is on";
    case BURGEE_REFUSED_KIND:
        return "the record is of the other kind";
    case BURGEE_REFUSED_USER_OR_MODE:
        return "user or mode not as a table allows: a user's name has 1 to 64 bytes that print";
    case BURGEE_REFUSED_ORIGIN:
        return "origin not as a table allows: it has at most 32 bytes that print";
    case BURGEE_REFUSED_PATH:
        return "not a path, as text (/ or /NAME[KEY=VALUE]..) or as bytes, within the limits of a rule's";
    case BURGEE_REFUSED_BUFFER:
        return "the result does not fit the buffer";
    case BURGEE_REFUSED_POLICY_LENGTH:
        return "the policy is over 16,384 bytes";
    case BURGEE_REFUSED_POLICY_JSON:
        return "not one JSON value, in printable bytes, nested to depth 16 at most";
    case BURGEE_REFUSED_POLICY_TWICE:
        return "a member name twice in one object";
    case BURGEE_REFUSED_POLICY_SCHEMA:
        return "not the schema of a policy";
    case BURGEE_REFUSED_POLICY_ESCAPE:
        return "a backslash in a string";
    case BURGEE_REFUSED_POLICY_LIMIT:
        return "a limit passed, or empty where that is not allowed";
    case BURGEE_REFUSED_POLICY_STAR:
        return "an asterisk elsewhere than at one end of a pattern";
    case BURGEE_REFUSED_POLICY_KEY:
        return "a barred or ill-spelt header key";
    case BURGEE_REFUSED_POLICY_RULE:
        return "a rule name twice in a list";
    case BURGEE_REFUSED_IDENTITY:
        return "identity or path over 256 bytes, or a byte of it does not print";
    case BURGEE_REFUSED_HEADERS:
        return "header lines ill-formed, over 8,192 bytes together, or a byte of a value does not print";
    case BURGEE_REFUSED_LOG_LENGTH:
        return "the log has more than 1,000,000 lines";
    case BURGEE_REFUSED_LOG_LINE:
        return "not a line of a log: mode, user, origin and path of a good request, in hex digits, then LF";
    default:
        return "no refusal number of this version";
    }
}

/* The line that a refusal carries, counted from 1, of the table with 2 to 9 and of the log
 * with 51; 0 where there is none: with any other number, and where the call was not refused. */
static inline uint32_t burgee_answer_line(uint64_t answer)
{
    unsigned number = burgee_answer_refusal(answer);
    int is_table = number != 0 && number <= BURGEE_REFUSED_TABLE_UNLISTED;
    return is_table || number == BURGEE_REFUSED_LOG_LINE ? (uint32_t)(answer >> 8) : 0;
}

/* Bits 8 to 63 of an answer; 0 of a refusal. For the readers below. */
static inline uint64_t burgee_answer_accepted(uint64_t answer)
{
    return burgee_answer_refusal(answer) == 0 ? answer >> 8 : 0;
}

/* Of burgee_path_read, burgee_path_write and burgee_season_report: how many bytes were filled. */
static inline uint32_t burgee_answer_length(uint64_t answer)
{
    return (uint32_t)burgee_answer_accepted(answer);
}

/* Of burgee_group_count: how many groups hold the user, 0 to 64. */
static inline unsigned burgee_answer_group_count(uint64_t answer)
{
    return (unsigned)(burgee_answer_accepted(answer) & 0xFFu);
}

/* Of burgee_group_count: the smallest number of a group that holds the user, groups
 * being numbered from 0 in the order of the table; -1 where none does. */
static inline int burgee_answer_first_group(uint64_t answer)
{
    return (int)(burgee_answer_accepted(answer) >> 8 & 0xFFFFu) - 1;
}

#define BURGEE_DENY 0u
#define BURGEE_PERMIT 1u

/* Of a path or an RPC verdict or probe: whether what was asked is permitted. It is not
 * where the call was refused: nothing was decided then. */
static inline int burgee_is_permitted(uint64_t answer)
{
    return (burgee_answer_accepted(answer) & 0xFFu) == BURGEE_PERMIT;
}

/* Of a path or an RPC verdict or probe: 0 deny, 1 permit. */
static inline unsigned burgee_answer_action(uint64_t answer)
{
    return burgee_is_permitted(answer) ? BURGEE_PERMIT : BURGEE_DENY;
}

/* Of a tree verdict or probe: 0 NONE, 1 ALL, 2 MIXED. */
#define BURGEE_TREE_NONE 0u
#define BURGEE_TREE_ALL 1u
#define BURGEE_TREE_MIXED 2u
static inline unsigned burgee_answer_tree(uint64_t answer)
{
    unsigned tree = (unsigned)(burgee_answer_accepted(answer) & 0xFFu);
    return tree <= BURGEE_TREE_MIXED ? tree : BURGEE_TREE_NONE;
}

/* The number of the rule that decided, or that MIXED names, rules being numbered
 * from 0 in the order of their text; -1 where there is none, as by default. */
static inline int burgee_answer_rule(uint64_t answer)
{
    return (int)(burgee_answer_accepted(answer) >> 8 & 0xFFFFu) - 1;
}

/* ---- Paths --------------------------------------------------------------------- */

/* Buffers of these lengths hold the result for every path. */
#define BURGEE_PATH_BYTES_MAX 9377u
#define BURGEE_PATH_TEXT_MAX 13520u

/*
 * Path text to path bytes: fills the start of `out`, stores nothing beyond the length
 * that the answer reports. An exact fit fits. Refused with 22 or 23; where both
 * apply, with 22.
 */
uint64_t burgee_path_read(const uint8_t *text, size_t text_len, uint8_t *out, size_t out_len);

/* Path bytes to path text, likewise. */
uint64_t burgee_path_write(const uint8_t *bytes, size_t bytes_len, uint8_t *out, size_t out_len);

/* ---- Rule tables --------------------------------------------------------------- */

#define BURGEE_TABLE_TEXT_MAX 32768u

/* Checks a whole table text. Answers 0, or a refusal from 1 to 9 with its line: the
 * first line at fault, and of its faults the smallest number. */
uint64_t burgee_table_check(const uint8_t *table, size_t table_len);

/* How many groups of the table hold the user. Refused as burgee_table_check is, then
 * with 20. */
uint64_t burgee_group_count(const uint8_t *table, size_t table_len, const uint8_t *user, size_t user_len);

/* The modes of a request. */
#define BURGEE_READ 1u
#define BURGEE_WRITE 2u

/*
 * The verdict for one path: whether the user may read or write there, and by which
 * rule. Refused as burgee_table_check is, then with 20 to 22. A subscription is
 * accepted on this verdict, whatever the tree verdict.
 */
uint64_t burgee_path_verdict(const uint8_t *table, size_t table_len, const uint8_t *user, size_t user_len,
                             uint32_t mode, const uint8_t *origin, size_t origin_len, const uint8_t *path,
                             size_t path_len);

/*
 * The verdict for everything at and beneath the path: all of it permitted, none of it,
 * or some; with MIXED comes a rule that makes the difference. Refused likewise.
 */
uint64_t burgee_tree_verdict(const uint8_t *table, size_t table_len, const uint8_t *user, size_t user_len,
                             uint32_t mode, const uint8_t *origin, size_t origin_len, const uint8_t *path,
                             size_t path_len);

/* A log has so many lines at most. A buffer of this length holds every report. */
#define BURGEE_LOG_LINES_MAX 1000000u
#define BURGEE_REPORT_MAX 2096u

/*
 * The season report: the requests of a log, each judged as burgee_path_verdict does, and
 * counted. A log is hex lines as a table is, one request a line: a mode byte; the user and
 * the origin, each after a length byte; path bytes. Fills the start of `out` with 262 lines,
 * each a decimal number and LF: how often each of the rules 0 to 255 decided, then how many
 * reads were permitted, denied by a rule and denied by default, then the writes likewise.
 * Stores nothing beyond the length that the answer reports. An exact fit fits. Refused as
 * burgee_table_check is; then at the first line of the log that is one too many (50) or no
 * request that can be judged (51, with its line), with 50 where it is both; then with 23.
 */
uint64_t burgee_season_report(const uint8_t *table, size_t table_len, const uint8_t *log, size_t log_len, uint8_t *out,
                              size_t out_len);

/* ---- RPC policies -------------------------------------------------------------- */

#define BURGEE_POLICY_TEXT_MAX 16384u

/* Checks a whole policy text. Answers 0, or a refusal from 30 to 38, without a line. */
uint64_t burgee_policy_check(const uint8_t *policy, size_t policy_len);

/*
 * The verdict for one RPC. `identity` is empty without a client certificate; `headers`
 * are lines: name, `:`, value, LF. The rule's number counts in `deny_rules` where the
 * action is deny, in `allow_rules` where it is permit. Refused as burgee_policy_check
 * is, then with 40 or 41.
 */
uint64_t burgee_rpc_verdict(const uint8_t *policy, size_t policy_len, const uint8_t *identity, size_t identity_len,
                            const uint8_t *path, size_t path_len, const uint8_t *headers, size_t headers_len);

/* ---- Rotation ------------------------------------------------------------------ */

/*
 * The daemon keeps a record and a store, and lends both to each call. The record is
 * changed where it lies; the store is two slots of 32,768 bytes one after the other,
 * and bytes past them are left alone.
 */
typedef struct {
    uint32_t kind;          /* 1 policy, 2 table                                     */
    uint32_t live_slot;     /* 0 or 1; counts only where live_len is not none        */
    uint32_t live_len;      /* length of the live text, or BURGEE_NONE               */
    uint32_t rotating;      /* 0 off, any other number on                            */
    uint32_t candidate_len; /* length of the candidate, or BURGEE_NONE               */
} burgee_record;

#define BURGEE_NONE 0xFFFFFFFFu
#define BURGEE_KIND_POLICY 1u
#define BURGEE_KIND_TABLE 2u
#define BURGEE_STORE_LEN 65536u

/* A record as it is before anything was ever uploaded. */
static inline burgee_record burgee_factory_record(uint32_t kind)
{
    burgee_record record;
    record.kind = kind;
    record.live_slot = 0;
    record.live_len = BURGEE_NONE;
    record.rotating = 0;
    record.candidate_len = BURGEE_NONE;
    return record;
}

/* Begins a rotation. Refused with 11, 15 or 12. */
uint64_t burgee_start(burgee_record *record, const uint8_t *store, size_t store_len);

/*
 * Checks a text of the record's kind, and stores it as the candidate, which is in
 * force at once; a second upload replaces the first. Refused with 11, 15 or 13, then as
 * burgee_policy_check or burgee_table_check is. The one call that stores to the slots.
 */
uint64_t burgee_upload(burgee_record *record, uint8_t *store, size_t store_len, const uint8_t *text, size_t text_len);

/* Makes the candidate the live text and ends the rotation. Refused with 11, 15, 13 or 14. */
uint64_t burgee_finalize(burgee_record *record, const uint8_t *store, size_t store_len);

/* Drops the candidate, if there is one, and ends the rotation. Refused with 11, 15 or 13. */
uint64_t burgee_close(burgee_record *record, const uint8_t *store, size_t store_len);

/*
 * Probes judge a request on what is in force: the candidate, else the live text, else
 * factory, which permits every RPC and denies every path, naming no rule. They take the
 * parts of the record one by one; use the burgee_record_probe_... functions below to
 * give the record. Refused with 11, 15 or 16, then as the text in force is, then as the
 * request is.
 */
uint64_t burgee_probe_path(uint32_t kind, uint32_t live_slot, uint32_t live_len, uint32_t rotating,
                           uint32_t candidate_len, const uint8_t *store, size_t store_len, const uint8_t *user,
                           size_t user_len, uint32_t mode, const uint8_t *origin, size_t origin_len,
                           const uint8_t *path, size_t path_len);
uint64_t burgee_probe_tree(uint32_t kind, uint32_t live_slot, uint32_t live_len, uint32_t rotating,
                           uint32_t candidate_len, const uint8_t *store, size_t store_len, const uint8_t *user,
                           size_t user_len, uint32_t mode, const uint8_t *origin, size_t origin_len,
                           const uint8_t *path, size_t path_len);
uint64_t burgee_probe_rpc(uint32_t kind, uint32_t live_slot, uint32_t live_len, uint32_t rotating,
                          uint32_t candidate_len, const uint8_t *store, size_t store_len, const uint8_t *identity,
                          size_t identity_len, const uint8_t *path, size_t path_len, const uint8_t *headers,
                          size_t headers_len);

static inline uint64_t burgee_record_probe_path(const burgee_record *record, const uint8_t *store, size_t store_len,
                                                const uint8_t *user, size_t user_len, uint32_t mode,
                                                const uint8_t *origin, size_t origin_len, const uint8_t *path,
                                                size_t path_len)
{
    return burgee_probe_path(record->kind, record->live_slot, record->live_len, record->rotating,
                             record->candidate_len, store, store_len, user, user_len, mode, origin, origin_len, path,
                             path_len);
}

static inline uint64_t burgee_record_probe_tree(const burgee_record *record, const uint8_t *store, size_t store_len,
                                                const uint8_t *user, size_t user_len, uint32_t mode,
                                                const uint8_t *origin, size_t origin_len, const uint8_t *path,
                                                size_t path_len)
{
    return burgee_probe_tree(record->kind, record->live_slot, record->live_len, record->rotating,
                             record->candidate_len, store, store_len, user, user_len, mode, origin, origin_len, path,
                             path_len);
}

static inline uint64_t burgee_record_probe_rpc(const burgee_record *record, const uint8_t *store, size_t store_len,
                                               const uint8_t *identity, size_t identity_len, const uint8_t *path,
                                               size_t path_len, const uint8_t *headers, size_t headers_len)
{
    return burgee_probe_rpc(record->kind, record->live_slot, record->live_len, record->rotating,
                            record->candidate_len, store, store_len, identity, identity_len, path, path_len, headers,
                            headers_len);
}

#ifdef __cplusplus
}
#endif

#endif /* BURGEE_H */
