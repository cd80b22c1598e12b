/*
 * The wrappers of the probes, with recorders in the place of the probes: each argument has another value, and arrives as it was given.
 */
#define burgee_probe_path recorded_probe_path
#define burgee_probe_tree recorded_probe_tree
#define burgee_probe_rpc recorded_probe_rpc
#include "burgee.h"
#include "check.h"

/* Which probe was called, and what it was handed. */
typedef struct {
    char probe;
    uint32_t record[5];
    const uint8_t *slice[4];
    size_t len[4];
    uint32_t mode;
} call;

static call recorded;

static void record_call(char probe, uint32_t kind, uint32_t live_slot, uint32_t live_len, uint32_t rotating, uint32_t candidate_len, uint32_t mode)
{
    recorded.probe = probe;
    recorded.record[0] = kind;
    recorded.record[1] = live_slot;
    recorded.record[2] = live_len;
    recorded.record[3] = rotating;
    recorded.record[4] = candidate_len;
    recorded.mode = mode;
}

static void record_slice(int number, const uint8_t *slice, size_t len)
{
    recorded.slice[number] = slice;
    recorded.len[number] = len;
}

#define ANSWER_PATH UINT64_C(0xFEDCBA9876543210)
#define ANSWER_TREE UINT64_C(0xEDCBA98765432101)
#define ANSWER_RPC UINT64_C(0xDCBA987654321012)

uint64_t burgee_probe_path(uint32_t kind, uint32_t live_slot, uint32_t live_len, uint32_t rotating, uint32_t candidate_len, const uint8_t *store,
                           size_t store_len, const uint8_t *user, size_t user_len, uint32_t mode, const uint8_t *origin, size_t origin_len,
                           const uint8_t *path, size_t path_len)
{
    record_call('p', kind, live_slot, live_len, rotating, candidate_len, mode);
    record_slice(0, store, store_len);
    record_slice(1, user, user_len);
    record_slice(2, origin, origin_len);
    record_slice(3, path, path_len);
    return ANSWER_PATH;
}

uint64_t burgee_probe_tree(uint32_t kind, uint32_t live_slot, uint32_t live_len, uint32_t rotating, uint32_t candidate_len, const uint8_t *store,
                           size_t store_len, const uint8_t *user, size_t user_len, uint32_t mode, const uint8_t *origin, size_t origin_len,
                           const uint8_t *path, size_t path_len)
{
    record_call('t', kind, live_slot, live_len, rotating, candidate_len, mode);
    record_slice(0, store, store_len);
    record_slice(1, user, user_len);
    record_slice(2, origin, origin_len);
    record_slice(3, path, path_len);
    return ANSWER_TREE;
}

uint64_t burgee_probe_rpc(uint32_t kind, uint32_t live_slot, uint32_t live_len, uint32_t rotating, uint32_t candidate_len, const uint8_t *store,
                          size_t store_len, const uint8_t *identity, size_t identity_len, const uint8_t *path, size_t path_len, const uint8_t *headers,
                          size_t headers_len)
{
    record_call('r', kind, live_slot, live_len, rotating, candidate_len, 0);
    record_slice(0, store, store_len);
    record_slice(1, identity, identity_len);
    record_slice(2, path, path_len);
    record_slice(3, headers, headers_len);
    return ANSWER_RPC;
}

/* The i-th slice starts at byte i, and has 100 + i bytes (that nobody reads). */
static void check_recorded(tally *checks, char probe, const uint8_t *bytes, const burgee_record *record, uint32_t mode)
{
    EQUAL(checks, recorded.probe, probe);
    EQUAL(checks, recorded.record[0], record->kind);
    EQUAL(checks, recorded.record[1], record->live_slot);
    EQUAL(checks, recorded.record[2], record->live_len);
    EQUAL(checks, recorded.record[3], record->rotating);
    EQUAL(checks, recorded.record[4], record->candidate_len);
    EQUAL(checks, recorded.mode, mode);
    for (int i = 0; i < 4; i++) {
        EQUAL(checks, recorded.slice[i] - bytes, i);
        EQUAL(checks, recorded.len[i], 100 + i);
    }
}

void check_wrappers(tally *checks)
{
    static const uint8_t bytes[4] = {0, 0, 0, 0};
    static const burgee_record records[] = {
        {11, 12, 13, 14, 15}, {2, 1, 90, 0, 70}, {2, 1, 90, 1, 70}, {1, 1, 90, 2, 70}, {0xFFFFFFFFu, 0xFFFFFFFEu, 0xFFFFFFFDu, 0xFFFFFFFCu, 0xFFFFFFFBu},
    };
    for (size_t i = 0; i < sizeof records / sizeof records[0]; i++) {
        const burgee_record *record = &records[i];
        burgee_record before = *record;
        EQUAL(checks, burgee_record_probe_path(record, bytes, 100, bytes + 1, 101, 31, bytes + 2, 102, bytes + 3, 103), ANSWER_PATH);
        check_recorded(checks, 'p', bytes, &before, 31);
        EQUAL(checks, burgee_record_probe_tree(record, bytes, 100, bytes + 1, 101, 32, bytes + 2, 102, bytes + 3, 103), ANSWER_TREE);
        check_recorded(checks, 't', bytes, &before, 32);
        EQUAL(checks, burgee_record_probe_rpc(record, bytes, 100, bytes + 1, 101, bytes + 2, 102, bytes + 3, 103), ANSWER_RPC);
        check_recorded(checks, 'r', bytes, &before, 0);
    }
}
