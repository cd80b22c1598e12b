/* Tries a new table while the old one is kept. */
#include <stdio.h>
#include <string.h>
#include "burgee.h"

#define SLICE(string) (const uint8_t *)(string), strlen(string)

int main(void)
{
    static uint8_t store[BURGEE_STORE_LEN];
    burgee_record record = burgee_factory_record(BURGEE_KIND_TABLE);
    const char *table = "010276310000000000000001\n020167\n0301670175\n04010101016701720001016101016b012a\n";
    burgee_start(&record, store, sizeof store);
    if (burgee_upload(&record, store, sizeof store, SLICE(table)) != 0) {
        return 1;                                       /* refused, and nothing was stored */
    }
    uint64_t answer = burgee_record_probe_path(&record, store, sizeof store, SLICE("u"), BURGEE_READ, SLICE(""), SLICE("/a/b"));
    printf("%s by rule %d\n", burgee_is_permitted(answer) ? "permit" : "deny", burgee_answer_rule(answer)); /* a refusal permits nothing */
    burgee_close(&record, store, sizeof store);         /* or burgee_finalize: the new table counts */
    return 0;
}
