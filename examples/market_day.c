/* A small market day: animals come, are looked up, and leave, and a lorry is unloaded. */
#include <stdio.h>
#include "tag_code.h"
#include "tag_index.h"

enum { ENTRIES = 60, PAGES = 250, RECORDS = 4096 };

static uint8_t pages[TAG_INDEX_BYTES(ENTRIES, PAGES)];
static uint64_t keys[RECORDS];
static uint8_t used[RECORDS];
#define TABLES pages, sizeof pages, keys, RECORDS, used, RECORDS

static uint64_t tag(uint64_t country, uint64_t national) {
    return tag_code_pack(1, 0, 0, 0, 0, country, national).code;
}

/* Makes the movements of a lorry in one call, and prints the number of each. */
static void unload(void) {
    struct tag_index_movement lorry[] = {
        {.key = tag(826, 20), .record = 7, .on = 1},
        {.key = tag(826, 21), .record = 2, .on = 1}, /* refused: 16 has this record */
        {.key = tag(826, 16), .on = 0},
        {.key = tag(826, 22), .record = 2, .on = 1},
    };
    enum { HEAD = sizeof lorry / sizeof lorry[0] };
    uint32_t answers[HEAD];

    printf("load: %u\n", tag_index_load(TABLES, lorry, HEAD, answers, HEAD).number);
    for (size_t i = 0; i < HEAD; i++) {
        unsigned national = (unsigned)tag_code_unpack(lorry[i].key).national;
        printf("  %s %u: %u\n", lorry[i].on ? "on" : "off", national, answers[i]);
    }
}

int main(void) {
    uint32_t out[32];

    printf("format: %u\n", tag_index_format(TABLES, 64, ENTRIES, PAGES).number);
    printf("on 17, record 5: %u\n", tag_index_on(TABLES, tag(826, 17), 5).number);
    printf("on 16, record 2: %u\n", tag_index_on(TABLES, tag(826, 16), 2).number);
    if (tag_index_on(TABLES, tag(826, 18), 5).number == TAG_INDEX_RECORD_IN_USE)
        printf("on 18, record 5: the record is in use\n");
    printf("find 17: record %u\n", tag_index_find(TABLES, tag(826, 17)).record);

    uint64_t first = tag(826, 0), last = tag(826, TAG_CODE_MAX_NATIONAL);
    struct tag_index_answer listed = tag_index_list(TABLES, first, last, out, 32);
    printf("list country 826:");
    for (uint64_t i = 0; i < listed.count; i++)
        printf(" %u", out[i]);
    printf("%s\n", listed.more ? " +" : "");

    printf("off 17: %u\n", tag_index_off(TABLES, tag(826, 17)).number);
    printf("find 17: %u\n", tag_index_find(TABLES, tag(826, 17)).number);
    unload();
    printf("sound: %s\n", tag_index_check(TABLES) ? "yes" : "no");
    return 0;
}
