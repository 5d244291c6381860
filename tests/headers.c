/* What the headers name, beside what the libraries answer: each refusal by a
   small example, and each limit from both sides. */
#include <stddef.h>
#include <stdio.h>
#include <stdlib.h>
#include <string.h>
#include "tag_code.h"
#include "tag_index.h"

static int failures;

#define SAME(value, expected) same((uint64_t)(value), (uint64_t)(expected), #value, __LINE__)

static void same(uint64_t value, uint64_t expected, const char *what, int line) {
    if (value == expected)
        return;
    printf("tests/headers.c:%d: %s is %llu, not %llu\n", line, what, (unsigned long long)value,
           (unsigned long long)expected);
    failures++;
}

/* Tables for the largest sizes; a call is lent their front. */
static uint8_t pages[TAG_INDEX_BYTES(TAG_INDEX_MAX_ENTRIES, TAG_INDEX_MAX_PAGES + 1)];
static uint64_t keys[TAG_INDEX_MAX_RECORDS + 1];
static uint8_t used[TAG_INDEX_MAX_RECORDS + 1];
static size_t bytes, records;
#define TABLES pages, bytes, keys, records, used, records

static uint32_t format(uint64_t w, uint64_t e, uint64_t p, size_t n) {
    bytes = TAG_INDEX_BYTES(e, p);
    records = n;
    return tag_index_format(TABLES, w, e, p).number;
}

static uint32_t on(uint64_t key, uint32_t record) {
    return tag_index_on(TABLES, key, record).number;
}

/* A load of all movements of an array; what every answer of a load has is
   seen to here. */
#define LOAD(movements, answers, length) load(movements, sizeof(movements) / sizeof(movements)[0], answers, length)

static uint32_t load(const struct tag_index_movement *movements, size_t n, uint32_t *answers, size_t length) {
    struct tag_index_answer answer = tag_index_load(TABLES, movements, n, answers, length);
    SAME(answer.record, TAG_INDEX_NO_RECORD);
    SAME(answer.count, 0);
    SAME(answer.more, false);
    return answer.number;
}

static void limits(void) {
    SAME(format(TAG_INDEX_MIN_WIDTH, TAG_INDEX_MIN_ENTRIES, TAG_INDEX_MIN_PAGES, TAG_INDEX_MIN_RECORDS),
         TAG_INDEX_DONE);
    SAME(format(TAG_INDEX_MAX_WIDTH, TAG_INDEX_MAX_ENTRIES, TAG_INDEX_MAX_PAGES, TAG_INDEX_MAX_RECORDS),
         TAG_INDEX_DONE);
    SAME(tag_index_check(TABLES), true);
    SAME(format(TAG_INDEX_MIN_WIDTH - 1, 5, 10, 4), TAG_INDEX_OUTSIDE_LIMITS);
    SAME(format(TAG_INDEX_MAX_WIDTH + 1, 5, 10, 4), TAG_INDEX_OUTSIDE_LIMITS);
    SAME(format(8, TAG_INDEX_MIN_ENTRIES - 1, 10, 4), TAG_INDEX_OUTSIDE_LIMITS);
    SAME(format(8, TAG_INDEX_MAX_ENTRIES + 1, 10, 4), TAG_INDEX_OUTSIDE_LIMITS);
    SAME(format(8, 5, TAG_INDEX_MIN_PAGES - 1, 4), TAG_INDEX_OUTSIDE_LIMITS);
    SAME(format(8, 5, TAG_INDEX_MAX_PAGES + 1, 4), TAG_INDEX_OUTSIDE_LIMITS);
    SAME(format(8, 5, 10, TAG_INDEX_MIN_RECORDS - 1), TAG_INDEX_OUTSIDE_LIMITS);
    SAME(format(8, 5, 10, TAG_INDEX_MAX_RECORDS + 1), TAG_INDEX_OUTSIDE_LIMITS);
    bytes++;
    SAME(tag_index_format(TABLES, 8, 5, 10).number, TAG_INDEX_OUTSIDE_LIMITS);
}

static void refusals(void) {
    SAME(format(8, 5, 10, 4), TAG_INDEX_DONE);
    SAME(on(256, 0), TAG_INDEX_KEY_TOO_WIDE);
    SAME(on(7, 4), TAG_INDEX_NO_SUCH_RECORD);
    SAME(on(7, 0), TAG_INDEX_DONE);
    SAME(on(8, 0), TAG_INDEX_RECORD_IN_USE);
    SAME(on(7, 1), TAG_INDEX_KEY_HELD);
    SAME(tag_index_find(TABLES, 7).record, 0);
    struct tag_index_answer absent = tag_index_find(TABLES, 8);
    SAME(absent.number, TAG_INDEX_KEY_NOT_HELD);
    SAME(absent.record, TAG_INDEX_NO_RECORD);
    bytes = TAG_INDEX_HEADER_BYTES - 1;
    SAME(on(8, 1), TAG_INDEX_NOT_SOUND);
    SAME(tag_index_check(TABLES), false);
}

/* Byte 4 and 5 of the header: the root page. Its first byte is its level. */
static uint8_t root_level(void) {
    size_t root = 256 * (size_t)pages[4] + pages[5];
    return pages[TAG_INDEX_HEADER_BYTES + root * TAG_INDEX_PAGE_BYTES(pages[1])];
}

static void heights(void) {
    SAME(format(17, 2, 1000, 2), TAG_INDEX_DONE);
    SAME(on(0x1fffe, 0), TAG_INDEX_DONE);
    SAME(on(0x1ffff, 1), TAG_INDEX_ROOT_TOO_HIGH);
    SAME(format(16, 2, 135, 2), TAG_INDEX_DONE);
    SAME(on(0xfffe, 0), TAG_INDEX_DONE);
    SAME(on(0xffff, 1), TAG_INDEX_OUT_OF_PAGES);
    SAME(format(16, 2, 136, 2), TAG_INDEX_DONE);
    SAME(on(0xfffe, 0), TAG_INDEX_DONE);
    SAME(on(0xffff, 1), TAG_INDEX_DONE);
    SAME(root_level(), TAG_INDEX_MAX_LEVEL);
}

static void movements(void) {
    SAME(sizeof(struct tag_index_movement), 16);
    SAME(offsetof(struct tag_index_movement, key), 0);
    SAME(offsetof(struct tag_index_movement, record), 8);
    SAME(offsetof(struct tag_index_movement, on), 12);
}

/* Every number of a movement, the rest of the answers kept, and on 7 an on. */
static void loads(void) {
    static const struct tag_index_movement lorry[] = {
        {7, 0, 1}, {256, 1, 1}, {9, 4, 1}, {9, 0, 1}, {7, 1, 1}, {8, 0, 0}, {256, 0, 0}, {7, 99, 0}, {9, 3, 7},
    };
    static const uint32_t expected[] = {
        TAG_INDEX_DONE,         TAG_INDEX_KEY_TOO_WIDE, TAG_INDEX_NO_SUCH_RECORD, TAG_INDEX_RECORD_IN_USE,
        TAG_INDEX_KEY_HELD,     TAG_INDEX_KEY_NOT_HELD, TAG_INDEX_KEY_TOO_WIDE,   TAG_INDEX_DONE,
        TAG_INDEX_DONE,         100,                    101,
    };
    uint32_t answers[11] = {0, 0, 0, 0, 0, 0, 0, 0, 0, 100, 101};
    SAME(format(8, 5, 10, 4), TAG_INDEX_DONE);
    SAME(LOAD(lorry, answers, 11), TAG_INDEX_DONE);
    for (size_t i = 0; i < 11; i++)
        SAME(answers[i], expected[i]);
    SAME(tag_index_find(TABLES, 7).number, TAG_INDEX_KEY_NOT_HELD);
    SAME(tag_index_find(TABLES, 9).record, 3);
    SAME(tag_index_check(TABLES), true);
    SAME(load(lorry, 0, answers, 0), TAG_INDEX_DONE);
    SAME(load(lorry, 0, answers, 1), TAG_INDEX_DONE);
    SAME(answers[0], TAG_INDEX_DONE);
}

/* Rows 1 and 12, in this order; neither changes a byte. */
static void refused_loads(void) {
    static const struct tag_index_movement lorry[] = {{7, 0, 1}, {8, 1, 1}};
    static uint8_t pages_before[TAG_INDEX_BYTES(5, 10)];
    uint64_t keys_before[4];
    uint8_t used_before[4];
    uint32_t answers[2] = {100, 101};
    SAME(format(8, 5, 10, 4), TAG_INDEX_DONE);
    SAME(on(9, 2), TAG_INDEX_DONE);
    memcpy(pages_before, pages, sizeof pages_before);
    memcpy(keys_before, keys, sizeof keys_before);
    memcpy(used_before, used, sizeof used_before);
    SAME(LOAD(lorry, answers, 1), TAG_INDEX_ANSWERS_TOO_SHORT);
    SAME(LOAD(lorry, answers, 0), TAG_INDEX_ANSWERS_TOO_SHORT);
    bytes--;
    SAME(LOAD(lorry, answers, 2), TAG_INDEX_NOT_SOUND);
    SAME(LOAD(lorry, answers, 1), TAG_INDEX_NOT_SOUND);
    SAME(load(lorry, 0, answers, 0), TAG_INDEX_NOT_SOUND);
    SAME(memcmp(pages_before, pages, sizeof pages_before), 0);
    SAME(memcmp(keys_before, keys, sizeof keys_before), 0);
    SAME(memcmp(used_before, used, sizeof used_before), 0);
    SAME(answers[0], 100);
    SAME(answers[1], 101);
}

/* Rows 8 and 7 of a movement, as in heights; the next one goes on. */
static void high_loads(void) {
    static const struct tag_index_movement high[] = {{0x1fffe, 0, 1}, {0x1ffff, 1, 1}, {0x1fffe, 0, 0}};
    static const struct tag_index_movement full[] = {{0xfffe, 0, 1}, {0xffff, 1, 1}, {0xfffe, 0, 0}};
    uint32_t answers[3];
    SAME(format(17, 2, 1000, 2), TAG_INDEX_DONE);
    SAME(LOAD(high, answers, 3), TAG_INDEX_DONE);
    SAME(answers[1], TAG_INDEX_ROOT_TOO_HIGH);
    SAME(answers[2], TAG_INDEX_DONE);
    SAME(format(16, 2, 135, 2), TAG_INDEX_DONE);
    SAME(LOAD(full, answers, 3), TAG_INDEX_DONE);
    SAME(answers[1], TAG_INDEX_OUT_OF_PAGES);
    SAME(answers[2], TAG_INDEX_DONE);
}

/* The fields, each at its largest, and one of them past it. */
static void tags(void) {
    uint64_t most[7] = {TAG_CODE_MAX_ANIMAL, TAG_CODE_MAX_RETAG,   TAG_CODE_MAX_USER,    TAG_CODE_MAX_RESERVED,
                        TAG_CODE_MAX_BLOCK,  TAG_CODE_MAX_COUNTRY, TAG_CODE_MAX_NATIONAL};
    for (int past = 0; past <= 7; past++) {
        uint64_t f[7];
        memcpy(f, most, sizeof f);
        if (past < 7)
            f[past]++;
        struct tag_code_packed packed = tag_code_pack(f[0], f[1], f[2], f[3], f[4], f[5], f[6]);
        SAME(packed.number, past < 7 ? TAG_CODE_OUTSIDE_LIMITS : TAG_CODE_DONE);
        if (past == 7)
            SAME(tag_code_unpack(packed.code).national, TAG_CODE_MAX_NATIONAL);
    }
    SAME(tag_code_unpack(UINT64_MAX).number, TAG_CODE_OUTSIDE_LIMITS);
}

int main(void) {
    limits();
    refusals();
    heights();
    movements();
    loads();
    refused_loads();
    high_loads();
    tags();
    return failures == 0 ? EXIT_SUCCESS : EXIT_FAILURE;
}
