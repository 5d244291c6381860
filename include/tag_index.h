/* The index of ear tags over lent tables. Link with libtag_index.a.

   The tables are an index table of bytes (a 16-byte header, then P pages of
   2 + 3E bytes) and a register: one key and one byte (1 in use, 0 free) for
   each record. Every slice is a pointer and its length in elements. A pointer
   is never null, even where the length is 0; slices lent to one call do not
   overlap. The library keeps no memory of its own and no pointer: it works in
   what it is lent and on the stack alone. Calls on different tables may run at
   the same time, and so may calls of find, list and check on the same tables;
   a call of format, on, off or load needs its tables to itself.
   The out of a list and the answers of a load are lent to one call at a time;
   the movements, which a load only reads, may be lent to several. A thread
   that calls the library needs the bytes of stack that are named below.

   The two slices of a register have one length. If they have not, format
   answers 9, check false, and every other call 1. A key of W bits is a number
   below 2 to the power W. Numbers in the index table are stored high byte
   first, whatever the machine; the register's keys are numbers of the machine.

   Every call but check answers a number: 0 done, or, the first that applies,
     9  format: W is not 1 to 64, E not 2 to 255, P not 1 to 65534, the
        register not 1 to 65534 records, or a table not as long as they say;
     1  on, off, find, list, load: the tables are not sound;
    12  load: there are fewer answers than movements;
     2  on, off, find, list: a key of more than W bits (either end of a list);
     3  on: the record is at or past the register's length;
     4  on: the record is in use;
     5  on: the key is held;
     6  off, find: the key is not held;
     8  on: the root would stand above level 15;
     7  on: more than P pages would be in use after it.
   A refusal has record 65535, count 0 and more false, and changes no lent
   byte. In the answer of a done call, what it does not set is the same. A done
   load writes the number of each movement into its answers: 0, or 2, 3, 4, 5, 8
   or 7 of an on, 2 or 6 of an off, as that call would answer it there. */
#ifndef TAG_INDEX_H
#define TAG_INDEX_H

#include <stdbool.h>
#include <stddef.h>
#include <stdint.h>

#ifdef __cplusplus
extern "C" {
#endif

/* The numbers that a call answers, as told above. */
enum tag_index_number {
    TAG_INDEX_DONE = 0,
    TAG_INDEX_NOT_SOUND = 1,
    TAG_INDEX_KEY_TOO_WIDE = 2,
    TAG_INDEX_NO_SUCH_RECORD = 3,
    TAG_INDEX_RECORD_IN_USE = 4,
    TAG_INDEX_KEY_HELD = 5,
    TAG_INDEX_KEY_NOT_HELD = 6,
    TAG_INDEX_OUT_OF_PAGES = 7,
    TAG_INDEX_ROOT_TOO_HIGH = 8,
    TAG_INDEX_OUTSIDE_LIMITS = 9,
    TAG_INDEX_ANSWERS_TOO_SHORT = 12
};

/* The limits of W (bits of a key), E (entries a page may hold), P (pages),
   the register's records and the root's level. */
#define TAG_INDEX_MIN_WIDTH 1
#define TAG_INDEX_MAX_WIDTH 64
#define TAG_INDEX_MIN_ENTRIES 2
#define TAG_INDEX_MAX_ENTRIES 255
#define TAG_INDEX_MIN_PAGES 1
#define TAG_INDEX_MAX_PAGES 65534
#define TAG_INDEX_MIN_RECORDS 1
#define TAG_INDEX_MAX_RECORDS 65534
#define TAG_INDEX_MAX_LEVEL 15

/* The record of an answer that has none. */
#define TAG_INDEX_NO_RECORD 65535

/* The bytes of the header, of a page of E entries, and of an index table of P
   such pages: constants where E and P are. Each is exact inside the limits. */
#define TAG_INDEX_HEADER_BYTES 16
#define TAG_INDEX_PAGE_BYTES(e) (2 + 3 * (size_t)(e))
#define TAG_INDEX_BYTES(e, p) (TAG_INDEX_HEADER_BYTES + (size_t)(p) * TAG_INDEX_PAGE_BYTES(e))

/* Bytes of stack, measured on x86-64, that no call of tests/stack.c took more
   of: format, find, list and check, which read, and on, off and load, which
   change. A load of many movements takes no more than one of few. Give a thread
   512 KiB. */
#define TAG_INDEX_STACK_TO_READ 75000
#define TAG_INDEX_STACK_TO_CHANGE 360000

struct tag_index_answer {
    uint32_t number; /* 0 done, or the number of the refusal */
    uint32_t record; /* find: the record of the key; else 65535 */
    uint64_t count;  /* list: how many records it wrote; else 0 */
    bool more;       /* list: whether more remain; else false */
};

/* One movement of a load. */
struct tag_index_movement {
    uint64_t key;    /* the key that is to be held, or held no more */
    uint32_t record; /* an on: the record of the key; an off ignores it */
    uint32_t on;     /* 0, as where it is not set, is an off, any other an on */
};

/* Format: the tables hold no key, whatever they held before. Refused by 9. */
struct tag_index_answer tag_index_format(uint8_t *index, size_t index_bytes,
                                         uint64_t *keys, size_t keys_length,
                                         uint8_t *used, size_t used_length,
                                         uint64_t w, uint64_t e, uint64_t p);

/* On: the key is held, on this record. Refused by 1, 2, 3, 4, 5, 8, 7. */
struct tag_index_answer tag_index_on(uint8_t *index, size_t index_bytes,
                                     uint64_t *keys, size_t keys_length,
                                     uint8_t *used, size_t used_length,
                                     uint64_t key, uint32_t record);

/* Off: the key is held no more; its record is free, and so are the pages that
   are emptied and those whose entries go to a neighbour. Refused by 1, 2, 6. */
struct tag_index_answer tag_index_off(uint8_t *index, size_t index_bytes,
                                      uint64_t *keys, size_t keys_length,
                                      uint8_t *used, size_t used_length,
                                      uint64_t key);

/* Load: makes the movements in their order and writes the number of each at
   its place in answers; the rest of answers is kept. A refused movement is
   passed over, and the rest go on. Answers and tables are those of on and off
   called one by one, but the tables are checked only once. There may be any
   number of movements, none too. A load is not all or nothing, and it answers 0
   even if every movement is refused: read the answers. Refused by 1, 12: then
   no movement is made, and answers is kept. */
struct tag_index_answer tag_index_load(uint8_t *index, size_t index_bytes,
                                       uint64_t *keys, size_t keys_length,
                                       uint8_t *used, size_t used_length,
                                       const struct tag_index_movement *movements,
                                       size_t movements_length,
                                       uint32_t *answers, size_t answers_length);

/* Find: the record of a key. Refused by 1, 2, 6; changes no byte. */
struct tag_index_answer tag_index_find(const uint8_t *index, size_t index_bytes,
                                       const uint64_t *keys, size_t keys_length,
                                       const uint8_t *used, size_t used_length,
                                       uint64_t key);

/* List: the records of the keys from a to b inclusive, in key order, as many
   as out holds; the rest of out is kept. a above b gives none. Refused by 1,
   2; changes no byte of the tables. */
struct tag_index_answer tag_index_list(const uint8_t *index, size_t index_bytes,
                                       const uint64_t *keys, size_t keys_length,
                                       const uint8_t *used, size_t used_length,
                                       uint64_t a, uint64_t b,
                                       uint32_t *out, size_t out_length);

/* Check: whether the tables are sound. Never refused; changes no byte. */
bool tag_index_check(const uint8_t *index, size_t index_bytes,
                     const uint64_t *keys, size_t keys_length,
                     const uint8_t *used, size_t used_length);

#ifdef __cplusplus
}
#endif

#endif
