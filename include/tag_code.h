/* Tag codes of ISO 11784. Link with libtag_code.a.

   Both calls answer a number: 0 done, or
     11  the country is above 999, or a field is too large for its bits;
         the code and the fields are then 0. */
#ifndef TAG_CODE_H
#define TAG_CODE_H

#include <stdint.h>

#ifdef __cplusplus
extern "C" {
#endif

/* The numbers that both calls answer, as told above. */
enum tag_code_number {
    TAG_CODE_DONE = 0,
    TAG_CODE_OUTSIDE_LIMITS = 11
};

/* The largest value of each field. */
#define TAG_CODE_MAX_ANIMAL 1
#define TAG_CODE_MAX_RETAG 7
#define TAG_CODE_MAX_USER 31
#define TAG_CODE_MAX_RESERVED 63
#define TAG_CODE_MAX_BLOCK 1
#define TAG_CODE_MAX_COUNTRY 999
#define TAG_CODE_MAX_NATIONAL UINT64_C(274877906943)

struct tag_code_packed {
    uint32_t number;
    uint64_t code;
};

/* The fields from bit 1 of the code, the most significant, to bit 64. */
struct tag_code_unpacked {
    uint32_t number;
    uint64_t animal;   /* bit 1: 1 for an animal */
    uint64_t retag;    /* bits 2 to 4: retag counter */
    uint64_t user;     /* bits 5 to 9: user field */
    uint64_t reserved; /* bits 10 to 15 */
    uint64_t block;    /* bit 16: data-block flag */
    uint64_t country;  /* bits 17 to 26: at most 999 */
    uint64_t national; /* bits 27 to 64: at most 274877906943 */
};

/* Pack: the code of the fields. Refused by 11. */
struct tag_code_packed tag_code_pack(uint64_t animal, uint64_t retag, uint64_t user, uint64_t reserved,
                                     uint64_t block, uint64_t country, uint64_t national);

/* Unpack: the fields of a code; only its country can be refused, by 11.
   Packing what unpacking gave, or unpacking what packing gave, gives back the
   same. */
struct tag_code_unpacked tag_code_unpack(uint64_t code);

#ifdef __cplusplus
}
#endif

#endif
