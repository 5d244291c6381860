/* How many bytes of stack the calls take, beside what the header says: seeded
   histories on tables with roots as high as they get, each call on a stack of
   its own that was filled with a pattern. A call that took more fails. Every
   history is run by single calls, by loads of one movement, which change the
   tables alike, and by loads of many. */
#define _XOPEN_SOURCE 700
#include <stdio.h>
#include <string.h>
#include <ucontext.h>
#include "tag_index.h"

#define STACK_BYTES ((size_t)1 << 19)
#define WORDS (STACK_BYTES / sizeof(uint64_t))
#define UNTOUCHED UINT64_C(0xa5a5a5a5a5a5a5a5)
#define ALL_RECORDS 4096
#define ALL_BYTES TAG_INDEX_BYTES(TAG_INDEX_MAX_ENTRIES, 1200)
#define ALL_MOVEMENTS 40

enum call { NONE, FORMAT, ON, OFF, LOAD, FIND, LIST, CHECK, CALLS };
static const char *const names[CALLS] = {"none", "format", "on", "off", "load", "find", "list", "check"};
static size_t most[CALLS];
static unsigned highest;

static uint64_t stack[WORDS];
static ucontext_t outside, inside;

static uint8_t pages[ALL_BYTES];
static uint64_t keys[ALL_RECORDS];
static uint8_t used[ALL_RECORDS];
static uint32_t out[40];
static struct tag_index_movement lorry[ALL_MOVEMENTS];
static uint32_t answers[ALL_MOVEMENTS];
static size_t aboard;
static size_t bytes, records;
#define TABLES pages, bytes, keys, records, used, records

static struct {
    enum call call;
    uint64_t w, e, p, key;
    uint32_t record, number;
} asked;

static uint64_t drawn = 88172645463325252;

static uint64_t draw(void) { /* Marsaglia's xorshift */
    drawn ^= drawn << 13;
    drawn ^= drawn >> 7;
    drawn ^= drawn << 17;
    return drawn;
}

static void called(void) {
    switch (asked.call) {
    case FORMAT: asked.number = tag_index_format(TABLES, asked.w, asked.e, asked.p).number; break;
    case ON: asked.number = tag_index_on(TABLES, asked.key, asked.record).number; break;
    case OFF: asked.number = tag_index_off(TABLES, asked.key).number; break;
    case LOAD: asked.number = tag_index_load(TABLES, lorry, aboard, answers, ALL_MOVEMENTS).number; break;
    case FIND: asked.number = tag_index_find(TABLES, asked.key).number; break;
    case LIST: asked.number = tag_index_list(TABLES, 0, asked.key, out, 40).number; break;
    case CHECK: asked.number = !tag_index_check(TABLES); break;
    default: break;
    }
}

/* The call that is asked for, on the stack of its own; its answer's number. */
static uint32_t measured(enum call call) {
    size_t low = 0;
    asked.call = call;
    getcontext(&inside);
    inside.uc_stack.ss_sp = stack;
    inside.uc_stack.ss_size = STACK_BYTES;
    inside.uc_link = &outside;
    makecontext(&inside, called, 0);
    swapcontext(&outside, &inside);
    while (low < WORDS && stack[low] == UNTOUCHED)
        low++;
    size_t took = STACK_BYTES - low * sizeof stack[0];
    if (most[call] < took)
        most[call] = took;
    for (; low < WORDS; low++)
        stack[low] = UNTOUCHED;
    return asked.number;
}

/* Makes the on or off that is asked for, by a call of its own if movements is
   0; else puts it aboard the lorry, which is unloaded as soon as it has so many. */
static uint32_t changed(enum call call, size_t movements) {
    if (movements == 0)
        return measured(call);
    lorry[aboard++] = (struct tag_index_movement){asked.key, asked.record, call == ON};
    if (aboard < movements)
        return TAG_INDEX_DONE;
    uint32_t number = measured(LOAD);
    aboard = 0;
    return number;
}

/* Keys that share long runs of one-bits, for many dummies and high roots, or
   any keys. */
static uint64_t any_key(uint64_t w) {
    uint64_t all = UINT64_MAX >> (64 - w);
    return draw() % 4 ? all ^ (draw() & draw() & draw() & (all >> draw() % w)) : draw() & all;
}

static int history(uint64_t w, uint64_t e, uint64_t p, size_t n, unsigned calls, size_t movements) {
    bytes = TAG_INDEX_BYTES(e, p);
    records = n;
    aboard = 0;
    asked.w = w, asked.e = e, asked.p = p;
    if (bytes > ALL_BYTES || n > ALL_RECORDS || measured(FORMAT) != TAG_INDEX_DONE)
        return 1;
    for (unsigned i = 0; i < calls; i++) {
        size_t record = draw() % n;
        int held = used[record];
        asked.record = (uint32_t)record;
        asked.key = held ? keys[record] : any_key(w);
        enum call call = held && (i / 512 % 2 || draw() % 4 == 0) ? OFF : held ? FIND : ON;
        uint32_t number = call == FIND ? measured(FIND) : changed(call, movements);
        unsigned level = pages[16 + (pages[4] * 256u + pages[5]) * TAG_INDEX_PAGE_BYTES(e)];
        if (highest < level)
            highest = level;
        if (number == TAG_INDEX_NOT_SOUND || measured(LIST) != TAG_INDEX_DONE)
            return 1;
    }
    return measured(CHECK) != 0;
}

static int histories(uint64_t seed, size_t movements) {
    drawn = seed;
    return history(64, 2, 1200, 10, 3000, movements) || history(64, 5, 1200, 30, 3000, movements) ||
           history(16, 2, 136, 60, 3000, movements) || history(64, 60, 250, 4096, 1000, movements) ||
           history(64, 255, 1100, 4096, 1000, movements);
}

int main(void) {
    for (size_t i = 0; i < WORDS; i++)
        stack[i] = UNTOUCHED;
    int wrong = history(1, 2, 1, 1, 1, 0); /* what is bound at the first call is bound */
    memset(most, 0, sizeof most);
    measured(NONE);
    uint64_t seed = drawn;
    wrong |= histories(seed, 0) || histories(seed, 1) || histories(seed, ALL_MOVEMENTS);
    for (enum call call = FORMAT; call < CALLS; call++) {
        size_t above = most[call] - most[NONE];
        size_t said = call == ON || call == OFF || call == LOAD ? TAG_INDEX_STACK_TO_CHANGE : TAG_INDEX_STACK_TO_READ;
        printf("%s took up to %zu bytes of stack\n", names[call], above);
        wrong |= above > said;
    }
    printf("the highest root stood on level %u\n", highest);
    if (highest != TAG_INDEX_MAX_LEVEL)
        wrong = 1;
    if (wrong)
        puts("tests/stack.c: a wrong answer, too low a root, or more stack than the header says");
    return wrong;
}
