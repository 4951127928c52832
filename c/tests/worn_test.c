/* Cells that have had their last call, which a program would reach after 2^41 calls in one cell: the test
 * writes generations near their end into the words of a group that is new, whose place it learns by counting what malloc
 * gives. The calls go on: a group whose cells are all worn has room again once it has grown, no call has the name of
 * another, and one that is held across the growth is joined and told as ever. Linked with --wrap=malloc, --wrap=free. */
#include "sflight_do.h"
#include <stdio.h>
#include <stdlib.h>
#include <string.h>

void *__real_malloc(size_t size);
void *__wrap_malloc(size_t size);
void __real_free(void *at);
void __wrap_free(void *at);

enum {
    CELLS = 64,
    LEFT = 3,       /* calls that a cell has before it is worn */
    BLOCKS = 4096,
    TABLES_HERE = 4,
    CELL_WORDS = 8, /* of which the first is the cell's state */
    MOST_IDS = 1 << 20
};

/* A state word has the generation above these bits. A cell whose generation is the last leads no call any more. */
enum { BELOW_GENERATION = 23 };
static const uint64_t last_generation = (UINT64_C(1) << 41) - 1;

static struct block { uint8_t *at; size_t size; } blocks[BLOCKS];
static int count;
static bool counts;
static uint64_t passed, failed;

void *__wrap_malloc(size_t size) {
    void *at = __real_malloc(size);
    if (counts && at && count < BLOCKS) blocks[count++] = (struct block){at, size};
    return at;
}

void __wrap_free(void *at) {
    for (int i = 0; at && i < count; i++) {
        if (blocks[i].at == at) blocks[i--] = blocks[--count];
    }
    __real_free(at);
}

static void check(bool holds, const char *what) {
    if (holds) passed++;
    else if (failed++ < 10) printf("FAILED: %s\n", what);
}

/* How many calls can be open in the table of this number: see sflight_grow. */
static size_t cells_of(int table) {
    size_t cells = CELLS;
    for (int i = 0; i < table; i++) cells *= 8;
    return cells;
}

/* Four hash slots for each cell, and one side word for each four of them, before the cells' words. */
static size_t words_of(int table) { return cells_of(table) * (4 + 1 + CELL_WORDS); }

/* The words of the table that was made last, which is new. */
static uint64_t *words_at(int table) {
    for (int i = count; i-- > 0;) {
        size_t size = words_of(table) * sizeof(uint64_t);
        if (blocks[i].size < size || blocks[i].size > size + 4096) continue;
        /* They begin where the block does, or where the next cache line does. */
        return (uint64_t *)(((uintptr_t)blocks[i].at + 63) / 64 * 64 + size <= (uintptr_t)blocks[i].at + blocks[i].size
                            ? ((uintptr_t)blocks[i].at + 63) / 64 * 64 : (uintptr_t)blocks[i].at);
    }
    return NULL;
}

static void wear(int table) {
    uint64_t *words = words_at(table);
    check(words != NULL, "the table's words are found");
    for (size_t cell = 0; words && cell < cells_of(table); cell++) {
        uint64_t *state = &words[cells_of(table) * 5 + CELL_WORDS * cell];
        check(*state == 0, "a new cell is free");
        *state = (last_generation - LEFT) << BELOW_GENERATION;
    }
}

static sflight_id ids[MOST_IDS];
static size_t named;

static int by_name(const void *left, const void *right) { return memcmp(left, right, sizeof(sflight_id)); }

static void no_two_have_one_name(void) {
    qsort(ids, named, sizeof ids[0], by_name);
    for (size_t i = 1; i < named; i++) check(memcmp(&ids[i - 1], &ids[i], sizeof ids[0]) != 0, "no two calls have one name");
}

static int tables; /* of the group */

/* Leads a call of the key, and makes room where there is none: a table that is nearly worn. Whether it had to. */
static bool leads(sflight_handle *me, sflight_call *call, const char *key, sflight_stamp *stamp) {
    sflight_id id;
    bool grown = false;
    uint32_t code = sflight_ask(me, call, (const uint8_t *)key, strlen(key), 64, &id, stamp);
    if (code == SFLIGHT_FULL) {
        check(sflight_grow(me) == SFLIGHT_DONE, "there is room for a larger table");
        wear(tables++);
        grown = true;
        code = sflight_ask(me, call, (const uint8_t *)key, strlen(key), 64, &id, stamp);
    }
    check(code == SFLIGHT_LED, "it leads");
    if (named < MOST_IDS) ids[named++] = id;
    return grown;
}

static void calls_of_a_worn_group(void) {
    sflight_handle me = SFLIGHT_HANDLE_NONE, other = SFLIGHT_HANDLE_NONE;
    sflight_call held = SFLIGHT_CALL_NONE, joins = SFLIGHT_CALL_NONE, call = SFLIGHT_CALL_NONE;
    sflight_audience audience;
    sflight_stamp kept, stamp;
    sflight_id id;
    uint64_t value = 0;
    count = 0;
    counts = true;
    check(sflight_open(&me, CELLS, 1, 2) == SFLIGHT_DONE && sflight_split(&me, &other) == SFLIGHT_DONE, "a group");
    check(sflight_make(&me, &held) == SFLIGHT_DONE && sflight_make(&other, &joins) == SFLIGHT_DONE && sflight_make(&me, &call) == SFLIGHT_DONE, "calls");
    wear(0);
    tables = 1;
    check(!leads(&me, &held, "held", &kept), "the first call");
    check(ids[0].generation == last_generation - LEFT + 1, "the generations are those that were written");
    /* One cell has the call that is held. Each other one has so many calls, and then the group grows. */
    uint64_t most = LEFT * (CELLS - 1), made = 0;
    while (tables < TABLES_HERE) {
        char key[16];
        snprintf(key, sizeof key, "key %d", (int)(made % 7));
        bool grown = leads(&me, &call, key, &stamp);
        check(sflight_settle(&me, &call, made, &audience) == SFLIGHT_ALONE, "nobody has joined it");
        check(sflight_is_still(&me, &stamp), "its value is current");
        check(grown == (made == most), "each cell has the calls that it had left");
        made = grown ? 1 : made + 1;
        most = grown ? LEFT * cells_of(tables - 1) : most;
    }
    check(sflight_ask(&other, &joins, (const uint8_t *)"held", 4, 64, &id, &stamp) == SFLIGHT_JOINED, "the call is joined that was open before");
    check(by_name(&id, &ids[0]) == 0, "and no other one");
    check(sflight_settle(&me, &held, 7, &audience) == SFLIGHT_TOLD && audience.joined && audience.holders == 2, "it is told to whoever joined");
    check(sflight_look(&other, &joins, &value) == SFLIGHT_DONE && value == 7, "what it was settled with");
    check(sflight_is_still(&other, &kept), "no growth ends a stamp");
    check(sflight_forget(&other, (const uint8_t *)"held", 4, 64, &id) == SFLIGHT_NOTHING && !sflight_is_still(&me, &kept), "a Forget does");
    check(sflight_leave(&me, &held, &value) == SFLIGHT_DONE && sflight_leave(&other, &joins, &value) == SFLIGHT_LAST, "both leave it");
    check(sflight_free(&held) == SFLIGHT_DONE && sflight_free(&joins) == SFLIGHT_DONE && sflight_free(&call) == SFLIGHT_DONE, "the calls are idle");
    sflight_close(&other);
    sflight_close(&me);
    counts = false;
    no_two_have_one_name();
}

static uint64_t loads;

static uint64_t load(void *context, const uint8_t *key, size_t len) {
    (void)context, (void)key, (void)len;
    return ++loads;
}

/* sflight_do goes on by itself. */
static void loads_of_a_worn_pool(void) {
    count = 0;
    counts = true;
    sflight_pool *pool = sflight_do_open(CELLS, NULL);
    wear(0);
    for (uint64_t i = 1; i <= 10 * LEFT * CELLS; i++) {
        sflight_got got;
        check(sflight_do(pool, (const uint8_t *)"key", 3, load, NULL, SFLIGHT_DO_FOREVER, &got) == SFLIGHT_DO_DONE, "it is loaded");
        check(got.led && got.value == i && sflight_do_is_still(pool, &got.stamp), "by itself, and it is current");
    }
    check(loads == 10 * LEFT * CELLS, "one load each");
    counts = false;
    sflight_do_close(pool);
}

int main(void) {
    calls_of_a_worn_group();
    loads_of_a_worn_pool();
    printf("%llu passed, %llu failed\n", (unsigned long long)passed, (unsigned long long)failed);
    return failed != 0;
}
