/* Tests of sflight.h: each code of each function, wrong use, and threads that ask, join, leave, forget and
 * grow at random. */
#include "sflight.h"
#include <pthread.h>
#include <sched.h>
#include <stdatomic.h>
#include <stdio.h>
#include <stdlib.h>
#include <string.h>

static atomic_int passed, failed;

static void check(bool holds, const char *what) {
    if (holds) { passed++; return; }
    failed++;
    printf("FAILED: %s\n", what);
}

enum { TRIES = 64 };

static const sflight_id no_id = {5, 5, 5};
static const sflight_stamp no_stamp = {5, 5, 5};
static const sflight_audience nobody = {5, true, true};

/* The outputs of this thread's last asking. */
static _Thread_local sflight_id id;
static _Thread_local sflight_stamp stamp;
static _Thread_local sflight_audience audience;
static _Thread_local uint64_t value;

static const uint8_t *bytes(const char *key) { return (const uint8_t *)key; }

static uint32_t ask(sflight_handle *handle, sflight_call *call, const char *key) {
    id = no_id;
    stamp = no_stamp;
    return sflight_ask(handle, call, bytes(key), strlen(key), TRIES, &id, &stamp);
}

static uint32_t settle(sflight_handle *handle, sflight_call *call, uint64_t with) {
    audience = nobody;
    return sflight_settle(handle, call, with, &audience);
}

static uint32_t look(sflight_handle *handle, sflight_call *call) {
    value = 5;
    return sflight_look(handle, call, &value);
}

static uint32_t leave(sflight_handle *handle, sflight_call *call) {
    value = 5;
    return sflight_leave(handle, call, &value);
}

static uint32_t forget(sflight_handle *handle, const char *key) {
    id = no_id;
    return sflight_forget(handle, bytes(key), strlen(key), TRIES, &id);
}

static bool is_id(const sflight_id *one, const sflight_id *other) {
    return one->table == other->table && one->cell == other->cell && one->generation == other->generation;
}

static bool is_unwritten(void) {
    return is_id(&id, &no_id) && stamp.table == 5 && stamp.slot == 5 && stamp.age == 5;
}

/* No two groups have the same seeds. */
static void open_group(sflight_handle *handle, uint64_t cells) {
    static uint64_t seed = 0x0123456789abcdef;
    *handle = SFLIGHT_HANDLE_NONE;
    if (sflight_open(handle, cells, seed, 0xfedcba9876543210) != SFLIGHT_DONE) abort();
    seed = seed * 6364136223846793005u + 1442695040888963407u;
}

static void make(sflight_handle *handle, sflight_call *calls, int count) {
    for (int i = 0; i < count; i++) {
        calls[i] = SFLIGHT_CALL_NONE;
        if (sflight_make(handle, &calls[i]) != SFLIGHT_DONE) abort();
    }
}

static void free_all(sflight_call *calls, int count) {
    for (int i = 0; i < count; i++) check(sflight_free(&calls[i]) == SFLIGHT_DONE && !calls[i].live, "an idle call is freed");
}

static void sizes(void) {
    sflight_handle one = SFLIGHT_HANDLE_NONE;
    sflight_size size = {0};
    check(sflight_open(&one, 0, 1, 2) == SFLIGHT_BAD_NUMBER && !one.live, "no cell");
    check(sflight_open(&one, SFLIGHT_MOST_CELLS + 1, 1, 2) == SFLIGHT_BAD_NUMBER && !one.live, "too many cells");
    check(sflight_open(&one, 1, 1, 2) == SFLIGHT_DONE && one.live, "one cell");
    check(sflight_open(&one, 1, 1, 2) == SFLIGHT_WRONG_STATE && one.live, "an open handle is not opened");
    check(sflight_measure(&one, &size) == SFLIGHT_DONE && size.tables == 1 && size.passed == 0 && size.cells >= 1, "its size");
    sflight_close(&one);
    check(!one.live, "a closed handle is not open");
    sflight_close(&one);
    check(sflight_open(&one, SFLIGHT_MOST_CELLS, UINT64_MAX, UINT64_MAX) == SFLIGHT_DONE, "the most cells");
    check(sflight_measure(&one, &size) == SFLIGHT_DONE && size.cells == SFLIGHT_MOST_CELLS, "are there");
    sflight_close(&one);
}

static void not_open(void) {
    sflight_handle none = SFLIGHT_HANDLE_NONE, one, other = SFLIGHT_HANDLE_NONE;
    sflight_call call = SFLIGHT_CALL_NONE, idle;
    sflight_size size = {5, 5, 5};
    open_group(&one, 4);
    make(&one, &idle, 1);
    check(sflight_split(&none, &other) == SFLIGHT_NOT_OPEN && !other.live, "split of none");
    check(sflight_make(&none, &call) == SFLIGHT_NOT_OPEN && !call.live, "make of none");
    check(sflight_free(&call) == SFLIGHT_NOT_OPEN, "free of none");
    check(ask(&none, &idle, "k") == SFLIGHT_NOT_OPEN && is_unwritten(), "ask with no handle");
    check(ask(&one, &call, "k") == SFLIGHT_NOT_OPEN && is_unwritten(), "ask with no call");
    check(settle(&none, &idle, 1) == SFLIGHT_NOT_OPEN && settle(&one, &call, 1) == SFLIGHT_NOT_OPEN && audience.holders == 5, "settle");
    check(look(&none, &idle) == SFLIGHT_NOT_OPEN && look(&one, &call) == SFLIGHT_NOT_OPEN && value == 5, "look");
    check(leave(&none, &idle) == SFLIGHT_NOT_OPEN && leave(&one, &call) == SFLIGHT_NOT_OPEN && value == 5, "leave");
    check(forget(&none, "k") == SFLIGHT_NOT_OPEN && is_id(&id, &no_id), "forget");
    check(sflight_forget_call(&none, bytes("k"), 1, &no_id, &no_stamp, TRIES) == SFLIGHT_NOT_OPEN, "forget of a call");
    check(!sflight_is_still(&none, &no_stamp), "nothing is still there");
    check(sflight_grow(&none) == SFLIGHT_NOT_OPEN, "grow");
    check(sflight_measure(&none, &size) == SFLIGHT_NOT_OPEN && size.cells == 5, "measure");
    check(sflight_split(&one, &other) == SFLIGHT_DONE && sflight_split(&one, &other) == SFLIGHT_WRONG_STATE && other.live, "split into an open one");
    check(sflight_make(&one, &idle) == SFLIGHT_WRONG_STATE && idle.live, "make of an open one");
    free_all(&idle, 1);
    check(sflight_free(&idle) == SFLIGHT_NOT_OPEN, "a call is freed once");
    sflight_close(&one);
    sflight_close(&other);
}

static void one_call(void) {
    sflight_handle one;
    sflight_call calls[3];
    sflight_id led, next;
    sflight_stamp first;
    open_group(&one, 4);
    make(&one, calls, 3);
    /* Idle. */
    check(settle(&one, &calls[0], 1) == SFLIGHT_WRONG_STATE && audience.holders == 5, "an idle call is not settled");
    check(look(&one, &calls[0]) == SFLIGHT_WRONG_STATE && leave(&one, &calls[0]) == SFLIGHT_WRONG_STATE && value == 5, "nor looked at, nor left");
    /* Alone. */
    check(ask(&one, &calls[0], "k") == SFLIGHT_LED && id.generation >= 1 && id.table < SFLIGHT_MOST_TABLES && id.cell < SFLIGHT_MOST_CELLS, "it leads");
    led = id;
    first = stamp;
    check(ask(&one, &calls[0], "k") == SFLIGHT_WRONG_STATE && ask(&one, &calls[0], "other") == SFLIGHT_WRONG_STATE && is_unwritten(), "a leader does not ask");
    check(look(&one, &calls[0]) == SFLIGHT_WRONG_STATE && leave(&one, &calls[0]) == SFLIGHT_WRONG_STATE && value == 5, "nor looks, nor leaves");
    check(sflight_free(&calls[0]) == SFLIGHT_WRONG_STATE && calls[0].live, "nor is freed");
    check(sflight_is_still(&one, &first), "its stamp is there");
    check(settle(&one, &calls[0], 7) == SFLIGHT_ALONE && audience.holders == 5, "nobody is told");
    check(settle(&one, &calls[0], 7) == SFLIGHT_WRONG_STATE && leave(&one, &calls[0]) == SFLIGHT_WRONG_STATE, "it is settled once, and idle");
    check(sflight_is_still(&one, &first), "its stamp is there still");
    /* With one that joins. */
    check(ask(&one, &calls[0], "k") == SFLIGHT_LED && !is_id(&id, &led), "the next call has another name");
    led = id;
    check(ask(&one, &calls[1], "k") == SFLIGHT_JOINED && is_id(&id, &led), "one joins it");
    check(stamp.table == 5 && stamp.slot == 5 && stamp.age == 5, "and has no stamp of it");
    check(look(&one, &calls[1]) == SFLIGHT_PENDING && value == 5, "it is not settled");
    check(ask(&one, &calls[1], "x") == SFLIGHT_WRONG_STATE && is_unwritten() && settle(&one, &calls[1], 1) == SFLIGHT_WRONG_STATE, "a call that has joined does not ask, nor settle");
    check(sflight_free(&calls[1]) == SFLIGHT_WRONG_STATE, "nor is freed");
    check(ask(&one, &calls[2], "another") == SFLIGHT_LED && !is_id(&id, &led), "another key has a call of its own");
    check(settle(&one, &calls[2], 1) == SFLIGHT_ALONE, "and ends alone");
    check(settle(&one, &calls[0], 9) == SFLIGHT_TOLD && audience.holders == 2 && audience.joined && !audience.forgotten, "two are told");
    check(ask(&one, &calls[2], "k") == SFLIGHT_LED && !is_id(&id, &led), "one that asks then leads a new call");
    next = id;
    check(look(&one, &calls[1]) == SFLIGHT_DONE && value == 9 && look(&one, &calls[1]) == SFLIGHT_DONE && value == 9, "what it was settled with");
    check(look(&one, &calls[0]) == SFLIGHT_DONE && value == 9, "for its leader too");
    check(settle(&one, &calls[0], 9) == SFLIGHT_WRONG_STATE && sflight_free(&calls[0]) == SFLIGHT_WRONG_STATE, "which holds it");
    check(leave(&one, &calls[0]) == SFLIGHT_DONE && value == 5 && leave(&one, &calls[0]) == SFLIGHT_WRONG_STATE && look(&one, &calls[0]) == SFLIGHT_WRONG_STATE, "one leaves, once");
    check(leave(&one, &calls[1]) == SFLIGHT_LAST && value == 9 && leave(&one, &calls[1]) == SFLIGHT_WRONG_STATE, "and the last, once");
    check(settle(&one, &calls[2], 1) == SFLIGHT_ALONE && !is_id(&next, &led), "the newer call ends alone");
    /* With one that joins, and leaves before the call is settled. */
    check(ask(&one, &calls[0], "k") == SFLIGHT_LED && ask(&one, &calls[1], "k") == SFLIGHT_JOINED, "one joins again");
    check(leave(&one, &calls[1]) == SFLIGHT_DONE && value == 5, "and leaves");
    check(ask(&one, &calls[1], "other") == SFLIGHT_LED && settle(&one, &calls[1], 2) == SFLIGHT_ALONE, "and is idle");
    check(settle(&one, &calls[0], 3) == SFLIGHT_TOLD && audience.holders == 1 && audience.joined && !audience.forgotten, "it is known that somebody joined");
    check(leave(&one, &calls[0]) == SFLIGHT_LAST && value == 3, "the leader is the last");
    free_all(calls, 3);
    sflight_close(&one);
}

static void forgets(void) {
    sflight_handle one;
    sflight_call calls[3];
    sflight_id led, newer;
    sflight_stamp old, young;
    open_group(&one, 16);
    make(&one, calls, 3);
    check(forget(&one, "k") == SFLIGHT_NOTHING && is_id(&id, &no_id), "nothing is forgotten");
    check(ask(&one, &calls[0], "k") == SFLIGHT_LED, "a call");
    led = id;
    old = stamp;
    check(ask(&one, &calls[1], "k") == SFLIGHT_JOINED, "which one joins");
    check(forget(&one, "k") == SFLIGHT_DONE && is_id(&id, &led), "a Forget closes it, and says which");
    check(!sflight_is_still(&one, &old), "and ends its stamp");
    check(forget(&one, "k") == SFLIGHT_NOTHING, "once");
    check(ask(&one, &calls[2], "k") == SFLIGHT_LED && !is_id(&id, &led), "one that asks after it leads");
    newer = id;
    young = stamp;
    check(settle(&one, &calls[2], 2) == SFLIGHT_ALONE && sflight_is_still(&one, &young), "and ends sooner");
    check(look(&one, &calls[1]) == SFLIGHT_PENDING, "while the older one goes on");
    check(settle(&one, &calls[0], 1) == SFLIGHT_TOLD && audience.holders == 2 && audience.joined && audience.forgotten, "it is known that it was forgotten");
    check(look(&one, &calls[1]) == SFLIGHT_DONE && value == 1, "the call that had joined has its value");
    check(leave(&one, &calls[1]) == SFLIGHT_DONE && leave(&one, &calls[0]) == SFLIGHT_LAST && value == 1, "and both leave");
    check(sflight_is_still(&one, &young) && !sflight_is_still(&one, &old), "the newer stamp is there, and the older one is not");
    /* Nobody has joined. */
    check(ask(&one, &calls[0], "k") == SFLIGHT_LED && forget(&one, "k") == SFLIGHT_DONE, "a call without a joiner is closed");
    check(settle(&one, &calls[0], 4) == SFLIGHT_TOLD && audience.holders == 1 && !audience.joined && audience.forgotten, "its leader is told");
    check(leave(&one, &calls[0]) == SFLIGHT_LAST && value == 4, "and leaves");
    check(forget(&one, "k") == SFLIGHT_NOTHING && !sflight_is_still(&one, &young), "what is settled has ended too");
    /* One call of the key. */
    check(ask(&one, &calls[0], "k") == SFLIGHT_LED, "another call");
    led = id;
    old = stamp;
    check(sflight_forget_call(&one, bytes("k"), 1, &newer, &young, TRIES) == SFLIGHT_CLEARED && ask(&one, &calls[1], "k") == SFLIGHT_JOINED, "an older call's Forget leaves it");
    check(leave(&one, &calls[1]) == SFLIGHT_DONE, "(one leaves)");
    check(sflight_forget_call(&one, bytes("k"), 1, &led, &old, TRIES) == SFLIGHT_DONE, "its own closes it");
    check(sflight_forget_call(&one, bytes("k"), 1, &led, &old, TRIES) == SFLIGHT_CLEARED && !sflight_is_still(&one, &old), "once");
    check(settle(&one, &calls[0], 4) == SFLIGHT_TOLD && audience.forgotten && leave(&one, &calls[0]) == SFLIGHT_LAST, "it was forgotten");
    check(ask(&one, &calls[0], "k") == SFLIGHT_LED, "a last one");
    led = id;
    old = stamp;
    check(settle(&one, &calls[0], 4) == SFLIGHT_ALONE && sflight_is_still(&one, &old), "is settled");
    check(sflight_forget_call(&one, bytes("k"), 1, &led, &old, TRIES) == SFLIGHT_CLEARED && !sflight_is_still(&one, &old), "and its stamp is ended");
    free_all(calls, 3);
    sflight_close(&one);
}

/* With another handle of the group a call goes on, and with one of another group it is refused. */
static void handles(void) {
    sflight_handle one, other = SFLIGHT_HANDLE_NONE, stranger = SFLIGHT_HANDLE_NONE;
    sflight_call calls[2];
    open_group(&one, 4);
    if (sflight_open(&stranger, 4, 3, 4) != SFLIGHT_DONE) abort();
    check(sflight_split(&one, &other) == SFLIGHT_DONE, "another handle");
    make(&one, calls, 2);
    check(ask(&stranger, &calls[0], "k") == SFLIGHT_WRONG_STATE && is_unwritten(), "a call of another group does not ask");
    check(ask(&one, &calls[0], "k") == SFLIGHT_LED && ask(&other, &calls[1], "k") == SFLIGHT_JOINED, "both handles ask");
    check(settle(&stranger, &calls[0], 1) == SFLIGHT_WRONG_STATE && audience.holders == 5, "it is not settled by another group");
    check(look(&stranger, &calls[1]) == SFLIGHT_WRONG_STATE && leave(&stranger, &calls[1]) == SFLIGHT_WRONG_STATE && value == 5, "nor looked at, nor left");
    check(forget(&stranger, "k") == SFLIGHT_NOTHING, "nor forgotten");
    sflight_close(&one);
    check(settle(&other, &calls[0], 6) == SFLIGHT_TOLD && audience.holders == 2, "it is settled with another handle");
    check(leave(&other, &calls[0]) == SFLIGHT_DONE, "and left");
    check(sflight_free(&calls[1]) == SFLIGHT_WRONG_STATE && sflight_free(&calls[0]) == SFLIGHT_DONE, "an idle one is freed, and one that holds is not");
    check(leave(&other, &calls[1]) == SFLIGHT_LAST && value == 6, "the last is left with another handle too");
    sflight_close(&other);
    check(sflight_free(&calls[1]) == SFLIGHT_DONE, "and freed when no handle is open");
    sflight_close(&stranger);
}

/* The first handle is closed while a call is open. */
static void outlives(void) {
    sflight_handle one, other = SFLIGHT_HANDLE_NONE;
    sflight_call call;
    open_group(&one, 4);
    make(&one, &call, 1);
    check(sflight_split(&one, &other) == SFLIGHT_DONE && ask(&one, &call, "k") == SFLIGHT_LED, "a call");
    sflight_close(&one);
    check(settle(&other, &call, 1) == SFLIGHT_ALONE, "is settled with the handle that is left");
    sflight_close(&other);
    free_all(&call, 1);
}

static void keys(void) {
    static uint8_t large[100000];
    sflight_handle one;
    sflight_call calls[3];
    sflight_id led;
    open_group(&one, 8);
    make(&one, calls, 3);
    check(sflight_ask(&one, &calls[0], NULL, 0, TRIES, &id, &stamp) == SFLIGHT_LED, "the empty key");
    check(sflight_ask(&one, &calls[1], large, 1, TRIES, &id, &stamp) == SFLIGHT_LED, "is not a zero");
    check(sflight_ask(&one, &calls[2], large, 0, TRIES, &id, &stamp) == SFLIGHT_JOINED, "nor another one");
    check(sflight_forget(&one, NULL, 0, TRIES, &id) == SFLIGHT_DONE, "and is forgotten");
    check(settle(&one, &calls[0], 1) == SFLIGHT_TOLD && leave(&one, &calls[0]) == SFLIGHT_DONE && leave(&one, &calls[2]) == SFLIGHT_LAST, "and ends");
    check(settle(&one, &calls[1], 1) == SFLIGHT_ALONE, "as the other");
    for (size_t len = 30; len <= sizeof large; len = len * 3 + 1) {
        large[len - 1] = 1;
        check(sflight_ask(&one, &calls[0], large, len, TRIES, &id, &stamp) == SFLIGHT_LED, "a long key");
        led = id;
        large[len - 1] = 2;
        check(sflight_ask(&one, &calls[1], large, len, TRIES, &id, &stamp) == SFLIGHT_LED, "is not one that differs in its last byte");
        large[len - 1] = 1;
        check(sflight_ask(&one, &calls[2], large, len - 1, TRIES, &id, &stamp) == SFLIGHT_LED, "nor a shorter one");
        check(settle(&one, &calls[2], 1) == SFLIGHT_ALONE, "(which ends)");
        check(sflight_ask(&one, &calls[2], large, len, TRIES, &id, &stamp) == SFLIGHT_JOINED && is_id(&id, &led), "and is itself");
        check(settle(&one, &calls[0], 1) == SFLIGHT_TOLD && leave(&one, &calls[0]) == SFLIGHT_DONE && leave(&one, &calls[2]) == SFLIGHT_LAST, "it ends");
        check(settle(&one, &calls[1], 1) == SFLIGHT_ALONE, "and the other");
        large[len - 1] = 0;
    }
    free_all(calls, 3);
    sflight_close(&one);
}

/* More calls than there is room for; the group grows, and what was open is joined and forgotten still. */
static void grows(void) {
    enum { CALLS = 3000 };
    static sflight_call calls[CALLS], joiner;
    static sflight_id ids[CALLS];
    static sflight_stamp stamps[CALLS];
    sflight_handle one;
    sflight_size before, size;
    char key[16];
    int full = 0;
    open_group(&one, 2);
    make(&one, calls, CALLS);
    make(&one, &joiner, 1);
    sflight_measure(&one, &size);
    for (int i = 0; i < CALLS; i++) {
        snprintf(key, sizeof key, "%d", i);
        uint32_t code = ask(&one, &calls[i], key);
        if (code == SFLIGHT_FULL) {
            check(is_unwritten(), "a refusal writes nothing");
            full++;
            before = size;
            check(sflight_grow(&one) == SFLIGHT_DONE, "there is room again");
            sflight_measure(&one, &size);
            check(size.tables == before.tables + 1 && size.cells > before.cells && size.cells <= before.cells * 16, "and the table is larger");
            code = ask(&one, &calls[i], key);
        }
        check(code == SFLIGHT_LED && id.table < size.tables, "each leads");
        ids[i] = id;
        stamps[i] = stamp;
    }
    check(full >= 3 && full <= 5, "it was full a few times");
    bool is_still = true, is_joined = true, is_other = true;
    for (int i = 0; i < CALLS; i++) {
        snprintf(key, sizeof key, "%d", i);
        is_still = is_still && sflight_is_still(&one, &stamps[i]);
        is_joined = is_joined && ask(&one, &joiner, key) == SFLIGHT_JOINED && is_id(&id, &ids[i]) && leave(&one, &joiner) == SFLIGHT_DONE;
        for (int j = i - 3 < 0 ? 0 : i - 3; j < i; j++) is_other = is_other && !is_id(&ids[i], &ids[j]);
    }
    check(is_still && is_joined && is_other, "no stamp has ended, and each call is joined");
    for (int i = 0; i < CALLS; i++) {
        snprintf(key, sizeof key, "%d", i);
        if (i % 2) check(forget(&one, key) == SFLIGHT_DONE && is_id(&id, &ids[i]), "each is forgotten");
        check(settle(&one, &calls[i], (uint64_t)i) == SFLIGHT_TOLD && audience.forgotten == (i % 2 == 1), "and settled");
        check(leave(&one, &calls[i]) == SFLIGHT_LAST && value == (uint64_t)i, "and left");
        /* A Forget of another key of its hash slot ends a stamp too. */
        check(i % 2 == 0 || !sflight_is_still(&one, &stamps[i]), "and its stamp is ended, if it was forgotten");
    }
    free_all(&joiner, 1);
    free_all(calls, CALLS);
    sflight_close(&one);
}

/* Cells are used again, under new names. */
static void many_calls(void) {
    sflight_handle one;
    sflight_call call;
    sflight_id last = {0};
    open_group(&one, 1);
    make(&one, &call, 1);
    bool is_well = true;
    for (int i = 0; i < 100000; i++) {
        is_well = is_well && ask(&one, &call, "k") == SFLIGHT_LED && !is_id(&id, &last) && settle(&one, &call, 1) == SFLIGHT_ALONE;
        last = id;
    }
    check(is_well, "a cell is used again and again");
    free_all(&call, 1);
    sflight_close(&one);
}

/* Threads. Each key has a version, which an update counts up before it forgets; what an asking gets is no older than the version of before it. Each
 * value is a number that is left by its last holder exactly once. */
enum { THREADS = 8, KEYS = 6, MOST_VALUES = 1 << 20 };
#ifndef ROUNDS
#define ROUNDS 20000
#endif

struct job {
    pthread_t thread;
    sflight_handle handle;
    unsigned seed;
    bool is_growing;
    uint64_t led, joined, early, alone, told, last, grown;
};

static atomic_ullong versions[KEYS], forgotten[KEYS], values; /* the version that the last Forget to return was made for */
static atomic_uchar open_values[MOST_VALUES]; /* 1: settled and told; 2: left by the last */

static void *run(void *at) {
    struct job *job = at;
    sflight_call call;
    make(&job->handle, &call, 1);
    for (int round = 0; round < ROUNDS; round++) {
        unsigned key = (unsigned)rand_r(&job->seed) % KEYS;
        char name[8] = {'k', (char)('0' + key)};
        if (rand_r(&job->seed) % 8 == 0) {
            unsigned long long version = atomic_fetch_add(&versions[key], 1) + 1, before = atomic_load(&forgotten[key]);
            uint32_t code;
            while ((code = forget(&job->handle, name)) == SFLIGHT_BUSY) {}
            check(code == SFLIGHT_DONE || code == SFLIGHT_NOTHING, "a Forget");
            while (before < version && !atomic_compare_exchange_weak(&forgotten[key], &before, version)) {}
            continue;
        }
        if (job->is_growing && rand_r(&job->seed) % 2000 == 0 && job->grown < 2) {
            check(sflight_grow(&job->handle) == SFLIGHT_DONE, "the group grows meanwhile");
            job->grown++;
        }
        uint64_t least = atomic_load(&forgotten[key]);
        uint32_t code = ask(&job->handle, &call, name);
        if (code == SFLIGHT_BUSY) continue;
        if (code == SFLIGHT_FULL) {
            check(sflight_grow(&job->handle) == SFLIGHT_DONE, "the group grows");
            continue;
        }
        if (code == SFLIGHT_LED) {
            job->led++;
            uint64_t version = atomic_load(&versions[key]), number = atomic_fetch_add(&values, 1);
            if (rand_r(&job->seed) % 3 == 0) sched_yield();
            code = settle(&job->handle, &call, version << 32 | number);
            if (code == SFLIGHT_ALONE) {
                job->alone++;
                continue;
            }
            if (code != SFLIGHT_TOLD) {
                check(false, "a leader settles");
                return NULL;
            }
            job->told++;
            if (number < MOST_VALUES) check(atomic_exchange(&open_values[number], 1) != 1, "a number is told once");
        } else {
            check(code == SFLIGHT_JOINED, "it leads or joins");
            job->joined++;
            unsigned patience = (unsigned)rand_r(&job->seed) % 50;
            while ((code = look(&job->handle, &call)) == SFLIGHT_PENDING && patience-- > 0) sched_yield();
            if (code == SFLIGHT_DONE) check(value >> 32 >= least, "nothing is older than a Forget");
            else job->early++;
        }
        code = leave(&job->handle, &call);
        if (code == SFLIGHT_LAST) {
            uint64_t number = value & UINT32_MAX;
            job->last++;
            if (number < MOST_VALUES) check(atomic_exchange(&open_values[number], 2) != 2, "one is the last");
        } else {
            check(code == SFLIGHT_DONE, "one leaves");
        }
    }
    free_all(&call, 1);
    return NULL;
}

static void threads(uint64_t cells) {
    static struct job jobs[THREADS];
    uint64_t told = 0, last = 0, joined = 0, early = 0;
    sflight_handle one;
    open_group(&one, cells);
    atomic_store(&values, 0);
    for (int i = 0; i < MOST_VALUES; i++) atomic_store_explicit(&open_values[i], 0, memory_order_relaxed);
    for (int i = 0; i < THREADS; i++) {
        jobs[i] = (struct job){.seed = (unsigned)i + 1, .is_growing = i == 0};
        check(sflight_split(&one, &jobs[i].handle) == SFLIGHT_DONE, "a handle for each thread");
        if (pthread_create(&jobs[i].thread, NULL, run, &jobs[i]) != 0) abort();
    }
    for (int i = 0; i < THREADS; i++) {
        pthread_join(jobs[i].thread, NULL);
        sflight_close(&jobs[i].handle);
        told += jobs[i].told;
        last += jobs[i].last;
        joined += jobs[i].joined;
        early += jobs[i].early;
    }
    check(told == last, "each call that was told has one last holder");
    printf("%llu joined, of which %llu left early; %llu told\n", (unsigned long long)joined, (unsigned long long)early, (unsigned long long)told);
    sflight_close(&one);
}

static void sentences(void) {
    for (uint32_t code = 0; code <= SFLIGHT_OLD_PROCESSOR; code++) {
        for (uint32_t other = 0; other < code; other++) check(strcmp(sflight_strerror(code), sflight_strerror(other)) != 0, "a sentence of its own");
        check(strcmp(sflight_strerror(code), sflight_strerror(UINT32_MAX)) != 0, "each code has a sentence");
    }
    check(strcmp(sflight_strerror(SFLIGHT_OLD_PROCESSOR + 1), sflight_strerror(UINT32_MAX)) == 0, "what is no code");
}

int main(void) {
    setvbuf(stdout, NULL, _IOLBF, 0);
    sizes();
    not_open();
    one_call();
    forgets();
    handles();
    outlives();
    keys();
    grows();
    many_calls();
    threads(64);
    threads(1);
    sentences();
    printf("%d passed, %d failed\n", passed, failed);
    return failed > 0;
}
