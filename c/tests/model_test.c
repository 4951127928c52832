/* The library beside a plain model of it, by random calls of one thread: each code, and all that is written, is the same. The model is a list of open calls,
 * and stamps that a Forget has ended. Words: a seed, and how many calls. */
#include "sflight.h"
#include <stdio.h>
#include <stdlib.h>
#include <string.h>

#ifndef STEPS
#define STEPS 2000000
#endif

enum { KEYS = 12, CALLS = 24, HANDLES = 3, STAMPS = 32, MOST = 4096 };

/* Outputs have this value, which the library may change only where its code says so. */
enum { UNWRITTEN = 77 };

/* A call of a key, from its lead until its last holder has left. */
struct led {
    int key;
    uint64_t value, holders;
    bool open, joined, forgotten, settled;
    sflight_id id;
};

enum state { IDLE, LEADS, HOLDS };

static struct led *of[CALLS];   /* what each call leads or holds */
static enum state state[CALLS];
static struct led *open_of[KEYS];
static struct kept { sflight_stamp stamp; sflight_id id; int key; bool has, ended; } kept[STAMPS];
static sflight_handle handles[HANDLES];
static sflight_call calls[CALLS];
static uint64_t seed, step, failed, asked, agreed;
static const char *doing = "";

static uint64_t draw(uint64_t below) {
    seed ^= seed << 13;
    seed ^= seed >> 7;
    seed ^= seed << 17;
    return (seed >> 11) % below;
}

static void check(bool holds, const char *what) {
    if (!holds && failed++ < 10) printf("FAILED: step %llu, %s: %s\n", (unsigned long long)step, doing, what);
}

/* Some keys are their own names, and some are longer than those may be. */
static size_t key_of(int number, uint8_t *key) {
    return (size_t)sprintf((char *)key, number % 3 == 0 ? "a key that is longer than fifteen bytes, %d" : "key %d", number);
}

static bool same_id(sflight_id a, sflight_id b) { return a.table == b.table && a.cell == b.cell && a.generation == b.generation; }

static void shut(struct led *led) {
    if (led->open) open_of[led->key] = NULL;
    led->open = false;
}

static void ask(sflight_handle *handle, int at) {
    uint8_t key[64];
    int number = (int)draw(KEYS);
    size_t len = key_of(number, key);
    sflight_id id = {UNWRITTEN, UNWRITTEN, UNWRITTEN};
    sflight_stamp stamp = {UNWRITTEN, UNWRITTEN, UNWRITTEN};
    doing = "ask";
    uint32_t code = sflight_ask(handle, &calls[at], key, len, 64, &id, &stamp);
    if (code == SFLIGHT_FULL) {
        check(state[at] == IDLE && !open_of[number], "full where there is something to join");
        /* One handle makes all tables, and the others find them. */
        check(sflight_grow(&handles[0]) == SFLIGHT_DONE, "grow");
        code = sflight_ask(handle, &calls[at], key, len, 64, &id, &stamp);
    }
    if (state[at] != IDLE) {
        check(code == SFLIGHT_WRONG_STATE && id.cell == UNWRITTEN && stamp.age == UNWRITTEN, "a call that is not idle");
    } else if (open_of[number]) {
        struct led *led = open_of[number];
        check(code == SFLIGHT_JOINED && same_id(id, led->id) && stamp.age == UNWRITTEN, "the open call is joined");
        led->holders++;
        led->joined = true;
        of[at] = led;
        state[at] = HOLDS;
    } else {
        check(code == SFLIGHT_LED && id.generation != 0, "a new call is led");
        for (int i = 0; i < CALLS; i++) check(state[i] == IDLE || of[i]->id.table != id.table || of[i]->id.cell != id.cell, "a cell that is in use");
        struct led *led = calloc(1, sizeof *led);
        if (!led) abort();
        *led = (struct led){.key = number, .holders = 1, .open = true, .id = id};
        open_of[number] = led;
        of[at] = led;
        state[at] = LEADS;
        kept[draw(STAMPS)] = (struct kept){stamp, id, number, true, false};
    }
}

static void settle(sflight_handle *handle, int at) {
    sflight_audience audience = {UNWRITTEN, false, false};
    uint64_t value = draw(UINT64_MAX);
    doing = "settle";
    uint32_t code = sflight_settle(handle, &calls[at], value, &audience);
    struct led *led = of[at];
    if (state[at] != LEADS) {
        check(code == SFLIGHT_WRONG_STATE && audience.holders == UNWRITTEN, "a call that does not lead");
    } else if (!led->joined && !led->forgotten) {
        check(code == SFLIGHT_ALONE && audience.holders == UNWRITTEN, "nobody is told");
        shut(led);
        free(led);
        state[at] = IDLE;
    } else {
        check(code == SFLIGHT_TOLD && audience.holders == led->holders && audience.joined == led->joined && audience.forgotten == led->forgotten, "the audience");
        shut(led);
        led->settled = true;
        led->value = value;
        state[at] = HOLDS;
    }
}

static void look(sflight_handle *handle, int at) {
    uint64_t value = UNWRITTEN;
    doing = "look";
    uint32_t code = sflight_look(handle, &calls[at], &value);
    if (state[at] != HOLDS) check(code == SFLIGHT_WRONG_STATE && value == UNWRITTEN, "a call that holds none");
    else if (!of[at]->settled) check(code == SFLIGHT_PENDING && value == UNWRITTEN, "not settled yet");
    else check(code == SFLIGHT_DONE && value == of[at]->value, "the value");
}

static void leave(sflight_handle *handle, int at) {
    uint64_t value = UNWRITTEN;
    doing = "leave";
    uint32_t code = sflight_leave(handle, &calls[at], &value);
    struct led *led = of[at];
    if (state[at] != HOLDS) {
        check(code == SFLIGHT_WRONG_STATE && value == UNWRITTEN, "a call that holds none");
        return;
    }
    state[at] = IDLE;
    if (--led->holders == 0 && led->settled) {
        check(code == SFLIGHT_LAST && value == led->value, "the last one");
        free(led);
    } else {
        check(code == SFLIGHT_DONE && value == UNWRITTEN, "not the last one");
    }
}

static void forget(sflight_handle *handle) {
    uint8_t key[64];
    int number = (int)draw(KEYS);
    size_t len = key_of(number, key);
    sflight_id id = {UNWRITTEN, UNWRITTEN, UNWRITTEN};
    doing = "forget";
    uint32_t code = sflight_forget(handle, key, len, 64, &id);
    for (int i = 0; i < STAMPS; i++) kept[i].ended |= kept[i].key == number;
    if (open_of[number]) {
        check(code == SFLIGHT_DONE && same_id(id, open_of[number]->id), "the open call is closed");
        open_of[number]->forgotten = true;
        shut(open_of[number]);
    } else {
        check(code == SFLIGHT_NOTHING && id.cell == UNWRITTEN, "nothing is open");
    }
}

static void forget_call(sflight_handle *handle) {
    uint8_t key[64];
    struct kept *it = &kept[draw(STAMPS)];
    if (!it->has) return;
    size_t len = key_of(it->key, key);
    doing = "forget_call";
    uint32_t code = sflight_forget_call(handle, key, len, &it->id, &it->stamp, 64);
    struct led *led = open_of[it->key];
    if (led && same_id(led->id, it->id)) {
        check(code == SFLIGHT_DONE, "it was open");
        led->forgotten = true;
        shut(led);
        /* Its value has no stamp: its audience says so. */
        it->has = false;
    } else {
        check(code == SFLIGHT_CLEARED, "it was not open");
        it->ended = true;
    }
}

static void is_still(sflight_handle *handle) {
    struct kept *it = &kept[draw(STAMPS)];
    if (!it->has) return;
    doing = "is_still";
    bool yes = sflight_is_still(handle, &it->stamp);
    check(!yes || !it->ended, "current until a Forget");
    asked += !it->ended;
    agreed += yes;
}

int main(int argc, char **argv) {
    uint64_t first = argc > 1 ? strtoull(argv[1], NULL, 10) : 1, steps = argc > 2 ? strtoull(argv[2], NULL, 10) : STEPS;
    seed = first * 0x9E3779B97F4A7C15u | 1;
    doing = "open";
    check(sflight_open(&handles[0], 4, 0x243F6A8885A308D3u, 0x13198A2E03707344u) == SFLIGHT_DONE, "open");
    for (int i = 1; i < HANDLES; i++) check(sflight_split(&handles[0], &handles[i]) == SFLIGHT_DONE, "split");
    for (int i = 0; i < CALLS; i++) check(sflight_make(&handles[i % HANDLES], &calls[i]) == SFLIGHT_DONE, "make");
    for (step = 0; step < steps; step++) {
        sflight_handle *handle = &handles[draw(HANDLES)];
        int at = (int)draw(CALLS);
        switch (draw(16)) {
        case 0: case 1: case 2: case 3: ask(handle, at); break;
        case 4: case 5: settle(handle, at); break;
        case 6: case 7: look(handle, at); break;
        case 8: case 9: case 10: leave(handle, at); break;
        case 11: forget(handle); break;
        case 12: forget_call(handle); break;
        case 13: if (draw(100000) == 0) { sflight_size size; doing = "grow"; sflight_measure(&handles[0], &size); if (size.tables < 4) check(sflight_grow(&handles[0]) == SFLIGHT_DONE, "grow"); } break;
        default: is_still(handle);
        }
    }
    doing = "the end";
    for (int i = 0; i < CALLS; i++) {
        if (state[i] != LEADS) continue;
        check(sflight_free(&calls[i]) == SFLIGHT_WRONG_STATE, "a call that leads is not freed");
        settle(&handles[0], i);
    }
    for (int i = 0; i < CALLS; i++) {
        if (state[i] == HOLDS) leave(&handles[1], i);
        check(sflight_free(&calls[i]) == SFLIGHT_DONE && !calls[i].live, "an idle call is freed");
    }
    /* 4 cells, and then 32, are enough: a handle that finds no room looks for the table that another has made. */
    sflight_size size = {0};
    check(sflight_measure(&handles[0], &size) == SFLIGHT_DONE && size.tables <= 5, "no more tables than are needed");
    for (int i = 0; i < HANDLES; i++) sflight_close(&handles[i]);
    /* A Forget of another key at the same hash slot ends a stamp too, which is seldom. */
    doing = "is_still";
    check(agreed * 10 > asked * 5, "most are current that no Forget has ended");
    printf("%llu steps, %llu of %llu current, %llu failed\n", (unsigned long long)step, (unsigned long long)agreed, (unsigned long long)asked, (unsigned long long)failed);
    return failed != 0;
}
