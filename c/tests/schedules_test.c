/* Schedules of sflight_do.c: threads whose steps are in an order that a number draws, which ask for few keys,
 * with nested loads, deadlines, Forgets, a cache of the program's own and pools that grow. One load of a key
 * runs at a time, unless a Forget came between; nothing is older than a Forget that had returned; nothing is
 * older than what a call had returned before it was asked for, nor the same; and so many counts of a value are
 * given as threads get it.
 * usage: schedules_test [NUMBER [COUNT]], the first schedule and how many. */
#include "schedules.h"

#include "sflight_do.c"

#ifndef SCHEDULES
#define SCHEDULES 100000
#endif

enum { KEYS = 4, MOST_RUNNING = 64 };

static int passed, failed;

static void check(bool holds, const char *what) {
    if (holds) { passed++; return; }
    failed++;
    printf("FAILED: %s (schedule %llu)\n", what, (unsigned long long)play.number);
    fflush(stdout);
}

/* One actor runs at a time, and hands over within the library's parts alone: what is here is read and written as by one thread. */
static struct key {
    const char *name;
    size_t len;
    uint64_t begun, ended; /* Forgets */
    uint64_t forgotten;    /* when the last one began that has returned */
    uint64_t newest, newest_ended; /* the newest value that was returned, and how many Forgets had ended when it was asked for */
    struct { uint64_t moment, ended; } running[MOST_RUNNING];
    int count;
    uint64_t cached_moment;
    sflight_do_stamp cached;
} keys[KEYS] = {
    {.name = "k", .len = 1}, {.name = "k\0", .len = 2}, {.name = "another", .len = 7},
    {.name = "a long key, which the library knows by a digest", .len = 47},
};

static sflight_pool *pool;
static uint64_t ticks, loads, joined, hits, late, doubles, stale, backward, refused, given, received;
static unsigned rounds, forgetting;

struct loads {
    int key, depth;
    uint64_t ended;
};

static void ask_for(int number, int depth);

static uint64_t loading(void *context, const uint8_t *name, size_t len) {
    struct loads *load = context;
    struct key *key = &keys[load->key];
    uint64_t moment = ++ticks;
    if (key->len != len || memcmp(key->name, name, len) != 0) abort();
    /* A load may run beside another if a Forget came between: if not all that have begun by now had returned when it was asked for. */
    for (int i = 0; i < key->count && load->ended == key->begun; i++) doubles += key->running[i].ended == key->begun;
    if (key->count == MOST_RUNNING) abort();
    key->running[key->count].moment = moment;
    key->running[key->count++].ended = load->ended;
    loads++;
    for (unsigned i = random_below(6); i > 0; i--) point(false);
    int other = load->key + 1 + (int)random_below(KEYS);
    if (load->depth < 2 && other < KEYS && random_below(2) == 0) ask_for(other, load->depth + 1);
    for (int i = 0; i < key->count; i++) {
        if (key->running[i].moment == moment) key->running[i] = key->running[--key->count];
    }
    return moment << 8 | (uint64_t)load->key;
}

static void gives(uint64_t value, uint32_t others) {
    (void)value;
    given += others;
}

static void keeping(void *context, const uint8_t *name, size_t len, uint64_t value, const sflight_do_stamp *stamp) {
    struct key *key = &keys[((struct loads *)context)->key];
    (void)name, (void)len;
    for (unsigned i = random_below(4); i > 0; i--) point(false);
    key->cached = *stamp;
    key->cached_moment = value >> 8;
}

static void ask_for(int number, int depth) {
    struct key *key = &keys[number];
    struct loads load = {number, depth, key->ended};
    uint64_t least = key->forgotten, newest = key->newest, ended = key->newest_ended, cached = key->cached_moment;
    sflight_do_stamp stamp = key->cached;
    sflight_got got;
    if (random_below(3) == 0 && sflight_do_is_still(pool, &stamp)) {
        hits++;
        stale += cached < least;
        backward += cached < newest && key->begun == ended;
    }
    least = key->forgotten;
    newest = key->newest;
    ended = key->newest_ended;
    load.ended = key->ended;
    int64_t timeout = random_below(6) ? SFLIGHT_DO_FOREVER : 1000000000;
    int code = sflight_do_and_keep(pool, (const uint8_t *)key->name, key->len, loading, keeping, &load, timeout, &got);
    if (code != SFLIGHT_DO_DONE) {
        late++;
        refused += code != SFLIGHT_DO_TIMED_OUT || timeout == SFLIGHT_DO_FOREVER;
        return;
    }
    uint64_t moment = got.value >> 8;
    joined += !got.led;
    received += !got.led;
    stale += moment < least || (got.value & 255) != (uint64_t)number;
    backward += moment <= newest && key->begun == ended;
    if (moment > key->newest) {
        key->newest = moment;
        key->newest_ended = load.ended;
    }
}

static void forgets(int number) {
    struct key *key = &keys[number];
    key->begun++;
    uint64_t began = ++ticks;
    sflight_do_forget(pool, (const uint8_t *)key->name, key->len);
    if (key->forgotten < began) key->forgotten = began;
    key->ended++;
}

static void acts_at_random(int number) {
    (void)number;
    for (unsigned i = 0; i < rounds; i++) {
        int key = (int)random_below(random_below(2) ? 2 : KEYS);
        if (random_below(forgetting) == 0) forgets(key);
        else ask_for(key, 0);
    }
}

static void open_pool(uint32_t size) {
    pool = sflight_do_open(size, gives);
    if (!pool) abort();
    for (int i = 0; i < KEYS; i++) keys[i] = (struct key){.name = keys[i].name, .len = keys[i].len};
}

static void play_at_random(uint64_t number) {
    begin_play(number, 2 + (int)(number % (MOST_ACTORS - 1)));
    rounds = 1 + random_below(6);
    forgetting = 2 + random_below(6);
    open_pool(1 + random_below(4));
    uint64_t before = loads;
    play_all(acts_at_random);
    sflight_stats stats = sflight_do_statistics(pool);
    check(doubles == 0, "one load of a key at a time");
    check(stale == 0, "nothing is older than a Forget that had returned");
    check(backward == 0, "nothing is older than what was returned before");
    check(refused == 0, "no call is refused");
    check(given == received, "each that joined has one count, and one that gave up has none");
    check(stats.loads == loads - before && stats.in_use == 0, "loads are counted, and all calls have ended");
    doubles = stale = backward = refused = given = received = 0;
    sflight_do_close(pool);
}

static uint64_t get(const char *key, sflight_load *load, void *context, sflight_got *got) {
    if (sflight_do(pool, (const uint8_t *)key, strlen(key), load, context, SFLIGHT_DO_FOREVER, got) != SFLIGHT_DO_DONE) abort();
    return got->value;
}

static int phase;
static uint64_t store;

static uint64_t reads_store(void *context, const uint8_t *key, size_t len) {
    (void)context, (void)key, (void)len;
    return store;
}

/* Waits for a phase, but not for ever. */
static void until(int least) {
    for (int i = 0; phase < least && i < 5000; i++) point(true);
}

static void play_in_order(uint64_t number, int actors, uint32_t size, bool (*waits)(int, const char *), void (*run)(int)) {
    begin_play(number, actors);
    open_pool(size);
    phase = 0;
    store = 1;
    play.waits = waits;
    play_all(run);
    play.waits = NULL;
    given = 0;
    check(sflight_do_statistics(pool).in_use == 0, "all calls have ended");
    sflight_do_close(pool);
}

/* The leader of the call of a key loads. A Forget closes the call, and is stopped before it returns. A second Forget finds nothing to close, and
 * returns. A thread that asks then must not get the value of before. */
static bool stops_forget(int who, const char *where) {
    if (who != 1 || strcmp(where, "forgotten") != 0) return false;
    if (phase == 1) phase = 2;
    return phase < 3;
}

static uint64_t loads_until_the_end(void *context, const uint8_t *key, size_t len) {
    (void)context, (void)key, (void)len;
    uint64_t value = store;
    phase = 1;
    until(3);
    return value;
}

static void forgets_twice(int number) {
    const sflight_do_stamp none = {0};
    sflight_got got;
    switch (number) {
    case 0:
        check(get("k", loads_until_the_end, NULL, &got) == 1, "the leader gets its value");
        check(memcmp(&got.stamp, &none, sizeof none) == 0, "and no stamp");
        break;
    case 1:
        until(1);
        check(sflight_do_forget(pool, (const uint8_t *)"k", 1), "a Forget closes the call");
        break;
    default:
        until(2);
        check(phase == 2 && !sflight_do_forget(pool, (const uint8_t *)"k", 1), "the second Forget closes nothing");
        store = 2;
        check(get("k", reads_store, NULL, &got) == 2 && got.led && sflight_do_is_still(pool, &got.stamp), "a thread that knows of it joins no call from before");
        phase = 3;
    }
}

/* The leader of a call stops at one place from its settling to its end. Another thread has joined the call before. A thread that asks meanwhile leads a
 * newer call, and does not wait. Once the call is told, the thread that joined has the value, asks again, and gets a newer one. `phase` says how far it is:
 * 0: the leader is about to ask;
 * 1: it loads;
 * 2: another one has joined;
 * 3: the call is settled, and the leader stops;
 * 4: another one has asked. */
static const char *stopping;

static bool stops_leader(int who, const char *where) {
    if (who == 1 && phase == 1 && strcmp(where, strcmp(stopping, "woken") == 0 || play.number % 2 ? "before sleep" : "asked") == 0) phase = 2;
    if (who != 0 || phase < 2 || strcmp(where, stopping) != 0) return false;
    if (phase == 2) phase = 3;
    return phase < 4;
}

static uint64_t loads_until_joined(void *context, const uint8_t *key, size_t len) {
    (void)context, (void)key, (void)len;
    uint64_t value = store;
    phase = 1;
    until(2);
    return value;
}

static void leader_is_slow(int number) {
    sflight_got got;
    switch (number) {
    case 0:
        check(get("k", loads_until_joined, NULL, &got) == 1 && got.led && got.joiners == 1, "the leader's value");
        break;
    case 1:
        until(1);
        check(get("k", reads_store, NULL, &got) == 1 && !got.led && got.joiners == 1, "the thread that joined has the leader's value");
        store++;
        check(get("k", reads_store, NULL, &got) > 1, "once it has the value it gets a newer one");
        break;
    default:
        until(3);
        store++;
        check(phase == 3 && get("k", reads_store, NULL, &got) > 1, "a thread that asks when the call is settled leads a newer one");
        phase = 4;
    }
}

/* A thread that joined gives up as the call is settled: it has its value, or none, and is counted if it has it. `given_up` says whether it has none. */
static bool is_early;
static int given_up;

static bool waits_to_leave(int who, const char *where) {
    if (who == 1 && phase == 1 && strcmp(where, "asked") == 0) phase = 2;
    /* The thread gives up before the leader settles, or after that. */
    if (is_early && who == 0 && strcmp(where, "before settle") == 0 && phase < 3) return true;
    if (!is_early && who == 1 && strcmp(where, "before sleep") == 0 && phase < 4) return true;
    if (!is_early && who == 0 && strcmp(where, "before tell") == 0 && phase < 4) {
        phase = 4;
        return false;
    }
    return false;
}

static void gives_up(int number) {
    sflight_got got;
    if (number == 0) {
        get("k", loads_until_joined, NULL, &got);
        check(got.joiners == (given_up ? 0 : 1) && given == got.joiners, "so many counts as have the value");
        return;
    }
    until(1);
    int code = sflight_do(pool, (const uint8_t *)"k", 1, reads_store, NULL, 1000, &got);
    given_up = code == SFLIGHT_DO_TIMED_OUT;
    check(given_up || (code == SFLIGHT_DO_DONE && got.value == 1 && !got.led), "the value, or none");
    phase = phase < 3 ? 3 : phase;
}

/* A pool grows while a call of a key is open: that is joined, and a Forget reaches it. */
static uint64_t grows_meanwhile(void *context, const uint8_t *key, size_t len) {
    (void)context, (void)key, (void)len;
    phase = 1;
    until(4);
    return 1;
}

static uint64_t stays_open(void *context, const uint8_t *key, size_t len) {
    (void)context, (void)key, (void)len;
    phase++;
    until(4);
    return 9;
}

static void grows_beside(int number) {
    sflight_got got;
    char key[] = "a";
    switch (number) {
    case 0:
        check(get("k", grows_meanwhile, NULL, &got) == 1 && got.joiners == 1, "the call that was open before");
        break;
    case 1:
    case 2:
        until(number);
        key[0] = (char)(key[0] + number);
        check(get(key, stays_open, NULL, &got) == 9, "another call");
        break;
    default:
        until(3);
        check(atomic_load(&pool->posts[1]) != NULL, "the pool has grown");
        if (number == 4) {
            check(get("k", reads_store, NULL, &got) == 1 && !got.led, "it is joined still");
            break;
        }
        for (int i = 0; i < 5000 && sflight_do_statistics(pool).joins == 0; i++) point(true);
        store = 2;
        check(sflight_do_forget(pool, (const uint8_t *)"k", 1), "a Forget reaches it");
        check(get("k", reads_store, NULL, &got) == 2 && got.led, "and the next call is a newer one");
        phase = 4;
    }
}

int main(int argc, char **argv) {
    static const char *const stops[] = {"settled", "before tell", "woken", "before leave"};
    setvbuf(stdout, NULL, _IOLBF, 0);
    uint64_t from = argc > 1 ? strtoull(argv[1], NULL, 10) : 1, count = argc > 2 ? strtoull(argv[2], NULL, 10) : argc > 1 ? 1 : SCHEDULES;
    open_plays();
    for (uint64_t i = 0; argc == 1 && i < 200; i++) {
        play_in_order(i, 3, 4, stops_forget, forgets_twice);
        for (int stop = 0; stop < 4; stop++) {
            stopping = stops[stop];
            play_in_order(i, 3, 4, stops_leader, leader_is_slow);
        }
        is_early = i % 4 < 2;
        given_up = 0;
        play_in_order(i, 2, 4, waits_to_leave, gives_up);
        play_in_order(i, 5, 1, NULL, grows_beside);
    }
    for (uint64_t i = from; i < from + count && failed == 0; i++) play_at_random(i);
    close_plays();
    printf("%llu loads, %llu joined, %llu late, %llu hits\n", (unsigned long long)loads, (unsigned long long)joined, (unsigned long long)late, (unsigned long long)hits);
    if (argc == 1) check(joined > 0 && late > 0 && hits > 0, "there was something of each");
    printf("%d passed, %d failed\n", passed, failed);
    return failed > 0;
}
