/* Times of the calls of sflight.h, sflight_do.h and sflight_cache.h, the least of some rounds; tools/figures runs it. */
#include "sflight.h"
#include "sflight_cache.h"
#include "sflight_do.h"
#include <pthread.h>
#include <stdatomic.h>
#include <stdio.h>
#include <stdlib.h>
#include <string.h>
#include <sys/random.h>
#include <time.h>

#define GETS 50000
#define ROUNDS 41

static double now(void) {
    struct timespec at;
    clock_gettime(CLOCK_MONOTONIC, &at);
    return (double)at.tv_sec * 1e9 + (double)at.tv_nsec;
}

static void check(bool holds) {
    if (!holds) abort();
}

/* A handle of a group, and a call. */
struct caller {
    sflight_handle handle;
    sflight_call call;
};

/* Nanoseconds of an sflight_ask that leads, with its sflight_settle. */
static double pair(struct caller *caller, const uint8_t *key, size_t len, sflight_stamp *stamp) {
    double from = now();
    for (int n = 0; n < GETS; n++) {
        sflight_id id;
        sflight_audience audience;
        check(sflight_ask(&caller->handle, &caller->call, key, len, 64, &id, stamp) == SFLIGHT_LED);
        check(sflight_settle(&caller->handle, &caller->call, (uint64_t)n, &audience) == SFLIGHT_ALONE);
    }
    return (now() - from) / GETS;
}

/* Nanoseconds of an sflight_is_still. */
static double still(struct caller *caller, const sflight_stamp *stamp, bool answer) {
    double from = now();
    for (int n = 0; n < GETS; n++) check(sflight_is_still(&caller->handle, stamp) == answer);
    return (now() - from) / GETS;
}

/* Nanoseconds of an sflight_forget of a key that nobody loads. */
static double forgets(struct caller *caller, const uint8_t *key, size_t len) {
    sflight_id id;
    double from = now();
    for (int n = 0; n < GETS; n++) check(sflight_forget(&caller->handle, key, len, 64, &id) == SFLIGHT_NOTHING);
    return (now() - from) / GETS;
}

static void least(double *least, double took) {
    if (*least == 0 || took < *least) *least = took;
}

static int by_size(const void *one, const void *other) {
    double a = *(const double *)one, b = *(const double *)other;
    return (a > b) - (a < b);
}

static uint64_t nothing(void *context, const uint8_t *key, size_t len) {
    (void)context;
    (void)key;
    return len;
}

static int discard(void *context, const char *text, size_t len) {
    (void)context;
    (void)text;
    (void)len;
    return 0;
}

struct getter {
    sflight_pool *pool;
    pthread_barrier_t *barrier;
    char key[16];
};

/* What a cache keeps. */
static int load_nothing(void *context, const uint8_t *key, size_t len, sflight_cache_loaded *loaded) {
    (void)key, (void)len;
    loaded->value = context;
    return SFLIGHT_CACHE_LOADED;
}

/* Nanoseconds of an sflight_cache_get that finds its value, with the release. */
static double hits(void) {
    int value = 0;
    sflight_cache_options options = {.limit = 100, .entries = 100, .load = load_nothing, .context = &value};
    sflight_cache *cache = sflight_cache_open(&options);
    sflight_value got;
    check(cache && sflight_cache_get(cache, (const uint8_t *)"key-0", 5, &got) == SFLIGHT_CACHE_LOADED);
    sflight_cache_release(cache, &got);
    double from = now();
    for (int n = 0; n < GETS; n++) {
        check(sflight_cache_get(cache, (const uint8_t *)"key-0", 5, &got) == SFLIGHT_CACHE_HIT);
        sflight_cache_release(cache, &got);
    }
    double took = (now() - from) / GETS;
    sflight_cache_close(cache);
    return took;
}

static void *get_all(void *at) {
    struct getter *getter = at;
    sflight_got got;
    /* All are there before the clock runs. */
    pthread_barrier_wait(getter->barrier);
    pthread_barrier_wait(getter->barrier);
    for (int n = 0; n < GETS; n++) {
        check(sflight_do(getter->pool, (const uint8_t *)getter->key, strlen(getter->key), nothing, NULL, SFLIGHT_DO_FOREVER, &got) == SFLIGHT_DO_DONE);
    }
    pthread_barrier_wait(getter->barrier);
    return NULL;
}

/* Nanoseconds of an sflight_do in each of so many threads, each with its own key. */
static double gets(sflight_pool *pool, int threads) {
    enum { MOST = 4 };
    pthread_barrier_t barrier;
    pthread_t ids[MOST];
    struct getter getters[MOST];
    check(threads <= MOST && pthread_barrier_init(&barrier, NULL, (unsigned)threads + 1) == 0);
    for (int i = 0; i < threads; i++) {
        getters[i].pool = pool;
        getters[i].barrier = &barrier;
        snprintf(getters[i].key, sizeof getters[i].key, "key-%d", i);
        check(pthread_create(&ids[i], NULL, get_all, &getters[i]) == 0);
    }
    pthread_barrier_wait(&barrier);
    double from = now();
    pthread_barrier_wait(&barrier);
    pthread_barrier_wait(&barrier);
    double took = (now() - from) / GETS;
    for (int i = 0; i < threads; i++) pthread_join(ids[i], NULL);
    pthread_barrier_destroy(&barrier);
    return took;
}

/* Prints the time of an sflight_do while the pool is recorded and while it is not, in rounds that alternate, and how many of a hundred
 * events were lost. */
static void recorded(int threads) {
    double with[ROUNDS], without[ROUNDS];
    uint64_t events = 0, lost = 0;
    for (int round = 0; round < ROUNDS; round++) {
        sflight_recorded recorded;
        sflight_pool *pool = sflight_do_open(0, NULL);
        check(pool != NULL);
        without[round] = gets(pool, threads);
        check(sflight_do_record(pool, discard, NULL) == SFLIGHT_DO_DONE);
        with[round] = gets(pool, threads);
        check(sflight_do_stop(pool, &recorded) == SFLIGHT_DO_DONE);
        events += recorded.events;
        lost += recorded.lost;
        sflight_do_close(pool);
    }
    qsort(with, ROUNDS, sizeof *with, by_size);
    qsort(without, ROUNDS, sizeof *without, by_size);
    printf("recorded, %d threads: %.0f (%.0f) ns an sflight_do; not recorded %.0f (%.0f) ns; %.1f %% lost\n", threads, with[0], with[ROUNDS / 2], without[0],
           without[ROUNDS / 2], 100 * (double)lost / (double)(events + lost));
}

static atomic_bool is_grown;

/* Makes the next table, and returns how many milliseconds that took. */
static void *grows(void *handle) {
    static double took;
    double from = now();
    check(sflight_grow(handle) == SFLIGHT_DONE);
    took = (now() - from) / 1e6;
    atomic_store(&is_grown, true);
    return &took;
}

/* The longest sflight_ask with its sflight_settle while another thread makes a table of so many cells as there may be. */
static void growing(void) {
    struct caller caller = {SFLIGHT_HANDLE_NONE, SFLIGHT_CALL_NONE};
    sflight_handle other = SFLIGHT_HANDLE_NONE;
    sflight_id id;
    sflight_stamp stamp;
    sflight_audience audience;
    pthread_t thread;
    void *took;
    double longest = 0;
    uint64_t pairs = 0;
    check(sflight_open(&caller.handle, SFLIGHT_MOST_CELLS / 8, 1, 2) == SFLIGHT_DONE && sflight_make(&caller.handle, &caller.call) == SFLIGHT_DONE);
    check(sflight_split(&caller.handle, &other) == SFLIGHT_DONE && pthread_create(&thread, NULL, grows, &other) == 0);
    for (bool is_last = false; !is_last; pairs++) {
        /* One more when the table is there. */
        is_last = atomic_load(&is_grown);
        double from = now();
        check(sflight_ask(&caller.handle, &caller.call, (const uint8_t *)"key", 3, 64, &id, &stamp) == SFLIGHT_LED);
        check(sflight_settle(&caller.handle, &caller.call, pairs, &audience) == SFLIGHT_ALONE);
        from = now() - from;
        if (from > longest) longest = from;
    }
    check(pthread_join(thread, &took) == 0);
    printf("a table of %u cells: made in %.1f ms; of %llu pairs of an sflight_ask and sflight_settle meanwhile the longest took %.3f ms\n", SFLIGHT_MOST_CELLS,
           *(double *)took, (unsigned long long)pairs, longest / 1e6);
    check(sflight_free(&caller.call) == SFLIGHT_DONE);
    sflight_close(&caller.handle);
    sflight_close(&other);
}

int main(void) {
    static const size_t lengths[] = {8, 16, 32, 64, 128, 250, 1000};
    enum { KEYS = sizeof lengths / sizeof *lengths };
    uint64_t seeds[2];
    sflight_stamp old, stamp = {0, 0, 0};
    uint8_t key[1000];
    double pairs[KEYS] = {0}, yes = 0, no = 0, forgotten = 0, hit = 0;
    struct caller caller = {SFLIGHT_HANDLE_NONE, SFLIGHT_CALL_NONE};
    memset(key, 'k', sizeof key);
    check(getrandom(seeds, sizeof seeds, 0) == sizeof seeds);
    check(sflight_open(&caller.handle, 64, seeds[0], seeds[1]) == SFLIGHT_DONE && sflight_make(&caller.handle, &caller.call) == SFLIGHT_DONE);
    for (int round = 0; round < ROUNDS; round++) {
        for (int i = KEYS - 1; i >= 0; i--) least(&pairs[i], pair(&caller, key, lengths[i], &stamp));
        least(&yes, still(&caller, &stamp, true));
        old = stamp;
        least(&forgotten, forgets(&caller, key, lengths[0]));
        least(&no, still(&caller, &old, false));
        least(&hit, hits());
    }
    for (int i = 0; i < KEYS; i++) printf("sflight_ask and sflight_settle, a key of %zu bytes: %.0f ns\n", lengths[i], pairs[i]);
    printf("sflight_is_still: %.1f ns, yes; %.1f ns, no\n", yes, no);
    printf("sflight_forget: %.1f ns\n", forgotten);
    printf("sflight_cache_get, a hit, and sflight_cache_release: %.1f ns\n", hit);
    check(sflight_free(&caller.call) == SFLIGHT_DONE);
    sflight_close(&caller.handle);
    growing();
    recorded(1);
    recorded(4);
    return 0;
}
