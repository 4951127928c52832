/* Tests of sflight_do.h. tests/stress_test.c has many calls of many threads. */
#include "sflight_inside.h"
#include <malloc.h>
#include <pthread.h>
#include <sched.h>
#include <signal.h>
#include <stdatomic.h>
#include <stdio.h>
#include <stdlib.h>
#include <string.h>
#include <time.h>
#include <unistd.h>

/* After so many seconds it hangs. */
#ifndef LIMIT
#define LIMIT 1400
#endif

static atomic_int passed, failed;

static void hangs_at(int number) {
    static const char text[] = "FAILED: it hangs\n";
    (void)number;
    if (write(STDOUT_FILENO, text, sizeof text - 1) < 0) _exit(2);
    _exit(1);
}

static void check(bool holds, const char *what) {
    if (holds) { passed++; return; }
    failed++;
    printf("FAILED: %s\n", what);
}

static int get(sflight_pool *pool, const char *key, sflight_load *load, void *context, int64_t timeout, sflight_got *got) {
    return sflight_do(pool, (const uint8_t *)key, strlen(key), load, context, timeout, got);
}

static bool forget(sflight_pool *pool, const char *key) { return sflight_do_forget(pool, (const uint8_t *)key, strlen(key)); }

static void sleep_ms(long ms) { nanosleep(&(struct timespec){ms / 1000, ms % 1000 * 1000000}, NULL); }

static uint64_t plain(void *context, const uint8_t *key, size_t len) {
    (void)key;
    (void)len;
    return (uint64_t)(size_t)context;
}

/* A load that runs another thing meanwhile. */
struct inner {
    sflight_pool *pool;
    void (*run)(struct inner *);
    const char *key;
    sflight_load *load;
    sflight_got got;
    int code;
    atomic_int begun, over;
};

static uint64_t outer(void *context, const uint8_t *key, size_t len) {
    (void)key;
    (void)len;
    struct inner *inner = context;
    inner->run(inner);
    return 1;
}

static void runs_nested(struct inner *inner) {
    inner->code = get(inner->pool, inner->key, plain, (void *)(size_t)2, SFLIGHT_DO_FOREVER, &inner->got);
}

static void sizes(void) {
    check(!sflight_do_open(SFLIGHT_MOST_CELLS + 1, NULL), "a size that is refused");
    sflight_pool *pool = sflight_do_open(SFLIGHT_MOST_CELLS, NULL);
    check(pool != NULL, "and the largest one that is not");
    sflight_do_close(pool);
    pool = sflight_do_open(0, NULL);
    sflight_got got;
    check(get(pool, "k", plain, (void *)(size_t)7, SFLIGHT_DO_FOREVER, &got) == SFLIGHT_DO_DONE && got.value == 7 && got.led && got.joiners == 0, "a load");
    check(sflight_do_is_still(pool, &got.stamp) && !sflight_do_is_still(pool, &(sflight_do_stamp){0}), "its stamp is current");
    check(!forget(pool, "k") && !sflight_do_is_still(pool, &got.stamp), "until the key is forgotten");
    check(sflight_do(pool, NULL, 0, plain, NULL, SFLIGHT_DO_FOREVER, &got) == SFLIGHT_DO_DONE, "the empty key");
    sflight_stats stats = sflight_do_statistics(pool);
    check(stats.loads == 2 && stats.joins == 0 && stats.forgets == 1 && stats.in_use == 0, "its numbers");
    check(stats.hits == 0 && stats.misses == 0 && stats.evictions == 0, "a pool has no cache");
    for (int i = 0; i < 300; i++) get(pool, "k", plain, NULL, SFLIGHT_DO_FOREVER, &got);
    check(!atomic_load(&pool->posts[1]), "a pool grows for loads that are open at one time alone");
    sflight_do_close(pool);
    sflight_do_close(NULL);
}

/* A load that asks for another key. */
static void nested(void) {
    for (uint32_t loads = 0; loads < 3; loads++) {
        sflight_pool *pool = sflight_do_open(loads, NULL);
        struct inner inner = {.pool = pool, .run = runs_nested, .key = "b"};
        sflight_got got;
        check(get(pool, "a", outer, &inner, SFLIGHT_DO_FOREVER, &got) == SFLIGHT_DO_DONE && got.value == 1, "the outer call");
        check(inner.code == SFLIGHT_DO_DONE && inner.got.value == 2 && inner.got.led && sflight_do_is_still(pool, &inner.got.stamp), "the inner call");
        check(sflight_do_statistics(pool).in_use == 0 && sflight_do_statistics(pool).loads == 2, "all calls have ended");
        sflight_do_close(pool);
    }
}

/* A load that forgets its own key has no stamp, and one that began after that has. */
static uint64_t forgets_itself(void *context, const uint8_t *key, size_t len) {
    struct inner *inner = context;
    check(sflight_do_statistics(inner->pool).in_use == 1, "one call runs");
    check(sflight_do_forget(inner->pool, key, len) && !sflight_do_forget(inner->pool, key, len), "a load is forgotten once");
    inner->code = get(inner->pool, inner->key, plain, (void *)(size_t)2, SFLIGHT_DO_FOREVER, &inner->got);
    return 1;
}

static void forgotten(void) {
    sflight_pool *pool = sflight_do_open(0, NULL);
    struct inner inner = {.pool = pool, .key = "k"};
    const sflight_do_stamp none = {0};
    sflight_got got;
    check(get(pool, "k", forgets_itself, &inner, SFLIGHT_DO_FOREVER, &got) == SFLIGHT_DO_DONE && got.value == 1, "the load that was forgotten");
    check(inner.code == SFLIGHT_DO_DONE && inner.got.value == 2 && inner.got.led, "a thread that asks after a Forget joins no load from before");
    check(memcmp(&got.stamp, &none, sizeof none) == 0 && sflight_do_is_still(pool, &inner.got.stamp), "what was forgotten has no stamp");
    sflight_do_close(pool);
}

/* A leader keeps its value before another load of the key can begin, and with its stamp. */
struct keeping {
    sflight_pool *pool;
    int kept;
    bool is_open, is_still;
};

static uint64_t loads_for_cache(void *context, const uint8_t *key, size_t len) {
    (void)context, (void)key, (void)len;
    return 9;
}

static void keeps(void *context, const uint8_t *key, size_t len, uint64_t value, const sflight_do_stamp *stamp) {
    struct keeping *keeping = context;
    sflight_got got;
    keeping->kept++;
    keeping->is_still = value == 9 && sflight_do_is_still(keeping->pool, stamp);
    keeping->is_open = sflight_do(keeping->pool, key, len, plain, NULL, 0, &got) == SFLIGHT_DO_TIMED_OUT;
}

static void kept(void) {
    struct keeping keeping = {.pool = sflight_do_open(0, NULL)};
    sflight_got got;
    int code = sflight_do_and_keep(keeping.pool, (const uint8_t *)"k", 1, loads_for_cache, keeps, &keeping, SFLIGHT_DO_FOREVER, &got);
    check(code == SFLIGHT_DO_DONE && got.value == 9 && keeping.kept == 1 && keeping.is_still, "a value is kept once");
    check(keeping.is_open, "before the key can be loaded again");
    sflight_do_close(keeping.pool);
}

static void waits_until_over(struct inner *inner) {
    atomic_store(&inner->begun, 1);
    while (!atomic_load(&inner->over)) sleep_ms(1);
}

static void *hangs(void *at) {
    struct inner *inner = at;
    inner->code = get(inner->pool, inner->key, outer, inner, SFLIGHT_DO_FOREVER, &inner->got);
    return NULL;
}

/* While a load hangs: other keys are loaded and forgotten, and its own is joined, in time, and forgotten. */
static void hung(void) {
    for (uint32_t i = 0; i < 3; i++) {
        sflight_pool *pool = sflight_do_open(i, NULL);
        struct inner inner = {.pool = pool, .run = waits_until_over, .key = "hung"};
        pthread_t thread;
        sflight_got got;
        char key[16];
        pthread_create(&thread, NULL, hangs, &inner);
        while (!atomic_load(&inner.begun)) sleep_ms(1);
        for (size_t k = 0; k < 300; k++) {
            snprintf(key, sizeof key, "key %zu", k);
            check(get(pool, key, plain, (void *)k, SFLIGHT_DO_FOREVER, &got) == SFLIGHT_DO_DONE && got.value == k && got.led, "another key");
            forget(pool, key);
            check(!sflight_do_is_still(pool, &got.stamp), "is forgotten");
            check(get(pool, "hung", plain, NULL, 0, &got) == SFLIGHT_DO_TIMED_OUT, "one load of it at a time");
        }
        check(get(pool, "hung", plain, NULL, 3000000, &got) == SFLIGHT_DO_TIMED_OUT, "in time");
        check(get(pool, "hung", plain, NULL, -1, &got) == SFLIGHT_DO_TIMED_OUT, "at once where the time is over");
        check(get(pool, "hung", plain, NULL, INT64_MIN, &got) == SFLIGHT_DO_TIMED_OUT, "however long ago");
        check(forget(pool, "hung") && !forget(pool, "hung"), "it is forgotten, once");
        check(get(pool, "hung", plain, (void *)(size_t)5, SFLIGHT_DO_FOREVER, &got) == SFLIGHT_DO_DONE && got.value == 5, "and loaded anew");
        atomic_store(&inner.over, 1);
        pthread_join(thread, NULL);
        check(inner.code == SFLIGHT_DO_DONE && inner.got.value == 1 && inner.got.led && inner.got.joiners == 0, "what hung");
        check(sflight_do_statistics(pool).in_use == 0, "all calls have ended");
        sflight_do_close(pool);
    }
}

static atomic_ullong shared;

static void counts(uint64_t value, uint32_t others) {
    (void)value;
    atomic_fetch_add(&shared, others);
}

/* Many threads ask for one key. */
static void many(void) {
    enum { THREADS = 40 };
    for (uint32_t i = 0; i < 2; i++) {
        sflight_pool *pool = sflight_do_open(i, counts);
        struct inner inner = {.pool = pool, .run = waits_until_over, .key = "k"}, joined[THREADS];
        pthread_t first, threads[THREADS];
        atomic_store(&shared, 0);
        pthread_create(&first, NULL, hangs, &inner);
        while (!atomic_load(&inner.begun)) sleep_ms(1);
        for (int t = 0; t < THREADS; t++) {
            joined[t] = (struct inner){.pool = pool, .run = runs_nested, .key = "k"};
            pthread_create(&threads[t], NULL, hangs, &joined[t]);
        }
        while (sflight_do_statistics(pool).joins < THREADS) sleep_ms(1);
        check(sflight_do_statistics(pool).in_use == 1, "threads that wait are not in use");
        sflight_got late;
        check(get(pool, "k", plain, NULL, 0, &late) == SFLIGHT_DO_TIMED_OUT, "one that is late is not counted");
        atomic_store(&inner.over, 1);
        pthread_join(first, NULL);
        for (int t = 0; t < THREADS; t++) {
            pthread_join(threads[t], NULL);
            check(joined[t].code == SFLIGHT_DO_DONE && joined[t].got.value == 1 && !joined[t].got.led && joined[t].got.joiners == THREADS, "joined");
        }
        sflight_stats stats = sflight_do_statistics(pool);
        check(inner.got.led && inner.got.joiners == THREADS && stats.loads == 1, "one load");
        check(atomic_load(&shared) == THREADS, "so many counts were given");
        sflight_do_close(pool);
    }
}

/* Threads come and go, and so do pools: a thread that exits gives back what it had, and one that exits after the pool has nothing to give. */
struct passer {
    pthread_t thread;
    sflight_pool *pools[12];
    int count;
    bool is_well;
    atomic_int stage; /* 1: it has asked; 2: it may exit */
};

static void *passes(void *at) {
    struct passer *passer = at;
    sflight_got got;
    passer->is_well = true;
    for (int round = 0; round < 3; round++) {
        for (int i = 0; i < passer->count; i++) {
            bool is_got = get(passer->pools[i], "k", plain, (void *)(size_t)i, SFLIGHT_DO_FOREVER, &got) == SFLIGHT_DO_DONE && got.value == (uint64_t)i;
            passer->is_well = passer->is_well && is_got && sflight_do_is_still(passer->pools[i], &got.stamp);
        }
    }
    atomic_store(&passer->stage, 1);
    while (atomic_load(&passer->stage) < 2) sleep_ms(1);
    return NULL;
}

static void threads_and_pools(void) {
    static struct passer passers[4];
    sflight_pool *pool = sflight_do_open(1, NULL), *kept[3];
    for (int i = 0; i < 100; i++) {
        passers[0] = (struct passer){.pools = {pool}, .count = 1, .stage = 0};
        pthread_create(&passers[0].thread, NULL, passes, &passers[0]);
        while (atomic_load(&passers[0].stage) != 1) sched_yield();
        atomic_store(&passers[0].stage, 2);
        pthread_join(passers[0].thread, NULL);
        check(passers[0].is_well, "a thread after another");
    }
    sflight_stats stats = sflight_do_statistics(pool);
    check(stats.loads == 300 && stats.in_use == 0, "what threads have done is counted after they are gone");
    /* More pools than a thread keeps seats of, and they are closed before the threads exit. */
    for (int i = 0; i < 3; i++) kept[i] = sflight_do_open(0, NULL);
    for (int i = 0; i < 4; i++) {
        passers[i] = (struct passer){.count = 12};
        for (int p = 0; p < 12; p++) passers[i].pools[p] = p % 4 == 3 ? kept[p / 4] : sflight_do_open(1, NULL);
        pthread_create(&passers[i].thread, NULL, passes, &passers[i]);
    }
    for (int i = 0; i < 4; i++) {
        while (atomic_load(&passers[i].stage) != 1) sched_yield();
        for (int p = 0; p < 12; p++) if (p % 4 != 3) sflight_do_close(passers[i].pools[p]);
    }
    for (int i = 0; i < 4; i++) {
        atomic_store(&passers[i].stage, 2);
        pthread_join(passers[i].thread, NULL);
        check(passers[i].is_well, "each thread with many pools");
    }
    for (int i = 0; i < 3; i++) {
        sflight_got got;
        stats = sflight_do_statistics(kept[i]);
        check(stats.loads + stats.joins == 12 && stats.in_use == 0, "a pool of many threads");
        check(get(kept[i], "k", plain, NULL, SFLIGHT_DO_FOREVER, &got) == SFLIGHT_DO_DONE, "goes on");
        sflight_do_close(kept[i]);
    }
    sflight_do_close(pool);
}

/* A load uses so many pools that its thread gives its seat back, and has another one when the load ends. However often that
 * happens, one load alone is open at one time, so the pool does not grow. */
static struct {
    sflight_pool *pool, *other; /* the thread keeps a seat of one of the two */
    struct passer passer;
} changing;

static uint64_t changes_seat(void *context, const uint8_t *key, size_t len) {
    sflight_got got;
    (void)context, (void)key, (void)len;
    if (get(changing.other, "k", plain, NULL, SFLIGHT_DO_FOREVER, &got) != SFLIGHT_DO_DONE) abort();
    atomic_store(&changing.passer.stage, 2);
    pthread_join(changing.passer.thread, NULL);
    return 1;
}

static void loads_by_two_seats(void) {
    sflight_pool *pools[NEAR + 1];
    sflight_got got;
    unsigned cells = 0;
    for (int i = 0; i <= NEAR; i++) pools[i] = sflight_do_open(1, NULL);
    changing.pool = pools[0];
    changing.other = pools[NEAR];
    for (int i = 0; i < 50; i++) {
        get(changing.other, "k", plain, NULL, SFLIGHT_DO_FOREVER, &got);
        changing.passer = (struct passer){.pools = {changing.pool}, .count = 1};
        pthread_create(&changing.passer.thread, NULL, passes, &changing.passer);
        while (atomic_load(&changing.passer.stage) != 1) sched_yield();
        check(get(changing.pool, "k", changes_seat, NULL, SFLIGHT_DO_FOREVER, &got) == SFLIGHT_DO_DONE, "a load ends by another seat");
        if (i == 2) cells = atomic_load(&changing.pool->cells);
    }
    check(atomic_load(&changing.pool->cells) == cells, "a pool with one load at a time does not grow");
    for (int i = 0; i <= NEAR; i++) sflight_do_close(pools[i]);
}

/* So many loads are open at one time, by one thread, that the pool grows several times; each ends as it began. */
enum { DEEPEST = 2000 };

static uint64_t goes_deeper(void *context, const uint8_t *key, size_t len) {
    sflight_pool *pool = context;
    uint32_t depth;
    sflight_got got;
    memcpy(&depth, key, len);
    if (++depth == DEEPEST) return 1;
    if (sflight_do(pool, (const uint8_t *)&depth, sizeof depth, goes_deeper, pool, SFLIGHT_DO_FOREVER, &got) != SFLIGHT_DO_DONE) abort();
    check(sflight_do_is_still(pool, &got.stamp), "no stamp ends as a pool grows");
    return got.value + 1;
}

static void deep(void) {
    sflight_pool *pool = sflight_do_open(1, NULL);
    uint32_t depth = 0;
    sflight_got got;
    check(sflight_do(pool, (const uint8_t *)&depth, sizeof depth, goes_deeper, pool, SFLIGHT_DO_FOREVER, &got) == SFLIGHT_DO_DONE && got.value == DEEPEST, "a pool grows");
    sflight_stats stats = sflight_do_statistics(pool);
    check(stats.loads == DEEPEST && stats.in_use == 0, "with nothing given up");
    sflight_do_close(pool);
}

/* Kilobytes of memory that the process has. */
static long memory(void) {
    long pages = 0, resident = 0;
    FILE *file = fopen("/proc/self/statm", "r");
    if (!file || fscanf(file, "%ld %ld", &pages, &resident) != 2) abort();
    fclose(file);
    return resident * (sysconf(_SC_PAGESIZE) / 1024);
}

static void small(void) {
    enum { POOLS = 1000 };
    static sflight_pool *pools[POOLS];
    long before = memory();
    for (int i = 0; i < POOLS; i++) {
        sflight_got got;
        pools[i] = sflight_do_open(0, NULL);
        get(pools[i], "k", plain, NULL, SFLIGHT_DO_FOREVER, &got);
    }
    printf("a pool: %ld kB\n", (memory() - before) / POOLS);
#ifdef SIZES
    check((memory() - before) / POOLS <= 64, "a new pool is small");
#endif
    for (int i = 0; i < POOLS; i++) sflight_do_close(pools[i]);
}

/* Two hundred loads of long keys, each in the load of another, so that as many calls are open at one time. */
enum { LONG_KEY = 65536, DEEP = 200 };
static uint8_t long_key[LONG_KEY];

static uint64_t deeper(void *context, const uint8_t *key, size_t len) {
    sflight_pool *pool = context;
    sflight_got got;
    if (key[0] == DEEP) return 0;
    uint8_t *next = malloc(len);
    if (!next) abort();
    memcpy(next, key, len);
    next[0]++;
    int code = sflight_do(pool, next, len, deeper, pool, SFLIGHT_DO_FOREVER, &got);
    free(next);
    return code == SFLIGHT_DO_DONE ? got.value + 1 : 0;
}

static void long_keys(void) {
    sflight_pool *pool = sflight_do_open(0, NULL);
    sflight_got got;
    long before = memory();
    check(sflight_do(pool, long_key, LONG_KEY, deeper, pool, SFLIGHT_DO_FOREVER, &got) == SFLIGHT_DO_DONE && got.value == DEEP, "long keys");
    bool was_open = sflight_do_forget(pool, long_key, LONG_KEY);
    check(!was_open && !sflight_do_is_still(pool, &got.stamp), "a long key is forgotten");
#ifdef SIZES
    malloc_trim(0);
    printf("after long keys: %ld kB\n", memory() - before);
    check(memory() - before < 6000, "calls that are idle keep nothing of a long key");
#else
    (void)before;
#endif
    sflight_do_close(pool);
}

/* Eight keys of 70,000 bytes that differ in their last byte, each in the load of another: no two are one key. */
enum { NEAR_KEY = 70000, NEAR_KEYS = 8 };

static uint64_t nearer(void *context, const uint8_t *key, size_t len) {
    sflight_got got;
    if (len != NEAR_KEY || key[len - 1] == NEAR_KEYS) return len;
    uint8_t *next = malloc(len);
    if (!next) abort();
    memcpy(next, key, len);
    next[len - 1]++;
    int code = sflight_do(context, next, len, nearer, context, 2000000000, &got);
    free(next);
    return code == SFLIGHT_DO_DONE && got.led ? got.value + 1 : 0;
}

static void near_keys(void) {
    static uint8_t key[NEAR_KEY];
    for (uint32_t i = 0; i < 2; i++) {
        sflight_pool *pool = sflight_do_open(i, NULL);
        sflight_got got, shorter;
        int code = sflight_do(pool, key, NEAR_KEY, nearer, pool, SFLIGHT_DO_FOREVER, &got);
        check(code == SFLIGHT_DO_DONE && got.value == NEAR_KEY + NEAR_KEYS, "each loads its own");
        code = sflight_do(pool, key, NEAR_KEY - 1, nearer, pool, SFLIGHT_DO_FOREVER, &shorter);
        check(code == SFLIGHT_DO_DONE && shorter.value == NEAR_KEY - 1, "a shorter one too");
        sflight_do_close(pool);
    }
}

int main(void) {
    setvbuf(stdout, NULL, _IOLBF, 0);
    signal(SIGALRM, hangs_at);
    alarm(LIMIT);
    check(strcmp(sflight_version(), SFLIGHT_VERSION) == 0, "the version");
    near_keys();
    long_keys();
    sizes();
    nested();
    hung();
    many();
    forgotten();
    kept();
    threads_and_pools();
    loads_by_two_seats();
    deep();
    small();
    printf("%d passed, %d failed\n", passed, failed);
    return failed > 0;
}
