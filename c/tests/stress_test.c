/* A stress of sflight_do.h: threads that ask for few keys, with nested loads, deadlines, Forgets and a cache of the
 * program's own, in pools that grow meanwhile. One load of each pool lasts until all other calls have ended, so no call
 * waits for the load of another key. One load of a key runs at a time, unless a Forget ended the earlier one; nothing
 * is older than a Forget that had returned, nor than what was returned before it was asked for, nor the same; and so
 * many counts of a value are given as threads get it. SFLIGHT_CALLS says how many calls are made, 60,000 by default:
 *     SFLIGHT_CALLS=10000000 out/stress_test.plain */
#include "sflight_inside.h"
#include <sched.h>
#include <signal.h>
#include <stdio.h>
#include <stdlib.h>
#include <string.h>
#include <time.h>
#include <unistd.h>

/* How many threads ask at one time, and how many calls they make. */
#ifndef STRESSING
#define STRESSING 16
#endif
#ifndef CALLS_OF_ALL
#define CALLS_OF_ALL 60000
#endif

/* After so many seconds a pool hangs. */
#ifndef LIMIT
#define LIMIT 1400
#endif

enum {
    KEYS = 24,
    OF_A_POOL = 50000, /* calls, of about so many; and there are two pools at least */
    NESTED = 3,        /* a load asks for another key, whose load asks for another */
    MOST_RUNNING = 4 * STRESSING,
    DEEPEST = 600      /* loads are open at one time, each in the load of another: the pool grows for them */
};

static atomic_ullong passed, failed;

static void hangs_at(int number) {
    static const char text[] = "FAILED: it hangs\n";
    (void)number;
    if (write(STDOUT_FILENO, text, sizeof text - 1) < 0) _exit(2);
    _exit(1);
}

static void check(bool holds, const char *what) {
    if (holds) { passed++; return; }
    failed++;
    printf("FAILED: %s\n", what);
}

static void sleep_ms(long ms) { nanosleep(&(struct timespec){ms / 1000, ms % 1000 * 1000000}, NULL); }

static struct key {
    char name[80];
    atomic_ullong begun, ended; /* Forgets */
    atomic_ullong forgotten;    /* when the last one began that has returned */
    pthread_mutex_t lock;       /* protects the rest */
    struct { uint64_t moment, ended; } running[MOST_RUNNING];
    int count;
    uint64_t newest, newest_ended; /* the newest value that was returned, and how many Forgets had ended when it was asked for */
    uint64_t cached_moment;
    sflight_do_stamp cached;
} keys[KEYS];

static sflight_pool *pool;
static atomic_ullong ticks, loads, hits, late, doubles, stale, backward, refused, given, received;
static atomic_int at_work; /* threads whose calls have not ended */
static atomic_bool is_held;

static void counts(uint64_t value, uint32_t others) {
    (void)value;
    atomic_fetch_add(&given, others);
}

struct request {
    int key, depth;
    unsigned *seed;
    uint64_t ended;
};

static void ask(int key, int depth, unsigned *seed);

static uint64_t loading(void *context, const uint8_t *name, size_t len) {
    struct request *request = context;
    struct key *key = &keys[request->key];
    uint64_t moment = atomic_fetch_add(&ticks, 1) + 1;
    if (strlen(key->name) != len || memcmp(key->name, name, len)) abort();
    pthread_mutex_lock(&key->lock);
    /* A load may run beside another if a Forget came between: if not all that have begun by now had returned when it was asked for. */
    uint64_t begun = atomic_load(&key->begun);
    for (int i = 0; i < key->count && request->ended == begun; i++) doubles += key->running[i].ended == begun;
    if (key->count == MOST_RUNNING) abort();
    key->running[key->count].moment = moment;
    key->running[key->count++].ended = request->ended;
    pthread_mutex_unlock(&key->lock);
    loads++;
    for (unsigned i = 0; i < (unsigned)rand_r(request->seed) % 4; i++) sched_yield();
    /* Greater keys alone, so that no two wait for each other. */
    int other = request->key + 1 + (int)((unsigned)rand_r(request->seed) % 4);
    if (request->depth < NESTED && other < KEYS && rand_r(request->seed) % 3 == 0) ask(other, request->depth + 1, request->seed);
    pthread_mutex_lock(&key->lock);
    for (int i = 0; i < key->count; i++) {
        if (key->running[i].moment == moment) key->running[i] = key->running[--key->count];
    }
    pthread_mutex_unlock(&key->lock);
    return moment << 8 | (uint64_t)request->key;
}

static void keeping(void *context, const uint8_t *name, size_t len, uint64_t value, const sflight_do_stamp *stamp) {
    struct key *key = &keys[((struct request *)context)->key];
    (void)name, (void)len;
    if (rand_r(((struct request *)context)->seed) % 4 == 0) sched_yield();
    pthread_mutex_lock(&key->lock);
    key->cached = *stamp;
    key->cached_moment = value >> 8;
    pthread_mutex_unlock(&key->lock);
}

static void ask(int number, int depth, unsigned *seed) {
    struct key *key = &keys[number];
    struct request request = {number, depth, seed, atomic_load(&key->ended)};
    uint64_t least = atomic_load(&key->forgotten);
    pthread_mutex_lock(&key->lock);
    uint64_t cached = key->cached_moment, newest = key->newest, ended = key->newest_ended;
    sflight_do_stamp stamp = key->cached;
    pthread_mutex_unlock(&key->lock);
    if (rand_r(seed) % 2 && sflight_do_is_still(pool, &stamp)) {
        stale += cached < least;
        /* Where no Forget has begun since the newest was asked for. */
        backward += cached < newest && atomic_load(&key->begun) == ended;
        hits++;
    }
    sflight_got got;
    int64_t timeout = rand_r(seed) % 4 ? SFLIGHT_DO_FOREVER : (int64_t)(rand_r(seed) % 50000);
    int code = sflight_do_and_keep(pool, (const uint8_t *)key->name, strlen(key->name), loading, keeping, &request, timeout, &got);
    if (code != SFLIGHT_DO_DONE) {
        refused += code != SFLIGHT_DO_TIMED_OUT || timeout == SFLIGHT_DO_FOREVER;
        late++;
        return;
    }
    received += !got.led;
    stale += got.value >> 8 < least || (got.value & 255) != (uint64_t)number;
    backward += got.value >> 8 <= newest && atomic_load(&key->begun) == ended;
    pthread_mutex_lock(&key->lock);
    if (got.value >> 8 > key->newest) {
        key->newest = got.value >> 8;
        key->newest_ended = request.ended;
    }
    pthread_mutex_unlock(&key->lock);
}

static void forget(int number) {
    struct key *key = &keys[number];
    atomic_fetch_add(&key->begun, 1);
    unsigned long long began = atomic_fetch_add(&ticks, 1) + 1, before = atomic_load(&key->forgotten);
    sflight_do_forget(pool, (const uint8_t *)key->name, strlen(key->name));
    while (before < began && !atomic_compare_exchange_weak(&key->forgotten, &before, began)) {}
    atomic_fetch_add(&key->ended, 1);
}

static uint64_t plain(void *context, const uint8_t *key, size_t len) {
    (void)context, (void)key, (void)len;
    return 0;
}

static int get(const char *key, sflight_load *load, int64_t timeout, sflight_got *got) {
    return sflight_do(pool, (const uint8_t *)key, strlen(key), load, NULL, timeout, got);
}

/* The load that lasts until all other calls have ended. */
static uint64_t holds(void *context, const uint8_t *key, size_t len) {
    (void)context, (void)key, (void)len;
    atomic_store(&is_held, true);
    while (atomic_load(&at_work) > 0) sleep_ms(1);
    return 7;
}

static void *hold_one(void *unused) {
    sflight_got got;
    (void)unused;
    int code = get("held", holds, SFLIGHT_DO_FOREVER, &got);
    check(code == SFLIGHT_DO_DONE && got.led && got.value == 7, "the load that lasts has its value");
    check(got.joiners == 0, "all that have joined it have given up");
    return NULL;
}

static uint64_t goes_deeper(void *context, const uint8_t *key, size_t len) {
    uint32_t depth;
    sflight_got got;
    (void)context;
    memcpy(&depth, key, len);
    if (++depth == DEEPEST) return 1;
    if (depth % 8 == 0) sched_yield();
    int code = sflight_do(pool, (const uint8_t *)&depth, sizeof depth, goes_deeper, NULL, SFLIGHT_DO_FOREVER, &got);
    return code == SFLIGHT_DO_DONE && got.led ? got.value + 1 : 0;
}

/* The pool grows while the others ask. */
static void *grow_one(void *unused) {
    uint32_t depth = 0;
    sflight_got got;
    (void)unused;
    for (int i = 0; i < 100; i++) sched_yield();
    int code = sflight_do(pool, (const uint8_t *)&depth, sizeof depth, goes_deeper, NULL, SFLIGHT_DO_FOREVER, &got);
    check(code == SFLIGHT_DO_DONE && got.value == DEEPEST, "so many loads are open at one time");
    at_work--;
    return NULL;
}

static uint64_t loads_until_joined(void *context, const uint8_t *key, size_t len) {
    (void)context, (void)key, (void)len;
    atomic_fetch_add(&loads, 1);
    while (sflight_do_statistics(pool).joins == 0) sched_yield();
    return 0;
}

static uint64_t rounds; /* of each thread */

static void *stress_one(void *at) {
    unsigned seed = (unsigned)(size_t)at * 7 + 1;
    sflight_got got;
    /* A busy machine may run one thread after the other. These two meet in any case. */
    if ((size_t)at % STRESSING < 2) {
        if (get("two ask for this", loads_until_joined, SFLIGHT_DO_FOREVER, &got) != SFLIGHT_DO_DONE) abort();
        received += !got.led;
    }
    while (!atomic_load(&is_held)) sched_yield();
    for (uint64_t i = 0; i < rounds; i++) {
        int number = rand_r(&seed) % (rand_r(&seed) % 2 ? 3 : KEYS), what = rand_r(&seed) % 48;
        if (what < 4) {
            forget(number);
        } else if (what == 4) {
            refused += get("held", plain, rand_r(&seed) % 20000, &got) != SFLIGHT_DO_TIMED_OUT;
            late++;
        } else {
            ask(number, 0, &seed);
        }
    }
    at_work--;
    return NULL;
}

static int tables(void) {
    int count = 0;
    while (count < TABLES && atomic_load(&pool->posts[count])) count++;
    return count;
}

/* Makes so many calls in a pool, which is open for so many loads at first. Returns its numbers. */
static sflight_stats stress(int number, uint32_t size) {
    pthread_t holder, grower, threads[STRESSING];
    alarm(LIMIT);
    memset(keys, 0, sizeof keys);
    for (int i = 0; i < KEYS; i++) {
        snprintf(keys[i].name, sizeof keys[i].name, "%.*s%d", i % 3 * 25, "a long key, which the library keeps on the heap ....", i);
        pthread_mutex_init(&keys[i].lock, NULL);
    }
    uint64_t loaded = atomic_load(&loads);
    atomic_store(&is_held, false);
    atomic_store(&at_work, STRESSING + 1);
    pool = sflight_do_open(size, counts);
    if (!pool) abort();
    int before = tables();
    pthread_create(&holder, NULL, hold_one, NULL);
    for (size_t i = 0; i < STRESSING; i++) pthread_create(&threads[i], NULL, stress_one, (void *)((size_t)number * STRESSING + i));
    pthread_create(&grower, NULL, grow_one, NULL);
    for (int i = 0; i < STRESSING; i++) pthread_join(threads[i], NULL);
    pthread_join(grower, NULL);
    pthread_join(holder, NULL);
    sflight_stats stats = sflight_do_statistics(pool);
    check(tables() > before, "the pool has grown");
    check(stats.loads == atomic_load(&loads) - loaded + DEEPEST + 1 && stats.in_use == 0, "loads are counted, and all calls have ended");
    check(stats.joins > 0, "somebody joined");
    sflight_do_close(pool);
    for (int i = 0; i < KEYS; i++) pthread_mutex_destroy(&keys[i].lock);
    return stats;
}

int main(void) {
    setvbuf(stdout, NULL, _IOLBF, 0);
    signal(SIGALRM, hangs_at);
    const char *text = getenv("SFLIGHT_CALLS");
    uint64_t calls = text ? strtoull(text, NULL, 10) : CALLS_OF_ALL, pools = calls / OF_A_POOL, joins = 0, forgets = 0;
    pools = pools < 2 ? 2 : pools;
    rounds = (calls + pools * STRESSING - 1) / (pools * STRESSING);
    for (uint64_t i = 0; i < pools && failed == 0; i++) {
        sflight_stats stats = stress((int)i, i % 2 == 0);
        joins += stats.joins;
        forgets += stats.forgets;
        check(atomic_load(&doubles) == 0, "one load of a key at a time");
        check(atomic_load(&stale) == 0, "nothing is older than a Forget");
        check(atomic_load(&backward) == 0, "nothing is older than what was returned before");
        check(atomic_load(&refused) == 0, "no call is refused");
        check(atomic_load(&given) == atomic_load(&received), "each that joined has one count, and one that gave up has none");
    }
    check(atomic_load(&hits) > 0 && atomic_load(&late) > 0, "a value was current, and a deadline passed");
    printf("%llu calls in %llu pools: %llu loads, %llu joined, %llu late, %llu hits, %llu Forgets\n", (unsigned long long)(rounds * pools * STRESSING),
           (unsigned long long)pools, (unsigned long long)loads, (unsigned long long)joins, (unsigned long long)late, (unsigned long long)hits,
           (unsigned long long)forgets);
    printf("%llu passed, %llu failed\n", (unsigned long long)passed, (unsigned long long)failed);
    return failed > 0;
}
