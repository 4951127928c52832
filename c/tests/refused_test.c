/* Tests of sflight_do.c where memory is refused, or where the library refuses an asking or a Forget for now. Each
 * allocation of the package and of the library is refused in turn, and then all from that one on: a call that cannot be
 * made says so, and has run no load; a Forget forgets; nothing is lost; and what was refused can be done again.
 * Linked with --wrap for each function that stands here as __wrap_. */
#include "sflight_inside.h"
#include <sched.h>
#include <signal.h>
#include <stdio.h>
#include <stdlib.h>
#include <string.h>
#include <time.h>
#include <unistd.h>

/* After so many seconds it hangs. */
#ifndef LIMIT
#define LIMIT 1400
#endif

enum { DEEPEST = 12, MOST_ALLOCATIONS = 1000, THREADS = 4, CALLS_OF_EACH = 300 };

static atomic_int passed, failed;

static void hangs_at(int number) {
    static const char text[] = "FAILED: it hangs\n";
    (void)number;
    if (write(STDOUT_FILENO, text, sizeof text - 1) < 0) _exit(2);
    _exit(1);
}

static void check(bool holds, const char *what) {
    if (holds) { passed++; return; }
    failed++;
    printf("FAILED: %s\n", what);
}

/* Allocations are counted, and those from the first to the last number are refused. */
static atomic_long allocations, first, last;
static atomic_bool was_refused, no_seats, no_posts;

static bool is_refused(void) {
    long number = atomic_fetch_add(&allocations, 1) + 1;
    if (number < atomic_load(&first) || number > atomic_load(&last)) return false;
    atomic_store(&was_refused, true);
    return true;
}

static void refuse(long from, long to) {
    atomic_store(&allocations, 0);
    atomic_store(&first, from);
    atomic_store(&last, to);
}

void *__real_malloc(size_t size);
void *__real_calloc(size_t count, size_t size);
void *__real_realloc(void *at, size_t size);
void *__real_aligned_alloc(size_t alignment, size_t size);
void *__wrap_malloc(size_t size);
void *__wrap_calloc(size_t count, size_t size);
void *__wrap_realloc(void *at, size_t size);
void *__wrap_aligned_alloc(size_t alignment, size_t size);

void *__wrap_malloc(size_t size) { return is_refused() ? NULL : __real_malloc(size); }

void *__wrap_calloc(size_t count, size_t size) { return is_refused() || atomic_load(&no_posts) ? NULL : __real_calloc(count, size); }

void *__wrap_realloc(void *at, size_t size) { return is_refused() ? NULL : __real_realloc(at, size); }

void *__wrap_aligned_alloc(size_t alignment, size_t size) {
    return is_refused() || atomic_load(&no_seats) ? NULL : __real_aligned_alloc(alignment, size);
}

/* So many askings, and so many Forgets, are refused with this code. */
static atomic_int asks_refused, forgets_refused;
static uint32_t refusal;

uint32_t __real_sflight_ask(sflight_handle *handle, sflight_call *call, const uint8_t *key, size_t len, uint32_t tries, sflight_id *id,
                            sflight_stamp *stamp);
uint32_t __wrap_sflight_ask(sflight_handle *handle, sflight_call *call, const uint8_t *key, size_t len, uint32_t tries, sflight_id *id,
                            sflight_stamp *stamp);
uint32_t __real_sflight_forget(sflight_handle *handle, const uint8_t *key, size_t len, uint32_t tries, sflight_id *id);
uint32_t __wrap_sflight_forget(sflight_handle *handle, const uint8_t *key, size_t len, uint32_t tries, sflight_id *id);

static bool is_one_of(atomic_int *left) { return atomic_load(left) > 0 && atomic_fetch_sub(left, 1) > 0; }

uint32_t __wrap_sflight_ask(sflight_handle *handle, sflight_call *call, const uint8_t *key, size_t len, uint32_t tries, sflight_id *id,
                            sflight_stamp *stamp) {
    return is_one_of(&asks_refused) ? refusal : __real_sflight_ask(handle, call, key, len, tries, id, stamp);
}

uint32_t __wrap_sflight_forget(sflight_handle *handle, const uint8_t *key, size_t len, uint32_t tries, sflight_id *id) {
    return is_one_of(&forgets_refused) ? SFLIGHT_BUSY : __real_sflight_forget(handle, key, len, tries, id);
}

static sflight_pool *pool;
static atomic_int runs; /* of loads */

static bool forget(const char *key) { return sflight_do_forget(pool, (const uint8_t *)key, strlen(key)); }

/* A call that is refused for want of memory is made again with memory. */
static void get(const uint8_t *key, size_t len, sflight_load *load, sflight_got *got) {
    int before = atomic_load(&runs), code = sflight_do(pool, key, len, load, NULL, SFLIGHT_DO_FOREVER, got);
    if (code == SFLIGHT_DO_NO_MEMORY) {
        check(atomic_load(&was_refused) && atomic_load(&runs) == before, "a call without memory says so, and has run no load");
        refuse(0, 0);
        code = sflight_do(pool, key, len, load, NULL, SFLIGHT_DO_FOREVER, got);
    }
    check(code == SFLIGHT_DO_DONE && got->led, "with memory it is made");
}

static void get_text(const char *key, sflight_load *load, sflight_got *got) { get((const uint8_t *)key, strlen(key), load, got); }

static uint64_t plain(void *context, const uint8_t *key, size_t len) {
    (void)context, (void)key;
    atomic_fetch_add(&runs, 1);
    return len;
}

static uint64_t forgets_itself(void *context, const uint8_t *key, size_t len) {
    (void)context;
    atomic_fetch_add(&runs, 1);
    check(sflight_do_forget(pool, key, len) && !sflight_do_forget(pool, key, len), "a load is forgotten once");
    return 1;
}

/* Loads, each in the load of another, for which the pool grows. */
static uint64_t goes_deeper(void *context, const uint8_t *key, size_t len) {
    uint32_t depth;
    sflight_got got;
    (void)context;
    atomic_fetch_add(&runs, 1);
    memcpy(&depth, key, len);
    if (++depth == DEEPEST) return 1;
    get((const uint8_t *)&depth, sizeof depth, goes_deeper, &got);
    return got.value + 1;
}

static void use_pool(void) {
    const sflight_do_stamp none = {0};
    uint32_t depth = 0;
    sflight_got got;
    get_text("key", plain, &got);
    check(got.value == 3 && got.joiners == 0 && sflight_do_is_still(pool, &got.stamp), "a load");
    check(!forget("key") && !sflight_do_is_still(pool, &got.stamp), "a Forget needs no memory");
    get_text("key", forgets_itself, &got);
    check(got.value == 1 && memcmp(&got.stamp, &none, sizeof none) == 0, "also of a load that runs");
    get((const uint8_t *)&depth, sizeof depth, goes_deeper, &got);
    check(got.value == DEEPEST, "so many loads are open at one time");
}

static atomic_bool is_open;

static void *uses_pool(void *unused) {
    (void)unused;
    while (!atomic_load(&is_open)) sched_yield();
    use_pool();
    return NULL;
}

/* Opens a pool, which two threads use. Returns whether an allocation was refused. */
static bool is_well_without(long from, long to) {
    pthread_t thread;
    atomic_store(&was_refused, false);
    atomic_store(&is_open, false);
    atomic_store(&runs, 0);
    /* Where the C library is linked statically, the thread's own memory could be refused too: so it is there before. */
    if (pthread_create(&thread, NULL, uses_pool, NULL)) abort();
    refuse(from, to);
    pool = sflight_do_open(1, NULL);
    if (!pool) {
        check(atomic_load(&was_refused), "a pool opens where there is memory");
        refuse(0, 0);
        pool = sflight_do_open(1, NULL);
    }
    if (!pool) abort();
    atomic_store(&is_open, true);
    pthread_join(thread, NULL);
    use_pool();
    sflight_stats stats = sflight_do_statistics(pool);
    check(stats.loads == (uint64_t)atomic_load(&runs) && stats.loads == 2 * (2 + DEEPEST), "each load is counted");
    check(stats.forgets == 6 && stats.in_use == 0, "and each Forget, and all calls have ended");
    refuse(0, 0);
    sflight_do_close(pool);
    return atomic_load(&was_refused);
}

static void each_in_turn(void) {
    long number = 1;
    while (number < MOST_ALLOCATIONS && is_well_without(number, number)) number++;
    check(number > 20 && number < MOST_ALLOCATIONS, "each allocation is refused in turn");
    for (long from = 1; from < number; from++) is_well_without(from, MOST_ALLOCATIONS);
}

/* Threads without memory for a seat share the one of the pool. */
static uint64_t is_alone(void *context, const uint8_t *key, size_t len) {
    static atomic_int running;
    (void)context, (void)key, (void)len;
    atomic_fetch_add(&runs, 1);
    check(atomic_fetch_add(&running, 1) == 0, "one load of the key at a time");
    sched_yield();
    atomic_fetch_sub(&running, 1);
    return 5;
}

static void *shares_seat(void *at) {
    bool forgets = at != NULL;
    sflight_got got;
    for (int i = 0; i < CALLS_OF_EACH; i++) {
        int code = sflight_do(pool, (const uint8_t *)"one", 3, is_alone, NULL, SFLIGHT_DO_FOREVER, &got);
        check(code == SFLIGHT_DO_DONE && got.value == 5, "a call without a seat");
        if (forgets) forget("another");
    }
    return NULL;
}

static void without_seats(void) {
    pthread_t threads[THREADS];
    pool = sflight_do_open(0, NULL);
    if (!pool) abort();
    atomic_store(&runs, 0);
    atomic_store(&no_seats, true);
    for (int i = 0; i < THREADS; i++) {
        if (pthread_create(&threads[i], NULL, shares_seat, i == 0 ? &threads : NULL)) abort();
    }
    for (int i = 0; i < THREADS; i++) pthread_join(threads[i], NULL);
    sflight_stats stats = sflight_do_statistics(pool);
    check(!pool->seats, "nobody has a seat");
    check(stats.loads == (uint64_t)atomic_load(&runs) && stats.loads + stats.joins == THREADS * CALLS_OF_EACH, "each call is counted");
    check(stats.forgets == CALLS_OF_EACH && stats.in_use == 0, "and each Forget");
    atomic_store(&no_seats, false);
    sflight_got got;
    get_text("one", plain, &got);
    check(pool->seats != NULL, "with memory a thread has a seat");
    sflight_do_close(pool);
}

/* A pool that cannot grow says so in the calls that have no room, and grows once there is memory. */
static int refused_at;

static uint64_t goes_on(void *context, const uint8_t *key, size_t len) {
    uint32_t depth;
    sflight_got got;
    memcpy(&depth, key, len);
    if (++depth == DEEPEST) return 1;
    int code = sflight_do(pool, (const uint8_t *)&depth, sizeof depth, goes_on, context, SFLIGHT_DO_FOREVER, &got);
    if (code == SFLIGHT_DO_NO_MEMORY && refused_at == 0) refused_at = (int)depth;
    return code == SFLIGHT_DO_DONE ? got.value + 1 : 1;
}

static void without_growth(void) {
    uint32_t depth = 0;
    sflight_got got;
    pool = sflight_do_open(1, NULL);
    if (!pool) abort();
    refused_at = 0;
    atomic_store(&no_posts, true);
    int code = sflight_do(pool, (const uint8_t *)&depth, sizeof depth, goes_on, NULL, SFLIGHT_DO_FOREVER, &got);
    check(code == SFLIGHT_DO_DONE && refused_at > 0 && got.value == (uint64_t)refused_at, "as many loads as there is room for");
    check(!atomic_load(&pool->posts[1]), "a pool without memory does not grow");
    atomic_store(&no_posts, false);
    code = sflight_do(pool, (const uint8_t *)&depth, sizeof depth, goes_on, NULL, SFLIGHT_DO_FOREVER, &got);
    check(code == SFLIGHT_DO_DONE && got.value == DEEPEST && atomic_load(&pool->posts[1]), "with memory it grows");
    sflight_do_close(pool);
}

static int64_t now(void) {
    struct timespec at;
    clock_gettime(CLOCK_MONOTONIC, &at);
    return (int64_t)at.tv_sec * 1000000000 + at.tv_nsec;
}

/* The library has no try left, or the key's call has as many holders as can be counted. */
static void refused_for_now(void) {
    enum { MANY = 1 << 30 };
    const uint32_t codes[] = {SFLIGHT_BUSY, SFLIGHT_CROWDED};
    sflight_got got;
    pool = sflight_do_open(0, NULL);
    if (!pool) abort();
    for (int i = 0; i < 2; i++) {
        refusal = codes[i];
        atomic_store(&asks_refused, 5);
        get_text("key", plain, &got);
        check(got.value == 3 && atomic_load(&asks_refused) == 0, "a call asks again until it leads");
    }
    /* A thread that does not run for the whole of a short time asks once: then it has longer. */
    int asked = 0;
    for (int64_t time = 20000000; asked < 2 && time < 30 * INT64_C(1000000000); time *= 2) {
        int64_t from = now();
        atomic_store(&asks_refused, MANY);
        int code = sflight_do(pool, (const uint8_t *)"key", 3, plain, NULL, time, &got);
        check(code == SFLIGHT_DO_TIMED_OUT && now() - from >= time, "a deadline is kept where the call is crowded, and not before its time");
        asked = MANY - atomic_load(&asks_refused);
    }
    check(asked > 1, "it asks again until then");
    atomic_store(&asks_refused, 0);
    get_text("key", plain, &got);
    uint64_t forgets = sflight_do_statistics(pool).forgets;
    atomic_store(&forgets_refused, 5);
    check(!forget("key") && !sflight_do_is_still(pool, &got.stamp), "a Forget is tried until it is done");
    check(atomic_load(&forgets_refused) == 0 && sflight_do_statistics(pool).forgets == forgets + 1, "and counted once");
    check(sflight_do_statistics(pool).in_use == 0, "all calls have ended");
    sflight_do_close(pool);
}

int main(void) {
    setvbuf(stdout, NULL, _IOLBF, 0);
    signal(SIGALRM, hangs_at);
    alarm(LIMIT);
    each_in_turn();
    without_seats();
    without_growth();
    refused_for_now();
    printf("%d passed, %d failed\n", passed, failed);
    return failed > 0;
}
