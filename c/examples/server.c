/* A server's load path: worker threads get keys from a store behind a cache. Of the threads that miss one key at one time one loads, and
 * after an update no thread gets the old value. It ends with 0 where none did, and every call has ended.
 * Built and run by tools/check, with c/sflight_do.c. */
#include "sflight_do.h"
#include <pthread.h>
#include <stdatomic.h>
#include <stdio.h>
#include <stdlib.h>
#include <time.h>

#ifndef LOADS
#define LOADS 0 /* as many at one time as are usual */
#endif

enum { WORKERS = 4, KEYS = 8, REQUESTS = 2000 };

/* The store: a version for each key, slow to read and to write. */
static atomic_uint versions[KEYS];
static atomic_uint hits, loads, joined;

static sflight_pool *pool;

/* A page that was loaded, with its stamp. */
static struct page {
    pthread_mutex_t lock;
    uint64_t value;
    sflight_do_stamp stamp;
} cache[KEYS];

static size_t name_of(unsigned key, char name[16]) {
    return (size_t)snprintf(name, 16, "item-%u", key);
}

static uint64_t load(void *context, const uint8_t *name, size_t len);

/* The thread that loaded the value calls this before the next load of the key can begin, so that no
 * older value takes the place of a newer one. */
static void keep(void *context, const uint8_t *name, size_t len, uint64_t value,
                 const sflight_do_stamp *stamp) {
    struct page *page = &cache[*(unsigned *)context];
    (void)name;
    (void)len;
    pthread_mutex_lock(&page->lock);
    page->value = value;
    page->stamp = *stamp;
    pthread_mutex_unlock(&page->lock);
}

/* The value of the key: from the cache, loaded here, or by the worker that is loading it already. */
static uint64_t get(unsigned key) {
    char name[16];
    size_t len = name_of(key, name);
    struct page *page = &cache[key];
    pthread_mutex_lock(&page->lock);
    sflight_got got = {.value = page->value, .stamp = page->stamp};
    pthread_mutex_unlock(&page->lock);
    if (sflight_do_is_still(pool, &got.stamp)) {
        atomic_fetch_add(&hits, 1);
        return got.value;
    }
    int code = sflight_do_and_keep(pool, (const uint8_t *)name, len, load, keep, &key,
                                   SFLIGHT_DO_FOREVER, &got);
    if (code != SFLIGHT_DO_DONE) abort();
    atomic_fetch_add(got.led ? &loads : &joined, 1);
    return got.value;
}

/* Reads the store. An even key needs the one after it too: a load may ask for other keys. */
static uint64_t load(void *context, const uint8_t *name, size_t len) {
    unsigned key = *(unsigned *)context, version = atomic_load(&versions[key]);
    (void)name;
    (void)len;
    nanosleep(&(struct timespec){0, 100000}, NULL);
    if (key % 2 == 0) get(key + 1);
    return (uint64_t)key << 32 | version;
}

static unsigned write_store(unsigned key) {
    nanosleep(&(struct timespec){0, 100000}, NULL);
    return atomic_fetch_add(&versions[key], 1) + 1;
}

/* Writes the store first and forgets then: a thread that asks from now on loads the new version. In the other order a thread could load the
 * old version between the two, and the cache would keep it. */
static unsigned update(unsigned key) {
    char name[16];
    size_t len = name_of(key, name);
    unsigned version = write_store(key);
    sflight_do_forget(pool, (const uint8_t *)name, len);
    return version;
}

static void *serve(void *at) {
    unsigned seed = (unsigned)(size_t)at, stale = 0;
    for (int i = 0; i < REQUESTS; i++) {
        unsigned key = (unsigned)rand_r(&seed) % KEYS;
        unsigned least = rand_r(&seed) % 10 == 0 ? update(key) : 0;
        uint64_t value = get(key);
        stale += (unsigned)(value >> 32) != key || (unsigned)value < least;
    }
    return (void *)(size_t)stale;
}

int main(void) {
    pthread_t threads[WORKERS];
    size_t stale = 0;
    pool = sflight_do_open(LOADS, NULL);
    if (!pool) return 1;
    for (int i = 0; i < KEYS; i++) if (pthread_mutex_init(&cache[i].lock, NULL)) return 1;
    for (int i = 0; i < WORKERS; i++) if (pthread_create(&threads[i], NULL, serve, (void *)(size_t)i)) return 1;
    for (int i = 0; i < WORKERS; i++) {
        void *count;
        pthread_join(threads[i], &count);
        stale += (size_t)count;
    }
    sflight_stats stats = sflight_do_statistics(pool);
    printf("hits %u, loads %u, joined %u, stale %zu\n", atomic_load(&hits), atomic_load(&loads), atomic_load(&joined), stale);
    bool is_well = stale == 0 && stats.in_use == 0 && atomic_load(&hits) > 0;
    sflight_do_close(pool);
    for (int i = 0; i < KEYS; i++) pthread_mutex_destroy(&cache[i].lock);
    return is_well ? 0 : 1;
}
