/* Threads that get keys by each form of get, beside Forgets of keys, tags and all, and puts, with refreshes, stale values,
 * kept failures, batches and timeouts, in a cache that is made larger and smaller meanwhile. The store has a version for
 * each key, which a writer raises before it forgets the key: no get has an older one than the last whose Forget had
 * returned when the get began. SFLIGHT_CALLS says how many gets there are, and a tenth as many writes. */
#ifndef _GNU_SOURCE
#define _GNU_SOURCE
#endif
#include "sflight_cache.c"
#include "sflight_do.c"
#include <stdio.h>

#ifndef CALLS_OF_ALL
#define CALLS_OF_ALL 60000
#endif

enum { READERS = 3, WRITERS = 2, KEYS = 64, TAGS = 4, BATCH = 5 };

struct page {
    unsigned key, version;
};

/* A write raises `written`, forgets, and then raises `forgotten` to what it had written. */
static atomic_uint written[KEYS], forgotten[KEYS];
static atomic_llong old, wrong, live, values, failures, stales;
static atomic_uint readers;
static sflight_cache *cache;
static long calls;

static unsigned next_number(uint64_t *state) {
    *state = *state * 6364136223846793005u + 1442695040888963407u;
    return (unsigned)(*state >> 33);
}

static _Thread_local uint64_t random_state;

static unsigned below(unsigned most) {
    if (random_state == 0) random_state = (uint64_t)(uintptr_t)&random_state;
    return next_number(&random_state) % most;
}

static void fill(sflight_cache_loaded *loaded, unsigned key, unsigned version) {
    char tag = (char)('a' + key % TAGS);
    struct page *page = malloc(sizeof *page);
    if (!page) abort();
    *page = (struct page){key, version};
    atomic_fetch_add(&live, 1);
    loaded->value = page;
    loaded->weight = 1 + key % 3;
    sflight_cache_add_tag(loaded, (const uint8_t *)&tag, 1);
}

static int load(void *context, const uint8_t *key, size_t len, sflight_cache_loaded *loaded) {
    unsigned number, version;
    (void)context;
    memcpy(&number, key, len);
    version = atomic_load(&written[number]);
    if (below(8) == 0) sched_yield();
    if (below(10) == 0) return below(3) ? SFLIGHT_CACHE_FAILED : SFLIGHT_CACHE_MISSING;
    if (below(20) == 0) loaded->ttl = -1;
    fill(loaded, number, version);
    return SFLIGHT_CACHE_LOADED;
}

static void load_many(void *context, sflight_cache_loading *loadings, size_t count) {
    for (size_t i = 0; i < count; i++) loadings[i].code = load(context, loadings[i].key, loadings[i].len, &loadings[i].loaded);
}

static void drop(void *context, void *value) {
    (void)context;
    free(value);
    atomic_fetch_sub(&live, 1);
}

static void judge(unsigned key, unsigned least, int code, sflight_value *value) {
    if (sflight_cache_has_value(code)) {
        const struct page *page = value->at;
        atomic_fetch_add_explicit(&values, 1, memory_order_relaxed);
        stales += code == SFLIGHT_CACHE_STALE;
        if (page->key != key) wrong++;
        if (page->version < least) old++;
    } else {
        atomic_fetch_add_explicit(&failures, 1, memory_order_relaxed);
        if (code == SFLIGHT_CACHE_NO_MEMORY) wrong++;
    }
    sflight_cache_release(cache, value);
}

static void get_batch(void) {
    sflight_cache_item items[BATCH];
    unsigned keys[BATCH], least[BATCH];
    const sflight_cache_how how = {.timeout = below(4) ? 0 : 1 + below(1000000)};
    for (int i = 0; i < BATCH; i++) {
        keys[i] = below(KEYS);
        least[i] = atomic_load(&forgotten[keys[i]]);
        items[i] = (sflight_cache_item){.key = (const uint8_t *)&keys[i], .len = sizeof keys[i]};
    }
    sflight_cache_get_many(cache, items, BATCH, &how);
    for (int i = 0; i < BATCH; i++) judge(keys[i], least[i], items[i].code, &items[i].value);
}

static void *reads(void *unused) {
    for (long n = 0; n < calls / READERS; n++) {
        unsigned key = below(KEYS), least = atomic_load(&forgotten[key]), form = below(64);
        sflight_value value;
        const sflight_cache_how how = {.timeout = 1 + below(1000000)};
        if (form == 0) get_batch();
        else if (form == 1) judge(key, least, sflight_cache_get_with(cache, (const uint8_t *)&key, sizeof key, &how, &value), &value);
        else judge(key, least, sflight_cache_get(cache, (const uint8_t *)&key, sizeof key, &value), &value);
    }
    atomic_fetch_sub(&readers, 1);
    return unused;
}

/* One writer writes a key: those with its number. */
static void write_key(unsigned key) {
    sflight_cache_token token = sflight_cache_draw(cache, (const uint8_t *)&key, sizeof key);
    unsigned version = atomic_fetch_add(&written[key], 1) + 1;
    if (below(3) == 0) {
        sflight_cache_loaded l = sflight_cache_of_value(cache, NULL);
        fill(&l, key, version);
        sflight_cache_put(cache, (const uint8_t *)&key, sizeof key, &l, &token);
    } else {
        sflight_cache_forget(cache, (const uint8_t *)&key, sizeof key);
    }
    atomic_store(&forgotten[key], version);
}

/* Writes several keys, and forgets them together. */
static void write_some(unsigned first, unsigned step, bool is_all) {
    unsigned versions[KEYS];
    char tag = (char)('a' + first % TAGS);
    for (unsigned key = first; key < KEYS; key += step) versions[key] = atomic_fetch_add(&written[key], 1) + 1;
    if (is_all) sflight_cache_forget_all(cache);
    else sflight_cache_forget_tag(cache, (const uint8_t *)&tag, 1);
    for (unsigned key = first; key < KEYS; key += step) atomic_store(&forgotten[key], versions[key]);
}

/* Each writer has its own tags, and so its own keys. */
static void *writes(void *number) {
    unsigned me = (unsigned)(uintptr_t)number;
    for (long n = 0; n < calls / 10 / WRITERS || atomic_load(&readers) > 0; n++) {
        unsigned form = below(40);
        if (form == 0) write_some(me + WRITERS * below(TAGS / WRITERS), TAGS, false);
        else if (form == 1) write_some(me, WRITERS, true);
        else write_key(me + WRITERS * below(KEYS / WRITERS));
        if (form == 2) sflight_cache_resize(cache, 20 + below(80));
        if (n > calls / 10 / WRITERS) sched_yield();
    }
    return NULL;
}

int main(void) {
    pthread_t threads[READERS + WRITERS];
    const char *many = getenv("SFLIGHT_CALLS");
    calls = many ? atol(many) : CALLS_OF_ALL;
    cache = sflight_cache_open(&(sflight_cache_options){.limit = 60, .entries = 16, .loads = 1, .load = load, .load_many = load_many, .drop = drop,
        .ttl = 2000000, .jitter = 0.5, .idle = 1000000, .refresh_after = 300000, .stale_if_error = 1000000, .failed_ttl = 200000, .missing_ttl = 300000});
    if (!cache) abort();
    atomic_store(&readers, READERS);
    for (uintptr_t i = 0; i < READERS + WRITERS; i++)
        if (pthread_create(&threads[i], NULL, i < READERS ? reads : writes, (void *)(i < READERS ? 0 : i - READERS))) abort();
    for (int i = 0; i < READERS + WRITERS; i++) pthread_join(threads[i], NULL);
    sflight_cache_stats s = sflight_cache_statistics(cache);
    bool is_within = s.weight <= s.limit;
    sflight_cache_close(cache);
    printf("%lld values, %lld without, %lld stale; %llu hits, %llu loads, %llu refreshes, %llu forgets\n", (long long)values, (long long)failures,
           (long long)stales, (unsigned long long)s.hits, (unsigned long long)s.loads, (unsigned long long)s.refreshes, (unsigned long long)s.forgets);
    int failed = (old > 0) + (wrong > 0) + (live != 0) + !is_within;
    printf("%lld old, %lld wrong, %lld not dropped\n%d passed, %d failed\n", (long long)old, (long long)wrong, (long long)live, 4 - failed, failed);
    return failed > 0;
}
