/* Tests of sflight_cache.h. It has the files themselves, so that memory is refused in them. */
#ifndef _GNU_SOURCE
#define _GNU_SOURCE
#endif
#include <stddef.h>
#include <stdlib.h>
static void *test_malloc(size_t size);
static void *test_calloc(size_t count, size_t size);
static void *test_aligned_alloc(size_t alignment, size_t size);
#define malloc test_malloc
#define calloc test_calloc
#define aligned_alloc test_aligned_alloc
#include "sflight_cache.c"
#include "sflight_do.c"
#undef malloc
#undef calloc
#undef aligned_alloc
#include <malloc.h>
#include <pthread.h>
#include <sched.h>
#include <signal.h>
#include <stdatomic.h>
#include <stdio.h>
#include <stdlib.h>
#include <string.h>
#include <unistd.h>

/* How many gets each of four threads makes beside Forgets: 10,000,000 and 1,000,000 together in the
 * long form. */
#ifndef GETS
#define GETS 60000
#endif

/* How many values a test of many has. */
#ifndef MANY
#define MANY 20000
#endif

/* After so many seconds it hangs. */
#ifndef LIMIT
#define LIMIT 1400
#endif

enum { THREADS = 4, KEYS = 64, LIVE = 0x5a5a, DEAD = 0xdead };

static atomic_int passed, failed;

static void hangs_at(int number) {
    static const char text[] = "FAILED: it hangs\n";
    (void)number;
    if (write(STDOUT_FILENO, text, sizeof text - 1) < 0) _exit(2);
    _exit(1);
}

static void check(bool holds, const char *what) {
    if (holds) { passed++; return; }
    failed++;
    printf("FAILED: %s\n", what);
}

/* A loaded value: its key and version, and whether it was dropped. */
struct page {
    unsigned mark, version;
    size_t len;
    uint8_t key[];
};

/* The number of the allocation of the package that is refused; 0 is none. */
static atomic_long refused_number;
static atomic_bool was_refused;

static bool is_refused(void) {
    if (atomic_load(&refused_number) == 0 || atomic_fetch_sub(&refused_number, 1) != 1) return false;
    was_refused = true;
    return true;
}

/* One allocation of this size is refused, once so many gets have joined the load that it is for; 0 is none. */
enum { JOINING = 5 };
static atomic_size_t refused_size;
static sflight_cache *refusing;

static bool is_refused_by_size(size_t size) {
    size_t refused = size;
    if (size == 0 || !atomic_compare_exchange_strong(&refused_size, &refused, 0)) return false;
    while (sflight_cache_statistics(refusing).joins < JOINING) sched_yield();
    return true;
}

static void *test_malloc(size_t size) { return is_refused() || is_refused_by_size(size) ? NULL : malloc(size); }

static void *test_calloc(size_t count, size_t size) { return is_refused() ? NULL : calloc(count, size); }

static void *test_aligned_alloc(size_t alignment, size_t size) { return is_refused() ? NULL : aligned_alloc(alignment, size); }

/* The store: how many pages live, how many loads there were, and a version for each key by number. */
static atomic_int live, loads;
static atomic_uint versions[KEYS];

struct plan {
    bool fails;
    atomic_bool held;  /* a load waits while this is set */
    uint64_t weight;   /* 1 where it is 0 */
    const char *tag;   /* of each value, where it is not null */
    sflight_cache *cache; /* a load uses this, where it is not null */
    void (*meanwhile)(struct plan *plan, const uint8_t *key, size_t len); /* what the first load does */
    void (*waits)(const uint8_t *key, size_t len);                        /* and what each load does */
};

static unsigned number_of(const uint8_t *key, size_t len) {
    unsigned n = 0;
    for (size_t i = 4; i < len && i < 8; i++) n = n * 10 + (unsigned)(key[i] - '0');
    return n % KEYS;
}

static int load(void *context, const uint8_t *key, size_t len, sflight_cache_loaded *loaded) {
    struct plan *plan = context;
    loads++;
    unsigned version = atomic_load(&versions[number_of(key, len)]);
    while (atomic_load(&plan->held)) sched_yield();
    if (plan->meanwhile) {
        void (*meanwhile)(struct plan *, const uint8_t *, size_t) = plan->meanwhile;
        plan->meanwhile = NULL;
        meanwhile(plan, key, len);
    }
    if (plan->waits) plan->waits(key, len);
    if (plan->weight) loaded->weight = plan->weight;
    if (plan->tag) sflight_cache_add_tag(loaded, (const uint8_t *)plan->tag, strlen(plan->tag));
    if (plan->fails) return SFLIGHT_CACHE_FAILED;
    struct page *page = malloc(sizeof *page + len);
    if (!page) abort();
    page->mark = LIVE;
    page->version = version;
    page->len = len;
    if (len) memcpy(page->key, key, len);
    live++;
    loaded->value = page;
    return SFLIGHT_CACHE_LOADED;
}

static void drop(void *context, void *value) {
    struct page *page = value;
    (void)context;
    check(page->mark == LIVE, "a value is dropped once");
    page->mark = DEAD;
    live--;
    free(page);
}

static sflight_cache *open_cache(uint64_t limit, uint32_t entries, struct plan *plan) {
    sflight_cache *cache = sflight_cache_open(&(sflight_cache_options){
        .limit = limit, .entries = entries, .load = load, .drop = drop, .context = plan});
    if (!cache) abort();
    return cache;
}

/* Gets the key, looks whether the value is of that key, and releases it. */
static int get(sflight_cache *cache, const void *key, size_t len, unsigned *version) {
    sflight_value value;
    int code = sflight_cache_get(cache, key, len, &value);
    if (!sflight_cache_has_value(code)) {
        check(!value.at && !value.entry, "no value comes with a failure");
        return code;
    }
    struct page *page = value.at;
    check(page->mark == LIVE, "a value that is in use lives");
    check(page->len == len && !memcmp(page->key, key, len), "a value is of its key");
    if (version) *version = page->version;
    sflight_cache_release(cache, &value);
    check(!value.at && !value.entry, "a released value is empty");
    sflight_cache_release(cache, &value);
    return code;
}

static int get_text(sflight_cache *cache, const char *key) {
    return get(cache, key, strlen(key), NULL);
}

static void forget_text(sflight_cache *cache, const char *key) {
    sflight_cache_forget(cache, (const uint8_t *)key, strlen(key));
}

static void test_options(void) {
    struct plan plan = {0};
    sflight_cache_options good = {.limit = 1, .entries = 1, .load = load};
    sflight_cache_options bad[] = {good, good, good, good};
    bad[0].limit = 0;
    bad[1].entries = 0;
    bad[2].loads = SFLIGHT_MOST_CELLS + 1;
    bad[3].load = NULL;
    for (int i = 0; i < 4; i++) check(!sflight_cache_open(&bad[i]), "an option out of range is refused");
    good.context = &plan;
    sflight_cache *cache = sflight_cache_open(&good);
    check(cache != NULL, "the least options are taken");
    sflight_value value;
    check(sflight_cache_get(cache, NULL, 0, &value) == SFLIGHT_CACHE_LOADED, "the empty key");
    void *page = value.at;
    sflight_cache_release(cache, &value);
    sflight_cache_close(cache);
    free(page);
    live = 0; /* that cache drops nothing */
}

static void test_one_thread(void) {
    struct plan plan = {0};
    sflight_cache *cache = open_cache(100, 100, &plan);
    sflight_value value;
    loads = 0;
    check(!sflight_cache_peek(cache, (const uint8_t *)"ada", 3, &value), "nothing is there at first");
    check(get_text(cache, "ada") == SFLIGHT_CACHE_LOADED, "the first get loads");
    check(get_text(cache, "ada") == SFLIGHT_CACHE_HIT, "the second one finds it");
    check(sflight_cache_peek(cache, (const uint8_t *)"ada", 3, &value), "so does a peek");
    check(loads == 1 && live == 1, "by one load");
    forget_text(cache, "ada");
    check(live == 1 && ((struct page *)value.at)->mark == LIVE, "a value in use outlives a Forget");
    check(get_text(cache, "ada") == SFLIGHT_CACHE_LOADED, "after a Forget it is loaded again");
    sflight_cache_release(cache, &value);
    check(live == 1, "then the old one is dropped");
    forget_text(cache, "nobody");
    get_text(cache, "bob");
    check(live == 2, "two keys have two values");
    sflight_cache_forget_all(cache);
    check(live == 0, "a Forget of all drops all");
    check(get_text(cache, "ada") == SFLIGHT_CACHE_LOADED, "and all are loaded again");
    sflight_cache_stats stats = sflight_cache_statistics(cache);
    check(stats.hits == 1 && stats.misses == 4 && stats.loads == 4 && stats.failures == 0 && stats.joins == 0
              && stats.forgets == 3 && stats.evictions == 0 && stats.in_use == 0 && stats.entries == 1 && stats.weight == 1, "the counts");
    forget_text(cache, "ada");
    check(live == 0 && sflight_cache_statistics(cache).weight == 0, "what is forgotten leaves at once");
    static uint8_t large[70000];
    memset(large, 'x', sizeof large);
    check(get(cache, large, sizeof large, NULL) == SFLIGHT_CACHE_LOADED, "a large key");
    check(get(cache, large, sizeof large, NULL) == SFLIGHT_CACHE_HIT, "is found");
    check(get(cache, large, sizeof large - 1, NULL) == SFLIGHT_CACHE_LOADED, "but not its beginning");
    check(sflight_cache_statistics(cache).loads == 6, "all loads are counted");
    sflight_cache_close(cache);
    check(live == 0, "a closed cache has dropped all");
}

static void test_weights(void) {
    struct plan plan = {.weight = 30};
    sflight_cache *cache = open_cache(100, 100, &plan);
    char key[24];
    for (int i = 0; i < 50; i++) {
        snprintf(key, sizeof key, "key-%d", i);
        get_text(cache, key);
        check(sflight_cache_statistics(cache).weight <= 100 && live <= 4, "the weight is within the limit");
    }
    check(sflight_cache_statistics(cache).weight == 90 && live == 3, "and three have room");
    plan.weight = 101;
    check(get_text(cache, "heavy") == SFLIGHT_CACHE_LOADED, "one that is too heavy is loaded");
    check(get_text(cache, "heavy") == SFLIGHT_CACHE_LOADED, "and not kept");
    check(live == 3, "and empties nothing");
    plan.weight = 100;
    get_text(cache, "whole");
    check(get_text(cache, "whole") == SFLIGHT_CACHE_HIT && live == 1, "one that fills the cache is kept");
    check(sflight_cache_statistics(cache).evictions == 50, "each one that left is counted");
    sflight_cache_close(cache);
    check(live == 0, "all are dropped");
}

/* The keys in use are others after a while. The old ones leave, and not the newest. */
static void test_order(void) {
    struct plan plan = {0};
    sflight_cache *cache = open_cache(500, 500, &plan);
    char key[24];
    for (int i = 0; i < 1000; i++) {
        snprintf(key, sizeof key, "old-%d", i / 2);
        get_text(cache, key);
    }
    loads = 0;
    for (int i = 0; i < 2500; i++) {
        snprintf(key, sizeof key, "key-%d", i % 250);
        get_text(cache, key);
    }
    check(loads < 700, "keys that are in use come into a full cache and stay");
    sflight_cache_close(cache);
}

/* Keys that are got once pass by those that are in use. */
static void test_scan(void) {
    struct plan plan = {0};
    sflight_cache *cache = open_cache(100, 100, &plan);
    char key[24];
    int missed = 0;
    for (int i = 0; i < MANY; i++) {
        snprintf(key, sizeof key, i % 2 ? "hot-%d" : "scan-%d", i % 2 ? i / 2 % 40 : i);
        int code = get_text(cache, key);
        missed += i % 2 && i > 1000 && code != SFLIGHT_CACHE_HIT;
    }
    check(missed == 0, "keys in use stay, whatever passes by");
    check(live == 100 && sflight_cache_statistics(cache).entries == 100, "and the cache is full");
    sflight_cache_close(cache);
    check(live == 0, "all are dropped");
}

/* A value that was found once stays while others that were not pass by. */
static void test_used(void) {
    struct plan plan = {0};
    sflight_cache *cache = open_cache(10, 10, &plan);
    char key[24];
    get_text(cache, "used");
    check(get_text(cache, "used") == SFLIGHT_CACHE_HIT, "a value is found");
    for (int i = 0; i < 25; i++) {
        snprintf(key, sizeof key, "once-%d", i);
        get_text(cache, key);
    }
    check(get_text(cache, "used") == SFLIGHT_CACHE_HIT, "and stays");
    check(get_text(cache, "once-1") == SFLIGHT_CACHE_LOADED, "what was not found has left");
    sflight_cache_close(cache);
    check(live == 0, "all are dropped");
}

/* Whether the key comes into the small queue when it is loaded. */
static bool comes_into_small(sflight_cache *cache, const char *key) {
    uint64_t hash = hash_of(cache, (const uint8_t *)key, strlen(key));
    check(get_text(cache, key) == SFLIGHT_CACHE_LOADED, "a key that is not there");
    struct sflight_entry *e = find(shard_of(cache, hash), hash, (const uint8_t *)key, strlen(key));
    return e && e->place == IN_SMALL;
}

/* A key that was never there comes into the small queue, and so does one that has left it long ago. */
static void test_ghosts(void) {
    enum { ENTRIES = 100, OLD = 50, REMEMBERED = 101 };
    struct plan plan = {0};
    sflight_cache *cache = open_cache(ENTRIES, ENTRIES, &plan);
    char key[24];
    bool is_small = true;
    check(groups_of(&cache->shards[0]) <= REMEMBERED, "so many keys are remembered");
    for (int i = 0; i < OLD; i++) {
        snprintf(key, sizeof key, "old-%d", i);
        get_text(cache, key);
    }
    for (int i = 0; i < ENTRIES + 2 * REMEMBERED; i++) {
        snprintf(key, sizeof key, "new-%d", i);
        is_small = comes_into_small(cache, key) && is_small;
    }
    check(is_small, "no new key is taken for one that has left");
    for (int i = 0; i < OLD; i++) {
        snprintf(key, sizeof key, "old-%d", i);
        is_small = comes_into_small(cache, key) && is_small;
    }
    check(is_small, "a key is remembered until as many others have left");
    sflight_cache_close(cache);
    check(live == 0, "all are dropped");
}

/* A value that was found ever so often leaves while others are in use. */
static void test_used_once(void) {
    struct plan plan = {0};
    sflight_cache *cache = open_cache(10, 10, &plan);
    char key[24];
    for (int i = 0; i < 1100; i++) {
        get_text(cache, "used");
        snprintf(key, sizeof key, "once-%d", i);
        if (i < 100) get_text(cache, key);
    }
    for (int i = 0; i < 3000; i++) {
        snprintf(key, sizeof key, "key-%d", i / 3 % 20);
        get_text(cache, key);
    }
    sflight_value value;
    check(!sflight_cache_peek(cache, (const uint8_t *)"used", 4, &value), "a value that was in use long ago has left");
    sflight_cache_release(cache, &value);
    sflight_cache_close(cache);
    check(live == 0, "all are dropped");
}

/* Many more values than was said, in many shards; and all are found. */
static void test_many_entries(void) {
    struct plan plan = {0};
    const uint32_t entries[] = {1, 10000};
    char key[24];
    for (int round = 0; round < 2; round++) {
        sflight_cache *cache = open_cache(MANY, entries[round], &plan);
        check(cache->count == (round ? SHARDS : 1), "the number of shards");
        for (int i = 0; i < MANY; i++) {
            snprintf(key, sizeof key, "many-%d", i);
            get_text(cache, key);
        }
        int found = 0;
        for (int i = 0; i < MANY; i++) {
            snprintf(key, sizeof key, "many-%d", i);
            found += get_text(cache, key) == SFLIGHT_CACHE_HIT;
        }
        check(found == MANY && sflight_cache_statistics(cache).evictions == 0, "what has room is found");
        check(PER_CHUNK * cache->shards[0].table->count >= (uint64_t)MANY / cache->count, "and its table has room");
        for (int i = 0; i < 100; i++) {
            snprintf(key, sizeof key, "more-%d", i);
            get_text(cache, key);
        }
        check(live == MANY && sflight_cache_statistics(cache).evictions == 100, "one leaves for each that comes");
        sflight_cache_forget_all(cache);
        check(live == 0 && sflight_cache_statistics(cache).weight == 0, "a Forget of all reaches each shard");
        sflight_cache_close(cache);
    }
}

/* Keys of each length that differ in one byte, in blocks of that length, are told apart. */
static void test_comparison(void) {
    int wrong = 0;
    for (size_t len = 0; len < 70; len++) {
        uint8_t *a = malloc(len), *b = malloc(len);
        for (size_t i = 0; i < len; i++) a[i] = b[i] = (uint8_t)(7 * i + len);
        wrong += !are_same(a, b, len);
        for (size_t i = 0; i < len; i++) {
            b[i] ^= (uint8_t)(1u << i % 8);
            wrong += are_same(a, b, len);
            b[i] = a[i];
        }
        free(a);
        free(b);
    }
    check(wrong == 0 && are_same(NULL, (const uint8_t *)"", 0), "keys are the same in all bytes");
}

/* A get finds each key without a lock, also where its own chunk was full. */
static void test_full_chunks(void) {
    struct plan plan = {0};
    sflight_cache *cache = open_cache(MANY, 1000, &plan);
    char key[24];
    int found = 0;
    uint64_t passed_by = 0;
    for (int i = 0; i < MANY; i++) {
        snprintf(key, sizeof key, "full-%d", i);
        get_text(cache, key);
    }
    struct hold *place = free_place(seat_of(cache->pool));
    for (int i = 0; i < MANY; i++) {
        bool is_owed = false;
        snprintf(key, sizeof key, "full-%d", i);
        size_t len = strlen(key);
        struct sflight_entry *e = hold(cache, place, hash_of(cache, (const uint8_t *)key, len), (const uint8_t *)key, len, &is_owed);
        found += e && is_of_key(e, (const uint8_t *)key, len) && !is_owed;
        let_go(cache, place);
    }
    for (unsigned i = 0; i < cache->count; i++) {
        struct table *t = cache->shards[i].table;
        for (uint64_t n = 0; n < t->count; n++) passed_by += t->chunks[n].passed;
    }
    check(found == MANY && passed_by > 0, "each is found without a lock");
    sflight_cache_close(cache);
    check(live == 0, "all are dropped");
}

/* A heavy value takes the room of many light ones, also of other shards. */
static void test_heavy(void) {
    struct plan plan = {0};
    sflight_cache *cache = open_cache(5000, 5000, &plan);
    char key[24];
    for (int i = 0; i < 5000; i++) {
        snprintf(key, sizeof key, "light-%d", i);
        get_text(cache, key);
    }
    plan.weight = 4990;
    get_text(cache, "heavy");
    check(get_text(cache, "heavy") == SFLIGHT_CACHE_HIT && live == 11 && sflight_cache_statistics(cache).weight == 5000, "it is kept");
    plan.weight = 0;
    get_text(cache, "light");
    check(sflight_cache_statistics(cache).weight <= 5000, "within the limit");
    sflight_cache_close(cache);
    check(live == 0, "all are dropped");
}

/* Threads come and go, and the pool has as many seats as there were at one time. */
static void *gets_once(void *cache) {
    get_text(cache, "seat");
    return NULL;
}

static void test_seats(void) {
    struct plan plan = {0};
    sflight_cache *cache = open_cache(100, 100, &plan);
    int seats = 0;
    for (int i = 0; i < 50; i++) {
        pthread_t thread;
        if (pthread_create(&thread, NULL, gets_once, cache)) abort();
        pthread_join(thread, NULL);
    }
    for (struct seat *seat = cache->pool->seats; seat; seat = seat->next) seats++;
    check(seats == 1, "a thread takes the seat of one that is gone");
    sflight_cache_close(cache);
    check(live == 0, "all are dropped");
}

static size_t room(void) {
    struct mallinfo2 info = mallinfo2();
    return info.uordblks + info.hblkhd;
}

/* A cache of ten values, all of which it has. */
static void test_small(void) {
    enum { CACHES = 100 };
    struct plan plan = {0};
    static sflight_cache *caches[CACHES];
    size_t before = room();
    for (int c = 0; c < CACHES; c++) {
        caches[c] = open_cache(10, 10, &plan);
        for (int i = 0; i < 10; i++) get(caches[c], (char[]){(char)('a' + i)}, 1, NULL);
    }
    size_t each = (room() - before) / CACHES;
    printf("a cache of ten values: %zu bytes\n", each);
#ifdef SIZES
    check(each <= 16384, "a small cache is small");
#endif
    for (int c = 0; c < CACHES; c++) sflight_cache_close(caches[c]);
    live = 0;
}

/* A load whose value takes no memory, so that what is measured is the cache's. */
static int load_nothing(void *context, const uint8_t *key, size_t len, sflight_cache_loaded *loaded) {
    (void)context, (void)key, (void)len;
    loaded->value = NULL;
    return SFLIGHT_CACHE_LOADED;
}

/* What malloc has given for the entries of the cache, on average, less their keys. */
static size_t entries_take(sflight_cache *cache) {
    size_t bytes = 0, count = 0;
    for (unsigned i = 0; i < cache->count; i++) {
        for (int place = IN_SMALL; place <= IN_MAIN; place++) {
            for (struct sflight_entry *e = cache->shards[i].queues[place].newest; e; e = e->older, count++) bytes += malloc_usable_size(e) - e->len;
        }
    }
    return bytes / count;
}

/* Many entries, whose keys have from 8 to 23 bytes. With a lifetime of any kind each takes at most 120 bytes and its key. */
static void test_entries(void) {
    const int64_t hour = 3600 * INT64_C(1000000000);
    const sflight_cache_options kinds[] = {{.limit = 0}, {.ttl = hour}, {.ttl = hour, .jitter = 0.5}, {.idle = hour, .refresh_after = hour},
                                           {.ttl = hour, .idle = hour, .jitter = 0.5, .refresh_after = hour, .stale_if_error = hour}};
#ifdef SIZES
    const uint32_t entries = 100000;
#else
    const uint32_t entries = MANY;
#endif
    for (unsigned kind = 0; kind < sizeof kinds / sizeof *kinds; kind++) {
        sflight_cache_options options = kinds[kind];
        options.limit = options.entries = entries;
        options.load = load_nothing;
        size_t before = room(), keys = 0;
        sflight_cache *cache = sflight_cache_open(&options);
        if (!cache) abort();
        size_t opened = room() - before;
        for (uint32_t i = 0; i < entries; i++) {
            char key[24];
            sflight_value value;
            size_t len = (size_t)snprintf(key, sizeof key, "%0*u", 8 + (int)(i % 16), i);
            keys += len;
            check(sflight_cache_get(cache, (const uint8_t *)key, len, &value) == SFLIGHT_CACHE_LOADED, "each is loaded");
            sflight_cache_release(cache, &value);
        }
        size_t each = (room() - before - keys) / entries;
        printf("entries of kind %u: %zu bytes each and the key, %zu of them at once\n", kind, each, opened / entries);
        check(entries_take(cache) <= 80, "an entry is small");
#ifdef SIZES
        check(each <= 120, "also with what the cache takes for it");
#endif
        sflight_cache_close(cache);
    }
}

/* Each allocation of the package is refused in turn. A call that was refused can be made again. */
static void test_memory(void) {
    struct plan plan = {0};
    static const uint8_t large[3000];
    sflight_cache_options options = {.limit = 3, .entries = 1, .loads = 1, .load = load, .drop = drop, .context = &plan};
    bool is_over = false;
    int refused = 0;
    for (long number = 1; !is_over; number++) {
        was_refused = false;
        atomic_store(&refused_number, number);
        sflight_cache *cache = sflight_cache_open(&options);
        check(cache || was_refused, "a cache opens where there is memory");
        if (!cache) refused++;
        if (cache) {
            sflight_value value;
            int first = get(cache, large, sizeof large, NULL);
            check(first == SFLIGHT_CACHE_LOADED || (was_refused && first == SFLIGHT_CACHE_NO_MEMORY), "a get without memory says so");
            sflight_cache_forget(cache, large, sizeof large);
            check(!sflight_cache_peek(cache, large, sizeof large, &value), "a Forget needs no memory");
            for (int i = 0; i < 10; i++) {
                char key = (char)('a' + i);
                int code = get(cache, &key, 1, NULL);
                check(code == SFLIGHT_CACHE_LOADED || (was_refused && code == SFLIGHT_CACHE_NO_MEMORY), "a get without memory is refused");
                if (code == SFLIGHT_CACHE_NO_MEMORY) check(get(cache, &key, 1, NULL) == SFLIGHT_CACHE_LOADED, "and the next one is not");
            }
            check(live == 3 && sflight_cache_statistics(cache).in_use == 0, "what is kept, and in use");
            sflight_cache_close(cache);
        }
        check(live == 0, "all are dropped");
        is_over = !was_refused;
        atomic_store(&refused_number, 0);
        if (number > 100) abort();
    }
    check(refused > 3, "each was refused in turn");
}

static void load_batch(void *context, sflight_cache_loading *loadings, size_t count) {
    for (size_t i = 0; i < count; i++) loadings[i].code = load(context, loadings[i].key, loadings[i].len, &loadings[i].loaded);
}

static bool sees_page(void *context, const uint8_t *key, size_t len, void *value) {
    struct page *page = value;
    ++*(int *)context;
    check(page->mark == LIVE && page->len == len && !memcmp(page->key, key, len), "a value that is seen is of its key");
    return true;
}

static bool is_there(sflight_cache *cache, const char *key) {
    sflight_value value;
    bool is = sflight_cache_peek(cache, (const uint8_t *)key, strlen(key), &value);
    sflight_cache_release(cache, &value);
    return is;
}

/* Everything but plain gets, while one allocation is refused. */
static void use_without_memory(sflight_cache *cache, struct plan *plan) {
    sflight_cache_item items[3];
    int seen = 0;
    for (int i = 0; i < 3; i++) items[i] = (sflight_cache_item){.key = (const uint8_t *)&"abc"[i], .len = 1};
    sflight_cache_get_many(cache, items, 3, NULL);
    for (int i = 0; i < 3; i++) {
        check(items[i].code == SFLIGHT_CACHE_LOADED || (was_refused && items[i].code == SFLIGHT_CACHE_NO_MEMORY), "a batch without memory says so");
        sflight_cache_release(cache, &items[i].value);
    }
    check(sflight_cache_each(cache, sees_page, &seen) ? seen <= 3 : was_refused, "an iteration without memory says so");
    plan->tag = "t";
    get_text(cache, "tagged");
    sflight_cache_forget_tag(cache, (const uint8_t *)"t", 1);
    check(!is_there(cache, "tagged"), "a Forget of a tag needs no memory");
    check(get_text(cache, "tagged") != SFLIGHT_CACHE_HIT, "nor does a get find the value");
    plan->tag = NULL;
    sflight_cache_loaded l = sflight_cache_of_value(cache, NULL);
    load(plan, (const uint8_t *)"a", 1, &l);
    bool is_kept = sflight_cache_put(cache, (const uint8_t *)"a", 1, &l, NULL);
    check(is_kept == is_there(cache, "a") && (is_kept || was_refused), "a put without memory says so, and has forgotten the key");
    const sflight_cache_how how = {.timeout = INT64_C(3600000000000)};
    sflight_value value;
    int code = sflight_cache_get_with(cache, (const uint8_t *)"apart", 5, &how, &value);
    check(code == SFLIGHT_CACHE_LOADED || (was_refused && code == SFLIGHT_CACHE_NO_MEMORY), "a load in another thread without memory says so");
    sflight_cache_release(cache, &value);
    check(sflight_cache_statistics(cache).in_use == 0, "no call stays open");
}

static void test_memory_of_the_rest(void) {
    struct plan plan = {0};
    bool is_over = false;
    for (long number = 1; !is_over; number++) {
        sflight_cache *cache = sflight_cache_open(&(sflight_cache_options){
            .limit = 100, .entries = 1, .loads = 1, .load = load, .load_many = load_batch, .drop = drop, .context = &plan});
        if (!cache) abort();
        was_refused = false;
        atomic_store(&refused_number, number);
        use_without_memory(cache, &plan);
        is_over = !was_refused;
        atomic_store(&refused_number, 0);
        sflight_cache_close(cache);
        check(live == 0, "all are dropped");
        if (number > 200) abort();
    }
}

static void test_failures(void) {
    struct plan plan = {.fails = true};
    sflight_cache *cache = open_cache(100, 100, &plan);
    loads = 0;
    check(get_text(cache, "ada") == SFLIGHT_CACHE_FAILED, "a load fails");
    check(get_text(cache, "ada") == SFLIGHT_CACHE_FAILED && loads == 2, "and is not kept");
    plan.fails = false;
    check(get_text(cache, "ada") == SFLIGHT_CACHE_LOADED, "the next one gives a value");
    sflight_cache_stats stats = sflight_cache_statistics(cache);
    check(stats.failures == 2 && stats.loads == 3, "failures are counted");
    sflight_cache_close(cache);
}

static void get_another(struct plan *plan, const uint8_t *key, size_t len) {
    (void)key;
    (void)len;
    check(get_text(plan->cache, "inner") == SFLIGHT_CACHE_LOADED, "a load gets another key");
}

static void forget_own(struct plan *plan, const uint8_t *key, size_t len) {
    sflight_cache_forget(plan->cache, key, len);
    check(get(plan->cache, key, len, NULL) == SFLIGHT_CACHE_LOADED,
          "a get after a Forget does not join the load of before");
}

static void forget_every(struct plan *plan, const uint8_t *key, size_t len) {
    sflight_cache_forget_all(plan->cache);
    check(get(plan->cache, key, len, NULL) == SFLIGHT_CACHE_LOADED,
          "a get after a Forget of all does not join the load of before");
}

/* Loads that use the cache meanwhile. */
static void test_meanwhile(void) {
    struct plan plan = {0};
    sflight_cache *cache = open_cache(100, 100, &plan);
    plan.cache = cache;
    plan.meanwhile = get_another;
    check(get_text(cache, "outer") == SFLIGHT_CACHE_LOADED && live == 2, "a load that gets another key");
    check(get_text(cache, "inner") == SFLIGHT_CACHE_HIT, "the inner one is kept");
    plan.meanwhile = forget_own;
    check(get_text(cache, "again") == SFLIGHT_CACHE_LOADED, "what was forgotten meanwhile is told to its leader");
    check(live == 3 && get_text(cache, "again") == SFLIGHT_CACHE_HIT, "and not kept, but the newer one");
    char key[24];
    for (int i = 0; i < 20; i++) {
        snprintf(key, sizeof key, "key-%d", i);
        plan.meanwhile = forget_every;
        check(get_text(cache, key) == SFLIGHT_CACHE_LOADED && live == 1, "and all others are gone");
    }
    sflight_value value;
    check(sflight_cache_peek(cache, (const uint8_t *)key, strlen(key), &value), "the last one is there");
    check(((struct page *)value.at)->mark == LIVE, "it lives");
    sflight_cache_release(cache, &value);
    sflight_cache_close(cache);
    check(live == 0, "all are dropped");
}

struct asker {
    pthread_t thread;
    sflight_cache *cache;
    const char *key;
    int code;
    unsigned number;
    unsigned old, unseen;
    atomic_bool *stop;
};

static void *asks(void *arg) {
    struct asker *a = arg;
    a->code = get_text(a->cache, a->key);
    return NULL;
}

/* Six get one key, and the load waits until five have joined it. */
static void test_shared(bool fails) {
    struct plan plan = {.fails = fails, .held = true};
    sflight_cache *cache = open_cache(100, 100, &plan);
    struct asker askers[6];
    loads = 0;
    for (int i = 0; i < 6; i++) {
        askers[i] = (struct asker){.cache = cache, .key = "ada"};
        if (pthread_create(&askers[i].thread, NULL, asks, &askers[i])) abort();
    }
    /* A leader may be stopped before it has counted itself, and others join its call meanwhile. */
    while (loads == 0 || sflight_cache_statistics(cache).joins < 5) sched_yield();
    check(sflight_cache_statistics(cache).in_use == 1, "threads that wait are not in use");
    atomic_store(&plan.held, false);
    int led = 0, joined = 0, lost = 0;
    for (int i = 0; i < 6; i++) {
        pthread_join(askers[i].thread, NULL);
        if (askers[i].code == SFLIGHT_CACHE_LOADED) led++;
        else if (askers[i].code == SFLIGHT_CACHE_FAILED) lost++;
        else if (askers[i].code == SFLIGHT_CACHE_JOINED) joined++;
    }
    sflight_cache_stats stats = sflight_cache_statistics(cache);
    check(stats.hits == 0 && stats.misses == 6 && stats.joins == 5 && stats.in_use == 0, "five have joined, and nobody has found it");
    check(stats.failures == (fails ? 1 : 0), "a load that fails is one failure");
    if (fails) check(lost == 6 && loads == 1 && live == 0, "all that joined share a failure");
    else check(led == 1 && joined == 5 && loads == 1 && live == 1, "six that ask at one time make one load");
    sflight_cache_close(cache);
    check(live == 0, "what they shared is dropped once");
}

/* Six get one key, and there is no memory for its value. */
static void test_shared_refusal(void) {
    struct plan plan = {0};
    sflight_cache *cache = open_cache(100, 100, &plan);
    struct asker askers[1 + JOINING];
    loads = 0;
    refusing = cache;
    atomic_store(&refused_size, sizeof(struct sflight_entry) + strlen("ada"));
    for (int i = 0; i <= JOINING; i++) {
        askers[i] = (struct asker){.cache = cache, .key = "ada"};
        if (pthread_create(&askers[i].thread, NULL, asks, &askers[i])) abort();
    }
    for (int i = 0; i <= JOINING; i++) {
        pthread_join(askers[i].thread, NULL);
        check(askers[i].code == SFLIGHT_CACHE_NO_MEMORY, "want of memory is shared");
    }
    check(loads == 1 && live == 0 && atomic_load(&refused_size) == 0, "what was loaded is dropped");
    check(get_text(cache, "ada") == SFLIGHT_CACHE_LOADED, "and the next get loads");
    check(sflight_cache_statistics(cache).failures == 0, "want of memory is no failure of a load");
    sflight_cache_close(cache);
    check(live == 0, "all are dropped");
}

enum { MEET = 4, MEETINGS = 3000 };

struct meeting {
    sflight_cache *cache;
    pthread_barrier_t barrier;
};

static void *meets(void *arg) {
    struct meeting *m = arg;
    for (int i = 0; i < MEETINGS; i++) {
        if (pthread_barrier_wait(&m->barrier) == PTHREAD_BARRIER_SERIAL_THREAD) forget_text(m->cache, "ada");
        pthread_barrier_wait(&m->barrier);
        get_text(m->cache, "ada");
    }
    return NULL;
}

/* Between two Forgets of a key one load runs, also where a get missed before the load had ended, and asked after. */
static void test_one_load(void) {
    struct plan plan = {0};
    struct meeting m = {.cache = open_cache(100, 100, &plan)};
    pthread_t threads[MEET];
    loads = 0;
    pthread_barrier_init(&m.barrier, NULL, MEET);
    for (int i = 0; i < MEET; i++) {
        if (pthread_create(&threads[i], NULL, meets, &m)) abort();
    }
    for (int i = 0; i < MEET; i++) pthread_join(threads[i], NULL);
    pthread_barrier_destroy(&m.barrier);
    sflight_cache_stats stats = sflight_cache_statistics(m.cache);
    check(loads == MEETINGS && stats.loads == MEETINGS, "one load between two Forgets");
    check(stats.hits + stats.misses == MEET * MEETINGS, "each get is a hit or a miss");
    sflight_cache_close(m.cache);
}

/* Gets of all threads, and threads that get yet. Counts of gets are relaxed, and every sixteenth alone: nothing is ordered by them. */
enum { PER_COUNT = 16 };
static atomic_uint gets_made, reading;

static void *read_beside_forgets(void *arg) {
    struct asker *a = arg;
    unsigned state = a->number * 2654435761u + 1;
    char key[24];
    for (unsigned i = 0; i < GETS; i++) {
        state = state * 1664525 + 1013904223;
        unsigned n = (state >> 16) % KEYS, version = 0;
        int len = snprintf(key, sizeof key, "key-%u", n);
        unsigned seen = atomic_load(&versions[n]);
        /* An even version says that the Forget of the odd one before has returned: what was loaded
         * before that may not come. */
        if (get(a->cache, key, (size_t)len, &version) > SFLIGHT_CACHE_JOINED) a->unseen++;
        else if (version + 1 < (seen & ~1u)) a->old++;
        if (i % PER_COUNT == 0) atomic_fetch_add_explicit(&gets_made, PER_COUNT, memory_order_relaxed);
    }
    reading--;
    return NULL;
}

/* Each change is a version that is odd, a Forget, and the next version, which is even. Where the gets are slower than the Forgets
 * the cache would never be full: so the Forgets stop now and then, until there were gets enough to fill it. */
static void *forget_beside(void *arg) {
    enum { TO_FILL = 4 * KEYS };
    struct asker *a = arg;
    unsigned state = 12345;
    char key[24];
    for (unsigned i = 0; i < GETS / 10 * THREADS || !atomic_load(a->stop); i++) {
        unsigned from = atomic_load_explicit(&gets_made, memory_order_relaxed);
        while (i % TO_FILL == 0 && atomic_load_explicit(&gets_made, memory_order_relaxed) - from < TO_FILL && reading > 0) sched_yield();
        state = state * 1664525 + 1013904223;
        unsigned n = (state >> 16) % KEYS;
        int len = snprintf(key, sizeof key, "key-%u", n);
        atomic_fetch_add(&versions[n], 1);
        sflight_cache_forget(a->cache, (const uint8_t *)key, (size_t)len);
        atomic_fetch_add(&versions[n], 1);
        if (sflight_cache_statistics(a->cache).weight > 40) a->old++;
    }
    return NULL;
}

static void test_forgets_beside_gets(void) {
    struct plan plan = {0};
    atomic_bool stop = false;
    sflight_cache *cache = open_cache(40, 48, &plan);
    struct asker askers[THREADS + 1];
    reading = THREADS;
    for (unsigned i = 0; i <= THREADS; i++) {
        askers[i] = (struct asker){.cache = cache, .number = i, .stop = &stop};
        if (pthread_create(&askers[i].thread, NULL, i < THREADS ? read_beside_forgets : forget_beside,
                           &askers[i]))
            abort();
    }
    for (unsigned i = 0; i <= THREADS; i++) {
        if (i == THREADS) atomic_store(&stop, true);
        pthread_join(askers[i].thread, NULL);
        check(askers[i].old == 0, i < THREADS ? "no get gives a value from before a Forget"
                                              : "the weight is within the limit beside others");
        check(askers[i].unseen == 0, "every get gives a value");
    }
    sflight_cache_stats stats = sflight_cache_statistics(cache);
    check(stats.hits && stats.loads && stats.evictions, "hits, loads and evictions came to pass");
    sflight_cache_close(cache);
    check(live == 0, "each value is dropped once");
}

/* A value that is in use at several places of two threads when it leaves. It lives until the last one has released it, in any order. */
enum { USES = 4, ORDERS = 24 };

struct user {
    sflight_cache *cache;
    sflight_value *values;
};

static void *uses_twice(void *arg) {
    struct user *u = arg;
    for (int i = 0; i < 2; i++) check(sflight_cache_get(u->cache, (const uint8_t *)"ada", 3, &u->values[i]) == SFLIGHT_CACHE_HIT, "a value is found");
    return NULL;
}

static void test_used_by_many(void) {
    struct plan plan = {0};
    sflight_cache *cache = open_cache(100, 100, &plan);
    for (int order = 0; order < ORDERS; order++) {
        sflight_value values[USES];
        struct user user = {cache, values};
        pthread_t thread;
        get_text(cache, "ada");
        if (pthread_create(&thread, NULL, uses_twice, &user)) abort();
        pthread_join(thread, NULL);
        user.values += 2;
        uses_twice(&user);
        forget_text(cache, "ada");
        for (int left = USES, rest = order; left > 0; left--) {
            int at = rest % left;
            rest /= left;
            check(values[at].hold && live == 1 && ((struct page *)values[at].at)->mark == LIVE, "what is in use lives");
            sflight_cache_release(cache, &values[at]);
            values[at] = values[left - 1];
        }
        check(live == 0, "and the last release drops it");
    }
    sflight_cache_close(cache);
}

/* Where the system refuses a fence for all threads, a value may be released as it leaves without that either thread finds that. The next
 * release at its place drops it, or the close. */
static void test_unfenced(void) {
    for (int round = 0; round < 3; round++) {
        struct plan plan = {0};
        sflight_cache *cache = open_cache(100, 100, &plan);
        sflight_value value;
        get_text(cache, "ada");
        get_text(cache, "bob");
        check(sflight_cache_get(cache, (const uint8_t *)"ada", 3, &value) == SFLIGHT_CACHE_HIT && value.hold, "a value is in use at a place");
        struct hold *place = value.hold;
        forget_text(cache, "ada");
        check(live == 2, "and lives when it is forgotten");
        atomic_store(&place->entry, FREE_PLACE); /* a release that has looked before */
        if (round > 0) {
            check(sflight_cache_get(cache, (const uint8_t *)"bob", 3, &value) == SFLIGHT_CACHE_HIT && value.hold == place, "the next one there");
            if (round > 1) forget_text(cache, "bob");
            check(live == 2, "waits");
            sflight_cache_release(cache, &value);
            check(live == (round > 1 ? 0 : 1), "and its release drops those that wait for it");
        }
        sflight_cache_close(cache);
        check(live == 0, "all are dropped");
    }
}

/* One thread releases a value while another forgets it: one of the two drops it. */
enum { LINES = 6, RELEASES = GETS / 10, LONGEST_WAIT = 1 << 14, LONGEST_TIME = 3 };
static struct { _Alignas(CACHE_LINE) atomic_uint word; } lines[LINES];
static atomic_uint ready_round, released_round, forgotten_round, last_round;

static void *forgets_each(void *cache) {
    for (unsigned round = 1; round <= atomic_load(&last_round); round++) {
        for (int i = 0; i < LINES; i++) atomic_store_explicit(&lines[i].word, round, memory_order_relaxed);
        atomic_store(&ready_round, round);
        for (unsigned i = 0; atomic_load(&released_round) != round; i++) if (i > LONGEST_WAIT) sched_yield();
        forget_text(cache, "ada");
        atomic_store(&forgotten_round, round);
    }
    return NULL;
}

static void test_released_as_it_leaves(bool is_fenced) {
    struct plan plan = {0};
    sflight_cache *cache = open_cache(100, 100, &plan);
    pthread_t thread;
    unsigned state = 1, late = 0, wait = 0;
    if (is_fenced) atomic_store(&cache->is_fenced, true);
    ready_round = released_round = forgotten_round = 0;
    last_round = RELEASES;
    time_t end = time(NULL) + LONGEST_TIME;
    if (pthread_create(&thread, NULL, forgets_each, cache)) abort();
    for (unsigned round = 1; round <= last_round; round++) {
        sflight_value value;
        if (time(NULL) > end) last_round = round;
        get_text(cache, "ada");
        if (sflight_cache_get(cache, (const uint8_t *)"ada", 3, &value) != SFLIGHT_CACHE_HIT || !value.hold) abort();
        /* Both run now, if there are two processors. */
        while (atomic_load(&ready_round) != round) sched_yield();
        atomic_store(&released_round, round);
        for (unsigned i = 0; i < wait; i++) atomic_signal_fence(memory_order_seq_cst);
        /* The other processor has these lines: what the release writes is seen after them. */
        for (int i = 0; i < LINES; i++) atomic_store_explicit(&lines[i].word, round, memory_order_relaxed);
        sflight_cache_release(cache, &value);
        /* It is sooner next time where it came after the Forget, and else later: so the two meet. */
        unsigned step = (state = state * 1664525 + 1013904223) >> 25;
        wait = live != 0 ? (wait + step) % LONGEST_WAIT : wait > step ? wait - step : 0;
        while (atomic_load(&forgotten_round) != round) sched_yield();
        late += live != 0;
        if (live != 0) get_text(cache, "ada"); /* the next release there */
        forget_text(cache, "ada");
    }
    pthread_join(thread, NULL);
    check(late == 0, "a value that is released as it leaves is dropped at once");
    sflight_cache_close(cache);
    check(live == 0, "all are dropped");
}

int main(void) {
    signal(SIGALRM, hangs_at);
    alarm(LIMIT);
    test_options();
    test_one_thread();
    test_weights();
    test_order();
    test_failures();
    test_meanwhile();
    test_used();
    test_used_once();
    test_ghosts();
    test_scan();
    test_many_entries();
    test_comparison();
    test_full_chunks();
    test_heavy();
    test_seats();
    test_small();
    test_entries();
    test_memory();
    test_memory_of_the_rest();
    test_shared(false);
    test_shared(true);
    test_shared_refusal();
    test_one_load();
    test_forgets_beside_gets();
    test_used_by_many();
    test_unfenced();
    test_released_as_it_leaves(false);
    test_released_as_it_leaves(true);
    printf("%d passed, %d failed\n", passed, failed);
    return failed != 0;
}
