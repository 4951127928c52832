/* Tests of how the cache keeps values: lifetimes, refreshes, failures that are kept or covered, puts, batches,
 * tags, timeouts, and looking in. The clock is the test's own, and so is the thread of what runs in the
 * background, but where a test says so: nothing depends on time. */
#ifndef _GNU_SOURCE
#define _GNU_SOURCE
#endif
#include <stdint.h>
#include <stdio.h>
#include <stdlib.h>
#include "sflight_cache.c"
#include "sflight_do.c"

/* After so many seconds it hangs. */
#ifndef LIMIT
#define LIMIT 1400
#endif

enum { MOST_WORK = 8, MOST_LEFT = 4096, REASONS = 5 };

static atomic_int passed, failed;

static void hangs_at(int number) {
    static const char text[] = "FAILED: it hangs\n";
    (void)number;
    if (write(STDOUT_FILENO, text, sizeof text - 1) < 0) _exit(2);
    _exit(1);
}

static void check(bool holds, const char *what) {
    if (holds) { passed++; return; }
    failed++;
    printf("FAILED: %s\n", what);
}

/* What the next loads do. A value is a number of its own, which begins with 1 in each test. */
static struct {
    sflight_cache *cache;
    int code;
    int64_t ttl, takes; /* takes: so long by the clock */
    uint64_t weight;
    const char *tags[40];
    void (*meanwhile)(void);
    atomic_bool held; /* a load waits while this is set */
    atomic_int begun, batches;
    size_t batch;       /* how many keys the last batch had */
    const char *lacks;  /* a batch has nothing for this key, and fails for the next one */
    const char *fails;
} plan;

static struct { _Atomic(int64_t) steady, wall; } time_now;
static atomic_int numbers, live, dropped;
static int lefts[REASONS], last_reason, last_number;
static char last_key[64];
static bool is_told_after; /* whether something was told once it was dropped */

static int64_t clock_of(void *context, bool is_wall) {
    (void)context;
    return is_wall ? time_now.wall : time_now.steady;
}

static void pass(int64_t time) {
    time_now.steady += time;
    time_now.wall += time;
}

static void *new_number(void) {
    int *value = malloc(sizeof *value);
    if (!value) abort();
    *value = ++numbers;
    live++;
    return value;
}

static int load_by_plan(void *context, const uint8_t *key, size_t len, sflight_cache_loaded *loaded) {
    (void)context, (void)key, (void)len;
    int code = plan.code;
    int64_t ttl = plan.ttl;
    plan.begun++;
    pass(plan.takes);
    while (atomic_load(&plan.held)) sched_yield();
    void (*meanwhile)(void) = plan.meanwhile;
    plan.meanwhile = NULL;
    loaded->ttl = ttl;
    if (plan.weight) loaded->weight = plan.weight;
    for (int i = 0; plan.tags[i]; i++) sflight_cache_add_tag(loaded, (const uint8_t *)plan.tags[i], strlen(plan.tags[i]));
    if (code == SFLIGHT_CACHE_LOADED) loaded->value = new_number();
    if (meanwhile) meanwhile();
    return code;
}

static bool is_key(const sflight_cache_loading *l, const char *key) { return key && l->len == strlen(key) && memcmp(l->key, key, l->len) == 0; }

static void load_batch(void *context, sflight_cache_loading *loadings, size_t count) {
    plan.batches++;
    plan.batch = count;
    for (size_t i = 0; i < count; i++) {
        check(loadings[i].code == SFLIGHT_CACHE_MISSING, "a key that the function says nothing of does not exist");
        if (is_key(&loadings[i], plan.lacks)) continue;
        if (is_key(&loadings[i], plan.fails)) loadings[i].code = SFLIGHT_CACHE_FAILED;
        else loadings[i].code = load_by_plan(context, loadings[i].key, loadings[i].len, &loadings[i].loaded);
    }
}

static void drop_number(void *context, void *value) {
    (void)context;
    live--;
    dropped++;
    *(int *)value = -1;
    free(value);
}

static void left(void *context, const uint8_t *key, size_t len, void *value, int reason) {
    (void)context;
    is_told_after |= *(int *)value < 0;
    lefts[reason]++;
    last_reason = reason;
    last_number = *(int *)value;
    memset(last_key, 0, sizeof last_key);
    memcpy(last_key, key, len < sizeof last_key ? len : sizeof last_key - 1);
}

/* Work of the background, which runs when the test says so. */
static struct { void (*run)(void *); void *work; } works[MOST_WORK];
static int waiting;
static bool is_refused;

static bool start_later(void *context, void (*run)(void *work), void *work) {
    (void)context;
    if (is_refused) return false;
    if (waiting == MOST_WORK) abort();
    works[waiting].run = run;
    works[waiting++].work = work;
    return true;
}

static void run_work_of_test(void) {
    while (waiting > 0) {
        waiting--;
        works[waiting].run(works[waiting].work);
    }
}

static const sflight_cache_options usual = {.limit = 1000, .entries = 1000, .load = load_by_plan, .drop = drop_number, .left = left,
                                            .clock = clock_of, .start = start_later};

static sflight_cache *begin(sflight_cache_options options) {
    memset(&plan, 0, sizeof plan);
    plan.code = SFLIGHT_CACHE_LOADED;
    memset(lefts, 0, sizeof lefts);
    numbers = live = dropped = waiting = 0;
    is_refused = is_told_after = false;
    time_now.steady = 1000000;
    time_now.wall = 5000000;
    plan.cache = sflight_cache_open(&options);
    if (!plan.cache) abort();
    return plan.cache;
}

static void end(const char *what) {
    sflight_cache_close(plan.cache);
    check(live == 0, what);
    check(!is_told_after, "what leaves is told before it is dropped");
    int told = 0;
    for (int i = 0; i < REASONS; i++) told += lefts[i];
    check(told <= dropped, "each is told once");
}

static int got_number; /* of the last get that has a value, or 0 */

static int get_by(const char *key, const sflight_cache_how *how) {
    sflight_value value;
    int code = sflight_cache_get_with(plan.cache, (const uint8_t *)key, strlen(key), how, &value);
    got_number = sflight_cache_has_value(code) ? *(int *)value.at : 0;
    check(sflight_cache_has_value(code) || !value.entry, "no value comes with a failure");
    sflight_cache_release(plan.cache, &value);
    return code;
}

static int get(const char *key) { return get_by(key, NULL); }

/* Whether the get has this code and this number. */
static bool gets(const char *key, int code, int number) {
    int is = get(key);
    if (is != code || got_number != number) printf("%s: code %d and not %d, number %d and not %d\n", key, is, code, got_number, number);
    return is == code && got_number == number;
}

static bool holds(const char *key, int number) {
    sflight_value value;
    bool is = sflight_cache_peek(plan.cache, (const uint8_t *)key, strlen(key), &value);
    int at = is ? *(int *)value.at : 0;
    sflight_cache_release(plan.cache, &value);
    return at == number;
}

static void forget(const char *key) { sflight_cache_forget(plan.cache, (const uint8_t *)key, strlen(key)); }
static void forget_tag(const char *tag) { sflight_cache_forget_tag(plan.cache, (const uint8_t *)tag, strlen(tag)); }
static void forget_k(void) { forget("k"); }
static void forget_all(void) { sflight_cache_forget_all(plan.cache); }
static void forget_t(void) { forget_tag("t"); }

static sflight_cache_stats stats(void) { return sflight_cache_statistics(plan.cache); }

static void test_ttl(void) {
    sflight_cache_options o = usual;
    o.ttl = 100;
    begin(o);
    check(gets("k", SFLIGHT_CACHE_LOADED, 1), "a value is loaded");
    pass(99);
    check(gets("k", SFLIGHT_CACHE_HIT, 1), "and found before its end");
    pass(1);
    check(holds("k", 0), "a peek does not find it at its end");
    check(gets("k", SFLIGHT_CACHE_LOADED, 2), "nor does a get");
    check(lefts[SFLIGHT_CACHE_EXPIRED] == 1 && last_number == 1 && stats().expirations == 1, "it has expired");
    plan.takes = 60;
    forget("k");
    check(gets("k", SFLIGHT_CACHE_LOADED, 3), "a load that takes long");
    plan.takes = 0;
    pass(39);
    check(gets("k", SFLIGHT_CACHE_HIT, 3), "ages count from its begin");
    pass(1);
    check(gets("k", SFLIGHT_CACHE_LOADED, 4), "and end so much sooner");
    plan.ttl = 20;
    check(gets("own", SFLIGHT_CACHE_LOADED, 5), "a load says how long");
    pass(20);
    check(gets("k", SFLIGHT_CACHE_HIT, 4) && gets("own", SFLIGHT_CACHE_LOADED, 6), "which is for its own value");
    plan.ttl = -1;
    forget("k");
    check(gets("k", SFLIGHT_CACHE_LOADED, 7) && gets("k", SFLIGHT_CACHE_LOADED, 8), "below 0 it is not kept");
    end("all are dropped");
}

/* A value that is not kept ends the older one: nobody goes back to that. */
static void test_unkept(void) {
    sflight_cache_options o = usual;
    o.ttl = 100;
    o.stale_if_error = 1000;
    begin(o);
    check(gets("k", SFLIGHT_CACHE_LOADED, 1), "a value is loaded");
    pass(100);
    plan.ttl = -1;
    check(gets("k", SFLIGHT_CACHE_LOADED, 2), "a newer one is not to be kept");
    plan.code = SFLIGHT_CACHE_FAILED;
    check(gets("k", SFLIGHT_CACHE_FAILED, 0), "and nobody gets the older one after it");
    end("all are dropped");
}

/* A value whose key is forgotten while it is loaded takes no room: nobody would find it. */
static void test_forgotten_load(void) {
    begin(usual);
    plan.meanwhile = forget_k;
    check(gets("k", SFLIGHT_CACHE_LOADED, 1), "the key is forgotten while it is loaded");
    check(stats().entries == 0 && stats().weight == 0 && live == 0, "and its value is not kept");
    check(gets("k", SFLIGHT_CACHE_LOADED, 2) && stats().entries == 1, "the next one is");
    end("all are dropped");
}

static void test_clocks(void) {
    sflight_cache_options o = usual;
    o.ttl = 100;
    begin(o);
    gets("k", SFLIGHT_CACHE_LOADED, 1);
    time_now.wall += 100; /* the machine was suspended */
    check(gets("k", SFLIGHT_CACHE_LOADED, 2), "a wall clock that has gone on makes a value older");
    time_now.wall -= 1000;
    check(gets("k", SFLIGHT_CACHE_HIT, 2), "a clock that is set back ends nothing");
    time_now.steady += 100;
    check(gets("k", SFLIGHT_CACHE_LOADED, 3), "and makes nothing live longer");
    time_now.wall += 50;
    check(gets("later", SFLIGHT_CACHE_LOADED, 4), "a value that is loaded when the wall clock is a little further ahead");
    pass(99);
    check(gets("later", SFLIGHT_CACHE_HIT, 4), "is not older for that");
    pass(1);
    check(holds("later", 0), "and ends when it is to end");
    end("all are dropped");
}

static struct sflight_entry *entry_of_key(const char *key) {
    uint64_t hash = hash_of(plan.cache, (const uint8_t *)key, strlen(key));
    return find(shard_of(plan.cache, hash), hash, (const uint8_t *)key, strlen(key));
}

enum { BIRTHS = 300, SECOND = 1000000000 };

/* When the values of test_eras were loaded, and whether they have expired. */
static struct {
    int64_t steady, wall;
    bool is_gone;
} births[BIRTHS];

static uint64_t random_below(uint64_t most) {
    static uint64_t state = 1;
    state = state * 6364136223846793005u + 1442695040888963407u;
    return (state >> 33) % most;
}

/* Looks at each value. Where what the wall clock has gained decides, it may end so much later. */
static void look_at_births(int count, int64_t ttl) {
    for (int i = 0; i < count; i++) {
        char key[24];
        snprintf(key, sizeof key, "key-%d", i);
        int64_t steady = time_now.steady - births[i].steady, wall = time_now.wall - births[i].wall;
        bool may_be_there = steady < ttl && wall < ttl + (int64_t)SAME_ERA, is_there = holds(key, i + 1);
        births[i].is_gone |= steady >= ttl || wall >= ttl;
        check(is_there ? may_be_there : births[i].is_gone, "a value ends by the clock that says it is older");
        births[i].is_gone |= !is_there;
    }
}

/* However far the clocks drift apart, and however often: the cache has eras for that, and when these are used up, the
 * entries have it. */
static void test_eras(void) {
    sflight_cache_options o = usual;
    o.ttl = INT64_C(1000) * SECOND;
    begin(o);
    memset(births, 0, sizeof births);
    for (int i = 0; i < BIRTHS; i++) {
        char key[24];
        snprintf(key, sizeof key, "key-%d", i);
        pass(SECOND);
        time_now.wall += (int64_t)random_below(100) - 50;
        if (i % 3 == 0) time_now.wall += ((int64_t)random_below(1001) - 500) * SECOND;
        births[i].steady = time_now.steady;
        births[i].wall = time_now.wall;
        get(key);
    }
    check(!(entry_of_key("key-0")->has & HAS_AHEAD) && entry_of_key("key-299")->has & HAS_AHEAD, "at last there are no more eras");
    for (int round = 0; round < 300; round++) {
        pass(5 * (int64_t)SECOND + (int64_t)random_below(SECOND));
        if (round % 10 == 0) time_now.wall += ((int64_t)random_below(401) - 200) * SECOND;
        look_at_births(BIRTHS, o.ttl);
    }
    end("all are dropped");
}

static void test_jitter(void) {
    sflight_cache_options o = usual;
    o.ttl = 1000;
    o.jitter = 0.25;
    begin(o);
    char key[24];
    for (int i = 0; i < 400; i++) {
        snprintf(key, sizeof key, "key-%d", i);
        get(key);
    }
    int found[3] = {0};
    const int64_t ages[] = {750, 875, 1000};
    for (int round = 0; round < 3; round++) {
        pass(ages[round] - (time_now.steady - 1000000) - (round == 0));
        for (int i = 0; i < 400; i++) {
            snprintf(key, sizeof key, "key-%d", i);
            sflight_value value;
            found[round] += sflight_cache_peek(plan.cache, (const uint8_t *)key, strlen(key), &value);
            sflight_cache_release(plan.cache, &value);
        }
    }
    check(found[0] == 400 && found[2] == 0, "no value ends before its part, and all at the end");
    check(found[1] > 120 && found[1] < 280, "about half of them in the middle");
    end("all are dropped");
}

static void test_idle(void) {
    sflight_cache_options o = usual;
    o.idle = 160;
    begin(o);
    gets("k", SFLIGHT_CACHE_LOADED, 1);
    for (int i = 0; i < 20; i++) {
        pass(100);
        check(gets("k", SFLIGHT_CACHE_HIT, 1), "a value that is got stays");
    }
    pass(9);
    check(gets("k", SFLIGHT_CACHE_HIT, 1), "a hit that is near the last one");
    pass(151);
    check(gets("k", SFLIGHT_CACHE_LOADED, 2), "is not written down");
    pass(100);
    check(holds("k", 2), "a peek finds it");
    pass(60);
    check(gets("k", SFLIGHT_CACHE_LOADED, 3), "and is no use");
    time_now.wall += 160;
    check(gets("k", SFLIGHT_CACHE_LOADED, 4), "by the wall clock too");
    end("all are dropped");
}

/* A wall clock that is set on and then back does not keep what no get finds. */
static void test_idle_by_both_clocks(void) {
    sflight_cache_options o = usual;
    o.idle = 1600;
    begin(o);
    gets("k", SFLIGHT_CACHE_LOADED, 1);
    pass(100);
    time_now.wall += 1000;
    check(gets("k", SFLIGHT_CACHE_HIT, 1), "it was idle for 1,100");
    time_now.wall -= 1000;
    pass(1599);
    check(holds("k", 1), "it is idle for 1,599");
    pass(1);
    check(gets("k", SFLIGHT_CACHE_LOADED, 2), "and for 1,600, whatever the wall clock said at the last hit");
    end("all are dropped");
}

/* The last hit is never later than it was: not of an entry either that is older than there are ticks. */
static void test_last_hit(void) {
    sflight_cache_options o = usual;
    o.idle = 160;
    begin(o);
    gets("k", SFLIGHT_CACHE_LOADED, 1);
    struct sflight_entry *e = entry_of_key("k");
    const struct moment born = {time_now.steady, time_now.wall};
    for (int i = 0; i < 10000; i++) {
        int64_t age = (int64_t)(random_below(1u << 31) << 31 | random_below(1u << 31)) >> random_below(50), until = age + o.idle;
        const struct moment hit = {born.steady + age, born.wall + age}, then = {born.steady + until, born.wall + until};
        const struct moment before = {then.steady - plan.cache->tick, then.wall - plan.cache->tick};
        use(plan.cache, e, &hit);
        check(state_by_time(plan.cache, e, &then) == EXPIRED, "it is idle for long enough");
        check(age / plan.cache->tick > INT32_MAX || state_by_time(plan.cache, e, &before) == FRESH, "and not before");
    }
    end("all are dropped");
}

/* Weights of more than 32 bits. */
static void test_heavy(void) {
    sflight_cache_options o = usual;
    const uint64_t weights[] = {UINT32_MAX - 1, UINT32_MAX, (uint64_t)UINT32_MAX + 1, UINT64_C(1) << 40};
    uint64_t sum = 0;
    o.limit = UINT64_C(1) << 41;
    o.ttl = 100;
    begin(o);
    for (int i = 0; i < 4; i++) {
        plan.weight = weights[i];
        check(get((char[]){(char)('a' + i), 0}) == SFLIGHT_CACHE_LOADED, "a heavy value is loaded");
        check(stats().weight == (sum += weights[i]) && live == i + 1, "and weighs what it weighs");
    }
    forget("d");
    check(stats().weight == sum - weights[3], "and nothing when it has left");
    plan.weight = (UINT64_C(1) << 41) + 1;
    get("d");
    check(stats().weight == sum - weights[3] && live == 3, "one that is heavier than the limit is not kept");
    end("all are dropped");
}

static void test_refresh(void) {
    sflight_cache_options o = usual;
    o.ttl = 100;
    o.refresh_after = 50;
    begin(o);
    gets("k", SFLIGHT_CACHE_LOADED, 1);
    pass(49);
    check(gets("k", SFLIGHT_CACHE_HIT, 1) && waiting == 0, "before it is due nothing begins");
    pass(1);
    check(gets("k", SFLIGHT_CACHE_HIT, 1) && waiting == 1, "one that is due is returned, and a load begins");
    check(gets("k", SFLIGHT_CACHE_HIT, 1) && waiting == 1 && stats().refreshes == 0, "one load alone");
    check(stats().in_use == 1, "it is in use");
    run_work_of_test();
    check(stats().refreshes == 1 && stats().loads == 2, "which counts once it runs");
    check(gets("k", SFLIGHT_CACHE_HIT, 2) && waiting == 0, "then the new one is found");
    check(lefts[SFLIGHT_CACHE_REPLACED] == 1 && last_number == 1, "in place of the old one");
    pass(50);
    plan.code = SFLIGHT_CACHE_FAILED;
    check(gets("k", SFLIGHT_CACHE_HIT, 2) && waiting == 1, "the next one is due");
    run_work_of_test();
    check(gets("k", SFLIGHT_CACHE_HIT, 2) && waiting == 1, "it stays where its load fails, and the next get tries again");
    plan.code = SFLIGHT_CACHE_LOADED;
    forget("k");
    run_work_of_test();
    check(holds("k", 0) && live == 0, "what a Forget has closed is not kept");
    check(gets("k", SFLIGHT_CACHE_LOADED, 4), "and a get loads");
    pass(50);
    plan.code = SFLIGHT_CACHE_MISSING;
    check(gets("k", SFLIGHT_CACHE_HIT, 4) && waiting == 1, "once more");
    run_work_of_test();
    check(holds("k", 0), "a key that does not exist any more has no value");
    plan.code = SFLIGHT_CACHE_LOADED;
    is_refused = true;
    gets("k", SFLIGHT_CACHE_LOADED, 5);
    pass(50);
    uint64_t before = stats().refreshes;
    check(gets("k", SFLIGHT_CACHE_HIT, 5) && stats().in_use == 0, "where no thread can be had the old one is returned");
    check(stats().refreshes == before, "and nothing is refreshed");
    is_refused = false;
    check(gets("k", SFLIGHT_CACHE_HIT, 5) && waiting == 1, "and the next get tries again");
    run_work_of_test();
    check(gets("k", SFLIGHT_CACHE_HIT, 6) && stats().refreshes == before + 1, "which helps");
    end("all are dropped");
}

/* A refresh that finds a newer value loads nothing. It is neither a refresh nor a hit: no get asked for it. */
static void test_refresh_of_newer(void) {
    sflight_cache_options o = usual;
    o.refresh_after = 50;
    begin(o);
    gets("k", SFLIGHT_CACHE_LOADED, 1);
    pass(50);
    check(gets("k", SFLIGHT_CACHE_HIT, 1) && waiting == 1, "a value that is due");
    forget("k");
    check(gets("k", SFLIGHT_CACHE_LOADED, 2), "a newer one, before that is refreshed");
    run_work_of_test();
    check(stats().loads == 2 && stats().refreshes == 0 && stats().hits == 1 && stats().misses == 2 && stats().joins == 0, "which is found");
    check(gets("k", SFLIGHT_CACHE_HIT, 2) && waiting == 0, "and stays");
    end("all are dropped");
}

/* The newer value of a key in use stays in the main queue. */
static void test_refreshed_place(void) {
    sflight_cache_options o = usual;
    o.limit = o.entries = 10;
    o.refresh_after = 50;
    begin(o);
    gets("k", SFLIGHT_CACHE_LOADED, 1);
    gets("k", SFLIGHT_CACHE_HIT, 1);
    char key[24];
    for (int i = 0; i < 20; i++) {
        snprintf(key, sizeof key, "key-%d", i);
        get(key);
    }
    pass(50);
    check(gets("k", SFLIGHT_CACHE_HIT, 1) && waiting == 1, "it is in the main queue, and due");
    run_work_of_test();
    int number = numbers;
    for (int i = 20; i < 40; i++) {
        snprintf(key, sizeof key, "key-%d", i);
        get(key);
    }
    check(gets("k", SFLIGHT_CACHE_HIT, number), "and stays there");
    end("all are dropped");
}

static void test_stale(void) {
    sflight_cache_options o = usual;
    o.ttl = 100;
    o.stale_if_error = 50;
    begin(o);
    gets("k", SFLIGHT_CACHE_LOADED, 1);
    pass(100);
    plan.code = SFLIGHT_CACHE_FAILED;
    check(holds("k", 0), "a value past its end is not found");
    check(gets("k", SFLIGHT_CACHE_STALE, 1) && stats().stale == 1 && stats().failures == 1, "but stands in where its load fails");
    plan.code = SFLIGHT_CACHE_MISSING;
    sflight_cache_stats before = stats();
    check(gets("k", SFLIGHT_CACHE_MISSING, 0), "not where it does not exist");
    check(stats().failures == before.failures && stats().entries == 0, "then it leaves");
    plan.code = SFLIGHT_CACHE_LOADED;
    gets("k", SFLIGHT_CACHE_LOADED, 2);
    pass(149);
    plan.code = SFLIGHT_CACHE_FAILED;
    check(gets("k", SFLIGHT_CACHE_STALE, 2), "until so long after its end");
    pass(1);
    check(gets("k", SFLIGHT_CACHE_FAILED, 0), "and no longer");
    plan.code = SFLIGHT_CACHE_LOADED;
    gets("k", SFLIGHT_CACHE_LOADED, 3);
    pass(100);
    plan.code = SFLIGHT_CACHE_FAILED;
    plan.meanwhile = forget_k;
    check(gets("k", SFLIGHT_CACHE_FAILED, 0), "a Forget in the load ends it");
    plan.code = SFLIGHT_CACHE_LOADED;
    plan.tags[0] = "t";
    gets("k", SFLIGHT_CACHE_LOADED, 4);
    pass(100);
    plan.code = SFLIGHT_CACHE_FAILED;
    plan.meanwhile = forget_t;
    check(gets("k", SFLIGHT_CACHE_FAILED, 0), "so does one of its tag");
    plan.code = SFLIGHT_CACHE_LOADED;
    gets("k", SFLIGHT_CACHE_LOADED, 5);
    pass(100);
    plan.code = SFLIGHT_CACHE_FAILED;
    plan.meanwhile = forget_all;
    check(gets("k", SFLIGHT_CACHE_FAILED, 0), "and one of all");
    end("all are dropped");
}

static void test_kept_failures(void) {
    sflight_cache_options o = usual;
    o.failed_ttl = 30;
    o.missing_ttl = 60;
    o.ttl = 100;
    begin(o);
    plan.code = SFLIGHT_CACHE_FAILED;
    check(gets("k", SFLIGHT_CACHE_FAILED, 0) && gets("k", SFLIGHT_CACHE_FAILED, 0) && plan.begun == 1, "a failure is kept");
    check(stats().hits == 1 && stats().failures == 1 && stats().weight == 1 && stats().entries == 1, "which is a hit, and weighs 1");
    check(holds("k", 0), "a peek finds no value");
    pass(29);
    check(gets("k", SFLIGHT_CACHE_FAILED, 0) && plan.begun == 1, "until its end");
    pass(1);
    plan.code = SFLIGHT_CACHE_MISSING;
    check(gets("k", SFLIGHT_CACHE_MISSING, 0) && plan.begun == 2, "then it is loaded");
    pass(59);
    check(gets("k", SFLIGHT_CACHE_MISSING, 0) && plan.begun == 2, "what does not exist is told apart, and kept for its own time");
    pass(1);
    check(gets("k", SFLIGHT_CACHE_MISSING, 0) && plan.begun == 3, "and no longer");
    forget("k");
    check(stats().entries == 0 && gets("k", SFLIGHT_CACHE_MISSING, 0) && plan.begun == 4, "a Forget ends it");
    forget_all();
    check(gets("k", SFLIGHT_CACHE_MISSING, 0) && plan.begun == 5, "one of all too");
    forget("k");
    plan.meanwhile = forget_k;
    get("k");
    check(gets("k", SFLIGHT_CACHE_MISSING, 0) && plan.begun == 7, "and one in the load keeps it out");
    plan.ttl = 5;
    forget("k");
    get("k");
    pass(5);
    check(gets("k", SFLIGHT_CACHE_MISSING, 0) && plan.begun == 9, "a load says how long itself");
    plan.ttl = -1;
    forget("k");
    get("k");
    check(gets("k", SFLIGHT_CACHE_MISSING, 0) && plan.begun == 11, "or not at all");
    plan.ttl = 0;
    plan.code = SFLIGHT_CACHE_LOADED;
    check(gets("k", SFLIGHT_CACHE_LOADED, 1) && gets("k", SFLIGHT_CACHE_HIT, 1), "a value is kept after it");
    int told = 0;
    for (int i = 0; i < REASONS; i++) told += lefts[i];
    check(told == 0, "a failure is not told");
    end("all are dropped");
}

/* A failure takes the place of no value that may be returned. */
static void test_failure_beside_value(void) {
    sflight_cache_options o = usual;
    o.failed_ttl = 1000;
    o.ttl = 100;
    o.refresh_after = 50;
    begin(o);
    gets("k", SFLIGHT_CACHE_LOADED, 1);
    pass(50);
    plan.code = SFLIGHT_CACHE_FAILED;
    gets("k", SFLIGHT_CACHE_HIT, 1);
    run_work_of_test();
    check(holds("k", 1), "a refresh that fails leaves the value");
    pass(50);
    check(gets("k", SFLIGHT_CACHE_FAILED, 0) && gets("k", SFLIGHT_CACHE_FAILED, 0), "then the failure is kept");
    check(plan.begun == 3, "which nobody loads again");
    end("all are dropped");
}

static sflight_cache_token draw(const char *key) { return sflight_cache_draw(plan.cache, (const uint8_t *)key, strlen(key)); }

static bool put_with(const char *key, const sflight_cache_token *token, int64_t ttl, const char *tag) {
    sflight_cache_loaded l = sflight_cache_of_value(plan.cache, new_number());
    l.ttl = ttl;
    if (tag) sflight_cache_add_tag(&l, (const uint8_t *)tag, strlen(tag));
    return sflight_cache_put(plan.cache, (const uint8_t *)key, strlen(key), &l, token);
}

static bool put(const char *key) { return put_with(key, NULL, 0, NULL); }
static void put_k(void) { put("k"); }

static void test_put(void) {
    begin(usual);
    check(put("k") && gets("k", SFLIGHT_CACHE_HIT, 1), "a value is put and found");
    check(put("k") && gets("k", SFLIGHT_CACHE_HIT, 2) && live == 1, "another one takes its place");
    check(lefts[SFLIGHT_CACHE_REPLACED] == 1 && last_number == 1, "as it is told");
    forget("k");
    plan.meanwhile = put_k;
    check(gets("k", SFLIGHT_CACHE_LOADED, 3) && gets("k", SFLIGHT_CACHE_HIT, 4), "a load that a put has overtaken is not kept");
    check(put_with("k", NULL, 50, NULL), "a put says how long");
    pass(50);
    check(holds("k", 0), "so it does not stay");
    check(!put_with("k", NULL, -1, NULL) && holds("k", 0), "nor one below 0");
    check(live == 0 && stats().loads == 1 && stats().misses == 1 && stats().joins == 0, "no put is a load");
    end("all are dropped");
}

static void test_token(void) {
    begin(usual);
    sflight_cache_token token = draw("k");
    check(put_with("k", &token, 0, NULL) && holds("k", 1), "a token is good");
    check(!put_with("k", &token, 0, NULL) && holds("k", 0), "once: the put has forgotten the key");
    token = draw("k");
    forget("k");
    check(!put_with("k", &token, 0, NULL) && holds("k", 0), "not after a Forget");
    token = draw("k");
    forget_all();
    check(!put_with("k", &token, 0, NULL) && holds("k", 0), "nor one of all");
    token = draw("k");
    put("k");
    check(!put_with("k", &token, 0, NULL) && holds("k", 0), "nor another put");
    token = draw("k");
    forget_tag("t");
    check(put_with("k", &token, 0, "t") && holds("k", 0), "a tag that was forgotten since ends it");
    token = draw("k");
    check(put_with("k", &token, 0, "t") && holds("k", 8), "and not one before");
    check(put_with("l", NULL, 0, "u") && holds("l", 9), "another tag");
    forget_tag("t");
    check(holds("k", 0) && holds("l", 9), "one alone is forgotten");
    end("all are dropped");
}

static void test_forget_if(void) {
    sflight_value first, second;
    begin(usual);
    check(sflight_cache_get(plan.cache, (const uint8_t *)"k", 1, &first) == SFLIGHT_CACHE_LOADED, "a value");
    check(put("k") && sflight_cache_get(plan.cache, (const uint8_t *)"k", 1, &second) == SFLIGHT_CACHE_HIT, "and a newer one");
    check(!sflight_cache_forget_if(plan.cache, &first) && holds("k", 2), "a Forget of the older one spares it");
    sflight_cache_token token = draw("k");
    check(sflight_cache_forget_if(plan.cache, &second) && holds("k", 0), "and its own does not");
    check(!put_with("k", &token, 0, NULL), "it is one for a token too");
    check(!sflight_cache_forget_if(plan.cache, &second), "it is forgotten once");
    sflight_cache_release(plan.cache, &first);
    sflight_cache_release(plan.cache, &second);
    check(!sflight_cache_forget_if(plan.cache, &first), "an empty value is none");
    end("all are dropped");
}

static void test_tags(void) {
    begin(usual);
    plan.tags[0] = "t";
    plan.tags[1] = "u";
    gets("a", SFLIGHT_CACHE_LOADED, 1);
    plan.tags[0] = "u";
    plan.tags[1] = NULL;
    gets("b", SFLIGHT_CACHE_LOADED, 2);
    plan.tags[0] = NULL;
    gets("c", SFLIGHT_CACHE_LOADED, 3);
    forget_tag("none");
    check(holds("a", 1) && holds("b", 2), "another tag ends nothing");
    forget_tag("t");
    check(holds("a", 0) && holds("b", 2) && holds("c", 3), "a tag ends those that have it");
    check(lefts[SFLIGHT_CACHE_FORGOTTEN] == 1, "they leave when they are met");
    forget_tag("u");
    check(holds("b", 0) && holds("c", 3), "the other one too");
    plan.tags[0] = "t";
    plan.meanwhile = forget_t;
    check(gets("a", SFLIGHT_CACHE_LOADED, 4) && holds("a", 0), "also where it is loaded meanwhile");
    check(gets("a", SFLIGHT_CACHE_LOADED, 5) && holds("a", 5), "and not what is loaded after");
    for (int i = 0; i < 33; i++) plan.tags[i] = "v";
    check(gets("many", SFLIGHT_CACHE_LOADED, 6) && holds("many", 0), "one with too many tags is not kept");
    plan.tags[32] = NULL;
    check(gets("many", SFLIGHT_CACHE_LOADED, 7) && holds("many", 7), "one with as many as it can have is");
    forget_tag("v");
    check(holds("many", 0), "and is forgotten by them");
    plan.tags[0] = "t";
    plan.tags[1] = "u";
    plan.tags[2] = NULL;
    check(gets("two", SFLIGHT_CACHE_LOADED, 8) && holds("two", 8), "a value with two tags");
    forget_tag("u");
    check(holds("two", 0), "is forgotten by the second");
    end("all are dropped");
}

static int joined_code, joined_number;

static void *joins_k(void *unused) {
    sflight_value value;
    joined_code = sflight_cache_get(plan.cache, (const uint8_t *)"k", 1, &value);
    joined_number = value.at ? *(int *)value.at : 0;
    sflight_cache_release(plan.cache, &value);
    return unused;
}

static pthread_t joiner;

/* A tag is forgotten, and then a get begins that joins the load. */
static void forget_t_and_join(void) {
    forget_t();
    if (pthread_create(&joiner, NULL, joins_k, NULL)) abort();
    while (stats().joins == 0) sched_yield();
}

/* A get that joins a load from before a Forget of a tag does not have its value, whatever the number of its tags. */
static void test_tags_of_joiners(int tags) {
    begin(usual);
    for (int i = 0; i < tags; i++) plan.tags[i] = i == 0 ? "t" : "v";
    plan.meanwhile = forget_t_and_join;
    check(gets("k", SFLIGHT_CACHE_LOADED, 1), "a tag is forgotten while a value is loaded");
    pthread_join(joiner, NULL);
    check(joined_number == 2 && joined_code == SFLIGHT_CACHE_LOADED, "a get that has begun since does not have that value");
    end("all are dropped");
}

static int load_other(void *context, const uint8_t *key, size_t len, sflight_cache_loaded *loaded) {
    (void)key, (void)len;
    ++*(int *)context;
    loaded->value = new_number();
    return SFLIGHT_CACHE_LOADED;
}

static void test_loader_of_call(void) {
    int calls = 0;
    const sflight_cache_how how = {.load = load_other, .context = &calls};
    begin(usual);
    check(get_by("k", &how) == SFLIGHT_CACHE_LOADED && calls == 1 && plan.begun == 0, "a get has a loader of its own");
    check(get_by("k", &how) == SFLIGHT_CACHE_HIT && calls == 1, "which is not asked for a hit");
    end("all are dropped");
}

static sflight_cache_item items[8];

static void get_items_of(const char *const *keys, size_t count, const sflight_cache_how *how) {
    for (size_t i = 0; i < count; i++) items[i] = (sflight_cache_item){.key = (const uint8_t *)keys[i], .len = strlen(keys[i])};
    sflight_cache_get_many(plan.cache, items, count, how);
}

static void release_items(size_t count) {
    for (size_t i = 0; i < count; i++) sflight_cache_release(plan.cache, &items[i].value);
}

static bool item_is(size_t i, int code, int number) {
    int is = items[i].value.at ? *(int *)items[i].value.at : 0;
    if (items[i].code != code || is != number) printf("item %zu: code %d and not %d, number %d and not %d\n", i, items[i].code, code, is, number);
    return items[i].code == code && is == number && (number == 0) == !items[i].value.entry;
}

static void test_batch(bool is_one_call) {
    static const char *const keys[] = {"a", "b", "k", "a", "c", "d"};
    sflight_cache_options o = usual;
    if (is_one_call) o.load_many = load_batch;
    begin(o);
    gets("k", SFLIGHT_CACHE_LOADED, 1);
    if (is_one_call) {
        plan.lacks = "c";
        plan.fails = "d";
    }
    get_items_of(keys, 6, NULL);
    check(item_is(2, SFLIGHT_CACHE_HIT, 1), "a key that is there");
    check(item_is(0, SFLIGHT_CACHE_LOADED, 2) && item_is(1, SFLIGHT_CACHE_LOADED, 3), "two that are loaded");
    check(item_is(3, is_one_call ? SFLIGHT_CACHE_JOINED : SFLIGHT_CACHE_HIT, 2), "the second of two");
    if (is_one_call) check(item_is(4, SFLIGHT_CACHE_MISSING, 0) && item_is(5, SFLIGHT_CACHE_FAILED, 0), "one without a value, and one that fails");
    release_items(6);
    if (is_one_call) check(plan.batches == 1 && plan.batch == 4, "by one call, each once");
    check(holds("a", 2) && holds("b", 3), "they are kept");
    check(stats().loads == 5 && stats().hits == (is_one_call ? 1 : 2) && stats().misses == (is_one_call ? 6 : 5) && stats().joins == is_one_call
              && stats().in_use == 0, "the counts");
    get_items_of(keys, 0, NULL);
    int calls = 0;
    const sflight_cache_how how = {.load = load_other, .context = &calls};
    forget_all();
    get_items_of(keys, 3, &how);
    check(calls == 3 && item_is(2, SFLIGHT_CACHE_LOADED, numbers), "a batch has a loader of its own");
    release_items(3);
    end("all are dropped");
}

/* Loads a batch for the program's own function: values of its own. */
static void load_own_batch(void *context, sflight_cache_loading *loadings, size_t count) {
    for (size_t i = 0; i < count; i++) {
        loadings[i].code = SFLIGHT_CACHE_LOADED;
        loadings[i].loaded.value = new_number();
        ++*(int *)context;
    }
}

static int own_loads;

static void *joins_by_batch(void *unused) {
    static const char *const keys[] = {"k"};
    const sflight_cache_how how = {.load_many = load_own_batch, .context = &own_loads};
    get_items_of(keys, 1, &how);
    return unused;
}

/* A tag is forgotten, and then a batch begins that joins the load. */
static void forget_t_and_join_by_batch(void) {
    forget_t();
    if (pthread_create(&joiner, NULL, joins_by_batch, NULL)) abort();
    while (stats().joins == 0) sched_yield();
}

/* A key of a batch that is to be asked for again is loaded by the batch's own function too. */
static void test_batch_again(void) {
    begin(usual);
    own_loads = 0;
    plan.tags[0] = "t";
    plan.meanwhile = forget_t_and_join_by_batch;
    check(gets("k", SFLIGHT_CACHE_LOADED, 1), "a tag is forgotten while a value is loaded");
    pthread_join(joiner, NULL);
    check(own_loads == 1 && plan.begun == 1 && item_is(0, SFLIGHT_CACHE_LOADED, 2), "a batch that has joined loads it anew, by its own function");
    release_items(1);
    const sflight_cache_how how = {.load_many = load_own_batch, .context = &own_loads};
    check(get_by("l", &how) == SFLIGHT_CACHE_LOADED && own_loads == 1 && plan.begun == 2, "which is for batches alone");
    end("all are dropped");
}

/* A batch with a timeout is loaded in another thread. */
static void test_batch_apart(void) {
    static const char *const keys[] = {"a", "b"};
    const sflight_cache_how how = {.timeout = -1};
    sflight_cache_options o = usual;
    o.load_many = load_batch;
    begin(o);
    get_items_of(keys, 2, &how);
    check(item_is(0, SFLIGHT_CACHE_TIMED_OUT, 0) && item_is(1, SFLIGHT_CACHE_TIMED_OUT, 0) && waiting == 1, "a batch that waits for nothing");
    run_work_of_test();
    check(plan.batches == 1 && holds("a", 1) && holds("b", 2) && stats().in_use == 0, "is loaded, and kept");
    is_refused = true;
    forget_all();
    get_items_of(keys, 2, &how);
    check(item_is(0, SFLIGHT_CACHE_NO_MEMORY, 0) && item_is(1, SFLIGHT_CACHE_NO_MEMORY, 0) && stats().in_use == 0, "where no thread can be had it says so");
    end("all are dropped");
}

static void test_timeout(void) {
    sflight_cache_how how = {.timeout = -1};
    begin(usual);
    check(get_by("k", &how) == SFLIGHT_CACHE_TIMED_OUT && waiting == 1, "a get that waits for nothing");
    check(get_by("k", &how) == SFLIGHT_CACHE_TIMED_OUT && waiting == 1, "another one does not wait for its load either");
    run_work_of_test();
    check(gets("k", SFLIGHT_CACHE_HIT, 1) && stats().in_use == 0, "its value is kept");
    how.timeout = 1;
    forget("k");
    check(get_by("k", &how) == SFLIGHT_CACHE_TIMED_OUT && waiting == 1, "one that waits a little");
    forget("k");
    run_work_of_test();
    check(holds("k", 0) && live == 0, "its value is not kept where it was forgotten");
    is_refused = true;
    check(get_by("k", &how) == SFLIGHT_CACHE_NO_MEMORY && stats().in_use == 0, "where no thread can be had it says so");
    end("all are dropped");
}

/* Gets with a timeout, batches and refreshes load in threads that the cache starts itself. */
static void test_threads(void) {
    const sflight_cache_how some = {.timeout = 1000000}, long_time = {.timeout = INT64_C(3600000000000)};
    static const char *const keys[] = {"a", "b", "c"};
    sflight_cache_options o = usual;
    o.start = NULL;
    o.refresh_after = 50;
    o.load_many = load_batch;
    begin(o);
    plan.held = true;
    check(get_by("k", &some) == SFLIGHT_CACHE_TIMED_OUT, "a get leaves its load");
    check(get_by("k", &some) == SFLIGHT_CACHE_TIMED_OUT && stats().joins == 1, "another one joins it");
    plan.held = false;
    while (!holds("k", 1)) sched_yield();
    check(get_by("l", &long_time) == SFLIGHT_CACHE_LOADED && got_number == 2, "one that has time enough has its value");
    get_items_of(keys, 3, &long_time);
    check(items[0].code == SFLIGHT_CACHE_LOADED && items[2].code == SFLIGHT_CACHE_LOADED && plan.batches == 1, "and a batch");
    release_items(3);
    pass(50);
    check(gets("k", SFLIGHT_CACHE_HIT, 1), "a value that is due");
    while (holds("k", 1)) sched_yield();
    check(get("k") == SFLIGHT_CACHE_HIT && got_number > 5, "is refreshed by a thread");
    plan.held = true;
    check(get_by("m", &some) == SFLIGHT_CACHE_TIMED_OUT, "and a load that runs still");
    plan.held = false;
    end("is waited for");
}

static void test_reasons(void) {
    sflight_cache_options o = usual;
    o.limit = o.entries = 2;
    o.ttl = 100;
    begin(o);
    gets("a", SFLIGHT_CACHE_LOADED, 1);
    gets("b", SFLIGHT_CACHE_LOADED, 2);
    gets("c", SFLIGHT_CACHE_LOADED, 3);
    check(lefts[SFLIGHT_CACHE_MADE_ROOM] == 1 && last_number == 1 && strcmp(last_key, "a") == 0, "the oldest makes room");
    forget("b");
    check(lefts[SFLIGHT_CACHE_FORGOTTEN] == 1 && last_number == 2 && strcmp(last_key, "b") == 0, "one is forgotten");
    put("c");
    check(lefts[SFLIGHT_CACHE_REPLACED] == 1 && last_number == 3, "one is replaced");
    pass(100);
    gets("c", SFLIGHT_CACHE_LOADED, 5);
    check(lefts[SFLIGHT_CACHE_EXPIRED] == 1 && last_number == 4, "one has expired");
    end("all are dropped");
    check(lefts[SFLIGHT_CACHE_CLOSED] == 1 && last_number == 5, "and the last is told at the close");
}

/* What a program's function does when the first value leaves at the close. */
static void (*at_close)(void);

static void left_at_close(void *context, const uint8_t *key, size_t len, void *value, int reason) {
    (void)context, (void)key, (void)len, (void)value;
    void (*does)(void) = at_close;
    at_close = NULL;
    if (does && reason == SFLIGHT_CACHE_CLOSED) does();
}

static void take_long(void) { usleep(20000); }

static void load_at_close(void) {
    const sflight_cache_how how = {.timeout = -1};
    check(get("another") == SFLIGHT_CACHE_LOADED, "a function that is called at the close loads a key");
    check(!put("put"), "and puts one");
    plan.meanwhile = take_long;
    check(get_by("late", &how) == SFLIGHT_CACHE_TIMED_OUT, "and does not wait for another, which is loaded by a thread");
    check(sflight_cache_len(plan.cache) < 4, "nothing comes into the cache");
}

static const char *const four[] = {"a", "b", "c", "d"};

static void refresh_at_close(void) {
    bool is_there = false;
    for (int i = 0; i < 4 && !is_there; i++) {
        is_there = holds(four[i], i + 1);
        plan.meanwhile = take_long;
        if (is_there) check(gets(four[i], SFLIGHT_CACHE_HIT, i + 1), "a function that is called at the close finds a value that is due");
    }
    check(is_there, "there is one");
}

/* The program's functions use the cache while it is closed: what they load is dropped too, and what runs in the background is waited for. */
static void test_use_at_close(void (*uses)(void)) {
    sflight_cache_options o = usual;
    o.start = NULL;
    o.left = left_at_close;
    o.refresh_after = 50;
    o.entries = 4 * ENTRIES_PER_SHARD;
    begin(o);
    for (int i = 0; i < 4; i++) gets(four[i], SFLIGHT_CACHE_LOADED, i + 1);
    pass(50);
    at_close = uses;
    end("all are dropped, also what is loaded at the close");
    check(!at_close, "a function is called at the close");
}

static int seen, sum;

static bool sees(void *context, const uint8_t *key, size_t len, void *value) {
    (void)context, (void)len;
    seen++;
    sum += *(int *)value;
    forget("d"); /* it may use the cache */
    return key[0] != 'x';
}

static void test_looking_in(void) {
    sflight_cache_options o = usual;
    o.ttl = 100;
    o.failed_ttl = 100;
    begin(o);
    gets("old", SFLIGHT_CACHE_LOADED, 1);
    pass(100);
    plan.weight = 10;
    gets("a", SFLIGHT_CACHE_LOADED, 2);
    gets("b", SFLIGHT_CACHE_LOADED, 3);
    plan.tags[0] = "t";
    gets("tagged", SFLIGHT_CACHE_LOADED, 4);
    forget_t();
    plan.code = SFLIGHT_CACHE_FAILED;
    get("failed");
    check(sflight_cache_len(plan.cache) == 5 && sflight_cache_weight(plan.cache) == 32 && sflight_cache_limit(plan.cache) == 1000, "how many and how much");
    seen = sum = 0;
    check(sflight_cache_each(plan.cache, sees, NULL) && seen == 2 && sum == 5, "each value that may be returned");
    plan.code = SFLIGHT_CACHE_LOADED;
    plan.tags[0] = NULL;
    gets("c", SFLIGHT_CACHE_LOADED, 5);
    gets("d", SFLIGHT_CACHE_LOADED, 6);
    seen = sum = 0;
    check(sflight_cache_each(plan.cache, sees, NULL), "each with a Forget meanwhile");
    check((seen == 3 && sum == 10) || (seen == 4 && sum == 16), "which ends it for those that come later");
    forget_all();
    gets("x", SFLIGHT_CACHE_LOADED, 7);
    gets("y", SFLIGHT_CACHE_LOADED, 8);
    gets("x2", SFLIGHT_CACHE_LOADED, 9);
    seen = 0;
    check(sflight_cache_each(plan.cache, sees, NULL) && seen >= 1 && seen < 3, "until the function says no more");
    end("all are dropped");
}

static void test_resize(void) {
    sflight_cache_options o = usual;
    o.limit = 2000;
    o.entries = 2000;
    begin(o);
    char key[24];
    for (int i = 0; i < 2000; i++) {
        snprintf(key, sizeof key, "key-%d", i);
        get(key);
    }
    check(live == 2000 && sflight_cache_weight(plan.cache) == 2000, "a cache that is full");
    sflight_cache_resize(plan.cache, 100);
    check(live == 100 && sflight_cache_weight(plan.cache) == 100 && sflight_cache_limit(plan.cache) == 100, "is made smaller");
    check(stats().evictions == 1900 && lefts[SFLIGHT_CACHE_MADE_ROOM] == 1900, "which is told");
    for (int i = 0; i < 50; i++) {
        snprintf(key, sizeof key, "more-%d", i);
        get(key);
    }
    check(live == 100, "it stays so");
    sflight_cache_resize(plan.cache, 100000);
    for (int i = 0; i < 30000; i++) {
        snprintf(key, sizeof key, "key-%d", i);
        get(key);
    }
    check(live >= 30000 && live <= 30100 && sflight_cache_limit(plan.cache) == 100000, "and larger than it was ever");
    end("all are dropped");
}

/* An eviction passes by so many used values at most, and then the next one leaves, used or not. */
static void test_passes(void) {
    sflight_cache_options o = usual;
    o.limit = 2000;
    o.entries = 100;
    begin(o);
    char key[24];
    for (int i = 0; i < 4000; i++) {
        snprintf(key, sizeof key, "key-%d", i / 2);
        get(key);
    }
    check(plan.cache->count == 1 && live == 2000, "all in one shard, and used");
    get("new");
    check(lefts[SFLIGHT_CACHE_MADE_ROOM] == 1 && last_number == MOST_PASSES + 1, "the one after those that were passed by");
    end("all are dropped");
}

static void test_times(void) {
    begin(usual);
    const int64_t takes[] = {1000, 1001, 4000, 4001, INT64_C(67108864000), INT64_C(67108864000) + 1};
    const unsigned buckets[] = {0, 1, 1, 2, 13, 14};
    sflight_cache_stats before = stats();
    for (int i = 0; i < 6; i++) {
        plan.takes = takes[i];
        forget("k");
        get("k");
        sflight_cache_stats after = stats();
        check(after.load_times[buckets[i]] == before.load_times[buckets[i]] + 1, "a load counts where its time says");
        check(after.load_time - before.load_time == (uint64_t)takes[i], "and its time");
        before = after;
    }
    check(before.limit == 1000 && before.weight == 1 && before.entries == 1, "the other counts");
    end("all are dropped");
}

/* The Go and Rust packages have a test with these calls and numbers. */
static void test_counts_of_each_package(void) {
    static const char *const batch[] = {"a", "b", "c"}, *const twice[] = {"a", "a"};
    sflight_cache_options o = usual;
    sflight_value b;
    o.ttl = 10;
    o.stale_if_error = 20;
    o.load_many = load_batch;
    begin(o);
    check(gets("a", SFLIGHT_CACHE_LOADED, 1) && gets("a", SFLIGHT_CACHE_HIT, 1), "a key is loaded, and found");
    get_items_of(batch, 3, NULL);
    check(item_is(0, SFLIGHT_CACHE_HIT, 1) && item_is(1, SFLIGHT_CACHE_LOADED, 2) && item_is(2, SFLIGHT_CACHE_LOADED, 3), "a batch loads two more");
    release_items(3);
    check(put("d"), "a put");
    forget("d");
    check(sflight_cache_peek(plan.cache, (const uint8_t *)"b", 1, &b), "a value");
    check(sflight_cache_forget_if(plan.cache, &b) && !sflight_cache_forget_if(plan.cache, &b), "is forgotten once");
    sflight_cache_release(plan.cache, &b);
    forget_t();
    pass(10);
    plan.fails = "a";
    get_items_of(twice, 2, NULL);
    check(item_is(0, SFLIGHT_CACHE_STALE, 1) && item_is(1, SFLIGHT_CACHE_STALE, 1), "a load that fails has an old value for two");
    release_items(2);
    forget_all();
    sflight_cache_stats s = stats();
    uint64_t timed = 0;
    for (unsigned i = 0; i < SFLIGHT_CACHE_BUCKETS; i++) timed += s.load_times[i];
    check(s.loads == 4 && s.failures == 1 && s.stale == 1 && s.forgets == 5 && timed == 3, "the counts");
    end("all are dropped");
}

static void test_wrong_options(void) {
    sflight_cache_options bad[9];
    for (int i = 0; i < 9; i++) bad[i] = usual;
    bad[0].ttl = -1;
    bad[1].idle = -1;
    bad[2].jitter = 1;
    bad[3].jitter = -0.1;
    bad[4].refresh_after = -1;
    bad[5].stale_if_error = -1;
    bad[6].failed_ttl = -1;
    bad[7].missing_ttl = -1;
    bad[8].load = NULL;
    for (int i = 0; i < 9; i++) check(!sflight_cache_open(&bad[i]), "an option out of range is refused");
}

/* More values in use than a thread has places, released in another order and by another thread. */
static sflight_value in_use[2 * HOLDS];

static void *releases(void *unused) {
    for (int i = 0; i < 2 * HOLDS; i += 2) sflight_cache_release(plan.cache, &in_use[i]);
    return unused;
}

static void *gets_and_ends(void *unused) {
    char key[24];
    for (int i = 0; i < 2 * HOLDS; i++) {
        snprintf(key, sizeof key, "%d", i);
        check(sflight_cache_get(plan.cache, (const uint8_t *)key, strlen(key), &in_use[i]) == SFLIGHT_CACHE_HIT, "a value is found");
    }
    return unused;
}

static void test_holds(void) {
    begin(usual);
    char key[24];
    for (int i = 0; i < 2 * HOLDS; i++) {
        snprintf(key, sizeof key, "%d", i);
        get(key);
    }
    for (int round = 0; round < 3; round++) {
        pthread_t thread;
        if (pthread_create(&thread, NULL, gets_and_ends, NULL)) abort();
        pthread_join(thread, NULL);
        if (round == 2) forget_all();
        check(live == 2 * HOLDS, "what is in use lives, also when its thread is gone");
        for (int i = 0; i < 2 * HOLDS; i++) check(*(int *)in_use[i].at == i + 1, "as it is");
        if (pthread_create(&thread, NULL, releases, NULL)) abort();
        pthread_join(thread, NULL);
        check(live == (round == 2 ? HOLDS : 2 * HOLDS), "the last one that releases it drops it");
        for (int i = 1; i < 2 * HOLDS; i += 2) sflight_cache_release(plan.cache, &in_use[i]);
        check(live == (round == 2 ? 0 : 2 * HOLDS), "all of them");
    }
    end("all are dropped");
}

/* A thread with more values in use than it has places finds what is there, also while that is refreshed: it waits for nothing. */
static void test_found_without_a_place(void) {
    const sflight_cache_how how = {.timeout = -1};
    sflight_cache_options o = usual;
    o.refresh_after = 50;
    begin(o);
    gets("k", SFLIGHT_CACHE_LOADED, 1);
    pass(50);
    check(gets("k", SFLIGHT_CACHE_HIT, 1) && waiting == 1, "a value that is due, and is refreshed");
    char key[24];
    for (int i = 0; i < HOLDS; i++) {
        snprintf(key, sizeof key, "%d", i);
        check(sflight_cache_get(plan.cache, (const uint8_t *)key, strlen(key), &in_use[i]) == SFLIGHT_CACHE_LOADED, "a value is loaded");
        sflight_cache_release(plan.cache, &in_use[i]);
        check(sflight_cache_get(plan.cache, (const uint8_t *)key, strlen(key), &in_use[i]) == SFLIGHT_CACHE_HIT, "and in use at a place");
    }
    check(get_by("k", &how) == SFLIGHT_CACHE_HIT && got_number == 1 && stats().joins == 0, "it is found without a place too");
    for (int i = 0; i < HOLDS; i++) sflight_cache_release(plan.cache, &in_use[i]);
    run_work_of_test();
    check(gets("k", SFLIGHT_CACHE_HIT, 2 + HOLDS), "and the newer one then");
    end("all are dropped");
}

int main(void) {
    signal(SIGALRM, hangs_at);
    alarm(LIMIT);
    test_ttl();
    test_unkept();
    test_forgotten_load();
    test_clocks();
    test_eras();
    test_jitter();
    test_idle();
    test_idle_by_both_clocks();
    test_last_hit();
    test_heavy();
    test_refresh();
    test_refresh_of_newer();
    test_refreshed_place();
    test_stale();
    test_kept_failures();
    test_failure_beside_value();
    test_put();
    test_token();
    test_forget_if();
    test_tags();
    test_tags_of_joiners(1);
    test_tags_of_joiners(SFLIGHT_CACHE_MOST_TAGS + 1);
    test_loader_of_call();
    test_batch(true);
    test_batch(false);
    test_batch_again();
    test_batch_apart();
    test_timeout();
    test_threads();
    test_reasons();
    test_use_at_close(load_at_close);
    test_use_at_close(refresh_at_close);
    test_looking_in();
    test_resize();
    test_passes();
    test_times();
    test_counts_of_each_package();
    test_wrong_options();
    test_holds();
    test_found_without_a_place();
    printf("%d passed, %d failed\n", passed, failed);
    return failed != 0;
}
