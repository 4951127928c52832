/* Schedules of sflight_cache.c: threads whose steps are in an order that a number draws, which get few keys,
 * with nested loads, loads that fail, drop functions that get, and Forgets, also in a load. Every other play has
 * lifetimes, refreshes, stale values, kept failures, puts, batches, tags and timeouts too; there the last actor
 * runs what is in the background. One load of a key runs at a time, unless a Forget came between; nothing is
 * older than a Forget that had returned, nor than what a get had returned before it was asked for.
 * usage: cache_schedules_test [NUMBER [COUNT]], the first schedule and how many. */
#include "schedules.h"

#include "sflight_cache.c"
#include "sflight_do.c"

#ifndef SCHEDULES
#define SCHEDULES 20000
#endif

enum { KEYS = 4, TAGS = 2, DEPTH = 3, MOST_RUNNING = 64, MOST_BANNED = 32 };

static int passed, failed;

static void check(bool holds, const char *what) {
    if (holds) { passed++; return; }
    failed++;
    printf("FAILED: %s (schedule %llu)\n", what, (unsigned long long)play.number);
    fflush(stdout);
}

/* One actor runs at a time, and hands over within the library's parts alone: what is here is read and
 * written as by one thread. */
static struct key {
    const char *name;
    size_t len;
    uint64_t begun, ended; /* Forgets */
    uint64_t forgotten;    /* when the last one began that has returned */
    uint64_t newest, newest_ended; /* the newest that was returned, and what had ended when it was asked for */
    uint64_t failed; /* when the newest load began that has failed, or found nothing */
    struct { uint64_t moment, ended; } running[MOST_RUNNING];
    int count;
    uint64_t banned[MOST_BANNED]; /* values that were forgotten alone, in the order in which that returned */
    int bans;
} keys[KEYS] = {
    {.name = "k", .len = 1}, {.name = "k\0", .len = 2}, {.name = "another", .len = 7},
    {.name = "a long key, of more than forty bytes, as it is.", .len = 47},
};

struct value {
    uint64_t moment;
    int key;
    unsigned tags; /* a bit for each */
};

static uint64_t tags_forgotten[TAGS]; /* when the last Forget of the tag began that has returned */
static const char *const tag_names[TAGS] = {"t", "u"};

static sflight_cache *cache;
static int live, depths[MOST_ACTORS], loaded[MOST_ACTORS][DEPTH];
static int most[MOST_ACTORS]; /* the greatest key that the actor is loading, or -1 */
static bool drops_get, is_in_drop[MOST_ACTORS];
static uint64_t ended_at[MOST_ACTORS][DEPTH];
static bool has_all; /* whether the play has everything */
static int64_t time_now;
static void (*pending)(void *work); /* what the last actor is to run */
static void *pending_work;
static bool is_worker_busy;
static uint64_t refreshed, covered, batched, put_in_time, left_early, again;
static uint64_t ticks, hits, loads, joins, evicted, doubles, stale, backward, refused;
static unsigned rounds, forgetting;
static bool is_failing;

static void ask_for(int number);
static void forgets(int number);

static int number_of(const uint8_t *name, size_t len) {
    for (int i = 0; i < KEYS; i++) if (keys[i].len == len && memcmp(keys[i].name, name, len) == 0) return i;
    abort();
}

static bool is_worker(void) { return has_all && actor == play.actors - 1; }

/* What a load does between its begin and its end, of which this is the greatest key. */
static void in_load(int number) {
    int depth = depths[actor];
    for (unsigned i = random_below(6); i > 0; i--) point(false);
    /* Greater keys alone, so that no two wait for each other. */
    int other = number + 1 + (int)random_below(KEYS), before = most[actor];
    most[actor] = number;
    if (depth + 1 < DEPTH && other < KEYS && random_below(2) == 0) {
        depths[actor]++;
        ask_for(other);
        depths[actor]--;
    }
    if (random_below(6) == 0) forgets((int)random_below(KEYS));
    most[actor] = before;
}

static uint64_t load_begins(int number, bool is_counted) {
    struct key *key = &keys[number];
    uint64_t moment = ++ticks, ended = is_counted ? ended_at[actor][depths[actor]] : UINT64_MAX;
    /* A load may run beside another if a Forget came between: if not all that have begun by now had returned when it was asked for. */
    for (int i = 0; i < key->count && ended == key->begun; i++) doubles += key->running[i].ended == key->begun;
    if (key->count == MOST_RUNNING) abort();
    key->running[key->count].moment = moment;
    key->running[key->count++].ended = ended;
    return moment;
}

static struct value *new_value(uint64_t moment, int key) {
    struct value *value = malloc(sizeof *value);
    if (!value) abort();
    *value = (struct value){.moment = moment, .key = key};
    live++;
    return value;
}

static void add_tags(struct value *value, sflight_cache_loaded *loading) {
    for (int i = 0; i < TAGS && has_all; i++) {
        if (random_below(2)) continue;
        value->tags |= 1u << i;
        sflight_cache_add_tag(loading, (const uint8_t *)tag_names[i], 1);
    }
}

static int load_ends(int number, uint64_t moment, sflight_cache_loaded *loading) {
    struct key *key = &keys[number];
    for (int i = 0; i < key->count; i++) {
        if (key->running[i].moment == moment) key->running[i] = key->running[--key->count];
    }
    loading->weight = 1 + random_below(2);
    if (is_failing && random_below(4) == 0) {
        if (moment > key->failed) key->failed = moment;
        return has_all && random_below(3) == 0 ? SFLIGHT_CACHE_MISSING : SFLIGHT_CACHE_FAILED;
    }
    if (has_all && random_below(8) == 0) loading->ttl = (int64_t)random_below(20) - 1;
    struct value *value = new_value(moment, number);
    loading->value = value;
    add_tags(value, loading);
    return SFLIGHT_CACHE_LOADED;
}

static int load(void *context, const uint8_t *name, size_t len, sflight_cache_loaded *loading) {
    (void)context;
    int number = number_of(name, len);
    uint64_t moment = load_begins(number, !is_worker() && loaded[actor][depths[actor]] == number);
    in_load(number);
    return load_ends(number, moment, loading);
}

static void load_many(void *context, sflight_cache_loading *loadings, size_t count) {
    (void)context;
    uint64_t moments[KEYS];
    int greatest = 0;
    if (count > KEYS) abort();
    for (size_t i = 0; i < count; i++) {
        int number = number_of(loadings[i].key, loadings[i].len);
        if (number > greatest) greatest = number;
        moments[i] = load_begins(number, false);
    }
    in_load(greatest);
    for (size_t i = 0; i < count; i++) loadings[i].code = load_ends(number_of(loadings[i].key, loadings[i].len), moments[i], &loadings[i].loaded);
    batched += count;
}

static int64_t clock_of(void *context, bool is_wall) {
    (void)context, (void)is_wall;
    return time_now;
}

/* The last actor takes one piece of work at a time. */
static bool start_work(void *context, void (*run)(void *work), void *work) {
    (void)context;
    if (!has_all || actor < 0 || pending || is_worker_busy) return false;
    pending = run;
    pending_work = work;
    return true;
}

static void drop(void *context, void *value) {
    (void)context;
    live--;
    ((struct value *)value)->key = -1;
    free(value);
    /* A drop function may get values too: any, once what its thread loads is over. */
    if (actor < 0 || !drops_get || is_in_drop[actor] || depths[actor] + 1 == DEPTH || random_below(4)) return;
    int other = most[actor] + 1 + (int)random_below(KEYS);
    if (other >= KEYS) return;
    is_in_drop[actor] = true;
    depths[actor]++;
    ask_for(other);
    depths[actor]--;
    is_in_drop[actor] = false;
}

/* What was known when a get began. */
struct before {
    uint64_t least, newest, ended, asked, tags[TAGS];
    int bans;
};

static struct before before_get(int number) {
    const struct key *key = &keys[number];
    struct before it = {.least = key->forgotten, .newest = key->newest, .ended = key->newest_ended, .asked = key->ended, .bans = key->bans};
    memcpy(it.tags, tags_forgotten, sizeof it.tags);
    return it;
}

/* A get that began then has this. */
static void judge(int number, const struct before *before, int code, const sflight_value *value) {
    struct key *key = &keys[number];
    if (!sflight_cache_has_value(code)) {
        bool is_well = is_failing && (code == SFLIGHT_CACHE_FAILED || (code == SFLIGHT_CACHE_MISSING && has_all));
        stale += is_well && key->failed < before->least;
        refused += !is_well && !(has_all && (code == SFLIGHT_CACHE_TIMED_OUT || code == SFLIGHT_CACHE_NO_MEMORY));
        left_early += code == SFLIGHT_CACHE_TIMED_OUT;
        return;
    }
    struct value *got = value->at;
    uint64_t moment = got->moment;
    hits += code == SFLIGHT_CACHE_HIT;
    joins += code == SFLIGHT_CACHE_JOINED;
    covered += code == SFLIGHT_CACHE_STALE;
    stale += moment < before->least || got->key != number;
    for (int i = 0; i < TAGS; i++) stale += (got->tags >> i & 1) && moment < before->tags[i];
    for (int i = 0; i < before->bans; i++) stale += key->banned[i] == moment;
    backward += moment < before->newest && key->begun == before->ended;
    /* A loaded value was not there before. A joined one may have been found in the cache already, where it was kept before its call was settled. */
    backward += code == SFLIGHT_CACHE_LOADED && moment <= before->newest && key->begun == before->ended;
    if (moment > key->newest) {
        key->newest = moment;
        key->newest_ended = before->asked;
    }
}

static void ban(int number, sflight_value *value) {
    struct key *key = &keys[number];
    if (key->bans == MOST_BANNED) return;
    uint64_t moment = ((struct value *)value->at)->moment;
    key->begun++;
    sflight_cache_forget_if(cache, value);
    key->banned[key->bans++] = moment;
    key->ended++;
}

static void ask_for_many(int least) {
    sflight_cache_item items[KEYS];
    struct before before[KEYS];
    int numbers[KEYS], count = 0;
    for (int i = least; i < KEYS; i++) {
        if (random_below(2)) continue;
        numbers[count] = i;
        before[count] = before_get(i);
        items[count++] = (sflight_cache_item){.key = (const uint8_t *)keys[i].name, .len = keys[i].len};
    }
    loaded[actor][depths[actor]] = -1;
    sflight_cache_how how = {.timeout = random_below(4) ? 0 : (int64_t)1 << 60};
    sflight_cache_get_many(cache, items, (size_t)count, &how);
    for (int i = 0; i < count; i++) judge(numbers[i], &before[i], items[i].code, &items[i].value);
    point(false);
    for (int i = 0; i < count; i++) sflight_cache_release(cache, &items[i].value);
}

static void ask_for(int number) {
    struct key *key = &keys[number];
    struct before before = before_get(number);
    int depth = depths[actor];
    sflight_value value;
    int code = SFLIGHT_CACHE_HIT;
    if (has_all) time_now += random_below(3);
    if (has_all && random_below(6) == 0) {
        ask_for_many(number);
        return;
    }
    loaded[actor][depth] = number;
    ended_at[actor][depth] = before.asked;
    const sflight_cache_how how = {.timeout = (int64_t)1 << 60};
    if (has_all && random_below(6) == 0) code = sflight_cache_get_with(cache, (const uint8_t *)key->name, key->len, &how, &value);
    else if (random_below(4) > 0) code = sflight_cache_get(cache, (const uint8_t *)key->name, key->len, &value);
    else if (!sflight_cache_peek(cache, (const uint8_t *)key->name, key->len, &value)) return;
    judge(number, &before, code, &value);
    point(false);
    if (has_all && sflight_cache_has_value(code) && random_below(8) == 0) ban(number, &value);
    sflight_cache_release(cache, &value);
}

static void forgets_tag(void) {
    unsigned tag = random_below(TAGS);
    uint64_t began = ++ticks;
    sflight_cache_forget_tag(cache, (const uint8_t *)tag_names[tag], 1);
    if (tags_forgotten[tag] < began) tags_forgotten[tag] = began;
}

/* A write of the key to its store comes after its token was drawn, and before its put. It is a Forget as of that
 * write. */
static void puts_at(int number) {
    struct key *key = &keys[number];
    sflight_cache_token token = sflight_cache_draw(cache, (const uint8_t *)key->name, key->len);
    uint64_t moment = ++ticks;
    struct value *value = new_value(moment, number);
    sflight_cache_loaded loading = sflight_cache_of_value(cache, value);
    add_tags(value, &loading);
    point(false);
    key->begun++;
    put_in_time += sflight_cache_put(cache, (const uint8_t *)key->name, key->len, &loading, &token);
    if (key->forgotten < moment) key->forgotten = moment;
    key->ended++;
}

static void forgets(int number) {
    if (has_all && random_below(4) == 0) {
        forgets_tag();
        return;
    }
    if (has_all && random_below(4) == 0) {
        puts_at(number);
        return;
    }
    bool is_all = random_below(4) == 0;
    uint64_t began = ++ticks;
    for (int i = 0; i < KEYS; i++) keys[i].begun += is_all || i == number;
    if (is_all) sflight_cache_forget_all(cache);
    else sflight_cache_forget(cache, (const uint8_t *)keys[number].name, keys[number].len);
    for (int i = 0; i < KEYS; i++) {
        if (!is_all && i != number) continue;
        if (keys[i].forgotten < began) keys[i].forgotten = began;
        keys[i].ended++;
    }
}

static bool are_others_over(void) {
    for (int i = 0; i < play.actors - 1; i++) if (!play.is_over[i]) return false;
    return true;
}

/* The last actor runs what others begin in the background. */
static void works(void) {
    while (pending || !are_others_over()) {
        void (*run)(void *) = pending;
        void *work = pending_work;
        if (!run) {
            point(true);
            continue;
        }
        pending = NULL;
        is_worker_busy = true;
        run(work);
        is_worker_busy = false;
    }
}

static void acts_at_random(int number) {
    if (has_all && number == play.actors - 1) {
        works();
        return;
    }
    for (unsigned i = 0; i < rounds; i++) {
        int key = (int)random_below(random_below(2) ? 2 : KEYS);
        if (random_below(forgetting) == 0) forgets(key);
        else ask_for(key);
    }
}

static void open_cache(sflight_cache_load *by, uint64_t limit, uint32_t entries) {
    sflight_cache_options options = {.limit = limit, .entries = entries, .loads = 1, .load = by, .drop = drop, .clock = clock_of, .start = start_work};
    if (has_all) {
        options.load_many = random_below(2) ? load_many : NULL;
        options.ttl = random_below(2) ? 10 + random_below(30) : 0;
        options.idle = random_below(3) ? 0 : 4 + random_below(20);
        options.refresh_after = random_below(3) ? 3 + random_below(10) : 0;
        options.stale_if_error = random_below(2) * 20;
        options.failed_ttl = random_below(2) * (1 + random_below(20));
        options.missing_ttl = random_below(2) * (1 + random_below(20));
    }
    time_now = 1;
    memset(tags_forgotten, 0, sizeof tags_forgotten);
    cache = sflight_cache_open(&options);
    if (!cache) abort();
    for (int i = 0; i < KEYS; i++) keys[i] = (struct key){.name = keys[i].name, .len = keys[i].len};
}

/* The sum of the weights of all entries that the cache has, and how many are values. */
static uint64_t weight_of_all(uint64_t *values) {
    uint64_t weight = 0;
    *values = 0;
    for (unsigned i = 0; i < cache->count; i++) {
        const struct table *t = cache->shards[i].table;
        for (uint64_t n = 0; n < t->count * PER_CHUNK; n++) {
            struct sflight_entry *e = entry_of(t->chunks[n / PER_CHUNK].words[n % PER_CHUNK]);
            if (!e) continue;
            weight += e->weight;
            *values += e->code == SFLIGHT_CACHE_HIT;
        }
    }
    return weight;
}

static void play_at_random(uint64_t number) {
    begin_play(number, 2 + (int)(number % (MOST_ACTORS - 1)));
    has_all = play.actors > 2 && random_below(2);
    rounds = 1 + random_below(6);
    forgetting = 2 + random_below(10);
    is_failing = random_below(3) == 0;
    for (int i = 0; i < MOST_ACTORS; i++) most[i] = -1;
    drops_get = true;
    open_cache(load, 1 + random_below(5), random_below(2) ? 8 : 2 * ENTRIES_PER_SHARD);
    play_all(acts_at_random);
    sflight_cache_stats stats = sflight_cache_statistics(cache);
    loads += stats.loads;
    evicted += stats.evictions;
    check(doubles == 0, "one load of a key at a time");
    check(stale == 0, "nothing is older than a Forget that had returned");
    check(backward == 0, "nothing is older than what was returned before");
    check(refused == 0, "no get is refused");
    refreshed += stats.refreshes;
    again += cache->repeats;
    check((has_all || stats.misses == stats.loads + stats.joins) && stats.in_use == 0 && stats.weight <= cache->limit, "the counts");
    uint64_t values, weight = weight_of_all(&values);
    check(values == (uint64_t)live && (has_all || stats.entries == values), "what is not in the cache is dropped");
    check(stats.weight == weight, "and its weight is given back");
    check(cache->running == 0, "no work is left");
    for (unsigned i = 0; i < cache->count; i++) check(!cache->shards[i].loading, "no load is listed");
    sflight_cache_close(cache);
    has_all = false;
    check(live == 0, "each value is dropped once");
    doubles = stale = backward = refused = 0;
    live = 0;
}

static int phase;
static bool is_second;
static uint64_t store;

/* Returns the moment of the value that the actor gets of the key; 0 for a failure. */
static uint64_t get(const char *key) {
    sflight_value value;
    int code = sflight_cache_get(cache, (const uint8_t *)key, strlen(key), &value);
    if (!sflight_cache_has_value(code)) return 0;
    uint64_t moment = ((struct value *)value.at)->moment;
    sflight_cache_release(cache, &value);
    return moment;
}

static void until(int least) {
    for (int i = 0; phase < least && i < 3000; i++) point(true);
}

static void play_in_order(uint64_t number, int actors, sflight_cache_load *by, uint64_t limit, bool (*waits)(int, const char *), void (*run)(int)) {
    begin_play(number, actors);
    phase = 0;
    is_second = drops_get = false;
    store = 1;
    open_cache(by, limit, 8);
    play.waits = waits;
    play_all(run);
    play.waits = NULL;
    sflight_cache_close(cache);
    check(live == 0, "each value is dropped once");
}

/* A leader stops at one place after its load. Before its call is settled nobody loads the key; once it is, nobody has the older value and comes by
 * it later. `phase` is 1 once the key is loaded, 2 while the leader stops, and 3 once another thread has got the key. */
static const char *stopping;

static bool stops_leader(int who, const char *where) {
    if (who != 0 || phase < 1 || strcmp(where, stopping) != 0) return false;
    if (phase == 1) phase = 2;
    return phase < 3;
}

static int load_store(void *context, const uint8_t *name, size_t len, sflight_cache_loaded *loading) {
    (void)context, (void)name, (void)len;
    if (phase == 0) phase = 1;
    loading->value = new_value(store, 0);
    return SFLIGHT_CACHE_LOADED;
}

static void leader_is_slow(int number) {
    if (number == 0) {
        check(get("k") == 1, "the leader has its value");
        return;
    }
    until(2);
    check(phase == 2, "the leader stops");
    store = 2;
    /* At each of these places the value is kept already. */
    check(get("k") == 1, "what is kept is found before its call is settled");
    phase = 3;
    check(get("k") == 1, "and later");
}

/* A leader stops at one place after its load, and the key is forgotten meanwhile: the newer value stays. */
static void leader_is_forgotten(int number) {
    if (number == 0) {
        check(get("k") == 1, "the leader has its value");
        check(get("k") == 2, "and then the newer one");
        return;
    }
    until(2);
    check(phase == 2, "the leader stops");
    store = 2;
    if (play.number % 3 == 0) sflight_cache_forget_all(cache);
    else sflight_cache_forget(cache, (const uint8_t *)"k", 1);
    check(get("k") == 2, "nobody gets what was loaded before a Forget");
    store = 3;
    phase = 3;
    check(get("k") == 2, "and what was loaded after it stays");
}

/* A Forget has reached the library, and stops before it takes the value out. */
static bool stops_forget(int who, const char *where) {
    if (who != 0 || strcmp(where, "before take out") != 0) return false;
    if (phase < 2) phase = 2;
    return phase < 3;
}

static void forget_is_slow(int number) {
    if (number == 0) {
        check(get("k") == 1, "a value is kept");
        sflight_cache_forget(cache, (const uint8_t *)"k", 1);
        check(get("k") == 2, "and nobody has it after a Forget");
        return;
    }
    until(2);
    store = 2;
    check(phase == 2 && get("k") == 2, "a Forget ends what is kept as soon as the library knows it");
    phase = 3;
}

/* A thread has missed, and stops. Another one loads the key. The first goes on: it finds that value, and loads nothing. */
static bool stops_miss(int who, const char *where) {
    if (who != 0 || strcmp(where, "looked") != 0) return false;
    if (phase == 0) phase = 2;
    return phase < 3;
}

static void misses_before(int number) {
    if (number == 0) {
        check(get("k") == 1, "a thread that has missed before finds what was loaded meanwhile");
        return;
    }
    until(2);
    check(get("k") == 1, "the first value");
    store = 2;
    phase = 3;
    check(get("k") == 1, "and it stays");
}

/* A get is about to hold what it has found in a table. Meanwhile that table is too small, and the value is
 * forgotten and gone. */
static bool stops_hold(int who, const char *where) {
    if (who != 0 || phase < 1 || strcmp(where, "before hold") != 0) return false;
    if (phase == 1) phase = 2;
    return phase < 3;
}

static void table_widens(int number) {
    char key[] = "A";
    if (number == 0) {
        check(get("k") == 1, "a value is kept");
        check(get("k") == 2, "and not had once it was forgotten and another was loaded");
        return;
    }
    until(2);
    const struct table *before = cache->shards[0].table;
    for (; key[0] <= 'Z'; key[0]++) get(key);
    check(cache->shards[0].table != before, "the table is another one");
    store = 2;
    sflight_cache_forget(cache, (const uint8_t *)"k", 1);
    phase = 3;
}

/* A value is forgotten while a thread has it in use. The Forget finds that, and stops. Meanwhile the thread releases the value. Then the
 * Forget goes on, and drops it. */
static bool stops_owing(int who, const char *where) {
    if (who != 1 || phase < 2 || strcmp(where, "before owe") != 0) return false;
    if (phase == 2) phase = 3;
    return phase < 4;
}

static void releases_before_owed(int number) {
    sflight_value value;
    if (number == 0) {
        check(get("k") == 1, "a value is kept");
        check(sflight_cache_get(cache, (const uint8_t *)"k", 1, &value) == SFLIGHT_CACHE_HIT && value.hold, "and in use at a place");
        phase = 2;
        until(3);
        check(phase == 3, "a Forget has found that");
        sflight_cache_release(cache, &value);
        check(live == 1, "it is dropped by whoever takes it out");
        phase = 4;
        return;
    }
    until(2);
    sflight_cache_forget(cache, (const uint8_t *)"k", 1);
    check(phase == 4 && live == 0, "what was released as it left is dropped at once");
}

/* A thread names an entry in its place, and stops before it looks again. Meanwhile another one forgets the value, which it has in use, and releases
 * it: the value waits for the first, which has not got it. */
static bool stops_naming(int who, const char *where) {
    if (who != 0 || phase < 2 || strcmp(where, "named") != 0) return false;
    if (phase == 2) phase = 3;
    return phase < 4;
}

static void names_what_is_gone(int number) {
    sflight_value value;
    if (number == 0) {
        check(get("k") == 1, "a value is kept");
        phase = 2;
        check(get("k") == 2, "it is not had once it was forgotten");
        check(live == 1, "and whoever has named it in vain drops it");
        return;
    }
    until(2);
    check(sflight_cache_get(cache, (const uint8_t *)"k", 1, &value) == SFLIGHT_CACHE_HIT && value.hold, "it is in use at another place");
    until(3);
    store = 2;
    sflight_cache_forget(cache, (const uint8_t *)"k", 1);
    sflight_cache_release(cache, &value);
    check(live == 1, "it waits for the place that names it");
    phase = 4;
}

/* The value of a call takes the place of another. The drop function of that one gets a key, whose load in another
 * thread waits for the very call. `phase` is 1 once the first key is loaded, and 2 once the other thread has joined
 * its call. */
static int load_for_drop(void *context, const uint8_t *name, size_t len, sflight_cache_loaded *loading) {
    (void)context;
    if (len == 5) {
        phase = 1;
        until(2);
    } else if (len == 6 && actor == 1) {
        until(1);
        is_second = true;
        check(get("first") > 0, "a load gets what is settled");
    }
    loading->value = new_value(len, name[0]);
    return SFLIGHT_CACHE_LOADED;
}

static void drop_and_get(void *context, void *value) {
    drop(context, value);
    if (actor != 0 || phase != 2) return;
    phase = 3;
    check(get("second") > 0, "a drop function gets what waits for the call before it");
}

static bool sees_join(int who, const char *where) {
    if (who == 1 && is_second && phase == 1 && strcmp(where, "asked") == 0) phase = 2;
    return false;
}

static void gets_in_drop(int number) {
    if (number == 0) check(get("old") > 0 && get("first") > 0, "a key and the next");
    else check(get("second") > 0, "and another");
}

static void drops_in_order(uint64_t number) {
    begin_play(number, 2);
    phase = 0;
    is_second = drops_get = false;
    open_cache(load_for_drop, 1, 8);
    cache->options.drop = drop_and_get;
    play.waits = sees_join;
    play_all(gets_in_drop);
    play.waits = NULL;
    sflight_cache_close(cache);
    check(live == 0, "each value is dropped once");
}

int main(int argc, char **argv) {
    setvbuf(stdout, NULL, _IOLBF, 0);
    static const char *const kept[] = {"kept", "before settle", "settled"};
    static const char *const stops[] = {"before keep", "kept", "before settle", "settled"};
    uint64_t from = argc > 1 ? strtoull(argv[1], NULL, 10) : 1;
    uint64_t count = argc > 2 ? strtoull(argv[2], NULL, 10) : argc > 1 ? 1 : SCHEDULES;
    open_plays();
    for (uint64_t i = 0; argc == 1 && i < 200; i++) {
        drops_in_order(i);
        for (int stop = 0; stop < 3; stop++) {
            stopping = kept[stop];
            play_in_order(i, 2, load_store, 5, stops_leader, leader_is_slow);
        }
        for (int stop = 0; stop < 4; stop++) {
            stopping = stops[stop];
            play_in_order(i, 2, load_store, 5, stops_leader, leader_is_forgotten);
        }
        play_in_order(i, 2, load_store, 5, stops_forget, forget_is_slow);
        play_in_order(i, 2, load_store, 5, stops_miss, misses_before);
        play_in_order(i, 2, load_store, 100, stops_hold, table_widens);
        play_in_order(i, 2, load_store, 5, stops_owing, releases_before_owed);
        play_in_order(i, 2, load_store, 5, stops_naming, names_what_is_gone);
    }
    for (uint64_t i = from; i < from + count && failed == 0; i++) play_at_random(i);
    close_plays();
    printf("%llu hits, %llu loads, %llu joined, %llu evicted\n", (unsigned long long)hits, (unsigned long long)loads, (unsigned long long)joins,
           (unsigned long long)evicted);
    printf("%llu refreshed, %llu covered, %llu of batches, %llu put, %llu left early, %llu asked again\n", (unsigned long long)refreshed,
           (unsigned long long)covered, (unsigned long long)batched, (unsigned long long)put_in_time, (unsigned long long)left_early, (unsigned long long)again);
    if (argc == 1) check(hits > 0 && joins > 0 && loads > 0 && evicted > 0, "there was something of each");
    /* The rarest comes in about one schedule of 200. */
    if (argc == 1 && SCHEDULES >= 10000)
        check(refreshed > 0 && covered > 0 && batched > 0 && put_in_time > 0 && left_early > 0 && again > 0, "also of the rest");
    printf("%d passed, %d failed\n", passed, failed);
    return failed > 0;
}
