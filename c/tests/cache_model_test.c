/* A cache beside a model of it, by one thread: gets, loads that give more or fail, batches, puts, tokens, tags, refreshes,
 * timeouts, limits and want of memory, at times of every size, while the wall clock is set at will. What a load does meanwhile
 * is drawn too: it forgets, puts, resizes, and takes its time.
 *
 * Each value knows when its load began and how long it may live, so what a get returns is judged by the value itself, and what
 * it does not return has to have a reason. A time that jitter or a step of the clock blurs has two bounds: what lies between
 * them may be either. In every third play all keys have one hash, and all tags. Jitter draws by addresses: `setarch -R` before the
 * program plays a play again as it was.
 * usage: cache_model_test [PLAY [COUNT]], the first play and how many, each of PLAY_STEPS steps. */
#ifndef _GNU_SOURCE
#define _GNU_SOURCE
#endif
#include <stddef.h>
#include <stdlib.h>
static void *test_malloc(size_t size);
static void *test_calloc(size_t count, size_t size);
static void *test_aligned_alloc(size_t alignment, size_t size);
#define malloc test_malloc
#define calloc test_calloc
#define aligned_alloc test_aligned_alloc
#include "sflight_cache.c"
#include "sflight_do.c"
#undef malloc
#undef calloc
#undef aligned_alloc
#include <stdio.h>

/* How many steps all plays have together. */
#ifndef STEPS
#define STEPS 400000
#endif

/* After so many seconds it hangs. */
#ifndef LIMIT
#define LIMIT 1400
#endif

enum { PLAY_STEPS = 2000, KEYS = 8, TAGS = 3, MOST_KNOWN = 64 * PLAY_STEPS, MOST_WORKS = 4, MOST_ITEMS = 6, MOST_RAN = 20, MOST_HELD = 20, NOBODY = -1 };

#define FAR ((int64_t)1 << 61)
#define ROOM ((uint64_t)1 << 40)

static uint64_t number_of_play, failed;

static void check(bool holds, const char *what) {
    if (holds) return;
    if (failed++ < 20) printf("FAILED: %s (play %llu)\n", what, (unsigned long long)number_of_play);
}

static void hangs_at(int number) {
    static const char text[] = "FAILED: it hangs\n";
    (void)number;
    if (write(STDOUT_FILENO, text, sizeof text - 1) < 0) _exit(2);
    _exit(1);
}

static uint64_t state_of_random;

static uint64_t random_below(uint64_t most) {
    state_of_random = state_of_random * 6364136223846793005u + 1442695040888963407u;
    return (state_of_random >> 33) % most;
}

/* The allocation of the package that is refused in this step, counted from here; 0 is none. */
static uint64_t refused_number;
static bool was_refused, is_start_refused;

static bool is_refused(void) {
    if (refused_number == 0 || --refused_number > 0) return false;
    return was_refused = true;
}

static void *test_malloc(size_t size) { return is_refused() ? NULL : malloc(size); }
static void *test_calloc(size_t count, size_t size) { return is_refused() ? NULL : calloc(count, size); }
static void *test_aligned_alloc(size_t alignment, size_t size) { return is_refused() ? NULL : aligned_alloc(alignment, size); }

/* What is known of a value or a failure, whose address is the value. */
static struct known {
    int key, kind; /* as a load returns it */
    uint64_t begun, put; /* by the steps; of a put, when its token was drawn, and when it was put */
    int64_t steady, wall, ttl, last_use; /* the last hit, counted from the birth by the steady clock */
    unsigned tags;
    bool is_any;      /* each tag ends it */
    bool has_too_many; /* tags */
    uint64_t weight;
    int told, dropped, users; /* users: of the test */
    bool may_be_out; /* a look may have found that it has expired, before the clock was set back */
    bool is_put;     /* is being put */
    bool is_running, is_closed, is_refreshing;
    int at_end; /* the key's entry when its load ended */
    int best_at_end, worst_at_end;
} known[MOST_KNOWN];

static int known_count;

/* A call that is led, by the step or by work that waits. */
struct call {
    int key, replaces;
    bool is_closed;
};

static struct {
    void (*run)(void *work);
    void *work;
    struct call calls[MOST_ITEMS];
    int count;
} works[MOST_WORKS];

static int work_count;

static const struct { const char *at; size_t len; } keys[KEYS] = {
    {"", 0}, {"k", 1}, {"k\0", 2}, {"kk", 2}, {"a key of 16 byte", 16}, {"a key of 17 bytes", 17}, {"seven..", 7},
    {"a long key, which is longer than sixty-four bytes, as it has to be somewhere", 76},
};
static const char *const tag_names[TAGS] = {"t", "u", "a tag that is longer"};

/* The play. */
static sflight_cache *cache;
static sflight_cache_options options;
static bool is_met, is_tight, is_closing;
static uint64_t step, tag_ended[TAGS], any_tag_ended, forgets_of_key[KEYS], forgets_of_all;
static int64_t steady, wall;
static int model[KEYS];         /* the entry of each key, or NOBODY */
static int is_forgetting[KEYS], is_replacing[KEYS]; /* why a value may be told meanwhile */
static struct call own_calls[KEYS], *led[KEYS]; /* by the step, or by the work that runs */
static int ran[MOST_RAN], ran_count; /* the loads that ran in this step */
static bool is_quiet; /* loads do nothing meanwhile */
static sflight_cache_stats counted; /* what the counts are to be */
static uint64_t timed;              /* load functions that have ended: one of a batch is one */
static uint64_t most_stale;         /* counted.stale is the least: by the jitter a value may be just too old */
static uint64_t seen_of[8]; /* how often each kind of thing came */
static struct { sflight_value value; int number; } held[MOST_HELD];
static int held_count;

static int number_of(const void *value) { return (int)((const struct known *)value - known); }

static int key_number(const uint8_t *key, size_t len) {
    for (int i = 0; i < KEYS; i++) if (keys[i].len == len && memcmp(keys[i].at, key, len) == 0) return i;
    abort();
}

static const uint8_t *key_at(int key) { return (const uint8_t *)keys[key].at; }

/* Time. */

/* A time of any size. */
static int64_t any_time(void) {
    int64_t low = (int64_t)(random_below((uint64_t)1 << 30) << 30 | random_below((uint64_t)1 << 30));
    unsigned bits = (unsigned)random_below(61);
    switch (random_below(12)) {
    case 0: return 0;
    case 1: return 1;
    case 2: return (int64_t)1 << bits;
    case 3: return ((int64_t)1 << bits) - 1;
    case 4: return INT64_MAX;
    case 5: return INT64_MAX - low % 3;
    case 6: return 1000000000 * (int64_t)(1 + random_below(1000000));
    default: return low >> bits % 60;
    }
}

static void set_clocks(int64_t by_steady, int64_t by_wall) {
    steady = by_steady > FAR - steady ? FAR : steady + by_steady;
    if (by_wall >= 0) wall = by_wall > FAR - wall ? FAR : wall + by_wall;
    else wall = wall < -by_wall ? 0 : wall + by_wall;
}

static void pass(void) {
    int64_t time = any_time() >> random_below(50);
    switch (random_below(24)) {
    case 0: set_clocks(0, time); break;
    case 1: set_clocks(0, -time); break;
    case 2: set_clocks(time, 0); break;
    case 3: if (random_below(20) == 0) wall = 0; break;
    case 4: if (random_below(100) == 0) wall = FAR - time / 4; break;
    case 5: set_clocks(0, (int64_t)random_below(3 * SAME_ERA) - SAME_ERA); break;
    case 6: case 7: case 8: case 9: case 10: case 11: break;
    case 12: case 13: case 14: case 15: case 16: case 17: time %= 1000000000000; set_clocks(time, time); break;
    default: time %= 20000000000; set_clocks(time, time); break;
    }
}

static int64_t clock_of(void *context, bool is_wall) {
    (void)context;
    return is_wall ? wall : steady;
}

/* What may be returned. */

/* Whether no Forget of a tag has ended it. Its key's Forgets have taken it out. */
static bool is_current(const struct known *of) {
    if (of->is_any) return any_tag_ended < of->begun;
    for (int i = 0; i < TAGS; i++) if ((of->tags >> i & 1) && (is_met ? any_tag_ended : tag_ended[i]) > of->begun) return false;
    return true;
}

static int state_of_age(const struct known *of, int64_t age, int64_t over) {
    bool is_value = of->kind == SFLIGHT_CACHE_LOADED;
    if (over >= 0) return is_value && over < options.stale_if_error ? STALE : EXPIRED;
    return is_value && options.refresh_after > 0 && age >= options.refresh_after ? DUE : FRESH;
}

/* The bounds of what the entry is worth. */
static void worth_of(int number, int *worst, int *best) {
    *worst = *best = GONE;
    if (number == NOBODY || !is_current(&known[number])) return;
    const struct known *of = &known[number];
    bool has_idle = of->kind == SFLIGHT_CACHE_LOADED && options.idle > 0;
    int64_t gained = wall - steady - (of->wall - of->steady), age = steady - of->steady + (gained > 0 ? gained : 0);
    int64_t young = age - (gained > SAME_ERA ? SAME_ERA : gained > 0 ? gained : 0), soon = -1, late = -1;
    if (of->ttl > 0) {
        soon = age - (of->ttl - (int64_t)((double)of->ttl * options.jitter));
        late = young - of->ttl;
    }
    if (has_idle) {
        int64_t tick = options.idle / IDLE_PART > 0 ? options.idle / IDLE_PART : 1, unused = age - of->last_use;
        bool is_far = of->last_use / tick > INT32_MAX; /* such an entry has its end */
        if (is_far || unused + tick - 1 - options.idle > soon) soon = is_far ? INT64_MAX : unused + tick - 1 - options.idle;
        if (young - of->last_use - options.idle > late) late = young - of->last_use - options.idle;
    }
    *worst = state_of_age(of, age, soon);
    *best = state_of_age(of, young, late);
    /* The older it may be, the sooner it is due; the sooner it ends, the less it is worth. */
    if (*best == FRESH && state_of_age(of, age, late) == DUE) *best = DUE;
    if (*worst == DUE && state_of_age(of, young, soon) == FRESH) *worst = FRESH;
}

/* What the cache has of the key: a value's number, the failure that the model has, or NOBODY. */
static int there(int key) {
    uint64_t hash = hash_of(cache, key_at(key), keys[key].len);
    struct sflight_entry *e = find(shard_of(cache, hash), hash, key_at(key), keys[key].len);
    return !e ? NOBODY : e->code == SFLIGHT_CACHE_HIT ? number_of(e->value) : model[key] == NOBODY || known[model[key]].kind != e->code ? NOBODY - 1 : model[key];
}

/* A failure leaves without a word. */
static void learn_of_failures(void) {
    for (int i = 0; i < KEYS; i++) {
        if (model[i] == NOBODY || known[model[i]].kind == SFLIGHT_CACHE_LOADED || there(i) == model[i]) continue;
        int worst, best;
        worth_of(model[i], &worst, &best);
        check(is_tight || worst < FRESH || known[model[i]].may_be_out, "a failure that may be returned stays");
        model[i] = NOBODY;
    }
}

/* The functions of the cache. */

/* A look takes out what has expired. Of a failure nobody is told. */
static void may_be_taken(int number) {
    int worst, best;
    worth_of(number, &worst, &best);
    if (number != NOBODY && worst < FRESH) known[number].may_be_out = true;
}

/* No lock is held where the program's functions are called. */
static void look_meanwhile(void) {
    int key = (int)random_below(KEYS);
    sflight_value value;
    may_be_taken(model[key]);
    for (int i = 0; i < ran_count; i++) if (known[ran[i]].key == key) may_be_taken(ran[i]);
    if (sflight_cache_peek(cache, key_at(key), keys[key].len, &value)) sflight_cache_release(cache, &value);
}

static void left(void *context, const uint8_t *key, size_t len, void *value, int reason) {
    int number = number_of(value), at = key_number(key, len), worst, best;
    struct known *of = &known[number];
    bool is_new = of->is_put;
    (void)context;
    for (int i = 0; i < ran_count; i++) is_new |= ran[i] == number;
    check(of->key == at && of->told++ == 0 && of->dropped == 0, "a value is told once, with its key, and before it is dropped");
    check(model[at] == number || is_new, "what is told was in the cache");
    worth_of(number, &worst, &best);
    switch (reason) {
    case SFLIGHT_CACHE_MADE_ROOM: check(is_tight && best >= FRESH, "others need its room"); counted.evictions++; break;
    case SFLIGHT_CACHE_EXPIRED: check(best > GONE && worst < FRESH, "it has expired"); counted.expirations++; break;
    case SFLIGHT_CACHE_FORGOTTEN: check(is_forgetting[at] || best == GONE, "it was forgotten"); break;
    case SFLIGHT_CACHE_REPLACED: check(is_replacing[at], "it was replaced"); break;
    default: check(is_closing, "the cache is closed"); break;
    }
    if (model[at] == number) model[at] = NOBODY;
    look_meanwhile();
}

static void drop(void *context, void *value) {
    struct known *of = &known[number_of(value)];
    (void)context;
    check(of->dropped++ == 0 && of->users == 0 && model[of->key] != number_of(value), "a value is dropped once, when nobody has it");
    look_meanwhile();
}

static bool run_at_once; /* whether work runs as it is begun */

static void run_work_of(void (*run)(void *), void *work, const struct call *calls, int count);

/* Work waits until a later step, or runs at once. */
static bool start_later(void *context, void (*run)(void *work), void *work) {
    const struct work *of = work;
    struct call calls[MOST_ITEMS];
    int count = 0;
    (void)context;
    if (is_start_refused || work_count == MOST_WORKS) return false;
    for (size_t i = 0; i < of->count; i++) {
        const struct getting *g = &of->gettings[i];
        if (!g->is_led) continue;
        calls[count++] = (struct call){key_number(g->key, g->len), g->replaces ? number_of(g->replaces->value) : NOBODY, false};
        if (g->replaces) known[number_of(g->replaces->value)].is_refreshing = true;
    }
    if (run_at_once) {
        run_work_of(run, work, calls, count);
        return true;
    }
    works[work_count].run = run;
    works[work_count].work = work;
    works[work_count].count = count;
    memcpy(works[work_count++].calls, calls, sizeof calls);
    return true;
}

static void meanwhile(void);

/* A value or a failure of the key, with what it says of itself. */
static int new_known(int key, int kind, sflight_cache_loaded *to) {
    if (known_count == MOST_KNOWN) abort();
    struct known *of = &known[known_count];
    int64_t usual = kind == SFLIGHT_CACHE_LOADED ? options.ttl : kind == SFLIGHT_CACHE_MISSING ? options.missing_ttl : options.failed_ttl;
    *of = (struct known){.key = key, .kind = kind, .begun = ++step, .steady = steady, .wall = wall, .weight = 1, .ttl = usual, .at_end = NOBODY};
    if (random_below(3) == 0) to->ttl = random_below(8) ? any_time() : -1;
    if (to->ttl != 0) of->ttl = to->ttl;
    /* A failure of which nobody says how long to keep it is not kept. */
    if (kind != SFLIGHT_CACHE_LOADED && of->ttl == 0) of->ttl = -1;
    of->tags = random_below(2) ? (unsigned)random_below(1 << TAGS) : 0;
    of->has_too_many = of->tags > 0 && random_below(10) == 0;
    of->is_any = (kind != SFLIGHT_CACHE_LOADED && of->tags == 0) || of->has_too_many;
    for (int i = 0; i < TAGS; i++) if (of->tags >> i & 1) sflight_cache_add_tag(to, (const uint8_t *)tag_names[i], strlen(tag_names[i]));
    while (of->has_too_many && sflight_cache_add_tag(to, (const uint8_t *)tag_names[0], 1)) {}
    if (kind != SFLIGHT_CACHE_LOADED) return known_count++;
    switch (random_below(30)) {
    case 0: of->weight = UINT32_MAX; break;
    case 1: of->weight = 0; break;
    case 2: of->weight = UINT64_MAX; break;
    case 3: of->weight = (uint64_t)UINT32_MAX - 1; break;
    case 4: case 5: of->weight = 2; break;
    }
    to->weight = of->weight;
    to->value = of;
    return known_count++;
}

static int load_begins(int key, sflight_cache_loaded *loaded) {
    static const int kinds[] = {SFLIGHT_CACHE_LOADED, SFLIGHT_CACHE_LOADED, SFLIGHT_CACHE_LOADED, SFLIGHT_CACHE_FAILED, SFLIGHT_CACHE_FAILED, SFLIGHT_CACHE_MISSING};
    if (ran_count == MOST_RAN) abort();
    /* A call of a get that loads here is asked for now. One that waited may have been closed. */
    if (led[key] == &own_calls[key]) led[key]->is_closed = false;
    int number = ran[ran_count++] = new_known(key, kinds[random_below(6)], loaded);
    known[number].is_running = true;
    return number;
}

static int load_ends(int number, bool is_beside) {
    struct known *of = &known[number];
    of->is_running = false;
    counted.loads++;
    counted.failures += of->kind == SFLIGHT_CACHE_FAILED;
    if (!is_beside) counted.load_time += (uint64_t)(steady - of->steady);
    timed += !is_beside;
    of->is_closed = led[of->key]->is_closed;
    of->at_end = model[of->key];
    worth_of(of->at_end, &of->worst_at_end, &of->best_at_end);
    if (of->kind == SFLIGHT_CACHE_FAILED && of->at_end != NOBODY && known[of->at_end].kind == SFLIGHT_CACHE_LOADED) {
        counted.stale += of->worst_at_end >= STALE && !is_tight;
        most_stale += of->best_at_end >= STALE;
    }
    return of->kind;
}

static int load(void *context, const uint8_t *key, size_t len, sflight_cache_loaded *loaded) {
    int number = load_begins(key_number(key, len), loaded);
    check(context == &options, "the context");
    meanwhile();
    return load_ends(number, false);
}

static int load_other(void *context, const uint8_t *key, size_t len, sflight_cache_loaded *loaded) {
    check(context == &counted, "the context of the get");
    return load(&options, key, len, loaded);
}

static void load_many(void *context, sflight_cache_loading *loadings, size_t count) {
    int numbers[KEYS];
    (void)context;
    if (count > KEYS) abort();
    for (size_t i = 0; i < count; i++) numbers[i] = load_begins(key_number(loadings[i].key, loadings[i].len), &loadings[i].loaded);
    meanwhile();
    for (size_t i = 0; i < count; i++) {
        /* A key of which it says nothing does not exist. */
        int code = load_ends(numbers[i], i > 0);
        if (code != SFLIGHT_CACHE_MISSING) loadings[i].code = code;
    }
}

/* What comes of loads. */

static void keeps(int key, int number) {
    check(model[key] == NOBODY || known[model[key]].kind != SFLIGHT_CACHE_LOADED || model[key] == number, "the older value was told");
    model[key] = number;
}

/* The load has ended: what the cache is to have of the key now. */
static void apply(int number) {
    struct known *of = &known[number];
    int key = of->key, is = there(key), old = model[key];
    bool is_value = of->kind == SFLIGHT_CACHE_LOADED, may_cover = of->at_end != NOBODY && known[of->at_end].kind == SFLIGHT_CACHE_LOADED;
    bool is_kept = !of->is_closed && of->ttl >= (is_value ? 0 : 1) && !(is_value && of->has_too_many) && of->weight <= sflight_cache_limit(cache);
    bool is_there = is_value ? is == number : is != NOBODY && is != old;
    if (of->kind == SFLIGHT_CACHE_FAILED && may_cover && of->best_at_end >= STALE && is == old && old != NOBODY) return; /* an old value stays */
    if (of->kind == SFLIGHT_CACHE_FAILED && may_cover && of->worst_at_end >= STALE) check(is_tight, "a value that may be returned stays where a load fails");
    if (!is_value && is != NOBODY && old != NOBODY && known[old].kind == of->kind) is_there = is_kept;
    if (is_value && of->told) is_there = true;
    /* A failure leaves without a word, to make room or since a look has found that it is over. */
    if (was_refused || (!is_value && !is_there && (is_tight || of->may_be_out))) is_kept = is_there;
    check(is_there == is_kept, is_kept ? "what is loaded is kept" : "what may not be kept is not");
    if (is_there && !of->told) keeps(key, number);
    else if (!is_there && !of->is_closed && !was_refused && of->kind != SFLIGHT_CACHE_FAILED) check(is == NOBODY, "what is not kept ends the older one");
    seen_of[is_there]++;
}

static void apply_all(void) {
    for (int i = 0; i < ran_count; i++) apply(ran[i]);
    ran_count = 0;
    learn_of_failures();
}

/* The load of the key that ran in this step, or NOBODY. */
static int ran_of(int key) {
    for (int i = 0; i < ran_count; i++) if (known[ran[i]].key == key) return ran[i];
    return NOBODY;
}

/* A key before a step. */
struct before {
    int entry, worst, best, works;
    int64_t steady;
};

static struct before look_before(int key) {
    struct before it = {.entry = model[key], .works = work_count, .steady = steady};
    worth_of(it.entry, &it.worst, &it.best);
    may_be_taken(it.entry);
    return it;
}

/* The calls of keys that wait. */

static struct call *waiting_call(int key) {
    for (int i = 0; i < work_count; i++) {
        for (int n = 0; n < works[i].count; n++) if (works[i].calls[n].key == key && !works[i].calls[n].is_closed) return &works[i].calls[n];
    }
    return NULL;
}

static void run_work_of(void (*run)(void *), void *work, const struct call *calls, int count) {
    struct call mine[MOST_ITEMS];
    struct before before[MOST_ITEMS];
    int ran_before = ran_count;
    memcpy(mine, calls, (size_t)count * sizeof *calls);
    for (int i = 0; i < count; i++) {
        before[i] = look_before(mine[i].key);
        led[mine[i].key] = &mine[i];
        is_replacing[mine[i].key]++;
    }
    run(work);
    for (int i = 0; i < count; i++) {
        int key = mine[i].key, number = NOBODY;
        led[key] = &own_calls[key];
        is_replacing[key]--;
        for (int n = ran_before; n < ran_count; n++) if (known[ran[n]].key == key) number = ran[n];
        bool may_find = before[i].entry != mine[i].replaces && before[i].best >= FRESH, must_find = may_find && before[i].worst >= FRESH;
        check(number == NOBODY ? may_find : !must_find || is_tight, "work loads what is not there");
        if (mine[i].replaces == NOBODY) continue;
        known[mine[i].replaces].is_refreshing = false;
        counted.refreshes += number != NOBODY;
        seen_of[2]++;
    }
}

static void run_one(void) {
    if (work_count == 0) return;
    int number = (int)random_below((uint64_t)work_count);
    struct call calls[MOST_ITEMS];
    void (*run)(void *) = works[number].run;
    void *work = works[number].work;
    int count = works[number].count;
    memcpy(calls, works[number].calls, sizeof calls);
    works[number] = works[--work_count];
    run_work_of(run, work, calls, count);
    apply_all();
}

/* Gets. */

static void lets_go(sflight_value *value) {
    if (!value->at) return;
    known[number_of(value->at)].users--;
    sflight_cache_release(cache, value);
}

/* Holds the value for some steps, or releases it. */
static void has(sflight_value *value, int number) {
    check(value->at == &known[number] && known[number].dropped == 0, "a value that is had is not dropped");
    known[number].users++;
    if (held_count < MOST_HELD && random_below(8) == 0) {
        held[held_count].value = *value;
        held[held_count++].number = number;
        return;
    }
    lets_go(value);
}

static void release_one(void) {
    if (held_count == 0) return;
    int i = (int)random_below((uint64_t)held_count);
    check(held[i].value.at == &known[held[i].number] && known[held[i].number].dropped == 0, "a value in use lives");
    lets_go(&held[i].value);
    held[i] = held[--held_count];
}

/* A get, or its look, has found the entry. */
static void judge_hit(const struct before *before, int number, bool is_use) {
    struct known *of = &known[number];
    check(before->entry == number && before->best >= FRESH, "what is found may be returned");
    counted.hits++;
    if (is_use) of->last_use = before->steady - of->steady;
}

/* A refresh begins where the value is due, and not else. */
static void judge_refresh(const struct before *before, int key, int number, bool was_refreshing, bool was_waiting) {
    bool has_begun = work_count > before->works || ran_of(key) != NOBODY || known[number].is_refreshing != was_refreshing;
    if (before->best < DUE || was_refreshing) check(!has_begun, "nothing is refreshed that is not due, nor twice");
    else if (before->worst == DUE && !was_waiting && !is_start_refused && before->works < MOST_WORKS && !was_refused) {
        check(has_begun, "what is due is refreshed");
    }
}

/* A get that missed has run this load. */
static void judge_load(const struct before *before, int code, int got, int number) {
    const struct known *of = &known[number];
    check(before->worst < FRESH, "nothing is loaded that is there");
    switch (code) {
    case SFLIGHT_CACHE_LOADED: check(got == number && of->kind == code, "the loaded value"); break;
    case SFLIGHT_CACHE_STALE:
        check(of->kind == SFLIGHT_CACHE_FAILED && got == of->at_end && of->best_at_end >= STALE, "a stale value that may be returned");
        seen_of[3]++;
        break;
    case SFLIGHT_CACHE_NO_MEMORY: check(was_refused, "there was no memory to keep it"); break;
    default:
        check(code == of->kind, "the failure");
        if (code != SFLIGHT_CACHE_FAILED || of->at_end == NOBODY || known[of->at_end].kind != SFLIGHT_CACHE_LOADED) break;
        check(of->worst_at_end < STALE || is_tight, "no value stands in for it");
    }
}

/* What came of a get of the key. */
static void judge(int key, const struct before *before, int code, sflight_value *value, bool was_waiting, bool was_refreshing) {
    int number = ran_of(key), got = value->at ? number_of(value->at) : NOBODY;
    check(sflight_cache_has_value(code) == (got != NOBODY), "a value where the code says so");
    if (got != NOBODY) check(known[got].key == key, "a value of the key");
    if (code == SFLIGHT_CACHE_HIT) {
        judge_hit(before, got, true);
        judge_refresh(before, key, got, was_refreshing, was_waiting);
    } else if (number != NOBODY) {
        counted.misses++;
        judge_load(before, code, got, number);
    } else if (code == SFLIGHT_CACHE_TIMED_OUT) {
        check(before->worst < FRESH && waiting_call(key), "a load goes on");
        counted.misses++;
        counted.joins += was_waiting;
        seen_of[4]++;
    } else if (code == SFLIGHT_CACHE_NO_MEMORY) {
        check(before->worst < FRESH && (was_refused || is_start_refused || work_count == MOST_WORKS), "there was no memory");
        counted.misses++;
    } else {
        judge_hit(before, before->entry, true);
        check(before->entry != NOBODY && known[before->entry].kind == code, "a kept failure");
        seen_of[5]++;
    }
    if (got != NOBODY) has(value, got);
}

static void get(int key, int form) {
    const sflight_cache_how how = {.load = form == 1 ? load_other : NULL, .context = &counted, .timeout = form == 2 ? -1 : 0};
    sflight_value value;
    while (form != 2 && waiting_call(key)) run_one();
    run_at_once = random_below(4) == 0;
    struct before before = look_before(key);
    bool was_waiting = waiting_call(key), was_refreshing = before.entry != NOBODY && known[before.entry].is_refreshing;
    is_replacing[key]++;
    int code = form == 0 ? sflight_cache_get(cache, key_at(key), keys[key].len, &value) : sflight_cache_get_with(cache, key_at(key), keys[key].len, &how, &value);
    is_replacing[key]--;
    check(form != 2 || run_at_once || ran_count == 0, "a get with a timeout leaves its load to another thread");
    judge(key, &before, code, &value, was_waiting, was_refreshing);
    run_at_once = false;
    apply_all();
}

static void peek(int key) {
    struct before before = look_before(key);
    sflight_value value;
    bool is = sflight_cache_peek(cache, key_at(key), keys[key].len, &value), is_value = before.entry != NOBODY && known[before.entry].kind == SFLIGHT_CACHE_LOADED;
    check(is ? is_value && before.best >= FRESH && value.at == &known[before.entry] : !is_value || before.worst < FRESH, "a peek");
    if (is) has(&value, before.entry);
}

/* Gets several keys, by one load or one load for each. A key stands there twice only where they are loaded together. */
static void get_many(bool is_apart) {
    sflight_cache_item items[MOST_ITEMS];
    struct before before[MOST_ITEMS];
    int all[MOST_ITEMS], count = 1 + (int)random_below(MOST_ITEMS), first = (int)random_below(KEYS), joins = 0;
    bool is_together = options.load_many || random_below(2), was_waiting[KEYS], was_refreshing[KEYS] = {false};
    const sflight_cache_how how = {.load_many = is_together && !options.load_many ? load_many : NULL, .context = &counted, .timeout = is_apart ? -1 : 0};
    for (int i = 0; i < count; i++) {
        all[i] = is_together ? (int)random_below(KEYS) : (i * 3 + first) % KEYS;
        while (!is_apart && waiting_call(all[i])) run_one();
    }
    is_quiet = !is_together;
    for (int i = 0; i < KEYS; i++) {
        was_waiting[i] = waiting_call(i);
        was_refreshing[i] = model[i] != NOBODY && known[model[i]].is_refreshing;
        is_replacing[i]++;
    }
    for (int i = 0; i < count; i++) {
        before[i] = look_before(all[i]);
        items[i] = (sflight_cache_item){.key = key_at(all[i]), .len = keys[all[i]].len};
    }
    sflight_cache_get_many(cache, items, (size_t)count, &how);
    for (int i = 0; i < KEYS; i++) is_replacing[i]--;
    for (int i = 0; i < count; i++) {
        bool is_again = false, is_hit = items[i].code == SFLIGHT_CACHE_HIT;
        for (int n = 0; n < i; n++) is_again |= all[n] == all[i];
        int got = items[i].value.at ? number_of(items[i].value.at) : NOBODY;
        if (is_again && !is_hit && ran_of(all[i]) != NOBODY) {
            check(items[i].code == SFLIGHT_CACHE_JOINED || got != ran_of(all[i]) || was_refused, "a key that stands there twice joins itself");
            counted.misses++;
            joins++;
            if (got != NOBODY) has(&items[i].value, got);
            continue;
        }
        joins += is_again && items[i].code == SFLIGHT_CACHE_TIMED_OUT && !was_waiting[all[i]];
        joins += is_again && items[i].code == SFLIGHT_CACHE_NO_MEMORY && is_together;
        if (is_hit) {
            judge_hit(&before[i], got, !is_again);
            has(&items[i].value, got);
        } else judge(all[i], &before[i], items[i].code, &items[i].value, was_waiting[all[i]], was_refreshing[all[i]]);
    }
    counted.joins += (uint64_t)joins;
    seen_of[6]++;
    is_quiet = false;
    apply_all();
}

/* Forgets and puts. */

static void close_calls(int key) {
    led[key]->is_closed = true;
    for (int i = 0; i < work_count; i++) for (int n = 0; n < works[i].count; n++) works[i].calls[n].is_closed |= works[i].calls[n].key == key;
}

static void has_no_value(int key, const char *what) {
    check(model[key] == NOBODY || known[model[key]].kind != SFLIGHT_CACHE_LOADED, what);
    model[key] = NOBODY;
    check(there(key) == NOBODY, what);
}

static void forget(int key) {
    forgets_of_key[key]++;
    counted.forgets++;
    close_calls(key);
    is_forgetting[key]++;
    sflight_cache_forget(cache, key_at(key), keys[key].len);
    is_forgetting[key]--;
    has_no_value(key, "a Forget takes the value out");
}

static void forget_if(int key) {
    sflight_value value;
    if (!sflight_cache_peek(cache, key_at(key), keys[key].len, &value)) return;
    forgets_of_key[key]++;
    is_forgetting[key]++;
    counted.forgets++;
    check(sflight_cache_forget_if(cache, &value) && !sflight_cache_forget_if(cache, &value), "a value is forgotten once");
    is_forgetting[key]--;
    has_no_value(key, "the value is out");
    sflight_cache_release(cache, &value);
}

static void forget_tag(void) {
    int tag = (int)random_below(TAGS);
    tag_ended[tag] = any_tag_ended = ++step;
    counted.forgets++;
    sflight_cache_forget_tag(cache, (const uint8_t *)tag_names[tag], strlen(tag_names[tag]));
    /* Without memory for their ages it ends all tags. */
    for (int i = 0; i < TAGS && !atomic_load(&cache->ages); i++) tag_ended[i] = step;
}

/* It closes the calls of keys that are loaded now, and not those that have yet to begin. */
static void forget_all(void) {
    forgets_of_all++;
    for (int i = 0; i < ran_count; i++) if (known[ran[i]].is_running) close_calls(known[ran[i]].key);
    for (int i = 0; i < KEYS; i++) is_forgetting[i]++;
    sflight_cache_forget_all(cache);
    counted.forgets++;
    for (int i = 0; i < KEYS; i++) {
        is_forgetting[i]--;
        has_no_value(i, "a Forget of all takes each value out");
    }
}

/* Puts a value, whose write began when the token was drawn; without one, now. */
static void put_with(int key, const sflight_cache_token *token, uint64_t drawn, bool is_void) {
    sflight_cache_loaded loaded = sflight_cache_of_value(cache, NULL);
    int number = new_known(key, SFLIGHT_CACHE_LOADED, &loaded);
    struct known *of = &known[number];
    if (token) of->begun = drawn;
    of->is_put = true;
    forgets_of_key[key]++;
    counted.forgets++;
    close_calls(key);
    is_forgetting[key]++;
    is_replacing[key]++;
    bool is_kept = sflight_cache_put(cache, key_at(key), keys[key].len, &loaded, token);
    is_forgetting[key]--;
    is_replacing[key]--;
    bool may_be = !is_void && of->ttl >= 0 && !of->has_too_many && of->weight <= sflight_cache_limit(cache);
    check(is_kept ? may_be : !may_be || was_refused, "a put says whether it is kept");
    check(is_kept ? there(key) == number || of->told : of->dropped == 1, "as it is");
    of->is_put = false;
    /* A look meanwhile may have found that one of its tags was forgotten since the token was drawn. */
    if (is_kept && !of->told) keeps(key, number);
    else has_no_value(key, "the older value was told");
    seen_of[7] += is_kept;
}

/* Forgets of any key, where all have one hash. */
static uint64_t forgets_like(int key) {
    uint64_t all = 0;
    for (int i = 0; i < KEYS; i++) all += is_met || i == key ? forgets_of_key[i] : 0;
    return all;
}

static void forgets_any(int key) {
    switch (random_below(8)) {
    case 0: forget_tag(); break;
    case 1: forget_all(); break;
    case 2: forget_if(key); break;
    case 3: put_with(key, NULL, 0, false); break;
    default: forget(random_below(3) ? key : (int)random_below(KEYS));
    }
}

static void put_by_token(int key) {
    uint64_t drawn = ++step, before = forgets_like(key), all = forgets_of_all;
    sflight_cache_token token = sflight_cache_draw(cache, key_at(key), keys[key].len);
    if (random_below(3) == 0) forgets_any((int)random_below(KEYS));
    put_with(key, &token, drawn, forgets_like(key) != before || forgets_of_all != all);
}

static void resize(void) {
    if (!is_tight) return;
    sflight_cache_resize(cache, 1 + random_below(12));
    learn_of_failures();
}

/* What a load does meanwhile. */
static void meanwhile(void) {
    if (is_quiet || random_below(3)) return;
    int key = (int)random_below(KEYS);
    switch (random_below(6)) {
    case 0: forgets_any(key); break;
    case 1: put_by_token(key); break;
    case 2: resize(); break;
    case 3: peek(key); break;
    default: pass();
    }
}

/* Each value that may be returned. */

static int seen[KEYS];

static bool sees(void *context, const uint8_t *key, size_t len, void *value) {
    int at = key_number(key, len);
    check(context == seen && seen[at]++ == 0 && number_of(value) == model[at] && known[model[at]].dropped == 0, "a value that is seen is there, once");
    return true;
}

static void each(void) {
    struct before before[KEYS];
    memset(seen, 0, sizeof seen);
    for (int i = 0; i < KEYS; i++) before[i] = look_before(i);
    bool is_whole = sflight_cache_each(cache, sees, seen);
    check(is_whole || was_refused, "each of them");
    for (int i = 0; i < KEYS && is_whole; i++) {
        bool is_value = model[i] != NOBODY && known[model[i]].kind == SFLIGHT_CACHE_LOADED;
        check(seen[i] ? is_value && before[i].best >= FRESH : !is_value || before[i].worst < FRESH, "each that may be returned, and no other");
    }
}

/* Steps. */

static void check_counts(void) {
    sflight_cache_stats stats = sflight_cache_statistics(cache);
    uint64_t entries = 0, weight = 0, calls = 0, times = 0;
    for (int i = 0; i < KEYS; i++) {
        check(there(i) == model[i], "the cache has what the model has");
        if (model[i] == NOBODY) continue;
        entries++;
        weight += known[model[i]].weight;
    }
    for (int i = 0; i < work_count; i++) calls += (uint64_t)works[i].count;
    for (unsigned i = 0; i < SFLIGHT_CACHE_BUCKETS; i++) times += stats.load_times[i];
    if (was_refused) counted.joins = stats.joins;
    check(stats.entries == entries && stats.weight == weight && sflight_cache_len(cache) == entries, "how many there are, and what they weigh");
    check(stats.weight <= stats.limit, "no more than the limit");
    check(stats.hits == counted.hits && stats.misses == counted.misses, "hits and misses");
    check(stats.loads == counted.loads && times == timed && stats.failures == counted.failures, "loads and failures");
    check(stats.joins == counted.joins && stats.refreshes == counted.refreshes, "joins and refreshes");
    check(stats.stale >= counted.stale && stats.stale <= most_stale, "stale values");
    counted.stale = most_stale = stats.stale;
    check(stats.evictions == counted.evictions && stats.expirations == counted.expirations, "evictions and expirations");
    check(stats.in_use == calls && stats.load_time == counted.load_time && stats.forgets == counted.forgets, "calls, Forgets and the time of loads");
}

static void takes_step(void) {
    int key = (int)random_below(KEYS);
    step++;
    pass();
    refused_number = random_below(20) == 0 ? 1 + random_below(4) : 0;
    was_refused = false;
    is_start_refused = random_below(20) == 0;
    switch (random_below(40)) {
    case 0: case 1: forget(key); break;
    case 2: forget_tag(); break;
    case 3: if (random_below(10) == 0) forget_all(); break;
    case 4: forget_if(key); break;
    case 5: case 6: put_with(key, NULL, 0, false); break;
    case 7: case 8: put_by_token(key); break;
    case 9: case 10: case 11: run_one(); break;
    case 12: each(); break;
    case 13: resize(); break;
    case 14: case 15: get_many(false); break;
    case 16: get_many(true); break;
    case 17: case 18: case 19: peek(key); break;
    case 20: case 21: case 22: release_one(); break;
    case 23: case 24: case 25: get(key, 2); break;
    case 26: case 27: get(key, 1); break;
    default: get(key, 0);
    }
    refused_number = 0;
    learn_of_failures();
    check_counts();
}

static int64_t often(uint64_t part) { return random_below(part) == 0 ? any_time() : random_below(2) ? 60000000000 : 0; }

static void open_play(uint64_t number) {
    state_of_random = number * 7919 + 1;
    for (int i = 0; i < 5; i++) random_below(2);
    is_met = number % 3 == 0;
    is_tight = random_below(3) == 0;
    options = (sflight_cache_options){.limit = is_tight ? 1 + random_below(12) : ROOM, .entries = random_below(2) ? 8 : 4096, .loads = 4096, .load = load,
        .load_many = random_below(2) ? load_many : NULL, .drop = drop, .left = left, .context = &options, .clock = clock_of, .start = start_later,
        .ttl = often(3), .idle = often(4), .refresh_after = often(3), .stale_if_error = often(3), .failed_ttl = often(3), .missing_ttl = often(3),
        .jitter = (const double[]){0, 0, 0.3, 0.999999}[random_below(4)]};
    steady = (int64_t)random_below((uint64_t)1 << 30);
    wall = 1700000000000000000;
    known_count = work_count = ran_count = held_count = 0;
    step = any_tag_ended = forgets_of_all = 0;
    is_closing = false;
    counted = (sflight_cache_stats){0};
    timed = most_stale = 0;
    memset(tag_ended, 0, sizeof tag_ended);
    memset(forgets_of_key, 0, sizeof forgets_of_key);
    cache = sflight_cache_open(&options);
    if (!cache) abort();
    if (is_met) memset(cache->seeds, 0, sizeof cache->seeds);
    for (int i = 0; i < KEYS; i++) {
        model[i] = NOBODY;
        led[i] = &own_calls[i];
    }
}

static void close_play(void) {
    was_refused = is_start_refused = false;
    while (work_count > 0) run_one();
    while (held_count > 0) release_one();
    learn_of_failures();
    is_closing = true;
    for (int i = 0; i < KEYS; i++) check(there(i) == model[i], "the cache has what the model has");
    sflight_cache_close(cache);
    for (int i = 0; i < known_count; i++) check(known[i].dropped == (known[i].kind == SFLIGHT_CACHE_LOADED) && known[i].users == 0, "each value is dropped once");
    for (int i = 0; i < KEYS; i++) check(model[i] == NOBODY || known[model[i]].kind != SFLIGHT_CACHE_LOADED, "each value is told at the close");
}

int main(int argc, char **argv) {
    setvbuf(stdout, NULL, _IOLBF, 0);
    signal(SIGALRM, hangs_at);
    alarm(LIMIT);
    uint64_t from = argc > 1 ? strtoull(argv[1], NULL, 10) : 0;
    uint64_t count = argc > 2 ? strtoull(argv[2], NULL, 10) : argc > 1 ? 1 : STEPS / PLAY_STEPS;
    for (number_of_play = from; number_of_play < from + count && failed == 0; number_of_play++) {
        open_play(number_of_play);
        for (int i = 0; i < PLAY_STEPS && failed == 0; i++) takes_step();
        if (failed == 0) close_play();
    }
    for (int i = 0; i < 8; i++) {
        printf("%llu ", (unsigned long long)seen_of[i]);
        if (argc == 1) check(seen_of[i] > 0, "there was something of each");
    }
    printf("\n%llu failed\n", (unsigned long long)failed);
    return failed > 0;
}
