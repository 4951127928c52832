/* The orders of examples/orders, whose README tells the format. Each caller is a thread. After each step in which
 * somebody does something, the test waits until nobody goes on by itself: each caller has returned, runs its load,
 * sleeps, or is stopped at a point of the code. A load behind a get is a thread of its own, next to that caller. To know that, the futex is one of this test: it counts the threads
 * that sleep on a word, and a thread that is woken goes on from that moment. A deadline ends when the order says so.
 * usage: orders_test [FILE..] */
#ifndef _GNU_SOURCE
#define _GNU_SOURCE
#endif
#include <errno.h>
#include <linux/futex.h>
#include <pthread.h>
#include <stdarg.h>
#include <stdbool.h>
#include <stdint.h>
#include <stdio.h>
#include <stdlib.h>
#include <string.h>
#include <sys/syscall.h>
#include <time.h>
#include <unistd.h>

static void order_point(const char *where);
static long order_futex(long number, const void *word, int what, unsigned value, const struct timespec *deadline, void *other, unsigned which);

#define SFLIGHT_POINT(where) order_point(where)
#define syscall(number, ...) order_##number(number, __VA_ARGS__)
#define order_SYS_futex order_futex
#define order_SYS_membarrier (syscall)
#include "sflight_cache.c"
#include "sflight_do.c"
#undef syscall

#include <glob.h>

enum { CALLERS = 8, ACTORS = 2 * CALLERS, ITEMS = 8, KEYS = 16, WORDS = 12, LONGEST = 128, NUMBERS = 64, MOST_SECONDS = 60, TO_END = 60, MOST_FILLERS = 100 };
#define ERROR UINT64_MAX /* what a load returns that fails */
#define HOUR INT64_C(3600000000000)

static const char *const points[] = {"before ask", "asked", "before settle", "settled", "before sleep", "before leave", "before forget", "forgotten",
                                     "looked", "before keep", "kept"};

enum state { RUNS, IS_IDLE, IS_LOADING, SLEEPS, HAS_STOPPED };
static const char *const states[] = {"runs", "is idle", "runs its load", "sleeps", "is stopped"};
enum what { NOTHING, ASKS, ASKS_MANY, ASKS_WITH_DEADLINE, FORGETS, FORGETS_TAG, PUTS, RETURNS, FAILS, ENDS };
enum got { NONE, HAS_VALUE, HAS_ERROR, HAS_LEFT, HAS_NOTHING, HAS_PUT };

/* A key of a batch, and what came of it. */
struct item {
    char key[LONGEST];
    enum got got;
    uint64_t value;
};

struct world;

struct actor {
    struct world *world;
    char name;
    bool is_there;
    pthread_t thread;
    enum state state;
    enum what command;
    char key[LONGEST], stop[LONGEST], tag[LONGEST];
    uint64_t number;
    struct item items[ITEMS], returned[ITEMS], batch[ITEMS]; /* what it asks for, what its load returns, and for which keys */
    int item_count, returned_count, batch_count;
    /* A load behind a get runs in a thread of its own. */
    void (*run)(void *work);
    void *work;
    /* Since it asked: whether its deadline has ended, whether its load has begun and no step has said so yet, whether
     * it has run a load, and whether it has slept. */
    bool may_leave, is_late, begun, loaded, joined;
    const void *word; /* on which it sleeps, for these reasons */
    unsigned which;
    bool is_woken;
    enum got got;
    sflight_got result;
    int code; /* of a cache */
    sflight_do_stamp stamp;
    const char *forgot;
};

struct world {
    pthread_mutex_t lock; /* protects the rest */
    pthread_cond_t changed;
    sflight_pool *pool;
    sflight_cache *cache;
    struct actor actors[ACTORS];
    struct { char key[LONGEST]; uint64_t loads; } keys[KEYS];
    uint64_t given, received; /* counts of values, by joiners */
    int64_t live;             /* values of a cache */
    sflight_cache_options options;
    int64_t time;             /* of its clock */
    int fillers;
    bool is_over; /* nobody waits any more, since the order has failed */
};

static struct world *played;
static _Thread_local struct actor *me;
static char numbers[NUMBERS]; /* values of a cache: their addresses */

static void take_lock(struct world *w) { pthread_mutex_lock(&w->lock); }
static void give_lock(struct world *w) { pthread_mutex_unlock(&w->lock); }

/* Rests in this state, until the order lets it go on. The lock is held. */
static void rest(enum state state) {
    me->state = state;
    pthread_cond_broadcast(&me->world->changed);
    while (me->state != RUNS && !me->world->is_over) pthread_cond_wait(&me->world->changed, &me->world->lock);
    me->state = RUNS;
}

static void order_point(const char *where) {
    if (!me) return;
    take_lock(me->world);
    if (strcmp(me->stop, where) == 0) {
        me->stop[0] = 0;
        rest(HAS_STOPPED);
    }
    give_lock(me->world);
}

static long order_futex(long number, const void *word, int what, unsigned value, const struct timespec *deadline, void *other, unsigned which) {
    (void)number, (void)other;
    struct world *w = me ? me->world : played;
    take_lock(w);
    if ((what & FUTEX_CMD_MASK) == FUTEX_WAKE_BITSET) {
        for (int i = 0; i < ACTORS; i++) {
            struct actor *a = &w->actors[i];
            if (a->state != SLEEPS || a->word != word || !(a->which & which)) continue;
            a->state = RUNS;
            a->is_woken = true;
        }
        pthread_cond_broadcast(&w->changed);
        give_lock(w);
        return 0;
    }
    if (!me) {
        printf("FAILED: a call of the test itself waits\n");
        exit(1);
    }
    bool is_changed = __atomic_load_n((const unsigned *)word, __ATOMIC_SEQ_CST) != value;
    me->is_woken = false;
    /* A deadline of 0 has passed: such a caller does not wait. */
    if (!is_changed && !(deadline && (me->is_late || deadline->tv_sec == 0))) {
        me->word = word;
        me->which = which;
        me->joined |= which == FOR_VALUE;
        rest(SLEEPS);
    }
    bool is_late = !is_changed && !me->is_woken && !w->is_over;
    give_lock(w);
    if (w->is_over) sched_yield();
    if (is_changed) errno = EAGAIN;
    if (is_late) errno = ETIMEDOUT;
    return is_changed || is_late ? -1 : 0;
}

static uint64_t *loads_of(struct world *w, const char *key) {
    int i = 0;
    while (w->keys[i].key[0] && strcmp(w->keys[i].key, key) != 0) i++;
    if (i == KEYS - 1) abort();
    strcpy(w->keys[i].key, key);
    return &w->keys[i].loads;
}

static enum what serve(enum state state);

static uint64_t order_load(void *context, const uint8_t *key, size_t len) {
    char name[LONGEST] = {0};
    (void)context;
    memcpy(name, key, len);
    take_lock(me->world);
    ++*loads_of(me->world, name);
    me->begun = me->loaded = true;
    give_lock(me->world);
    return serve(IS_LOADING) == RETURNS ? me->number : ERROR;
}

static void new_value(sflight_cache_loaded *loaded, uint64_t value) {
    take_lock(me->world);
    me->world->live++;
    give_lock(me->world);
    loaded->value = &numbers[value];
    if (me->tag[0]) sflight_cache_add_tag(loaded, (const uint8_t *)me->tag, strlen(me->tag));
}

static int order_cache_load(void *context, const uint8_t *key, size_t len, sflight_cache_loaded *loaded) {
    uint64_t value = order_load(context, key, len);
    if (value == ERROR) return SFLIGHT_CACHE_FAILED;
    new_value(loaded, value);
    return SFLIGHT_CACHE_LOADED;
}

static void order_load_many(void *context, sflight_cache_loading *loadings, size_t count) {
    (void)context;
    if (count > ITEMS) abort();
    take_lock(me->world);
    me->batch_count = (int)count;
    for (size_t i = 0; i < count; i++) {
        memset(me->batch[i].key, 0, LONGEST);
        memcpy(me->batch[i].key, loadings[i].key, loadings[i].len);
        ++*loads_of(me->world, me->batch[i].key);
    }
    me->begun = me->loaded = true;
    give_lock(me->world);
    bool returns = serve(IS_LOADING) == RETURNS;
    for (size_t i = 0; i < count; i++) {
        if (!returns) loadings[i].code = SFLIGHT_CACHE_FAILED;
        if (!returns || (int)i >= me->returned_count || me->returned[i].got == HAS_NOTHING) continue;
        loadings[i].code = SFLIGHT_CACHE_LOADED;
        new_value(&loadings[i].loaded, me->returned[i].value);
    }
}

static int64_t order_clock(void *context, bool is_wall) {
    (void)context, (void)is_wall;
    return __atomic_load_n(&played->time, __ATOMIC_SEQ_CST);
}

static void *act_behind(void *actor) {
    me = actor;
    me->run(me->work);
    take_lock(me->world);
    me->state = IS_IDLE;
    pthread_cond_broadcast(&me->world->changed);
    give_lock(me->world);
    return NULL;
}

static bool order_start(void *context, void (*run)(void *work), void *work) {
    struct actor *behind = me + CALLERS;
    (void)context;
    if (me - me->world->actors >= CALLERS) return false;
    if (behind->is_there) pthread_join(behind->thread, NULL);
    take_lock(me->world);
    *behind = (struct actor){.world = me->world, .name = me->name, .is_there = true, .state = RUNS, .run = run, .work = work};
    give_lock(me->world);
    if (pthread_create(&behind->thread, NULL, act_behind, behind)) abort();
    return true;
}

static void order_drop(void *context, void *value) {
    struct world *w = played;
    (void)context, (void)value;
    take_lock(w);
    w->live--;
    give_lock(w);
}

static void order_share(uint64_t value, uint32_t others) {
    (void)value;
    take_lock(played);
    played->given += others;
    give_lock(played);
}

static void ask_for(bool may_leave) {
    struct world *w = me->world;
    char key[LONGEST];
    strcpy(key, me->key);
    size_t len = strlen(key);
    sflight_got got = {0};
    sflight_value value;
    int code;
    take_lock(w);
    bool outer_loaded = me->loaded, outer_joined = me->joined;
    me->begun = me->loaded = me->joined = me->is_late = false;
    me->may_leave = may_leave;
    give_lock(w);
    if (w->cache) {
        code = sflight_cache_get(w->cache, (const uint8_t *)key, len, &value);
        got.value = code == SFLIGHT_CACHE_FAILED ? ERROR : (uint64_t)((char *)value.at - numbers);
        sflight_cache_release(w->cache, &value);
        /* What stands in for a failed load is loaded by whoever has led that. */
        if (code == SFLIGHT_CACHE_STALE) code = me->loaded ? SFLIGHT_CACHE_LOADED : SFLIGHT_CACHE_JOINED;
    } else {
        code = sflight_do(w->pool, (const uint8_t *)key, len, order_load, NULL, may_leave ? HOUR : SFLIGHT_DO_FOREVER, &got);
    }
    take_lock(w);
    if (me->got != NONE) {
        printf("FAILED: two results of %c\n", me->name);
        exit(1);
    }
    me->got = !w->cache && code == SFLIGHT_DO_TIMED_OUT ? HAS_LEFT : got.value == ERROR ? HAS_ERROR : w->cache && code == SFLIGHT_CACHE_MISSING ? HAS_NOTHING : HAS_VALUE;
    if (!w->cache) {
        bool is_right = me->got == HAS_LEFT || (code == SFLIGHT_DO_DONE && got.led == me->loaded && (got.led || got.joiners > 0));
        me->got = is_right ? me->got : NONE;
        if (me->got != HAS_LEFT && !got.led) w->received++;
    }
    me->code = code;
    me->result = got;
    me->stamp = got.stamp;
    me->may_leave = false;
    me->loaded = outer_loaded;
    me->joined = outer_joined;
    give_lock(w);
}

/* Gets the keys of a batch. */
static void ask_for_many(void) {
    struct world *w = me->world;
    sflight_cache_item items[ITEMS];
    struct item got[ITEMS];
    int count = me->item_count;
    for (int i = 0; i < count; i++) {
        got[i] = me->items[i];
        items[i] = (sflight_cache_item){.key = (const uint8_t *)got[i].key, .len = strlen(got[i].key)};
    }
    sflight_cache_get_many(w->cache, items, (size_t)count, NULL);
    for (int i = 0; i < count; i++) {
        bool has_value = sflight_cache_has_value(items[i].code);
        got[i].got = has_value ? HAS_VALUE : items[i].code == SFLIGHT_CACHE_MISSING ? HAS_NOTHING : HAS_ERROR;
        got[i].value = has_value ? (uint64_t)((char *)items[i].value.at - numbers) : 0;
        sflight_cache_release(w->cache, &items[i].value);
    }
    take_lock(w);
    memcpy(me->items, got, sizeof got);
    me->item_count = count;
    give_lock(w);
}

static void put(void) {
    struct world *w = me->world;
    sflight_cache_loaded l = sflight_cache_of_value(w->cache, NULL);
    me->tag[0] = 0;
    new_value(&l, me->number);
    me->code = sflight_cache_put(w->cache, (const uint8_t *)me->key, strlen(me->key), &l, NULL);
    me->got = HAS_PUT;
}

/* Obeys the order's steps, until one ends the load that this is, or all. */
static enum what serve(enum state state) {
    struct world *w = me->world;
    for (;;) {
        take_lock(w);
        rest(state);
        enum what command = w->is_over ? ENDS : me->command;
        me->command = NOTHING;
        give_lock(w);
        switch (command) {
        case ASKS:
        case ASKS_WITH_DEADLINE: ask_for(command == ASKS_WITH_DEADLINE); break;
        case ASKS_MANY: ask_for_many(); break;
        case PUTS: put(); break;
        case FORGETS_TAG: sflight_cache_forget_tag(w->cache, (const uint8_t *)me->tag, strlen(me->tag)); break;
        case FORGETS:
            me->forgot = NULL;
            if (w->cache && !me->key[0]) sflight_cache_forget_all(w->cache);
            else if (w->cache) sflight_cache_forget(w->cache, (const uint8_t *)me->key, strlen(me->key));
            else me->forgot = sflight_do_forget(w->pool, (const uint8_t *)me->key, strlen(me->key)) ? "closed a load" : "closed none";
            break;
        default: return command;
        }
    }
}

static void *act(void *actor) {
    me = actor;
    serve(IS_IDLE);
    return NULL;
}

/* The functions from here on run in the test's own thread. */

static char error[1024];
static bool hangs; /* whether a thread goes on for ever */

__attribute__((format(printf, 1, 2))) static bool wrong(const char *format, ...) {
    va_list list;
    va_start(list, format);
    vsnprintf(error, sizeof error, format, list);
    va_end(list);
    return false;
}

/* Waits until nobody goes on by itself. */
static bool is_quiet(struct world *w) {
    struct timespec end;
    clock_gettime(CLOCK_REALTIME, &end);
    end.tv_sec += MOST_SECONDS;
    take_lock(w);
    for (int i = 0; i < ACTORS;) {
        struct actor *a = &w->actors[i++];
        if (!a->is_there || a->state != RUNS) continue;
        i = 0;
        if (pthread_cond_timedwait(&w->changed, &w->lock, &end) != ETIMEDOUT) continue;
        give_lock(w);
        hangs = true;
        return wrong("%c goes on and on", a->name);
    }
    give_lock(w);
    return true;
}

static struct actor *actor_of(struct world *w, char name) {
    struct actor *a = &w->actors[name - 'a'];
    if (a->is_there) return a;
    a->world = w;
    a->name = name;
    a->is_there = true;
    if (pthread_create(&a->thread, NULL, act, a)) abort();
    return is_quiet(w) ? a : NULL;
}

static bool it_does(struct actor *a) {
    static const char *const gots[] = {"", ", and has a value", ", and has an error", ", and has left", ", and has nothing", ", and has put"};
    return wrong("%c %s%s: %llu, %s, %u joiners", a->name, states[a->state], gots[a->got], (unsigned long long)a->result.value,
                 a->result.led ? "led" : "not led", a->result.joiners);
}

static bool tell(struct world *w, struct actor *a, enum what command) {
    if (a->state != IS_LOADING && (a->state != IS_IDLE || command == RETURNS || command == FAILS)) return it_does(a);
    take_lock(w);
    a->command = command;
    a->state = RUNS;
    pthread_cond_broadcast(&w->changed);
    give_lock(w);
    return is_quiet(w);
}

/* The words of the step, and what stands in it for a caller (A), a key (K), a number (N) and any word (W). */
static char *words[WORDS];
static int length;
static char actor_name;
static const char *key, *word;
static uint64_t number;

static bool is(const char *form) {
    char text[LONGEST], *rest = NULL;
    int i = 0;
    strcpy(text, form);
    for (char *part = strtok_r(text, " ", &rest); part; part = strtok_r(NULL, " ", &rest), i++) {
        if (i == length) return false;
        char *it = words[i], *end;
        bool is_actor = it[0] >= 'a' && it[0] <= 'h';
        if (strcmp(part, "A") == 0 && is_actor && !it[1]) actor_name = it[0];
        else if (strcmp(part, "A's") == 0 && is_actor && strcmp(it + 1, "'s") == 0) actor_name = it[0];
        else if (strcmp(part, "K") == 0 && it[0] >= 'k' && it[0] <= 'z') key = it;
        else if (strcmp(part, "N") == 0 && it[0] >= '0' && it[0] <= '9' && (number = strtoull(it, &end, 10)) < NUMBERS && !*end) {}
        else if (strcmp(part, "W") == 0) word = it;
        else if (strcmp(part, it) != 0) return false;
    }
    return i == length;
}

static int tables(struct world *w) {
    int n = 0;
    while (n < TABLES && atomic_load(&w->pool->posts[n])) n++;
    return n;
}

enum came { IS_NONE, IS_WELL, IS_WRONG };
static enum came came(bool is_well) { return is_well ? IS_WELL : IS_WRONG; }

/* The load that runs behind the caller, if it runs none itself. */
static struct actor *behind(struct actor *a) {
    struct actor *it = a + CALLERS;
    return a->state == IS_IDLE && it->is_there && it->state == IS_LOADING ? it : a;
}

static bool is_key(const char *it) { return it[0] >= 'k' && it[0] <= 'z'; }

/* Whether the words from here on are keys; they are written there. */
static bool are_keys(int from, struct item *to) {
    if (from >= length || length - from > ITEMS) return false;
    for (int i = from; i < length; i++) {
        if (!is_key(words[i])) return false;
        to[i - from] = (struct item){.got = NONE};
        strcpy(to[i - from].key, words[i]);
    }
    return true;
}

/* Whether the words from here on are numbers, or say that there is nothing. */
static bool are_numbers(int from, struct item *to) {
    if (from >= length || length - from > ITEMS) return false;
    for (int i = from; i < length; i++) {
        char *end;
        bool is_nothing = strcmp(words[i], "nothing") == 0;
        uint64_t value = is_nothing ? 0 : strtoull(words[i], &end, 10);
        if (!is_nothing && (*end || value >= NUMBERS)) return false;
        to[i - from] = (struct item){.got = is_nothing ? HAS_NOTHING : HAS_VALUE, .value = value};
    }
    return true;
}

/* The first two words are a caller and this. */
static bool it_is_said(const char *what) {
    if (length < 2 || words[0][0] < 'a' || words[0][0] > 'h' || words[0][1] || strcmp(words[1], what) != 0) return false;
    actor_name = words[0][0];
    return true;
}

/* A step of a cache's own in which somebody does something. */
static enum came acts_on_cache(struct world *w) {
    struct item items[ITEMS];
    struct actor *a;
    if (is("the clock goes on by N")) {
        __atomic_fetch_add(&w->time, (int64_t)number * 1000000000, __ATOMIC_SEQ_CST);
        return IS_WELL;
    }
    if (is("A forgets tag W") || is("A puts N at K")) {
        bool puts = strcmp(words[1], "puts") == 0;
        if (!(a = actor_of(w, actor_name))) return IS_WRONG;
        if (a->state == IS_IDLE || a->state == IS_LOADING) strcpy(puts ? a->key : a->tag, puts ? key : word);
        if (puts) a->number = number;
        return came(tell(w, a, puts ? PUTS : FORGETS_TAG));
    }
    if (length > 3 && it_is_said("asks") && are_keys(2, items)) {
        if (!(a = actor_of(w, actor_name))) return IS_WRONG;
        if (a->state == IS_IDLE || a->state == IS_LOADING) {
            memcpy(a->items, items, sizeof items);
            a->item_count = length - 2;
        }
        return came(tell(w, a, ASKS_MANY));
    }
    bool has_tag = is("A returns N with tag W");
    if (has_tag || (it_is_said("returns") && are_numbers(2, items))) {
        if (has_tag) items[0] = (struct item){.got = HAS_VALUE, .value = number};
        if (!(a = actor_of(w, actor_name))) return IS_WRONG;
        a = behind(a);
        if (a->state == IS_LOADING) {
            a->number = items[0].value;
            memcpy(a->returned, items, sizeof items);
            a->returned_count = has_tag ? 1 : length - 2;
            strcpy(a->tag, has_tag ? word : "");
        }
        return came(tell(w, a, RETURNS));
    }
    return IS_NONE;
}

/* Loads, each inside the one before, until the pool has grown. */
static uint64_t fill(void *context, const uint8_t *name, size_t len) {
    int before = *(int *)context;
    (void)name, (void)len;
    char other[LONGEST];
    sflight_got got;
    snprintf(other, sizeof other, "filler-%d", played->fillers++);
    if (tables(played) == before && played->fillers < 10 * MOST_FILLERS)
        sflight_do(played->pool, (const uint8_t *)other, strlen(other), fill, context, SFLIGHT_DO_FOREVER, &got);
    return 0;
}

/* A step in which somebody does something. */
static enum came acts(struct world *w) {
    struct actor *a;
    bool may_leave = false;
    bool forgets_all = w->cache && is("A forgets all");
    enum came it = w->cache ? acts_on_cache(w) : IS_NONE;
    if (it != IS_NONE) return it;
    if (is("A asks K") || (may_leave = is("A asks K with a deadline")) || is("A forgets K") || forgets_all) {
        if (!(a = actor_of(w, actor_name))) return IS_WRONG;
        if (forgets_all) key = "";
        if (a->state == IS_IDLE || a->state == IS_LOADING) strcpy(a->key, key);
        return came(tell(w, a, strcmp(words[1], "forgets") == 0 ? FORGETS : may_leave ? ASKS_WITH_DEADLINE : ASKS));
    }
    if (is("A returns N") || is("A fails")) {
        if (!(a = actor_of(w, actor_name))) return IS_WRONG;
        a = behind(a);
        if (a->state == IS_LOADING) a->number = number;
        return came(tell(w, a, length == 3 ? RETURNS : FAILS));
    }
    if (is("A will stop before W") || is("A will stop once W")) {
        char point[LONGEST];
        bool is_point = false;
        snprintf(point, sizeof point, "%s%s", strcmp(words[3], "before") == 0 ? "before " : "", word);
        for (size_t i = 0; i < sizeof points / sizeof *points; i++) is_point |= strcmp(points[i], point) == 0;
        if (!is_point) return came(wrong("there is no such point"));
        if (!(a = actor_of(w, actor_name))) return IS_WRONG;
        take_lock(w);
        strcpy(a->stop, point);
        give_lock(w);
        return IS_WELL;
    }
    if (is("A goes on") || is("A leaves")) {
        bool leaves = length == 2;
        if (!(a = actor_of(w, actor_name))) return IS_WRONG;
        if (leaves && !a->may_leave) return came(wrong("it asked without a deadline"));
        if (!leaves && a->state != HAS_STOPPED) return came(it_does(a));
        take_lock(w);
        if (leaves) a->is_late = true;
        if (!leaves || (a->state == SLEEPS && a->which == FOR_VALUE)) a->state = RUNS;
        pthread_cond_broadcast(&w->changed);
        give_lock(w);
        return came(is_quiet(w));
    }
    if (is("the group grows")) {
        int before = tables(w);
        fill(&before, NULL, 0);
        return came(tables(w) > before || wrong("it does not grow"));
    }
    return IS_NONE;
}

/* A step that says what a call returned. */
static enum came says_result(struct world *w) {
    int all = length, first = length > 2 && (words[2][0] == 'a') ? 4 : 3;
    if (length < first) return IS_NONE;
    length = first;
    bool is_error = is("A has an error"), is_form = is_error || is("A has N");
    uint64_t value = is_error ? ERROR : number;
    struct actor *a = is_form ? actor_of(w, actor_name) : NULL;
    memmove(words, words + first, sizeof *words * (size_t)(all - first));
    length = all - first;
    if (!a) return IS_NONE;
    bool is_well = a->got == (is_error ? HAS_ERROR : HAS_VALUE) && a->result.value == value;
    if (w->cache && length == 0) {}
    else if (w->cache && is("loaded")) is_well &= a->code == SFLIGHT_CACHE_LOADED;
    else if (w->cache && is("joined")) is_well &= a->code == SFLIGHT_CACHE_JOINED;
    else if (w->cache && is("found")) is_well &= a->code == SFLIGHT_CACHE_HIT;
    else if (!w->cache && is("alone")) is_well &= a->result.joiners == 0;
    else if (!w->cache && is("shared")) is_well &= a->result.joiners > 0;
    else if (!w->cache && is("shared with N")) is_well &= a->result.joiners == number;
    else return IS_NONE;
    if (!is_well) return came(it_does(a));
    a->got = NONE;
    return IS_WELL;
}

/* A step that says what came of one key of a batch; or of one key that was asked for alone. */
static enum came says_item(struct world *w) {
    bool is_error = is("A has an error at K"), is_alone = is("A has nothing"), is_nothing = is_alone || is("A has nothing at K");
    enum got got = is_error ? HAS_ERROR : is_nothing ? HAS_NOTHING : HAS_VALUE;
    if (!is_error && !is_nothing && !is("A has N at K")) return IS_NONE;
    struct actor *a = actor_of(w, actor_name);
    if (!a) return IS_WRONG;
    for (int i = 0; i < a->item_count && !is_alone; i++) {
        struct item *it = &a->items[i];
        if (strcmp(it->key, key) != 0 || it->got == NONE) continue;
        if (it->got != got || (got == HAS_VALUE && it->value != number)) return came(wrong("it has %d, %llu", it->got, (unsigned long long)it->value));
        it->got = NONE;
        return IS_WELL;
    }
    if (a->got != got || (!is_alone && strcmp(a->key, key) != 0)) return came(it_does(a));
    a->got = NONE;
    return IS_WELL;
}

/* A step of a cache's own that says what has come of those before. */
static enum came says_of_cache(struct world *w) {
    struct item items[ITEMS];
    struct actor *a;
    bool kept = is("A has kept it");
    if (kept || is("A has not kept it")) {
        if (!(a = actor_of(w, actor_name))) return IS_WRONG;
        if (a->got != HAS_PUT || a->code != kept) return came(it_does(a));
        a->got = NONE;
        return IS_WELL;
    }
    if (is("A refreshes")) {
        if (!(a = actor_of(w, actor_name))) return IS_WRONG;
        if (behind(a) == a || !behind(a)->begun) return came(it_does(a));
        behind(a)->begun = false;
        return IS_WELL;
    }
    if (length > 2 && it_is_said("leads") && are_keys(2, items)) {
        if (!(a = actor_of(w, actor_name))) return IS_WRONG;
        bool is_well = a->begun && a->state == IS_LOADING && a->batch_count == length - 2;
        for (int i = 0; is_well && i < a->batch_count; i++) is_well = strcmp(a->batch[i].key, items[i].key) == 0;
        a->begun = a->begun && !is_well;
        return came(is_well || it_does(a));
    }
    return says_item(w);
}

/* A step that says what has come of those before. */
static enum came says(struct world *w) {
    struct actor *a;
    bool is_it = true;
    enum came it = w->cache ? says_of_cache(w) : IS_NONE;
    if (it != IS_NONE) return it;
    if (is("A leads")) {
        if (!(a = actor_of(w, actor_name)) || !a->begun || a->got || a->state != IS_LOADING) return a ? came(it_does(a)) : IS_WRONG;
        a->begun = false;
        return IS_WELL;
    }
    if (is("A joins") || is("A waits")) {
        bool joins = strcmp(words[1], "joins") == 0;
        if (!(a = actor_of(w, actor_name))) return IS_WRONG;
        return came((a->state == SLEEPS && !a->got && (!joins || a->which == FOR_VALUE)) || it_does(a));
    }
    if (is("A has stopped")) return !(a = actor_of(w, actor_name)) ? IS_WRONG : came(a->state == HAS_STOPPED || it_does(a));
    if (is("A has left")) {
        if (!(a = actor_of(w, actor_name)) || a->got != HAS_LEFT) return a ? came(it_does(a)) : IS_WRONG;
        a->got = NONE;
        return IS_WELL;
    }
    if (is("A has closed a load") || is("A has closed none")) {
        if (!(a = actor_of(w, actor_name))) return IS_WRONG;
        const char *forgot = length == 5 ? "closed a load" : "closed none";
        return came((a->state != HAS_STOPPED && a->forgot && strcmp(a->forgot, forgot) == 0) || wrong("it has %s", a->forgot ? a->forgot : "not forgotten"));
    }
    if (is("A's result is current") || (is_it = !is("A's result is not current"), !is_it)) {
        if (!(a = actor_of(w, actor_name))) return IS_WRONG;
        return came(sflight_do_is_still(w->pool, &a->stamp) == is_it || wrong("it is not so"));
    }
    if (is("K was loaded once") || is("K was loaded twice") || is("K was loaded N times")) {
        uint64_t times = length == 5 ? number : strcmp(words[3], "once") == 0 ? 1 : 2, loads = *loads_of(w, key);
        return came(loads == times || wrong("it was loaded %llu times", (unsigned long long)loads));
    }
    if (is("N loads run")) {
        uint64_t run = w->cache ? sflight_cache_statistics(w->cache).in_use : sflight_do_statistics(w->pool).in_use;
        return came(run == number || wrong("%llu run", (unsigned long long)run));
    }
    if (w->cache && (is("K holds nothing") || is("K holds N"))) {
        sflight_value value;
        bool holds = sflight_cache_peek(w->cache, (const uint8_t *)key, strlen(key), &value), something = strcmp(words[2], "nothing") != 0;
        uint64_t at = holds ? (uint64_t)((char *)value.at - numbers) : 0;
        sflight_cache_release(w->cache, &value);
        return came((holds == something && (!something || at == number)) || wrong("it holds %s, %llu", holds ? "something" : "nothing", (unsigned long long)at));
    }
    return length > 2 && strcmp(words[1], "has") == 0 ? says_result(w) : IS_NONE;
}

/* Splits the text at blanks and commas. */
static bool split(char *text) {
    char *rest = NULL;
    length = 0;
    for (char *it = strtok_r(text, " \t\r,", &rest); it; it = strtok_r(NULL, " \t\r,", &rest)) {
        if (length == WORDS || strlen(it) >= LONGEST / 2) return wrong("this is no step");
        words[length++] = it;
    }
    return true;
}

/* Whether the words from here on name languages, of which this is one; -1 where they name others. */
static int is_ours(int from) {
    bool ours = false;
    for (int i = from; i < length; i++) {
        if (strcmp(words[i], "C") == 0) ours = true;
        else if (strcmp(words[i], "Go") != 0 && strcmp(words[i], "Rust") != 0) return wrong("%s is no language", words[i]) ? 0 : -1;
    }
    return ours;
}

static struct world *open_world(bool is_cache) {
    struct world *w = calloc(1, sizeof *w);
    if (!w) abort();
    w->options = (sflight_cache_options){.limit = 100, .entries = 100, .loads = 1, .load = order_cache_load, .load_many = order_load_many,
                                         .drop = order_drop, .clock = order_clock, .start = order_start};
    w->time = 1;
    pthread_mutex_init(&w->lock, NULL);
    pthread_cond_init(&w->changed, NULL);
    played = w;
    if (is_cache) w->cache = sflight_cache_open(&w->options);
    else w->pool = sflight_do_open(1, order_share);
    if (!w->cache && !w->pool) abort();
    return w;
}

/* A line after the first that is an option of the cache, in which nothing has been done yet. */
static enum came takes_option(struct world *w) {
    int64_t *to = is("values live for N") ? &w->options.ttl : is("values are refreshed after N") ? &w->options.refresh_after
        : is("values are stale for N") ? &w->options.stale_if_error : is("errors are kept for N") ? &w->options.failed_ttl : NULL;
    if (!to || !w->cache) return IS_NONE;
    for (int i = 0; i < ACTORS; i++) if (w->actors[i].is_there) return came(wrong("the options come first"));
    *to = (int64_t)number * 1000000000;
    sflight_cache_close(w->cache);
    w->cache = sflight_cache_open(&w->options);
    return came(w->cache != NULL || wrong("it cannot be opened"));
}

/* Ends the threads, whatever they do, and frees the world. Returns whether all is given back. A thread that hangs is left. */
static bool close_world(struct world *w) {
    struct timespec end;
    clock_gettime(CLOCK_REALTIME, &end);
    end.tv_sec += TO_END;
    take_lock(w);
    w->is_over = true;
    pthread_cond_broadcast(&w->changed);
    give_lock(w);
    for (int i = 0; i < ACTORS; i++) {
        if (!w->actors[i].is_there || pthread_timedjoin_np(w->actors[i].thread, NULL, &end) == 0) continue;
        hangs = true;
        return wrong("%c does not end", w->actors[i].name);
    }
    uint64_t run = w->cache ? sflight_cache_statistics(w->cache).in_use : sflight_do_statistics(w->pool).in_use;
    if (w->cache) sflight_cache_close(w->cache);
    else sflight_do_close(w->pool);
    bool is_well = run == 0 && w->given == w->received && w->live == 0;
    if (!is_well) wrong("%llu loads run, %llu counts were given for %llu joiners, %lld values live", (unsigned long long)run, (unsigned long long)w->given,
                        (unsigned long long)w->received, (long long)w->live);
    pthread_mutex_destroy(&w->lock);
    pthread_cond_destroy(&w->changed);
    free(w);
    return is_well;
}

/* Nobody is busy at the end, and each result was looked at. */
static bool is_at_rest(struct world *w) {
    for (int i = 0; i < ACTORS; i++) {
        struct actor *a = &w->actors[i];
        if (!a->is_there) continue;
        if (a->state != IS_IDLE || a->got != NONE) return it_does(a);
        for (int n = 0; n < a->item_count; n++) if (a->items[n].got != NONE) return wrong("nobody looked at what %c has at %s", a->name, a->items[n].key);
        if (a->stop[0]) return wrong("%c has not come to its stop: %s", a->name, a->stop);
    }
    return true;
}

static bool end_world(struct world *w) {
    char why[sizeof error];
    if (is_at_rest(w)) return close_world(w);
    memcpy(why, error, sizeof why);
    close_world(w);
    return wrong("%s", why);
}

/* Plays an order. Where it fails the error says where. */
static bool play(const char *name, char *text) {
    struct world *w = NULL;
    int line_number = 0;
    for (char *line = text, *next; line; line = next) {
        char whole[1024], why[sizeof error];
        line_number++;
        if ((next = strchr(line, '\n'))) *next++ = 0;
        if (strchr(line, '#')) *strchr(line, '#') = 0;
        snprintf(whole, sizeof whole, "%s", line);
        char *step = strchr(line, ':');
        int ours = 1;
        bool is_well = true;
        if (step) {
            *step++ = 0;
            is_well = split(line);
            ours = is_well ? is_ours(0) : -1;
        }
        if (is_well && ours >= 0) is_well = split(step ? step : line);
        if (is_well && ours > 0 && length > 0 && !w) {
            bool is_head = is("group") || is("cache");
            if (is_head) w = open_world(words[0][0] == 'c');
            is_well = is_head || wrong("an order begins with group or cache");
            length = 0;
        }
        if (is_well && ours > 0 && length > 0 && strcmp(words[0], "only") == 0) {
            ours = is_ours(1);
            if (ours == 0) return end_world(w);
            length = 0;
        }
        if (is_well && ours > 0 && length > 0) {
            enum came it = takes_option(w);
            if (it == IS_NONE) it = acts(w);
            if (it == IS_NONE) it = says(w);
            if (it == IS_NONE) wrong("this is no step");
            is_well = it == IS_WELL;
        }
        if (is_well && ours >= 0) continue;
        memcpy(why, error, sizeof why);
        if (w) close_world(w);
        return wrong("%s:%d: %.200s: %.600s", name, line_number, whole, why);
    }
    char why[sizeof error];
    if (w ? end_world(w) : wrong("an order begins with group or cache")) return true;
    memcpy(why, error, sizeof why);
    return wrong("%s: at its end: %.600s", name, why);
}

static int passed, failed;

static void play_file(const char *path) {
    FILE *file = fopen(path, "r");
    static char text[1 << 16];
    size_t len = file ? fread(text, 1, sizeof text - 1, file) : 0;
    text[len] = 0;
    if (file) fclose(file);
    bool is_well = file && play(path, text);
    if (!file) wrong("%s: it cannot be read", path);
    passed += is_well;
    failed += !is_well;
    if (!is_well) printf("FAILED: %s\n", error);
}

/* A text that is no order, and a step that does not come so, are errors that name the line. */
static void play_wrong_ones(void) {
    static const char *const wrong_ones[][2] = {
        {"", "it: at its end: an order begins with group or cache"},
        {"groups", "it:1: groups: an order begins with group or cache"},
        {"group\na asks", "it:2: a asks: this is no step"},
        {"group\nonly Gone", "it:2: only Gone: Gone is no language"},
        {"group\na will stop before noon", "it:2: a will stop before noon: there is no such point"},
        {"group\n# so\na goes on", "it:3: a goes on: a is idle"},
        {"group\na returns 1", "it:2: a returns 1: a is idle"},
        {"group\na asks k\na leaves", "it:3: a leaves: it asked without a deadline"},
        {"group\na asks k\na joins", "it:3: a joins: a runs its load"},
        {"group\na asks k\na leads\nb asks k\nb leads", "it:5: b leads: b sleeps"},
        {"group\na asks k\na leads\na returns 1\na has 2, alone", "it:5: a has 2, alone: a is idle, and has a value: 1, led, 0"},
        {"group\na asks k\na leads\na returns 1\na has 1, shared", "it:5: a has 1, shared: a is idle, and has a value: 1, led, 0"},
        {"group\na asks k\na leads\na returns 1\na has 1", "it:5: a has 1: this is no step"},
        {"group\na asks k\na leads\na returns 1\nk was loaded twice", "it:5: k was loaded twice: it was loaded 1 times"},
        {"group\na asks k\na leads\na returns 1", "it: at its end: a is idle, and has a value"},
        {"group\na asks k", "it: at its end: a runs its load"},
        {"group\na will stop once settled\nf forgets k", "it: at its end: a has not come to its stop: settled"},
        {"cache\nk holds 1", "it:2: k holds 1: it holds nothing, 0"},
        {"group\nGo: a flies\nonly Go, Rust\na flies", ""},
    };
    for (size_t i = 0; i < sizeof wrong_ones / sizeof *wrong_ones; i++) {
        char text[256];
        strcpy(text, wrong_ones[i][0]);
        bool is_well = play("it", text), due = wrong_ones[i][1][0] == 0;
        bool is_right = is_well == due && (due || strncmp(error, wrong_ones[i][1], strlen(wrong_ones[i][1])) == 0);
        passed += is_right;
        failed += !is_right;
        if (!is_right) printf("FAILED: %s, and not %s\n", error, wrong_ones[i][1]);
    }
}

int main(int argc, char **argv) {
    glob_t found;
    setvbuf(stdout, NULL, _IOLBF, 0);
    for (int i = 1; i < argc; i++) play_file(argv[i]);
    if (argc == 1) {
        if (glob("../examples/orders/*.order", 0, NULL, &found) == 0) {
            for (size_t i = 0; i < found.gl_pathc && failed < 5 && !hangs; i++) play_file(found.gl_pathv[i]);
            globfree(&found);
        } else {
            printf("the orders are not here: ../examples/orders\n");
        }
        if (failed == 0) play_wrong_ones();
    }
    printf("%d passed, %d failed\n", passed, failed);
    return failed > 0;
}
