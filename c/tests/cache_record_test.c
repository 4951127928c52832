/* Tests of recordings of sflight_cache.h, by the rules of docs/RECORDS.md. What is recorded is judged here, as sfctl check --timed
 * judges it; where SFLIGHT_SFCTL names that program, by it too. */
#ifndef _GNU_SOURCE
#define _GNU_SOURCE
#endif
#include "sflight_cache.h"
#include <pthread.h>
#include <sched.h>
#include <stdatomic.h>
#include <stdio.h>
#include <stdlib.h>
#include <string.h>
#include <time.h>
#include <unistd.h>

/* How many gets each thread of a stress makes. */
#ifndef ROUNDS
#define ROUNDS 800
#endif

/* After so many seconds it hangs. */
#ifndef LIMIT
#define LIMIT 1400
#endif

static atomic_int passed, failed;

static void check(bool holds, const char *what) {
    if (holds) {
        passed++;
        return;
    }
    failed++;
    printf("FAILED: %s\n", what);
}

/* A log. */

struct log {
    char *text;
    size_t len;
    atomic_bool waits; /* whether the writer is stopped */
    atomic_bool is_called;
};

static int write_log(void *context, const char *text, size_t len) {
    struct log *log = context;
    atomic_store(&log->is_called, true);
    while (atomic_load(&log->waits)) sched_yield();
    log->text = realloc(log->text, log->len + len + 1);
    if (!log->text) abort();
    memcpy(log->text + log->len, text, len);
    log->len += len;
    log->text[log->len] = 0;
    return 0;
}

enum kind { LEAD, ENTER, FORGET, SETTLE, HANDED, KINDS };

static const char *const kinds[KINDS] = {"lead", "enter", "forget", "settle", "handed"};

struct event {
    enum kind kind;
    bool is_idle;
    unsigned long long key, call, member, joiners, from, to;
};

struct call {
    const struct event *first;
    unsigned long long key, opens, closes;
};

/* How many events there are of each kind, and Forgets that closed a call, and what was lost. */
struct counts {
    size_t of[KINDS], closed, all;
    unsigned long long lost;
};

static int by_call(const void *one, const void *other) {
    const struct event *a = one, *b = other;
    if (a->is_idle != b->is_idle) return a->is_idle - b->is_idle;
    if (a->call != b->call) return a->call < b->call ? -1 : 1;
    return (int)a->kind - (int)b->kind;
}

static int by_opens(const void *one, const void *other) {
    const struct call *a = one, *b = other;
    if (a->key != b->key) return a->key < b->key ? -1 : 1;
    return a->opens < b->opens ? -1 : a->opens > b->opens;
}

static unsigned long long name_at(const char *line, const char *what) {
    const char *at = strstr(line, what);
    unsigned long long caller, number;
    return at && sscanf(at + strlen(what), "[%llu,%llu]", &caller, &number) == 2 ? caller << 32 | number : 0;
}

static unsigned long long number_at(const char *line, const char *what) {
    const char *at = strstr(line, what);
    return at ? strtoull(at + strlen(what), NULL, 10) : 0;
}

/* Reads the line; keys are "k" and a number. Returns false where it is no record. */
static bool read_line(const char *line, struct event *event) {
    const char *at = strstr(line, "\"at\":[");
    memset(event, 0, sizeof *event);
    while (event->kind < KINDS && (strncmp(line + 6, kinds[event->kind], strlen(kinds[event->kind])) != 0)) event->kind++;
    if (strncmp(line, "{\"e\":\"", 6) != 0 || event->kind == KINDS || !at) return false;
    event->call = name_at(line, event->kind == FORGET ? "\"closed\":" : "\"c\":");
    event->is_idle = event->kind == FORGET && event->call == 0;
    event->member = name_at(line, "\"m\":");
    event->joiners = number_at(line, "\"joiners\":");
    event->key = number_at(line, "\"k\":\"k");
    return sscanf(at, "\"at\":[%llu,%llu]}", &event->from, &event->to) == 2 && event->from <= event->to && (event->call != 0 || event->is_idle);
}

/* Whether these are the events of one call, which come in their order. */
static const char *judge_call(const struct event *all, size_t count, struct call *call) {
    unsigned long long latest = 0, stage = 0, enters = 0, closing = SETTLE;
    size_t of[KINDS] = {0};
    *call = (struct call){.first = all, .key = all->key, .opens = UINT64_MAX};
    for (size_t i = 0; i < count; i++) of[all[i].kind]++;
    if (of[LEAD] != 1 || of[SETTLE] != 1 || of[HANDED] != 1 || of[FORGET] > 1) return "a call without its events";
    if (of[FORGET] > 0) closing = FORGET;
    for (size_t i = 0, next = 0; i < count; i++) {
        const struct event *it = &all[i];
        if (i == 0 || it->kind != all[i - 1].kind) {
            for (; next < i; next++) if (all[next].from > latest) latest = all[next].from;
        }
        if (it->to < latest) return "an event of a call has to follow another one, and ended before that began";
        if (it->to < call->opens) call->opens = it->to;
        if (it->kind <= closing && it->from > call->closes) call->closes = it->from;
        if (it->kind <= FORGET && it->key != call->key) return "a call of two keys";
        enters += it->kind == ENTER;
        if (it->kind == SETTLE && it->joiners != enters) return "a number of joiners is wrong";
        stage = it->kind;
    }
    return stage == HANDED ? NULL : "a call without an end";
}

/* Says what no order in time has, or null. */
static const char *judge(struct event *events, size_t count) {
    struct call *calls = calloc(count + 1, sizeof *calls);
    const char *wrong = NULL;
    size_t n = 0, idle = count;
    qsort(events, count, sizeof *events, by_call);
    while (idle > 0 && events[idle - 1].is_idle) idle--;
    for (size_t at = 0, end; at < idle && !wrong; at = end) {
        for (end = at + 1; end < idle && events[end].call == events[at].call;) end++;
        wrong = judge_call(&events[at], end - at, &calls[n++]);
    }
    if (!wrong) qsort(calls, n, sizeof *calls, by_opens);
    for (size_t i = 0; i < n && !wrong; i++) {
        for (size_t j = i + 1; j < n && calls[j].key == calls[i].key && calls[j].opens < calls[i].closes; j++)
            if (calls[i].opens < calls[j].closes) wrong = "two calls were open at once";
        for (size_t f = idle; f < count; f++) {
            const struct event *it = &events[f];
            if (it->key == calls[i].key && it->from > calls[i].opens && it->to < calls[i].closes) wrong = "a Forget found no open call";
        }
    }
    free(calls);
    return wrong;
}

/* Asks the program that SFLIGHT_SFCTL names. */
static bool is_legal_by_program(const struct log *log, size_t events) {
    char name[] = "/tmp/sflight-XXXXXX", command[1000], said[200] = "", want[100];
    const char *program = getenv("SFLIGHT_SFCTL");
    if (!program) return true;
    int file = mkstemp(name);
    if (file < 0 || write(file, log->text, log->len) != (ssize_t)log->len) abort();
    close(file);
    snprintf(command, sizeof command, "%s check --timed <%s", program, name);
    FILE *pipe = popen(command, "r");
    if (!pipe || !fgets(said, sizeof said, pipe)) said[0] = 0;
    if (pipe) pclose(pipe);
    unlink(name);
    snprintf(want, sizeof want, "legal in time: %zu events\n", events);
    if (strcmp(said, want) != 0) printf("sfctl: %s", said);
    return strcmp(said, want) == 0;
}

/* Whether the log is legal in time. Says what it has. */
static bool is_legal(struct log *log, const sflight_recorded *recorded, struct counts *counts) {
    size_t lines = 0;
    const char *wrong = NULL;
    for (size_t i = 0; i < log->len; i++) lines += log->text[i] == '\n';
    struct event *events = calloc(lines + 1, sizeof *events);
    *counts = (struct counts){0};
    for (char *at = log->text, *end; !wrong && at < log->text + log->len; at = end + 1) {
        end = strchr(at, '\n');
        *end = 0;
        if (strncmp(at, "{\"format\":4,\"lost\":", 19) == 0) {
            counts->lost += strtoull(at + 19, NULL, 10);
        } else if (read_line(at, &events[counts->all])) {
            const struct event *it = &events[counts->all++];
            counts->of[it->kind]++;
            counts->closed += it->kind == FORGET && !it->is_idle;
        } else {
            wrong = at;
        }
        if (!wrong) *end = '\n';
    }
    if (!wrong && (counts->all != recorded->events || counts->lost != recorded->lost)) wrong = "the counts";
    if (!wrong) wrong = judge(events, counts->all);
    if (!wrong && counts->lost == 0 && !is_legal_by_program(log, counts->all)) wrong = "sfctl";
    if (wrong) printf("%s\n", wrong);
    free(events);
    return !wrong;
}

static void record(sflight_cache *cache, struct log *log) {
    if (sflight_cache_record(cache, write_log, log) != SFLIGHT_DO_DONE) abort();
}

/* Ends the recording. What was recorded is legal, and has so many of these events. */
static void expect(sflight_cache *cache, struct log *log, const char *what, size_t leads, size_t enters, size_t idle, size_t closed) {
    sflight_recorded recorded;
    struct counts counts;
    if (sflight_cache_stop(cache, &recorded) != SFLIGHT_DO_DONE) abort();
    bool is_right = is_legal(log, &recorded, &counts) && recorded.lost == 0 && counts.of[LEAD] == leads && counts.of[ENTER] == enters
        && counts.of[FORGET] == idle + closed && counts.closed == closed && counts.of[SETTLE] == leads && counts.of[HANDED] == leads;
    check(is_right, what);
    if (!is_right) printf("%s", log->text);
    free(log->text);
    *log = (struct log){0};
}

/* A cache, whose time and loads the test says. */

static atomic_llong now_is;

static int64_t clock_of(void *context, bool is_wall) {
    (void)context;
    (void)is_wall;
    return atomic_load(&now_is) + 1000000000;
}

/* More than the limit of each cache here. */
enum { HEAVY = 1000000 };

static atomic_bool fails, is_held, is_heavy;
static atomic_int loading;

static int load(void *context, const uint8_t *key, size_t len, sflight_cache_loaded *loaded) {
    (void)context;
    atomic_fetch_add(&loading, 1);
    while (atomic_load(&is_held)) sched_yield();
    loaded->value = (void *)(uintptr_t)len;
    if (atomic_load(&is_heavy)) loaded->weight = HEAVY;
    sflight_cache_add_tag(loaded, key, len);
    bool is_failing = atomic_load(&fails);
    atomic_fetch_sub(&loading, 1);
    return is_failing ? SFLIGHT_CACHE_FAILED : SFLIGHT_CACHE_LOADED;
}

static int get(sflight_cache *cache, const char *key) {
    sflight_value value;
    int code = sflight_cache_get(cache, (const uint8_t *)key, strlen(key), &value);
    sflight_cache_release(cache, &value);
    return code;
}

static void forget(sflight_cache *cache, const char *key) { sflight_cache_forget(cache, (const uint8_t *)key, strlen(key)); }

static sflight_cache *open_cache(uint64_t limit, sflight_cache_options options) {
    options.limit = limit;
    options.entries = 2000;
    options.load = load;
    sflight_cache *cache = sflight_cache_open(&options);
    if (!cache) abort();
    return cache;
}

/* What each function is recorded as. */
static void functions(void) {
    struct log log = {0};
    sflight_value value;
    sflight_cache *cache = open_cache(100, (sflight_cache_options){0});
    sflight_cache_item items[] = {{.key = (const uint8_t *)"k1", .len = 2}, {.key = (const uint8_t *)"k2", .len = 2}, {.key = (const uint8_t *)"k1", .len = 2}};
    record(cache, &log);
    forget(cache, "k1");
    get(cache, "k1");
    get(cache, "k1");
    bool is_there = sflight_cache_peek(cache, (const uint8_t *)"k1", 2, &value);
    check(is_there && sflight_cache_forget_if(cache, &value), "the value is there");
    sflight_cache_release(cache, &value);
    is_there = sflight_cache_peek(cache, (const uint8_t *)"k1", 2, &value);
    check(!is_there, "it was forgotten");
    const sflight_cache_loaded put = sflight_cache_of_value(cache, NULL);
    check(sflight_cache_put(cache, (const uint8_t *)"k1", 2, &put, NULL), "a put");
    get(cache, "k1");
    sflight_cache_forget_all(cache);
    get(cache, "k1");
    sflight_cache_forget_tag(cache, (const uint8_t *)"k1", 2);
    sflight_cache_forget_tag(cache, (const uint8_t *)"k7", 2);
    get(cache, "k1");
    sflight_cache_get_many(cache, items, 3, NULL);
    for (int i = 0; i < 3; i++) sflight_cache_release(cache, &items[i].value);
    atomic_store(&fails, true);
    check(get(cache, "k3") == SFLIGHT_CACHE_FAILED, "a load that fails");
    atomic_store(&fails, false);
    expect(cache, &log, "what each function is recorded as", 6, 5, 2, 3);
    sflight_cache_close(cache);
}

static void *get_one(void *at) { return (void *)(intptr_t)get(at, "k1"); }

static void begun(void) {
    while (atomic_load(&loading) == 0) sched_yield();
}

/* The thread of the last load in the background. */
static pthread_t behind;
static bool is_behind;

struct work {
    void (*run)(void *of);
    void *of;
};

static void *run_work(void *at) {
    struct work work = *(struct work *)at;
    free(at);
    work.run(work.of);
    return NULL;
}

static bool start_behind(void *context, void (*run)(void *of), void *of) {
    (void)context;
    struct work *work = malloc(sizeof *work);
    if (!work) abort();
    *work = (struct work){run, of};
    if (pthread_create(&behind, NULL, run_work, work)) abort();
    is_behind = true;
    return true;
}

/* Waits for the load in the background. It tells of its end in the recording after its call has been settled. */
static void idle(void) {
    if (is_behind) pthread_join(behind, NULL);
    is_behind = false;
}

/* Gets that join, refreshes, and stale values. */
static void loads(void) {
    struct log log = {0};
    pthread_t threads[2];
    sflight_cache *cache = open_cache(100, (sflight_cache_options){.clock = clock_of, .start = start_behind, .ttl = 1000, .refresh_after = 100, .stale_if_error = 1000});
    record(cache, &log);
    atomic_store(&is_held, true);
    pthread_create(&threads[0], NULL, get_one, cache);
    begun();
    pthread_create(&threads[1], NULL, get_one, cache);
    while (sflight_cache_statistics(cache).joins < 1) sched_yield();
    atomic_store(&is_held, false);
    for (int i = 0; i < 2; i++) pthread_join(threads[i], NULL);
    /* A refresh: the old value is returned meanwhile, and the new one after it. */
    atomic_store(&is_held, true);
    atomic_fetch_add(&now_is, 200);
    get(cache, "k1");
    begun();
    get(cache, "k1");
    atomic_store(&is_held, false);
    idle();
    get(cache, "k1");
    /* A refresh that fails, and a get of a value that has its end: it stands in. */
    atomic_store(&fails, true);
    atomic_fetch_add(&now_is, 200);
    get(cache, "k1");
    idle();
    atomic_fetch_add(&now_is, 1000);
    check(get(cache, "k1") == SFLIGHT_CACHE_STALE, "a stale value");
    atomic_store(&fails, false);
    /* A refresh whose value is forgotten. */
    get(cache, "k1");
    atomic_store(&is_held, true);
    atomic_fetch_add(&now_is, 200);
    get(cache, "k1");
    begun();
    forget(cache, "k1");
    atomic_store(&is_held, false);
    idle();
    expect(cache, &log, "joiners, refreshes and stale values", 4, 7, 0, 2);
    sflight_cache_close(cache);
}

/* What was there before the recording is not in it; what is there at its end is. */
static void parts(void) {
    struct log log = {0};
    pthread_t thread;
    sflight_cache *cache = open_cache(100, (sflight_cache_options){0});
    get(cache, "k2");
    get(cache, "k3");
    atomic_store(&is_held, true);
    pthread_create(&thread, NULL, get_one, cache);
    begun();
    record(cache, &log);
    check(sflight_cache_record(cache, write_log, &log) == SFLIGHT_DO_RECORDED, "two recordings");
    get(cache, "k2");
    forget(cache, "k2");
    forget(cache, "k1");
    atomic_store(&is_held, false);
    pthread_join(thread, NULL);
    get(cache, "k2");
    get(cache, "k2");
    get(cache, "k3");
    expect(cache, &log, "a recording of a part", 1, 1, 2, 0);
    record(cache, &log);
    get(cache, "k2");
    forget(cache, "k2");
    expect(cache, &log, "what another recording had", 0, 0, 1, 0);
    check(sflight_cache_stop(cache, NULL) == SFLIGHT_DO_NOT_RECORDED, "stopped twice");
    /* A recording ends with its cache. */
    record(cache, &log);
    get(cache, "k2");
    get(cache, "k2");
    sflight_cache_close(cache);
    free(log.text);
}

static void evictions(void) {
    struct log log = {0};
    sflight_recorded recorded;
    struct counts counts;
    sflight_cache *cache = open_cache(2, (sflight_cache_options){0});
    record(cache, &log);
    for (int i = 0; i < 5; i++) get(cache, (const char *[]){"k1", "k2", "k3", "k4", "k5"}[i]);
    sflight_cache_stop(cache, &recorded);
    check(is_legal(&log, &recorded, &counts) && recorded.evictions == 3 && counts.of[LEAD] == 5, "values that make room");
    free(log.text);
    sflight_cache_close(cache);
}

/* What a writer that is stopped does not take is lost and counted, and what is left is legal. */
static void slow_writer(void) {
    struct log log = {0};
    sflight_recorded recorded;
    struct counts counts;
    char key[20];
    sflight_cache *cache = open_cache(100, (sflight_cache_options){0});
    atomic_store(&log.waits, true);
    record(cache, &log);
    for (int i = 0; i < 60000; i++) {
        snprintf(key, sizeof key, "k%d", i % 8);
        get(cache, key);
        if (i % 100 == 0) forget(cache, key);
    }
    atomic_store(&log.waits, false);
    sflight_cache_stop(cache, &recorded);
    check(is_legal(&log, &recorded, &counts) && recorded.lost > 0 && recorded.events + recorded.lost >= 60000, "hits are lost, and calls as a whole");
    free(log.text);
    sflight_cache_close(cache);
}

/* Askings of one thread find a crowd, until this is over. Linked with --wrap. */
static atomic_bool is_crowded;
static _Thread_local bool finds_crowd;

uint32_t __real_sflight_ask(sflight_handle *handle, sflight_call *call, const uint8_t *key, size_t len, uint32_t tries, sflight_id *id,
                            sflight_stamp *stamp);
uint32_t __wrap_sflight_ask(sflight_handle *handle, sflight_call *call, const uint8_t *key, size_t len, uint32_t tries, sflight_id *id,
                            sflight_stamp *stamp);

uint32_t __wrap_sflight_ask(sflight_handle *handle, sflight_call *call, const uint8_t *key, size_t len, uint32_t tries, sflight_id *id,
                            sflight_stamp *stamp) {
    static atomic_int crowds;
    if (!finds_crowd || !atomic_load(&is_crowded)) return __real_sflight_ask(handle, call, key, len, tries, id, stamp);
    /* It has found one by now: the load may end. */
    if (atomic_fetch_add(&crowds, 1) == 1) atomic_store(&is_held, false);
    return SFLIGHT_CROWDED;
}

static void *get_in_crowd(void *cache) {
    finds_crowd = true;
    return get_one(cache);
}

/* A call that has as many holders as can be counted is settled, while a get waits for one of them to leave. */
static void crowded(void) {
    struct log log = {0};
    pthread_t leader, another;
    void *code;
    sflight_cache *cache = open_cache(100, (sflight_cache_options){0});
    record(cache, &log);
    atomic_store(&is_held, true);
    atomic_store(&is_crowded, true);
    pthread_create(&leader, NULL, get_one, cache);
    begun();
    pthread_create(&another, NULL, get_in_crowd, cache);
    pthread_join(leader, NULL);
    atomic_store(&is_crowded, false);
    pthread_join(another, &code);
    check((intptr_t)code == SFLIGHT_CACHE_HIT, "a get that found a crowd, once its call is settled");
    expect(cache, &log, "a crowd", 1, 1, 0, 0);
    sflight_cache_close(cache);
}

static sflight_cache *refusing;

/* Forgets the key whose load it is asked to run, and runs nothing. */
static bool forget_and_refuse(void *context, void (*run)(void *of), void *of) {
    (void)context, (void)run, (void)of;
    forget(refusing, "k1");
    return false;
}

/* Calls that load nothing are not in the log. But a Forget that closed one is. */
static void forgotten_before_it_ran(void) {
    struct log log = {0};
    const sflight_cache_how how = {.timeout = 1};
    sflight_value value;
    sflight_cache *cache = refusing = open_cache(100, (sflight_cache_options){.refresh_after = 1, .clock = clock_of, .start = forget_and_refuse});
    get(cache, "k1");
    now_is += 1;
    record(cache, &log);
    check(get(cache, "k1") == SFLIGHT_CACHE_HIT, "a value from before the recording, whose refresh has no thread");
    check(sflight_cache_get_with(cache, (const uint8_t *)"k1", 2, &how, &value) == SFLIGHT_CACHE_NO_MEMORY, "a load without a thread");
    expect(cache, &log, "Forgets of calls that load nothing", 0, 0, 2, 0);
    sflight_cache_close(cache);
}

static atomic_int writes, misses_of_writer;

static int write_and_get(void *cache, const char *text, size_t len) {
    (void)text, (void)len;
    writes++;
    misses_of_writer += get(cache, "k1") != SFLIGHT_CACHE_HIT;
    return 0;
}

/* A cache is closed while it is recorded. The writer may use it until that has ended. */
static void closed_while_recorded(void) {
    sflight_cache *cache = open_cache(100, (sflight_cache_options){0});
    get(cache, "k1");
    if (sflight_cache_record(cache, write_and_get, cache) != SFLIGHT_DO_DONE) abort();
    get(cache, "k2");
    while (atomic_load(&writes) == 0) sched_yield();
    int before = atomic_load(&writes);
    sflight_cache_close(cache);
    check(writes > before && misses_of_writer == 0, "a writer uses the cache that is being closed");
}

/* Calls whose values are not kept, and that other gets have joined: the call of each Enter is in the log. */

/* A lane keeps so many events. */
enum { LANE_EVENTS = 1 << 14 };

/* Its lane has room for one event more after the hits: for an Enter of "k1", but not for its call. */
static void *get_hits_and_one(void *cache) {
    for (int i = 0; i < LANE_EVENTS - 1; i++) get(cache, "k2");
    return get_one(cache);
}

static void joined_by_full_lanes(void) {
    struct log log = {.waits = true};
    pthread_t threads[2];
    sflight_recorded recorded;
    struct counts counts;
    sflight_cache *cache = open_cache(100, (sflight_cache_options){0});
    record(cache, &log);
    while (!atomic_load(&log.is_called)) sched_yield();
    get(cache, "k2");
    atomic_store(&is_heavy, true);
    atomic_store(&is_held, true);
    for (int i = 0; i < 2; i++) pthread_create(&threads[i], NULL, get_hits_and_one, cache);
    while (sflight_cache_statistics(cache).joins < 1) sched_yield();
    atomic_store(&is_held, false);
    for (int i = 0; i < 2; i++) pthread_join(threads[i], NULL);
    atomic_store(&is_heavy, false);
    atomic_store(&log.waits, false);
    sflight_cache_stop(cache, &recorded);
    bool is_right = is_legal(&log, &recorded, &counts) && recorded.lost == 0 && counts.of[LEAD] == 2 && counts.of[ENTER] == 2 * (LANE_EVENTS - 1) + 1;
    check(is_right, "a call that was joined, whose lane is full");
    free(log.text);
    sflight_cache_close(cache);
}

enum { JOINING = 6 };

static atomic_bool is_joining;

/* It sleeps, so that other gets join, on a machine with one processor too. */
static int load_heavy(void *context, const uint8_t *key, size_t len, sflight_cache_loaded *loaded) {
    int code = load(context, key, len, loaded);
    nanosleep(&(struct timespec){0, 20000}, NULL);
    loaded->weight = HEAVY;
    return code;
}

static void *get_until_the_end(void *cache) {
    while (atomic_load(&is_joining)) get(cache, "k1");
    return NULL;
}

/* A recording ends while such calls are being told. Whether one of its own calls has been told by then is chance. Where none was in
 * all rounds, one more round lasts longer. Each thread may be in a get from before the recording, may lead one call by that, which
 * JOINING - 1 others join, and may be in a get at the end. A join that is none of these is recorded. */
static void joined_at_the_end(void) {
    pthread_t threads[JOINING];
    sflight_recorded recorded;
    struct counts counts;
    size_t enters = 0;
    bool is_right = true;
    const sflight_cache_options options = {.limit = 100, .entries = 2000, .load = load_heavy};
    sflight_cache *cache = sflight_cache_open(&options);
    if (!cache) abort();
    atomic_store(&is_joining, true);
    for (int i = 0; i < JOINING; i++) pthread_create(&threads[i], NULL, get_until_the_end, cache);
    for (int i = 0; is_right && (i < ROUNDS / 8 || (enters == 0 && i == ROUNDS / 8)); i++) {
        struct log log = {0};
        record(cache, &log);
        uint64_t joins = sflight_cache_statistics(cache).joins + (i < ROUNDS / 8 ? JOINING : (JOINING + 2) * JOINING);
        while (sflight_cache_statistics(cache).joins < joins) sched_yield();
        sflight_cache_stop(cache, &recorded);
        is_right = is_legal(&log, &recorded, &counts);
        enters += counts.of[ENTER];
        free(log.text);
    }
    atomic_store(&is_joining, false);
    for (int i = 0; i < JOINING; i++) pthread_join(threads[i], NULL);
    check(is_right, "calls that were joined, at the end of a recording");
    check(enters > 0, "some of these calls are recorded");
    sflight_cache_close(cache);
}

/* A stress: gets of each form beside Forgets of each form. */

enum { THREADS = 5, KEYS = 24 };

static atomic_uint loads_of_all;

static int load_stressed(void *context, const uint8_t *key, size_t len, sflight_cache_loaded *loaded) {
    unsigned n = atomic_fetch_add(&loads_of_all, 1);
    (void)context;
    if (n % 3 == 0) sched_yield();
    loaded->value = (void *)(uintptr_t)n;
    if (n % 2) sflight_cache_add_tag(loaded, key, len > 2 ? 2 : len);
    if (n % 17 == 0) loaded->ttl = -1;
    return n % 11 == 0 ? SFLIGHT_CACHE_FAILED : n % 13 == 0 ? SFLIGHT_CACHE_MISSING : SFLIGHT_CACHE_LOADED;
}

static void load_many(void *context, sflight_cache_loading *loadings, size_t count) {
    for (size_t i = 0; i < count; i++) loadings[i].code = load_stressed(context, loadings[i].key, loadings[i].len, &loadings[i].loaded);
}

struct stressing {
    sflight_cache *cache;
    unsigned seed;
};

static void stress_writes(sflight_cache *cache, const uint8_t *key, size_t len, unsigned form) {
    if (form < 6) {
        sflight_cache_forget(cache, key, len);
    } else if (form < 9) {
        const sflight_cache_token token = sflight_cache_draw(cache, key, len);
        const sflight_cache_loaded put = sflight_cache_of_value(cache, NULL);
        sflight_cache_put(cache, key, len, &put, form < 7 ? NULL : &token);
    } else if (form < 11) {
        sflight_cache_forget_tag(cache, key, len > 2 ? 2 : len);
    } else if (form == 11) {
        sflight_cache_forget_all(cache);
    } else {
        sflight_value value;
        if (sflight_cache_peek(cache, key, len, &value)) sflight_cache_forget_if(cache, &value);
        sflight_cache_release(cache, &value);
    }
}

static void *stress_one(void *at) {
    struct stressing *it = at;
    char keys[2][20];
    for (int n = 0; n < ROUNDS; n++) {
        const sflight_cache_how how = {.timeout = 1 + rand_r(&it->seed) % 200000};
        sflight_cache_item items[2];
        for (int i = 0; i < 2; i++) {
            int len = snprintf(keys[i], sizeof keys[i], "k%d", rand_r(&it->seed) % KEYS);
            items[i] = (sflight_cache_item){.key = (const uint8_t *)keys[i], .len = (size_t)len};
        }
        unsigned form = (unsigned)rand_r(&it->seed) % 100;
        if (form < 14) {
            stress_writes(it->cache, items[0].key, items[0].len, form);
        } else if (form < 20) {
            sflight_cache_get_many(it->cache, items, 2, form < 17 ? NULL : &how);
            for (int i = 0; i < 2; i++) sflight_cache_release(it->cache, &items[i].value);
        } else {
            sflight_value value;
            int code = form < 24 ? sflight_cache_get_with(it->cache, items[0].key, items[0].len, &how, &value) : sflight_cache_get(it->cache, items[0].key, items[0].len, &value);
            sflight_cache_release(it->cache, &value);
            if (code == SFLIGHT_CACHE_NO_MEMORY) abort();
        }
    }
    return NULL;
}

static void stress(const char *what, uint64_t limit, sflight_cache_options options) {
    pthread_t threads[THREADS];
    struct stressing all[THREADS];
    struct log log = {0};
    sflight_recorded recorded;
    struct counts counts;
    options.limit = limit;
    options.entries = 16;
    options.loads = 1;
    options.load = load_stressed;
    options.load_many = load_many;
    sflight_cache *cache = sflight_cache_open(&options);
    if (!cache) abort();
    record(cache, &log);
    for (unsigned i = 0; i < THREADS; i++) {
        all[i] = (struct stressing){cache, i + (unsigned)limit};
        if (pthread_create(&threads[i], NULL, stress_one, &all[i])) abort();
    }
    for (int i = 0; i < THREADS; i++) pthread_join(threads[i], NULL);
    sflight_cache_stop(cache, &recorded);
    bool is_right = is_legal(&log, &recorded, &counts) && recorded.lost == 0 && counts.of[ENTER] > 0 && counts.closed > 0 && counts.of[FORGET] > counts.closed;
    check(is_right, what);
    printf("%s: %zu events, %zu leads, %zu enters, %zu Forgets that closed one of %zu, %llu evictions\n", what, counts.all, counts.of[LEAD],
           counts.of[ENTER], counts.closed, counts.of[FORGET], (unsigned long long)recorded.evictions);
    free(log.text);
    sflight_cache_close(cache);
}

int main(void) {
    alarm(LIMIT);
    setvbuf(stdout, NULL, _IOLBF, 0);
    functions();
    loads();
    parts();
    evictions();
    slow_writer();
    crowded();
    forgotten_before_it_ran();
    closed_while_recorded();
    joined_by_full_lanes();
    joined_at_the_end();
    /* A stress takes long, and shows less of what is wrong. */
    if (failed > 0) return 1;
    stress("a stress of all", 12, (sflight_cache_options){.ttl = 2000000, .jitter = 0.5, .idle = 1000000, .refresh_after = 200000, .stale_if_error = 3000000,
        .failed_ttl = 300000, .missing_ttl = 300000});
    stress("a stress of refreshes", 1000, (sflight_cache_options){.refresh_after = 100000, .failed_ttl = 1000000000});
    stress("a stress without lifetimes", 8, (sflight_cache_options){0});
    printf("%d passed, %d failed\n", passed, failed);
    return failed > 0;
}
