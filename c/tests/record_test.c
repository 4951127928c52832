/* Tests of recordings of sflight_do.h, by the rules of docs/RECORDS.md. The clock, the memory and some calls of the library are the test's, so that it
 * says which thread is where at which time. */
#include "sflight.h"
#include <pthread.h>
#include <sched.h>
#include <signal.h>
#include <stdatomic.h>
#include <stdio.h>
#include <stdlib.h>
#include <string.h>
#include <time.h>
#include <unistd.h>

static uint32_t test_ask(sflight_handle *handle, sflight_call *call, const uint8_t *key, size_t len, uint32_t tries, sflight_id *id, sflight_stamp *stamp);
static uint32_t test_settle(sflight_handle *handle, sflight_call *call, uint64_t value, sflight_audience *audience);
static uint32_t test_forget(sflight_handle *handle, const uint8_t *key, size_t len, uint32_t tries, sflight_id *id);
static int test_clock(clockid_t clock, struct timespec *now);
static int test_create(pthread_t *thread, const pthread_attr_t *attributes, void *(*run)(void *), void *context);
static void *test_malloc(size_t size);
static void *test_aligned_alloc(size_t alignment, size_t size);

#define sflight_ask test_ask
#define sflight_settle test_settle
#define sflight_forget test_forget
#define clock_gettime test_clock
#define pthread_create test_create
#include "sflight_do.c"
#define malloc test_malloc
#define aligned_alloc test_aligned_alloc
#include "sflight_record.c"
#undef sflight_ask
#undef sflight_settle
#undef sflight_forget
#undef clock_gettime
#undef pthread_create
#undef malloc
#undef aligned_alloc

/* How many calls and Forgets each thread of a stress makes. */
#ifndef ROUNDS
#define ROUNDS 400
#endif

/* After so many seconds it hangs. */
#ifndef LIMIT
#define LIMIT 1400
#endif

static atomic_int passed, failed;

static void hangs_at(int number) {
    static const char text[] = "FAILED: it hangs\n";
    (void)number;
    if (write(STDOUT_FILENO, text, sizeof text - 1) < 0) _exit(2);
    _exit(1);
}

static void check(bool holds, const char *what) {
    if (holds) { passed++; return; }
    failed++;
    printf("FAILED: %s\n", what);
}

static void sleep_ms(long ms) { nanosleep(&(struct timespec){ms / 1000, ms % 1000 * 1000000}, NULL); }

/* Settings of the test. */

/* The clock of the threads that are timed moves where the test says, and by 100 in a call of the library. */
static atomic_ullong now_at;
static _Thread_local bool is_timed;

static int test_clock(clockid_t clock, struct timespec *now) {
    if (!is_timed) return clock_gettime(clock, now);
    uint64_t at = atomic_load(&now_at);
    *now = (struct timespec){(time_t)(at / 1000000000), (long)(at % 1000000000)};
    return 0;
}

static void tick(void) {
    if (is_timed) atomic_fetch_add(&now_at, 100);
}

/* Where a thread stops until the test opens it. */
struct gate {
    atomic_bool is_reached, is_open;
};

static void pass(struct gate **gate) {
    struct gate *it = *gate;
    *gate = NULL;
    if (!it) return;
    atomic_store(&it->is_reached, true);
    while (!atomic_load(&it->is_open)) sched_yield();
}

static void reached(struct gate *gate) {
    while (!atomic_load(&gate->is_reached)) sched_yield();
}

static _Thread_local struct gate *before_ask, *after_ask, *before_settle, *before_forget, *after_forget;

static uint32_t test_ask(sflight_handle *handle, sflight_call *call, const uint8_t *key, size_t len, uint32_t tries, sflight_id *id, sflight_stamp *stamp) {
    pass(&before_ask);
    uint32_t code = sflight_ask(handle, call, key, len, tries, id, stamp);
    tick();
    pass(&after_ask);
    return code;
}

static uint32_t test_settle(sflight_handle *handle, sflight_call *call, uint64_t value, sflight_audience *audience) {
    pass(&before_settle);
    uint32_t code = sflight_settle(handle, call, value, audience);
    tick();
    return code;
}

static uint32_t test_forget(sflight_handle *handle, const uint8_t *key, size_t len, uint32_t tries, sflight_id *id) {
    pass(&before_forget);
    uint32_t code = sflight_forget(handle, key, len, tries, id);
    tick();
    pass(&after_forget);
    return code;
}

static bool has_no_thread;

static int test_create(pthread_t *thread, const pthread_attr_t *attributes, void *(*run)(void *), void *context) {
    return has_no_thread ? EAGAIN : pthread_create(thread, attributes, run, context);
}

/* The allocations of this size are refused, or the one of this number. */
static atomic_size_t refused_size;
static atomic_long refused_number;
static atomic_bool was_refused;
enum { NO_SIZE = 0 };

static bool is_refused(size_t size) {
    bool is = (refused_size != NO_SIZE && refused_size == size) || atomic_fetch_sub(&refused_number, 1) == 1;
    if (is) was_refused = true;
    return is;
}

static void *test_malloc(size_t size) { return is_refused(size) ? NULL : malloc(size); }

static void *test_aligned_alloc(size_t alignment, size_t size) { return is_refused(size) ? NULL : aligned_alloc(alignment, size); }

/* A log. */

struct log {
    char *text;
    size_t len;
    atomic_int writes;
    int fails_at;       /* the number of the write that fails, or 0 */
    struct gate *waits; /* in the write that fails, or in the first */
};

static int write_log(void *context, const char *text, size_t len) {
    struct log *log = context;
    bool is_failing = atomic_fetch_add(&log->writes, 1) + 1 == log->fails_at;
    if (is_failing || log->fails_at == 0) pass(&log->waits);
    if (is_failing) return 7;
    if (len == 0 || text[len - 1] != '\n') return 8;
    log->text = realloc(log->text, log->len + len + 1);
    if (!log->text) abort();
    memcpy(log->text + log->len, text, len);
    log->len += len;
    log->text[log->len] = 0;
    return 0;
}

static void free_log(struct log *log) {
    free(log->text);
    *log = (struct log){0};
}

static void record(sflight_pool *pool, struct log *log) {
    if (sflight_do_record(pool, write_log, log) != SFLIGHT_DO_DONE) abort();
}

static sflight_recorded stop(sflight_pool *pool) {
    sflight_recorded recorded;
    if (sflight_do_stop(pool, &recorded) != SFLIGHT_DO_DONE) abort();
    return recorded;
}

/* A line of a log. */
struct line {
    char *text, *end;
    enum { LEAD, ENTER, FORGET, SETTLE, HANDED, FORMAT } kind;
    bool is_idle;
    uint64_t by, call, member, joiners, lost, from, to;
    const char *key;
    size_t key_len;
};

static uint64_t number_after(const struct line *line, const char *what, bool *is_there) {
    const char *at = strstr(line->text, what);
    *is_there = at != NULL;
    return *is_there ? strtoull(at + strlen(what), NULL, 10) : 0;
}

static uint64_t name_after(const struct line *line, const char *what, bool *is_there) {
    uint64_t caller = number_after(line, what, is_there);
    return *is_there ? name_at((uint32_t)caller, strtoull(strchr(strstr(line->text, what), ',') + 1, NULL, 10)) : 0;
}

/* The lines of the log, whose number is written; null where one is no record. */
static struct line *lines_of(const struct log *log, size_t *count) {
    static const char *const kinds[] = {"{\"e\":\"lead\",", "{\"e\":\"enter\",", "{\"e\":\"forget\",", "{\"e\":\"settle\",", "{\"e\":\"handed\",", "{\"format\":4,\"lost\":"};
    size_t room = 1;
    for (size_t i = 0; i < log->len; i++) room += log->text[i] == '\n';
    struct line *lines = calloc(room, sizeof *lines);
    *count = 0;
    for (char *at = log->text; at && *at;) {
        struct line *line = &lines[(*count)++];
        bool is_there;
        size_t kind = 0;
        line->text = at;
        line->end = strchr(at, '\n');
        if (!line->end) return free(lines), NULL;
        at = line->end + 1;
        *line->end = 0;
        while (kind < 6 && strncmp(line->text, kinds[kind], strlen(kinds[kind])) != 0) kind++;
        if (kind == 6) return free(lines), NULL;
        line->kind = (int)kind;
        line->lost = number_after(line, "{\"format\":4,\"lost\":", &is_there);
        if (kind == FORMAT) {
            *line->end = '\n';
            continue;
        }
        line->by = number_after(line, "\"by\":", &is_there);
        line->call = name_after(line, kind == FORGET ? "\"closed\":[" : "\"c\":[", &is_there);
        line->is_idle = kind == FORGET && !is_there;
        line->member = name_after(line, "\"m\":[", &is_there);
        line->joiners = number_after(line, "\"joiners\":", &is_there);
        line->from = number_after(line, "\"at\":[", &is_there);
        line->to = is_there ? strtoull(strchr(strstr(line->text, "\"at\":["), ',') + 1, NULL, 10) : 0;
        if (!is_there || line->from > line->to) return free(lines), NULL;
        const char *key = strstr(line->text, "\"k\":\"");
        *line->end = '\n';
        if (kind > FORGET) continue;
        line->key = key + 5;
        while (line->key[line->key_len] != '"') line->key_len += line->key[line->key_len] == '\\' ? 2 : 1;
    }
    return lines;
}

/* A call in a log. */
struct call {
    const struct line *lead;
    size_t count;
    uint64_t opens, closes;
};

static bool is_one_key(const struct line *one, const struct line *other) {
    return one->key_len == other->key_len && memcmp(one->key, other->key, one->key_len) == 0;
}

/* Whether the lines of a call are what they should be: how many there are. */
static size_t call_of(const struct line *line, size_t count, struct call *call) {
    uint64_t latest[HANDED + 1] = {0}, joiners = 0;
    int stage = LEAD;
    bool is_closed = false;
    *call = (struct call){.lead = line, .opens = UINT64_MAX};
    for (size_t i = 0; i < count; i++, line++) {
        if (line->kind == FORMAT || line->call != call->lead->call || (int)line->kind < stage || (i > 0) != (line->kind > LEAD)) return 0;
        if (stage == (int)line->kind && stage > ENTER) return 0;
        if (line->by < 1 || line->by > LANES) return 0;
        if (line->kind == ENTER ? line->member >> 32 != line->by : line->kind != FORGET && line->call >> 32 != line->by) return 0;
        if (line->kind <= FORGET && !is_one_key(line, call->lead)) return 0;
        for (int before = LEAD; before < (int)line->kind; before++) if (latest[before] > line->to) return 0;
        if (line->from > latest[line->kind]) latest[line->kind] = line->from;
        joiners += line->kind == ENTER;
        if (line->to < call->opens) call->opens = line->to;
        if (!is_closed && line->kind < HANDED && line->from > call->closes) call->closes = line->from;
        is_closed |= line->kind >= FORGET;
        if (line->kind == SETTLE && line->joiners != joiners) return 0;
        stage = line->kind;
        if (stage == HANDED) return call->count = i + 1;
    }
    return 0;
}

static int by_name(const void *one, const void *other) {
    uint64_t a = *(const uint64_t *)one, b = *(const uint64_t *)other;
    return a < b ? -1 : a > b;
}

static int by_opens(const void *one, const void *other) {
    const struct call *a = one, *b = other;
    return a->opens < b->opens ? -1 : a->opens > b->opens;
}

/* Whether the log is what RECORDS.md says, and its events have an order in time. */
static bool is_legal(const struct log *log, const sflight_recorded *recorded) {
    size_t count, calls = 0, idle = 0, names = 0;
    struct line *lines = lines_of(log, &count);
    if (!lines) return false;
    struct call *all = calloc(count + 1, sizeof *all);
    const struct line **forgets = calloc(count + 1, sizeof *forgets);
    uint64_t *named = calloc(2 * count + 1, sizeof *named), events = 0, lost = 0;
    const char *wrong = lines[0].kind != FORMAT || lines[0].lost != 0 ? "the first line" : NULL;
    for (size_t at = 0; at < count && !wrong;) {
        if (lines[at].kind == FORMAT) {
            lost += lines[at++].lost;
        } else if (lines[at].is_idle) {
            forgets[idle++] = &lines[at++];
            events++;
        } else {
            size_t lines_of_call = call_of(&lines[at], count - at, &all[calls]);
            if (lines_of_call == 0) wrong = lines[at].text;
            for (size_t i = 0; i < lines_of_call; i++) {
                if (lines[at + i].kind == LEAD) named[names++] = lines[at + i].call;
                if (lines[at + i].kind == ENTER) named[names++] = lines[at + i].member;
            }
            events += lines_of_call;
            calls++;
            at += lines_of_call;
        }
    }
    if (events != recorded->events || lost != recorded->lost) wrong = wrong ? wrong : "the counts";
    qsort(named, names, sizeof *named, by_name);
    for (size_t i = 1; i < names; i++) if (named[i] == named[i - 1]) wrong = "a name twice";
    qsort(all, calls, sizeof *all, by_opens);
    for (size_t i = 0; i < calls && !wrong; i++) {
        const struct call *a = &all[i];
        for (const struct call *b = a + 1; b < all + calls && b->opens < a->closes; b++) {
            if (is_one_key(a->lead, b->lead) && a->opens < b->closes) wrong = "two calls were open at once";
        }
        for (size_t j = 0; j < idle; j++) {
            const struct line *f = forgets[j];
            if (is_one_key(a->lead, f) && a->opens < f->from && f->to < a->closes) wrong = "a Forget found no open call";
        }
    }
    if (wrong) printf("not legal: %.200s\n", wrong);
    free(lines);
    free(all);
    free(forgets);
    free(named);
    return !wrong;
}

/* The log without its first line, sorted by the time of a call or Forget, with letters in place of names. */
static char *shape_of(const struct log *log) {
    size_t count, parts = 0, len = 0, names = 0;
    struct line *lines = lines_of(log, &count);
    if (!lines) return strdup("no records");
    const struct line **part = calloc(count + 1, sizeof *part);
    uint64_t *named = calloc(2 * count + 1, sizeof *named);
    char *shape = calloc(1, 2 * log->len + 64);
    for (size_t i = 1; i < count; i++) if (lines[i].kind == LEAD || lines[i].is_idle || lines[i].kind == FORMAT) part[parts++] = &lines[i];
    for (size_t i = 1; i < parts; i++) {
        for (size_t j = i; j > 0 && part[j]->from < part[j - 1]->from; j--) {
            const struct line *other = part[j];
            part[j] = part[j - 1];
            part[j - 1] = other;
        }
    }
    for (size_t i = 0; i < parts; i++) {
        const struct line *line = part[i];
        do {
            for (const char *at = line->text; at <= line->end;) {
                unsigned long long caller, number;
                int used = 0;
                bool is_value = sscanf(at, "\"%llu.%llu\"%n", &caller, &number, &used) == 2 && used > 0;
                if (strncmp(at, "\"by\":", 5) == 0) {
                    at = strchr(at, ',') + 1;
                } else if (strncmp(at, "\"at\":[", 6) == 0) {
                    while (*at != ']') shape[len++] = *at++;
                } else if (is_value || (sscanf(at, "[%llu,%llu]%n", &caller, &number, &used) == 2 && used > 0)) {
                    uint64_t name = name_at((uint32_t)caller, number);
                    size_t letter = 0;
                    while (letter < names && named[letter] != name) letter++;
                    if (letter == names) named[names++] = name;
                    shape[len++] = (char)('A' + letter);
                    at += used;
                } else {
                    shape[len++] = *at++;
                }
            }
            line++;
        } while (line < lines + count && line->kind != LEAD && !line->is_idle && line->kind != FORMAT);
    }
    free(lines);
    free(part);
    free(named);
    return shape;
}

static void expect(struct log *log, const char *what, const char *shape) {
    char *is = shape_of(log);
    bool holds = strncmp(log->text, "{\"format\":4,\"lost\":0}\n", 22) == 0 && strcmp(is, shape) == 0;
    check(holds, what);
    if (!holds) printf("it is\n%sand not\n%s", is, shape);
    free(is);
    free_log(log);
}

/* A thread that asks or forgets. */
struct job {
    sflight_pool *pool;
    const char *key;
    bool forgets;
    int64_t timeout;
    struct gate *load, *before_ask, *after_ask, *before_settle, *before_forget, *after_forget;
    pthread_t thread;
    int code;
    bool closed;
    sflight_got got;
};

static uint64_t loads_at_gate(void *context, const uint8_t *key, size_t len) {
    struct gate *gate = context;
    (void)key;
    (void)len;
    pass(&gate);
    return 1;
}

static void ask_now(struct job *job) {
    const uint8_t *key = (const uint8_t *)job->key;
    if (job->forgets) job->closed = sflight_do_forget(job->pool, key, strlen(job->key));
    else job->code = sflight_do(job->pool, key, strlen(job->key), loads_at_gate, job->load, job->timeout, &job->got);
}

static void *run_job(void *at) {
    struct job *job = at;
    is_timed = true;
    before_ask = job->before_ask;
    after_ask = job->after_ask;
    before_settle = job->before_settle;
    before_forget = job->before_forget;
    after_forget = job->after_forget;
    ask_now(job);
    return NULL;
}

static void start(struct job *job, uint64_t at) {
    atomic_store(&now_at, at);
    if (!job->forgets && job->timeout == 0) job->timeout = SFLIGHT_DO_FOREVER;
    if (pthread_create(&job->thread, NULL, run_job, job) != 0) abort();
}

static void end(struct job *job) { pthread_join(job->thread, NULL); }

static void run(struct job *job, uint64_t at) {
    start(job, at);
    end(job);
}

static void open_at(struct gate *gate, uint64_t at) {
    atomic_store(&now_at, at);
    atomic_store(&gate->is_open, true);
}

static void joined(sflight_pool *pool, uint64_t joins) {
    while (sflight_do_statistics(pool).joins < joins) sched_yield();
}

#define LEADS(letter, key, from, to) "{\"e\":\"lead\",\"k\":\"" key "\",\"c\":" letter ",\"own\":null,\"at\":[" from "," to "]}\n"
#define ENTERS(letter, key, member, from, to) "{\"e\":\"enter\",\"k\":\"" key "\",\"c\":" letter ",\"m\":" member ",\"at\":[" from "," to "]}\n"
#define CLOSES(letter, key, from, to) "{\"e\":\"forget\",\"k\":\"" key "\",\"closed\":" letter ",\"at\":[" from "," to "]}\n"
#define SETTLES(letter, joiners, from, to) "{\"e\":\"settle\",\"c\":" letter ",\"ok\":" letter ",\"joiners\":" joiners ",\"at\":[" from "," to "]}\n" \
    "{\"e\":\"handed\",\"c\":" letter ",\"at\":[" from "," to "]}\n"

/* Calls of the library. */
static void calls(void) {
    sflight_pool *pool = sflight_do_open(0, NULL);
    struct log log = {0};
    record(pool, &log);
    run(&(struct job){.pool = pool, .key = "k"}, 1000);
    sflight_recorded recorded = stop(pool);
    check(recorded.events == 3 && recorded.lost == 0 && recorded.failed == 0, "three events");
    expect(&log, "a call that nobody joins", LEADS("A", "k", "1000", "1100") SETTLES("A", "0", "1100", "1200"));

    record(pool, &log);
    run(&(struct job){.pool = pool, .key = "k", .forgets = true}, 1000);
    run(&(struct job){.pool = pool, .key = "k", .forgets = true}, 2000);
    check(stop(pool).events == 2, "two events");
    expect(&log, "a Forget of what was loaded before, and one more", "{\"e\":\"forget\",\"k\":\"k\",\"closed\":null,\"at\":[1000,1100]}\n"
                                                                  "{\"e\":\"forget\",\"k\":\"k\",\"closed\":null,\"at\":[2000,2100]}\n");

    struct gate gate = {0};
    struct job leader = {.pool = pool, .key = "k", .load = &gate}, joiner = {.pool = pool, .key = "k"};
    record(pool, &log);
    start(&leader, 1000);
    reached(&gate);
    start(&joiner, 2000);
    joined(pool, 1);
    run(&(struct job){.pool = pool, .key = "k", .forgets = true}, 3000);
    run(&(struct job){.pool = pool, .key = "k", .forgets = true}, 4000);
    run(&(struct job){.pool = pool, .key = "k"}, 5000);
    open_at(&gate, 6000);
    end(&leader);
    end(&joiner);
    check(leader.got.led && leader.got.joiners == 1 && !joiner.got.led && joiner.got.value == 1, "a joiner gets the value");
    recorded = stop(pool);
    check(is_legal(&log, &recorded), "a call that is closed, and the next");
    expect(&log, "a joiner, a Forget, one that finds nothing, and the next call",
           LEADS("A", "k", "1000", "1100") ENTERS("A", "k", "B", "2000", "6100") CLOSES("A", "k", "3000", "3100") SETTLES("A", "1", "6000", "6100")
           "{\"e\":\"forget\",\"k\":\"k\",\"closed\":null,\"at\":[4000,4100]}\n"
           LEADS("C", "k", "5000", "5100") SETTLES("C", "0", "5100", "5200"));
    sflight_do_close(pool);
}

/* Without a recording, in a place that a recorded call has left. */
static void not_recorded(void) {
    sflight_pool *pool = sflight_do_open(1, NULL);
    struct log log = {0};
    struct gate gate = {0};
    struct job leader = {.pool = pool, .key = "k", .load = &gate}, joiner = {.pool = pool, .key = "k"};
    record(pool, &log);
    run(&(struct job){.pool = pool, .key = "k"}, 1000);
    stop(pool);
    start(&leader, 2000);
    reached(&gate);
    start(&joiner, 3000);
    joined(pool, 1);
    open_at(&gate, 4000);
    end(&leader);
    end(&joiner);
    check(leader.got.joiners == 1 && !joiner.got.led, "a call that is not recorded");
    expect(&log, "and the one before it", LEADS("A", "k", "1000", "1100") SETTLES("A", "0", "1100", "1200"));
    sflight_do_close(pool);
}

static const uint8_t *unsigned_bytes(const char *text) { return (const uint8_t *)text; }

static uint64_t plain(void *context, const uint8_t *key, size_t len) {
    (void)key;
    (void)len;
    return (uint64_t)(size_t)context;
}

static void load_key(sflight_pool *pool, const char *key, size_t len) {
    sflight_got got;
    if (sflight_do(pool, unsigned_bytes(key), len, plain, NULL, SFLIGHT_DO_FOREVER, &got) != SFLIGHT_DO_DONE) abort();
}

/* Keys as JSON has them, and those that stand as a digest. */
/* Two halves that differ, in hexadecimal. */
static bool is_digest(const struct line *line) {
    return line->key_len == 37 && memcmp(line->key, "hash:", 5) == 0 && strspn(line->key + 5, "0123456789abcdef") == 32 && memcmp(line->key + 5, line->key + 21, 16) != 0;
}

static void keys_of_records(void) {
    static char longest[251], longer[252], long_one[70000];
    memset(longest, 'k', 250);
    memset(longer, 'k', 251);
    memset(long_one, 'k', sizeof long_one);
    static const struct { const char *key; size_t len; const char *is; } texts[] = {
        {"", 0, ""}, {"user-7", 6, "user-7"}, {"q\"\\", 3, "q\\\"\\\\"}, {"\n\x1f\x00\x7f", 4, "\\u000a\\u001f\\u0000\x7f"},
        {"\xc2\x80\xdf\xbf", 4, "\xc2\x80\xdf\xbf"}, {"\xe0\xa0\x80\xed\x9f\xbf\xee\x80\x80", 9, "\xe0\xa0\x80\xed\x9f\xbf\xee\x80\x80"},
        {"\xf0\x90\x80\x80\xf4\x8f\xbf\xbf", 8, "\xf0\x90\x80\x80\xf4\x8f\xbf\xbf"}, {"hash", 4, "hash"}, {longest, 250, longest}};
    static const struct { const char *key; size_t len; } digests[] = {
        {"\xff", 1}, {"\x80", 1}, {"\xc0\x80", 2}, {"\xc1\xbf", 2}, {"\xc2", 1}, {"\xc2" "a", 2}, {"\xe0\x9f\xbf", 3}, {"\xed\xa0\x80", 3}, {"\xe2\x82", 2}, {"\xe2\x82" "a", 3},
        {"\xf0\x8f\xbf\xbf", 4}, {"\xf4\x90\x80\x80", 4}, {"\xf5\x80\x80\x80", 4}, {"\xf0\x9f\x98", 3}, {"a\xff", 2}, {"hash:", 5}, {"hash:x", 6}, {longer, 251},
        {long_one, sizeof long_one}, {long_one, sizeof long_one - 1}};
    enum { TEXTS = sizeof texts / sizeof *texts, DIGESTS = sizeof digests / sizeof *digests };
    sflight_pool *pool = sflight_do_open(0, NULL);
    struct log log = {0};
    record(pool, &log);
    for (int i = 0; i < TEXTS; i++) load_key(pool, texts[i].key, texts[i].len);
    for (int i = 0; i < DIGESTS; i++) load_key(pool, digests[i].key, digests[i].len);
    for (int i = 0; i < DIGESTS; i++) sflight_do_forget(pool, unsigned_bytes(digests[i].key), digests[i].len);
    sflight_recorded recorded = stop(pool);
    size_t count;
    struct line *lines = lines_of(&log, &count);
    check(lines && is_legal(&log, &recorded) && count == 1 + 3 * (TEXTS + DIGESTS) + DIGESTS, "keys are recorded");
    /* In any order: where the writer has a thread's lane, the thread takes another one. */
    const struct line *leads[DIGESTS];
    size_t found = 0;
    for (int i = 0; i < TEXTS && lines; i++) {
        size_t len = strlen(texts[i].is), same = 0;
        for (size_t at = 1; at < count; at++) same += lines[at].kind == LEAD && lines[at].key_len == len && memcmp(lines[at].key, texts[i].is, len) == 0;
        check(same == 1, "a key that is a text stands as it is");
    }
    for (size_t at = 1; at < count && lines; at++) {
        if (lines[at].kind == LEAD && is_digest(&lines[at]) && found++ < DIGESTS) leads[found - 1] = &lines[at];
    }
    check(found == DIGESTS, "another key stands as a digest");
    for (size_t i = 0; i < found && i < DIGESTS; i++) {
        size_t forgets = 0;
        for (size_t at = 1; at < count; at++) forgets += lines[at].kind == FORGET && is_one_key(leads[i], &lines[at]);
        check(forgets == 1, "of the same key it is the same");
        for (size_t before = 0; before < i; before++) check(!is_one_key(leads[i], leads[before]), "of another key it is another");
    }
    free(lines);
    free_log(&log);
    sflight_do_close(pool);
}

/* A call beside others, in a pool that grows meanwhile. */
static void grown(void) {
    sflight_pool *pool = sflight_do_open(1, NULL);
    struct log log = {0};
    struct gate outer[3] = {{0}, {0}, {0}}, gate = {0};
    struct job others[3], leader = {.pool = pool, .key = "k", .load = &gate}, joiner = {.pool = pool, .key = "k"};
    static const char *const keys[] = {"l", "m", "n"};
    record(pool, &log);
    start(&leader, 1000);
    reached(&gate);
    for (int i = 0; i < 3; i++) {
        others[i] = (struct job){.pool = pool, .key = keys[i], .load = &outer[i]};
        start(&others[i], 1500);
        reached(&outer[i]);
    }
    check(atomic_load(&pool->posts[1]) != NULL, "the pool has grown");
    start(&joiner, 2000);
    joined(pool, 1);
    run(&(struct job){.pool = pool, .key = "k", .forgets = true}, 3000);
    run(&(struct job){.pool = pool, .key = "k", .forgets = true}, 4000);
    run(&(struct job){.pool = pool, .key = "k"}, 5000);
    open_at(&gate, 6000);
    end(&leader);
    end(&joiner);
    sflight_recorded recorded = stop(pool);
    for (int i = 0; i < 3; i++) {
        open_at(&outer[i], 7000);
        end(&others[i]);
    }
    check(is_legal(&log, &recorded), "a call that is closed, and the next");
    /* A thread that asks may have to ask twice, as it gets to know a table: so its times are not said. */
    check(recorded.events == 9 && recorded.lost == 0, "a joiner, a Forget, one that finds nothing, and the next call");
    free_log(&log);
    sflight_do_close(pool);
}

/* Threads that leave: one before the load begins, and one after that. */
static void timeouts(void) {
    sflight_pool *pool = sflight_do_open(0, NULL);
    struct log log = {0};
    struct gate asked = {0}, gate = {0};
    struct job leader = {.pool = pool, .key = "k", .load = &gate, .after_ask = &asked};
    struct job early = {.pool = pool, .key = "k", .timeout = 1}, late = {.pool = pool, .key = "k", .timeout = 1};
    record(pool, &log);
    start(&leader, 1000);
    reached(&asked);
    run(&early, 2000);
    open_at(&asked, 3000);
    reached(&gate);
    run(&late, 4000);
    open_at(&gate, 5000);
    end(&leader);
    check(early.code == SFLIGHT_DO_TIMED_OUT && late.code == SFLIGHT_DO_TIMED_OUT && leader.got.joiners == 0, "two time out");
    stop(pool);
    expect(&log, "a thread that left after the load had begun was in the call",
           LEADS("A", "k", "1000", "3000") ENTERS("A", "k", "B", "4000", "4100") SETTLES("A", "1", "5000", "5100"));
    sflight_do_close(pool);
}

/* Forgets just before a call begins, and just before it ends. */
static void forgets(void) {
    sflight_pool *pool = sflight_do_open(0, NULL);
    struct log log = {0};
    struct gate asked = {0}, ending = {0};
    struct job leader = {.pool = pool, .key = "k", .after_ask = &asked}, forget = {.pool = pool, .key = "k", .forgets = true};
    record(pool, &log);
    start(&leader, 1000);
    reached(&asked);
    run(&forget, 2000);
    open_at(&asked, 3000);
    end(&leader);
    stop(pool);
    check(forget.closed, "a Forget closes a call whose load has not begun");
    expect(&log, "it took effect when the load began", LEADS("A", "k", "1000", "3000") CLOSES("A", "k", "2000", "3000") SETTLES("A", "0", "3000", "3100"));

    /* The call is about to be settled when the Forget begins. */
    leader = (struct job){.pool = pool, .key = "k", .before_settle = &ending};
    record(pool, &log);
    start(&leader, 1000);
    reached(&ending);
    run(&forget, 2000);
    check(forget.closed, "it closes the call");
    open_at(&ending, 3000);
    end(&leader);
    stop(pool);
    expect(&log, "and is told, since it came before", LEADS("A", "k", "1000", "1100") CLOSES("A", "k", "2000", "2100") SETTLES("A", "0", "1100", "3100"));

    /* The Forget has closed the call, and knows its times when that is settled and told. */
    struct gate closed = {0}, loading = {0};
    leader = (struct job){.pool = pool, .key = "k", .load = &loading};
    forget = (struct job){.pool = pool, .key = "k", .forgets = true, .after_forget = &closed};
    record(pool, &log);
    start(&leader, 1000);
    reached(&loading);
    start(&forget, 2000);
    reached(&closed);
    open_at(&loading, 3000);
    end(&leader);
    open_at(&closed, 4000);
    end(&forget);
    stop(pool);
    check(forget.closed, "the Forget has closed the call");
    expect(&log, "which waits for its times", LEADS("A", "k", "1000", "1100") CLOSES("A", "k", "2000", "4000") SETTLES("A", "0", "3000", "3100"));

    /* A Forget closes a call of a recording that is over before the Forget is. */
    closed = (struct gate){0};
    loading = (struct gate){0};
    record(pool, &log);
    start(&leader, 1000);
    reached(&loading);
    start(&forget, 2000);
    reached(&closed);
    open_at(&loading, 3000);
    end(&leader);
    stop(pool);
    open_at(&closed, 4000);
    end(&forget);
    expect(&log, "a call whose Forget has not ended is left out", "");

    /* A Forget that began before the recording closes a call of it. */
    struct gate waiting = {0}, gate = {0};
    forget = (struct job){.pool = pool, .key = "k", .forgets = true, .before_forget = &waiting};
    leader = (struct job){.pool = pool, .key = "k", .load = &gate};
    start(&forget, 1000);
    reached(&waiting);
    record(pool, &log);
    start(&leader, 2000);
    reached(&gate);
    open_at(&waiting, 3000);
    end(&forget);
    open_at(&gate, 4000);
    end(&leader);
    stop(pool);
    check(forget.closed, "it closes a later call");
    expect(&log, "it began with the call", LEADS("A", "k", "2000", "2100") CLOSES("A", "k", "2000", "3100") SETTLES("A", "0", "4000", "4100"));
    sflight_do_close(pool);
}

/* A call of one recording is in no other. */
/* Whether a Forget, or a leader, waits for the other in a bucket of the pool's recorder. */
static bool is_one_waiting(sflight_pool *pool) {
    bool is_one = false;
    for (int i = 0; i < BUCKETS; i++) {
        struct bucket *bucket = &pool->kept->buckets[i];
        pthread_mutex_lock(&bucket->lock);
        is_one = is_one || bucket->events || bucket->records || bucket->unknown > 0;
        pthread_mutex_unlock(&bucket->lock);
    }
    return is_one;
}

/* The Forget of a call that has not ended waits for its leader, and no longer than the recording. */
static void waiting_forget(void) {
    sflight_pool *pool = sflight_do_open(0, NULL);
    struct log log = {0};
    struct gate gate = {0};
    struct job leader = {.pool = pool, .key = "k", .load = &gate};
    record(pool, &log);
    start(&leader, 1000);
    reached(&gate);
    run(&(struct job){.pool = pool, .key = "k", .forgets = true}, 2000);
    check(is_one_waiting(pool), "a Forget waits for its leader");
    sflight_recorded recorded = stop(pool);
    check(!is_one_waiting(pool) && recorded.events == 0, "and no longer than the recording");
    open_at(&gate, 3000);
    end(&leader);
    free_log(&log);
    sflight_do_close(pool);
}

static void two_recordings(void) {
    sflight_pool *pool = sflight_do_open(0, NULL);
    struct log first = {0}, second = {0};
    struct gate gate = {0};
    struct job leader = {.pool = pool, .key = "k", .load = &gate}, joiner = {.pool = pool, .key = "k"};
    check(sflight_do_stop(pool, NULL) == SFLIGHT_DO_NOT_RECORDED, "it is not recorded");
    record(pool, &first);
    check(sflight_do_record(pool, write_log, &second) == SFLIGHT_DO_RECORDED, "one recording at a time");
    run(&(struct job){.pool = pool, .key = "a"}, 1000);
    start(&leader, 2000);
    reached(&gate);
    stop(pool);
    check(sflight_do_stop(pool, NULL) == SFLIGHT_DO_NOT_RECORDED && second.len == 0, "it is stopped once");
    run(&(struct job){.pool = pool, .key = "b"}, 3000);
    record(pool, &second);
    start(&joiner, 4000);
    joined(pool, 1);
    run(&(struct job){.pool = pool, .key = "k", .forgets = true}, 5000);
    run(&(struct job){.pool = pool, .key = "c"}, 6000);
    open_at(&gate, 7000);
    end(&leader);
    end(&joiner);
    check(!joiner.got.led && joiner.got.value == 1, "a thread that joins gets the value");
    stop(pool);
    expect(&first, "a call that has not ended is left out", LEADS("A", "a", "1000", "1100") SETTLES("A", "0", "1100", "1200"));
    expect(&second, "what began before is left out, with all that was done to it", LEADS("A", "c", "6000", "6100") SETTLES("A", "0", "6100", "6200"));

    /* Its digests are the same in both. */
    record(pool, &first);
    load_key(pool, "\xff", 1);
    stop(pool);
    record(pool, &second);
    load_key(pool, "\xff", 1);
    stop(pool);
    check(strncmp(strstr(first.text, "hash:"), strstr(second.text, "hash:"), 37) == 0, "digests of two recordings");
    free_log(&first);
    free_log(&second);

    /* A thread that began to ask before the recording joins a call of it. */
    struct gate asking = {0}, late = {0};
    leader = (struct job){.pool = pool, .key = "k", .load = &late};
    joiner = (struct job){.pool = pool, .key = "k", .before_ask = &asking};
    start(&joiner, 1000);
    reached(&asking);
    record(pool, &first);
    start(&leader, 2000);
    reached(&late);
    uint64_t before = sflight_do_statistics(pool).joins;
    open_at(&asking, 3000);
    joined(pool, before + 1);
    open_at(&late, 4000);
    end(&leader);
    end(&joiner);
    stop(pool);
    check(!joiner.got.led && joiner.got.value == 1, "and gets its value");
    expect(&first, "it is left out, and the call is not", LEADS("A", "k", "2000", "2100") SETTLES("A", "0", "4000", "4100"));

    /* The pool is closed while it is recorded. */
    record(pool, &first);
    run(&(struct job){.pool = pool, .key = "k"}, 1000);
    sflight_do_close(pool);
    expect(&first, "closing writes the rest", LEADS("A", "k", "1000", "1100") SETTLES("A", "0", "1100", "1200"));
}

/* Writers that fail, that are slow, and that call the pool. */
static void failing_writer(void) {
    sflight_pool *pool = sflight_do_open(0, NULL);
    for (int at = 1; at <= 2; at++) {
        struct gate gate = {0};
        struct log log = {.fails_at = at, .waits = &gate}, next = {0};
        record(pool, &log);
        uint64_t calls = 0;
        for (; !gate.is_reached; calls++) load_key(pool, "k", 1);
        for (int i = 0; i < 100; i++, calls++) load_key(pool, "k", 1);
        open_at(&gate, 0);
        /* Until the recording has ended by itself. */
        while (atomic_load(&pool->recorder)) sched_yield();
        load_key(pool, "k", 1);
        check(sflight_do_record(pool, write_log, &next) == SFLIGHT_DO_RECORDED, "it has to be stopped");
        sflight_recorded recorded = stop(pool);
        check(recorded.failed == 7, "what the writer returned");
        check((at > 1 || recorded.events == 0) && recorded.events + recorded.lost == 3 * calls && recorded.lost >= 300, "what it did not write is lost");
        check(log.writes == at, "it is not called again");
        size_t lines = 0;
        for (size_t i = 0; i < log.len; i++) lines += log.text[i] == '\n';
        check(recorded.events + (at > 1) == lines, "what it wrote is counted");
        free_log(&log);
        record(pool, &next);
        load_key(pool, "k", 1);
        recorded = stop(pool);
        check(is_legal(&next, &recorded) && recorded.events == 3, "the next recording");
        free_log(&next);
    }
    sflight_do_close(pool);
}

static void slow_writer(void) {
    enum { CALLS = 2 * LANE_EVENTS };
    sflight_pool *pool = sflight_do_open(0, NULL);
    struct gate gate = {0};
    struct log log = {.waits = &gate};
    record(pool, &log);
    reached(&gate);
    for (int i = 0; i < CALLS; i++) load_key(pool, "k", 1);
    open_at(&gate, 0);
    sflight_recorded recorded = stop(pool);
    check(recorded.lost > 0 && recorded.events + recorded.lost == 3 * CALLS && recorded.events <= LANE_EVENTS && recorded.events > LANE_EVENTS - 3, "what is lost is counted");
    size_t count;
    struct line *lines = lines_of(&log, &count);
    check(lines && lines[count - 1].kind == FORMAT && lines[count - 1].lost == recorded.lost, "and stands in the log");
    free(lines);
    check(is_legal(&log, &recorded), "whole calls are lost");
    free_log(&log);
    /* The next one has lost nothing. */
    record(pool, &log);
    load_key(pool, "k", 1);
    recorded = stop(pool);
    check(recorded.events == 3 && recorded.lost == 0 && is_legal(&log, &recorded), "the next recording loses nothing");
    free_log(&log);
    sflight_do_close(pool);
}

/* A lane keeps so many events, and a call of more where it is empty. */
static void full_lanes(void) {
    enum { MORE = 100 };
    sflight_pool *pool = sflight_do_open(0, NULL);
    struct gate gate = {0}, large = {0};
    struct log log = {.waits = &gate};
    record(pool, &log);
    reached(&gate);
    for (int i = 0; i < LANE_EVENTS + MORE; i++) sflight_do_forget(pool, unsigned_bytes("k"), 1);
    open_at(&gate, 0);
    sflight_recorded recorded = stop(pool);
    check(recorded.events == LANE_EVENTS && recorded.lost == MORE, "a lane keeps as many events as it has room for");
    free_log(&log);
    log = (struct log){.waits = &large};
    record(pool, &log);
    reached(&large);
    uint64_t number = atomic_load(&pool->kept->number), now = moment();
    struct packed *packed = NULL, *another = NULL;
    size_t size = size_of(0, 1);
    struct lane *lane = lane_for(pool->kept, number, LANE_EVENTS + 1, size, &packed);
    check(lane != NULL, "a call of more events has an empty lane");
    if (lane) {
        *packed = (struct packed){.size = size, .events = 1, .len = 1, .first = {name_at(here() + 1, 0), now, now}};
        *key_of(packed) = 'k';
        leave_lane(pool->kept, lane, LANE_EVENTS + 1);
    }
    check(!lane_for(pool->kept, number, 1, size, &another), "in which there is no room for another");
    open_at(&large, 0);
    recorded = stop(pool);
    check(recorded.events == 1 && recorded.lost == 1, "which is lost");
    free_log(&log);
    sflight_do_close(pool);
}

struct calling {
    sflight_pool *pool;
    struct log log;
};

static int write_and_call(void *context, const char *text, size_t len) {
    struct calling *calling = context;
    /* The first write is the head's, while the pool does not record yet. */
    if (calling->log.writes > 0 && calling->log.writes < 5) {
        check(sflight_do_stop(calling->pool, NULL) == SFLIGHT_DO_NOT_RECORDED, "a writer cannot stop its recording");
        load_key(calling->pool, "w", 1);
        sflight_do_forget(calling->pool, unsigned_bytes("w"), 1);
    }
    return write_log(&calling->log, text, len);
}

static void calling_writer(void) {
    struct calling calling = {.pool = sflight_do_open(0, NULL)};
    if (sflight_do_record(calling.pool, write_and_call, &calling) != SFLIGHT_DO_DONE) abort();
    uint64_t calls = 0;
    for (; calls < 10; calls++) {
        load_key(calling.pool, "k", 1);
        /* The writer has emptied the lanes before its first write, so later calls make it write again, however slow it is. */
        while (calls == 0 && calling.log.writes == 0) sleep_ms(1);
        sleep_ms(6);
    }
    /* And then its own calls do. */
    while (calling.log.writes < 6) sleep_ms(1);
    sflight_recorded recorded = stop(calling.pool);
    check(recorded.failed == 0 && recorded.events == 3 * calls + 4 * 4 && is_legal(&calling.log, &recorded), "a writer that calls the pool");
    free_log(&calling.log);
    sflight_do_close(calling.pool);
}

/* A call with a joiner and a Forget, and a Forget that finds nothing. */
static bool scenario(sflight_pool *pool) {
    struct gate gate = {0};
    struct job leader = {.pool = pool, .key = "k", .load = &gate}, joiner = {.pool = pool, .key = "k", .timeout = 1}, forget = {.pool = pool, .key = "k", .forgets = true};
    start(&leader, 1000);
    reached(&gate);
    run(&joiner, 2000);
    run(&forget, 3000);
    open_at(&gate, 4000);
    end(&leader);
    run(&(struct job){.pool = pool, .key = "k", .forgets = true}, 5000);
    return leader.code == SFLIGHT_DO_DONE && forget.closed && joiner.code == SFLIGHT_DO_TIMED_OUT;
}

/* Where there is no memory, calls go on, and what could not be recorded is counted. */
static void no_memory(void) {
    static const struct { const char *what; size_t size; uint64_t events, lost; } sizes[] = {
        {"nothing is refused", NO_SIZE, 6, 0},
        {"no record of a call", sizeof(struct record) + 1, 1, 3},
        {"neither an Enter nor a Forget", sizeof(struct event), 1, 5},
        {"no room in a lane", sizeof(struct chunk) + CHUNK, 0, 6},
    };
    for (size_t i = 0; i < sizeof sizes / sizeof *sizes; i++) {
        sflight_pool *pool = sflight_do_open(0, NULL);
        struct log log = {0};
        record(pool, &log);
        refused_size = sizes[i].size;
        bool is_well = scenario(pool);
        refused_size = NO_SIZE;
        sflight_recorded recorded = stop(pool);
        check(is_well, "calls go on without memory for their records");
        check(recorded.events == sizes[i].events && recorded.lost == sizes[i].lost && is_legal(&log, &recorded), sizes[i].what);
        free_log(&log);
        sflight_do_close(pool);
    }
    /* Each allocation in turn. */
    bool is_over = false;
    for (long number = 1; !is_over; number++) {
        sflight_pool *pool = sflight_do_open(0, NULL);
        struct log log = {0};
        record(pool, &log);
        was_refused = false;
        refused_number = number;
        scenario(pool);
        refused_number = 0;
        is_over = !was_refused;
        sflight_recorded recorded = stop(pool);
        check(is_legal(&log, &recorded) && recorded.failed == 0 && (recorded.lost > 0 || recorded.events == 6), "each allocation refused in turn");
        free_log(&log);
        sflight_do_close(pool);
        if (number > 100) abort();
    }
    /* A recording that cannot begin. */
    for (long number = 1; number <= 2; number++) {
        sflight_pool *pool = sflight_do_open(0, NULL);
        struct log log = {0};
        refused_number = number;
        check(sflight_do_record(pool, write_log, &log) == SFLIGHT_DO_NO_MEMORY, "no memory for a recording");
        refused_number = 0;
        check(sflight_do_stop(pool, NULL) == SFLIGHT_DO_NOT_RECORDED, "none has begun");
        has_no_thread = true;
        check(sflight_do_record(pool, write_log, &log) == SFLIGHT_DO_NO_THREAD, "no thread for it");
        has_no_thread = false;
        check(sflight_do_stop(pool, NULL) == SFLIGHT_DO_NOT_RECORDED, "none has begun without a thread");
        record(pool, &log);
        load_key(pool, "k", 1);
        check(stop(pool).events == 3, "then one begins");
        free_log(&log);
        sflight_do_close(pool);
    }
}

/* Names of a caller that are used up are another's, and where none is left the call is lost. */
static void names(void) {
    sflight_pool *pool = sflight_do_open(0, NULL);
    struct log log = {0};
    record(pool, &log);
    for (int i = 0; i < LANES; i++) atomic_store(&pool->kept->lanes[i].names, i == 5 ? UINT32_MAX - 1 : UINT32_MAX);
    load_key(pool, "k", 1);
    load_key(pool, "k", 1);
    sflight_recorded recorded = stop(pool);
    check(recorded.events == 3 && recorded.lost == 3 && is_legal(&log, &recorded), "the last name is given, and no name twice");
    check(log.text && strstr(log.text, "\"c\":[6,4294967295]"), "the name of another caller");
    free_log(&log);
    record(pool, &log);
    load_key(pool, "k", 1);
    check(stop(pool).events == 3, "the next recording has all names");
    free_log(&log);
    sflight_do_close(pool);
}

/* Signals do not come to the recording's thread. */
static int write_mask(void *context, const char *text, size_t len) {
    sigset_t *set = context;
    (void)text;
    (void)len;
    pthread_sigmask(SIG_SETMASK, NULL, set);
    return 0;
}

static void signals(void) {
    sflight_pool *pool = sflight_do_open(0, NULL);
    sigset_t there, here_after;
    sigemptyset(&there);
    if (sflight_do_record(pool, write_mask, &there) != SFLIGHT_DO_DONE) abort();
    stop(pool);
    pthread_sigmask(SIG_SETMASK, NULL, &here_after);
    check(sigismember(&there, SIGTERM) == 1 && sigismember(&there, SIGALRM) == 1 && sigismember(&here_after, SIGTERM) == 0, "signals are blocked there, and not here");
    sflight_do_close(pool);
}

/* Several threads, with a recording after the other. */
enum { THREADS = 8, STRESSED = 5 };
static sflight_pool *stressed;
static atomic_int running, made; /* threads, and their calls and Forgets */
static bool is_standing;

static uint64_t short_load(void *context, const uint8_t *key, size_t len);

static void stress_call(int key, unsigned *seed) {
    char name[] = "k0";
    sflight_got got;
    name[1] = (char)(name[1] + key);
    int64_t timeout = rand_r(seed) % 3 == 0 ? rand_r(seed) % 40000 : SFLIGHT_DO_FOREVER;
    unsigned mine[2] = {rand_r(seed), (unsigned)key};
    if (sflight_do(stressed, unsigned_bytes(name), 2, short_load, mine, timeout, &got) == SFLIGHT_DO_NO_MEMORY) abort();
}

static uint64_t short_load(void *context, const uint8_t *key, size_t len) {
    unsigned *mine = context;
    (void)key;
    (void)len;
    if (mine[0] % 3 == 0) nanosleep(&(struct timespec){0, mine[0] % 50000}, NULL);
    else sched_yield();
    if (mine[1] + 1 < STRESSED && mine[0] % 7 == 0) stress_call((int)mine[1] + 1, &mine[0]);
    return 1;
}

static void *stress_one(void *at) {
    unsigned seed = (unsigned)(size_t)at + 1;
    is_timed = is_standing;
    for (int i = 0; i < ROUNDS; i++) {
        int key = rand_r(&seed) % STRESSED;
        char name[] = "k0";
        name[1] = (char)(name[1] + key);
        if (rand_r(&seed) % 5 == 0) sflight_do_forget(stressed, unsigned_bytes(name), 2);
        else stress_call(key, &seed);
        atomic_fetch_add_explicit(&made, 1, memory_order_relaxed);
    }
    running--;
    return NULL;
}

static void stress(const char *what, uint32_t sizes, bool stands) {
    pthread_t threads[THREADS];
    uint64_t events = 0, lost = 0;
    int recordings = 0;
    stressed = sflight_do_open(sizes, NULL);
    is_standing = stands;
    running = THREADS;
    made = 0;
    do {
        struct log log = {0};
        record(stressed, &log);
        /* The first recording has calls, also where this thread is slow, or the others are. */
        for (size_t i = 0; i < THREADS && recordings == 0; i++) if (pthread_create(&threads[i], NULL, stress_one, (void *)i) != 0) abort();
        for (int i = 0; running > 0 && (i < 20 || (recordings == 0 && made < 8 * THREADS)); i++) sleep_ms(2);
        sflight_recorded recorded = stop(stressed);
        events += recorded.events;
        lost += recorded.lost;
        recordings++;
        check(is_legal(&log, &recorded), what);
        free_log(&log);
    } while (running > 0);
    for (size_t i = 0; i < THREADS; i++) pthread_join(threads[i], NULL);
    sflight_stats stats = sflight_do_statistics(stressed);
    printf("%s: %llu events in %d recordings; %llu loads\n", what, (unsigned long long)events, recordings, (unsigned long long)stats.loads);
    check(lost == 0 && events > 0 && stats.in_use == 0, what);
    sflight_do_close(stressed);
}

int main(void) {
    setvbuf(stdout, NULL, _IOLBF, 0);
    signal(SIGALRM, hangs_at);
    alarm(LIMIT);
    calls();
    not_recorded();
    keys_of_records();
    grown();
    timeouts();
    forgets();
    two_recordings();
    waiting_forget();
    no_memory();
    names();
    signals();
    if (failed == 0) {
        failing_writer();
        calling_writer();
        slow_writer();
        full_lanes();
    }
    if (failed > 0) {
        printf("%d passed, %d failed\n", passed, failed);
        return 1;
    }
    stress("a stress", 0, false);
    stress("a pool that grows", 1, false);
    stress("a clock that stands", 4, true);
    printf("%d passed, %d failed\n", passed, failed);
    return failed > 0;
}
