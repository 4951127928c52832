/* Recording: docs/RECORDS.md has the rules.
 *
 * A call of a recording is a run of a load function. It has one record, which its leader makes before
 * it loads, and hangs at the call's post. The leader has a part in the record, and so has each thread
 * that holds the call when it is settled, until it knows its own times. A thread that gives up before
 * adds its event with the lock of the post, and a leader settles with it. The thread that gives up the
 * last part puts the call into a lane. So a recording has whole calls only, and no thread waits for
 * another one to be recorded.
 *
 * A Forget that has closed a call knows its name alone. It meets the leader in a bucket of the
 * recorder: whoever comes there first leaves what it has, a record or an event, for the other. */
#ifndef _GNU_SOURCE
#define _GNU_SOURCE
#endif
#include "sflight_cache.h"
#include "sflight_inside.h"
#include <signal.h>
#include <stdlib.h>
#include <string.h>
#include <sys/random.h>

static uint64_t word_at(const uint8_t *bytes, size_t len) {
    uint64_t word = 0;
    if (len > 0) memcpy(&word, bytes, len < 8 ? len : 8);
    return word;
}

/* SipHash-1-3, by J.-P. Aumasson and D. J. Bernstein: of a key under two seeds. */
static void sip_round(uint64_t v[4]) {
    v[0] += v[1]; v[1] = (v[1] << 13 | v[1] >> 51) ^ v[0]; v[0] = v[0] << 32 | v[0] >> 32;
    v[2] += v[3]; v[3] = (v[3] << 16 | v[3] >> 48) ^ v[2];
    v[0] += v[3]; v[3] = (v[3] << 21 | v[3] >> 43) ^ v[0];
    v[2] += v[1]; v[1] = (v[1] << 17 | v[1] >> 47) ^ v[2]; v[2] = v[2] << 32 | v[2] >> 32;
}

static uint64_t sip_hash(const uint64_t seeds[2], const uint8_t *key, size_t len) {
    uint64_t v[4] = {seeds[0] ^ 0x736f6d6570736575, seeds[1] ^ 0x646f72616e646f6d, seeds[0] ^ 0x6c7967656e657261, seeds[1] ^ 0x7465646279746573};
    uint64_t last = (uint64_t)len << 56;
    for (; len >= 8; key += 8, len -= 8) {
        uint64_t word = word_at(key, 8);
        v[3] ^= word;
        sip_round(v);
        v[0] ^= word;
    }
    last |= word_at(key, len);
    v[3] ^= last;
    sip_round(v);
    v[0] ^= last;
    v[2] ^= 0xff;
    for (int i = 0; i < 3; i++) sip_round(v);
    return v[0] ^ v[1] ^ v[2] ^ v[3];
}

enum {
    LANES = 64,
    LANE_EVENTS = 1 << 14, /* as many a lane keeps, but for those of one call */
    WAKING_EVENTS = LANE_EVENTS / 4, /* with so many in a lane the writer is woken, before the lane is full */
    CHUNK = 1 << 15,       /* bytes */
    TEXT = 1 << 16,
    LINE = 2048, /* no line is longer: a byte of a key takes six at most */
    RECORDED = 250,
    DIGITS = 20, /* of the largest number */
    DIGEST = 37,
    BUCKETS = 64,
    STRIPES = 64,
    FEWEST_KEYS = 1024, /* of the ledger of a cache, and the most */
    MOST_KEYS = 1 << 20,
    TAGS = 1024,  /* so many ForgetTags are remembered */
    SLACK = 64,   /* they are this far out of order at most */
    EVERY = 10000000 /* nanoseconds until the writer looks at the lanes again */
};

/* An Enter of a call, or a Forget that has closed it. Where a Forget waits for the call's leader in a
 * bucket, `id` says for whose. */
struct event {
    struct event *next;
    sflight_id id;
    uint64_t name, from, to;
    bool is_forget;
};

/* A moment of a name: of the member of a call, or of the caller that has made a Forget. */
struct moments {
    uint64_t name, from, to;
};

enum role { NEITHER, IS_LOAD, IS_VALUE };

/* What a record of a cache's call has beside that of a pool: see the ledger. The stripe's lock protects it, but for what is atomic,
 * and for what is written before others have the record. */
struct value {
    struct stripe *stripe; /* null in a pool that is no cache's */
    uint64_t place; /* in the ledger */
    struct record *next, **before; /* of its key's bucket */
    struct record *later, **earlier; /* of those that are live in the lane; by its lock */
    struct lane *lane; /* where it is live, or null */
    struct record *instead; /* of the value that the call's gets have in place of a loaded one; it is held */
    atomic_ullong hits; /* those that are in lanes */
    atomic_uint uses; /* of its memory: until it is complete, by its entry, and while it is live */
    uint64_t kept, ended, closed; /* when its entry came, when it left or was not kept, and when a Forget closed it */
    struct moments closing;
    uint64_t clock;
    uint32_t *places, count; /* of its tags */
    enum role role;
    bool has_run, is_wide, is_kept, is_left_out, is_closed, is_finished, is_any;
    bool is_alone; /* the Forget that closed it closed no other call */
};

struct record {
    struct recorder *by;
    uint64_t recording, name;
    uint64_t asked, led, settles, settled;
    atomic_uint parts, lost; /* how many may add to it, and how many events could not be */
    _Atomic(struct event *) events;
    struct record *next; /* in a bucket, where it waits for a Forget */
    sflight_id id;
    struct value value; /* of a cache's call */
    bool is_digest;
    uint32_t len;
    uint8_t key[]; /* or its digest */
};

/* The thread's number, by which it has its lane, and its caller in a recording. */
static unsigned here(void) {
    static atomic_uint threads;
    static _Thread_local unsigned number;
    if (number == 0) number = atomic_fetch_add_explicit(&threads, 1, memory_order_relaxed) % LANES + 1;
    return number - 1;
}

/* A name in a recording: the number of a caller, from 1 on, and which of its calls or members it is. */
static uint64_t name_at(uint32_t caller, uint64_t number) { return (uint64_t)caller << 32 | number; }

/* A call in a lane, a Forget that closed none, or the hit of a cache. The moments of its members follow, then that of the Forget which closed the
 * call, and the key. */
struct packed {
    size_t size;
    uint32_t events, members;
    uint16_t len;
    bool is_call, is_closed, is_digest, is_hit;
    uint64_t settles, settled;
    uint64_t hits; /* of a call: its members that stand elsewhere */
    uint64_t call; /* of a hit */
    struct moments first; /* of the Lead, the Forget or the hit */
    struct moments rest[];
};

struct chunk {
    struct chunk *next;
    size_t used, size;
    uint64_t room[];
};

struct lane {
    _Alignas(CACHE_LINE) pthread_mutex_t lock; /* protects the next five */
    struct chunk *first, *last, *spare;
    struct record *live;
    uint32_t events;
    atomic_ullong names; /* how many were given */
};

/* Of a cache's recorder: it protects the records of some keys, and a part of the ledger. */
struct stripe {
    _Alignas(CACHE_LINE) pthread_mutex_t lock;
};

/* A ForgetTag: which one it was, at which place. */
struct tag {
    uint64_t number;
    uint32_t place;
    struct moments at;
};

/* Where a Forget and the leader of the call that it has closed meet. */
struct bucket {
    pthread_mutex_t lock; /* protects the rest */
    struct event *events;
    struct record *records;
    uint64_t unknown; /* Forgets without memory for an event, which some leader waits for */
};

/* Only the thread of the recording uses what comes after `is_ending`, until it has ended. */
struct recorder {
    struct recorder_head head;
    struct lane lanes[LANES];
    struct bucket buckets[BUCKETS];
    struct stripe stripes[STRIPES];
    struct record **keys; /* the ledger: the records that a Forget can close; null in a pool that is no cache's */
    uint64_t key_count;   /* a power of two */
    pthread_mutex_t tag_lock; /* protects the next two */
    struct tag tags[TAGS];
    uint64_t tag_count;
    atomic_ullong evictions;
    atomic_ullong number;    /* of the recording; 0 where nothing is recorded any more */
    atomic_ullong missed[2]; /* events that were lost, of a recording with an even number and with an odd one */
    uint64_t recordings, seeds[4];
    sflight_pool *pool;
    pthread_t thread;
    pthread_mutex_t lock; /* protects is_ending */
    pthread_cond_t wake;
    bool is_ending;
    sflight_write *write;
    void *context;
    sflight_recorded recorded;
    uint64_t pending; /* events in text */
    size_t used;
    char *text;
};

static uint64_t moment(void) {
    struct timespec at;
    clock_gettime(CLOCK_MONOTONIC, &at);
    return (uint64_t)at.tv_sec * 1000000000 + (uint64_t)at.tv_nsec;
}

/* An asking or a Forget begins in the recording, whose number is read first. */
static void begins(struct noted *noted) {
    noted->recording = atomic_load(&noted->by->number);
    /* A cache's get says when it began. */
    noted->is_late = !noted->by->keys || noted->from == 0;
    if (noted->is_late) noted->from = moment();
    noted->record = NULL;
    noted->is_forgotten = false;
    if (noted->recording == 0) noted->by = NULL;
}

static void lose(struct recorder *by, uint64_t recording, uint64_t events) {
    if (atomic_load(&by->number) == recording) atomic_fetch_add(&by->missed[recording % 2], events);
}

/* A name that no other call or member has, or 0 where none is left. */
static uint64_t new_name(struct recorder *by) {
    unsigned first = here();
    for (unsigned i = 0; i < LANES; i++) {
        unsigned lane = (first + i) % LANES;
        uint64_t number = atomic_fetch_add_explicit(&by->lanes[lane].names, 1, memory_order_relaxed) + 1;
        if (number <= UINT32_MAX) return name_at(lane + 1, number);
    }
    return 0;
}

static void write_digest(const struct recorder *by, const uint8_t *key, size_t len, uint8_t text[DIGEST]) {
    memcpy(text, "hash:", 5);
    for (int i = 0; i < 2; i++) {
        uint64_t half = sip_hash(&by->seeds[2 * i], key, len);
        for (int digit = 0; digit < 16; digit++) text[5 + 16 * i + digit] = (uint8_t)"0123456789abcdef"[half >> (60 - 4 * digit) & 15];
    }
}

/* As much of the key as a record keeps: a digest of one that is too long. */
static bool copy_key(const struct recorder *by, const uint8_t *key, size_t len, uint8_t *to) {
    if (len > RECORDED) write_digest(by, key, len, to);
    else if (len > 0) memcpy(to, key, len);
    return len > RECORDED;
}

static size_t kept_of(size_t len) { return len > RECORDED ? DIGEST : len; }

/* Whether the lane keeps no more than it has, but for an only call. With its lock. */
static bool is_full(const struct lane *lane, uint32_t events) { return lane->events > 0 && lane->events + events > LANE_EVENTS; }

/* So much room in the lane, or null where there is no memory. With its lock. */
static struct packed *room_in(struct lane *lane, size_t size) {
    struct chunk *chunk = lane->last;
    if (!chunk || chunk->size - chunk->used < size) {
        chunk = lane->spare;
        if (chunk && chunk->size >= size) {
            lane->spare = NULL;
        } else {
            size_t room = size > CHUNK ? size : CHUNK;
            chunk = malloc(sizeof *chunk + room);
            if (!chunk) return NULL;
            chunk->size = room;
        }
        chunk->next = NULL;
        chunk->used = 0;
        if (lane->last) lane->last->next = chunk;
        else lane->first = chunk;
        lane->last = chunk;
    }
    chunk->used += size;
    return (struct packed *)((uint8_t *)chunk->room + chunk->used - size);
}

/* A free lane, whose lock the caller has then, with room for so much. Null where the recording is over, or the events are lost. */
static struct lane *lane_for(struct recorder *by, uint64_t recording, uint32_t events, size_t size, struct packed **at) {
    unsigned first = here();
    for (unsigned i = 0; i < LANES; i++) {
        struct lane *lane = &by->lanes[(first + i) % LANES];
        if (pthread_mutex_trylock(&lane->lock) != 0) continue;
        /* The thread that ends the recording says so first, and then takes each lock. */
        if (atomic_load(&by->number) != recording) {
            pthread_mutex_unlock(&lane->lock);
            return NULL;
        }
        *at = is_full(lane, events) ? NULL : room_in(lane, size);
        if (*at) return lane;
        lose(by, recording, events);
        pthread_mutex_unlock(&lane->lock);
        return NULL;
    }
    lose(by, recording, events);
    return NULL;
}

/* Lets go of a lane, into which so many events were put. */
static void leave_lane(struct recorder *by, struct lane *lane, uint32_t events) {
    uint32_t before = lane->events;
    lane->events += events;
    pthread_mutex_unlock(&lane->lock);
    if (before < WAKING_EVENTS && before + events >= WAKING_EVENTS) pthread_cond_signal(&by->wake);
}

static size_t size_of(uint32_t moments, size_t len) {
    return (sizeof(struct packed) + moments * sizeof(struct moments) + len + 7) / 8 * 8;
}

static uint8_t *key_of(struct packed *packed) { return (uint8_t *)&packed->rest[packed->members + packed->is_closed]; }

static void drop_events(struct event *events) {
    for (struct event *next; events; events = next) {
        next = events->next;
        free(events);
    }
}

/* Nobody adds to the record any more. */
static void complete(struct record *record) {
    struct event *others = NULL, *members = NULL, *closing = NULL, *next;
    uint32_t count = 0;
    for (struct event *event = atomic_load(&record->events); event; event = next) {
        next = event->next;
        if (event->is_forget) {
            closing = event;
            continue;
        }
        /* A thread that had left before the load began was in no call of the recording. */
        struct event **list = event->to >= record->led ? &members : &others;
        count += list == &members;
        event->next = *list;
        *list = event;
    }
    uint32_t events = 3 + count + (closing != NULL), lost = atomic_load(&record->lost);
    struct packed *packed = NULL;
    struct lane *lane = NULL;
    size_t size = size_of(count + (closing != NULL), record->len);
    if (lost > 0) lose(record->by, record->recording, events + lost);
    else lane = lane_for(record->by, record->recording, events, size, &packed);
    if (lane) {
        *packed = (struct packed){
            .size = size, .events = events, .members = count, .len = (uint16_t)record->len, .is_call = true, .is_closed = closing != NULL,
            .is_digest = record->is_digest, .settles = record->settles, .settled = record->settled, .first = {record->name, record->asked, record->led}};
        struct moments *at = packed->rest;
        for (struct event *event = members; event; event = event->next) *at++ = (struct moments){event->name, event->from, event->to};
        /* Where it closed the call before the load began, it took effect when that did. */
        if (closing) *at = (struct moments){closing->name, closing->from, closing->to < record->led ? record->led : closing->to};
        memcpy(key_of(packed), record->key, record->len);
        leave_lane(record->by, lane, events);
    }
    drop_events(others);
    drop_events(members);
    free(closing);
    free(record);
}

static void complete_value(struct record *record);

static void leave_record(struct record *record) {
    if (atomic_fetch_sub(&record->parts, 1) != 1) return;
    if (record->value.stripe) complete_value(record);
    else complete(record);
}

static void add_event(struct record *record, struct event *event) {
    event->next = atomic_load(&record->events);
    while (!atomic_compare_exchange_weak(&record->events, &event->next, event)) {}
}

/* Caches.
 *
 * The record of a cache's call hangs at its entry too. So it has more parts: the entry, as long as that is in the cache, and each
 * get that holds it, since it has found the entry or joined the call. It is complete when nobody can get the value any more.
 *
 * Hits are many, and a record lives long. So each hit goes to a lane by itself, and its call has to be written then. A live record
 * is written at the end of the recording if it is not complete by then, and it is not dropped if a hit of it is in a lane. A record
 * becomes live when its entry comes into the cache. Where the value is not kept, the first get that has joined makes it live, before
 * the hit of that get goes to a lane.
 *
 * The ledger has the records that a Forget of their key would close: that of the value, and that of a load. An asking and a Forget
 * of a key have the lock of its stripe around the call of the library. There are two records of a key where a load is to replace a
 * value. The history has one open call of a key at a time: there the load's call begins when the value has left, which is not later
 * than the load's end. If the value stays, that load is left out. */

/* When a Forget has ended that nobody knows. */
#define FOREVER ((uint64_t)INT64_MAX)

static uint64_t place_of_key(const struct recorder *by, const uint8_t *key, size_t len) { return sip_hash(by->seeds, key, len) & (by->key_count - 1); }

static pthread_mutex_t *lock_of_key(struct recorder *by, const uint8_t *key, size_t len) {
    return by->keys ? &by->stripes[place_of_key(by, key, len) % STRIPES].lock : NULL;
}

/* The record of the key in the ledger that has this role, or null. */
static struct record *listed(struct recorder *by, uint64_t place, enum role role, const uint8_t *kept, size_t len, bool is_digest) {
    for (struct record *at = by->keys[place]; at; at = at->value.next) {
        if (at->value.role == role && at->len == len && at->is_digest == is_digest && memcmp(at->key, kept, len) == 0) return at;
    }
    return NULL;
}

static struct record *listed_beside(struct record *record, enum role role) {
    return listed(record->by, record->value.place, role, record->key, record->len, record->is_digest);
}

static void unlist(struct record *record) {
    struct value *v = &record->value;
    if (v->role == NEITHER) return;
    *v->before = v->next;
    if (v->next) v->next->value.before = v->before;
    v->role = NEITHER;
}

static void close_value(struct record *record, const struct moments *closing) {
    struct value *v = &record->value;
    if (v->is_closed) return;
    v->is_closed = true;
    v->closing = *closing;
    v->closed = moment();
}

/* The asking that leads the call has the lock of the key. */
static void lead_in_ledger(struct record *record, const uint8_t *key, size_t len) {
    struct recorder *by = record->by;
    struct value *v = &record->value;
    v->place = place_of_key(by, key, len);
    v->stripe = &by->stripes[v->place % STRIPES];
    atomic_init(&v->uses, 1);
    if (atomic_load(&by->number) != record->recording) return;
    /* A Forget that is not recorded has closed a load that runs still. */
    struct record *before = listed_beside(record, IS_LOAD);
    if (before) {
        unlist(before);
        /* The recording may end, and write that call, before its leader hears of the Forget. */
        close_value(before, &(struct moments){name_at(here() + 1, 0), before->asked, FOREVER});
    }
    v->is_wide = listed_beside(record, IS_VALUE) != NULL;
    v->role = IS_LOAD;
    v->before = &by->keys[v->place];
    v->next = *v->before;
    if (v->next) v->next->value.before = &v->next;
    *v->before = record;
}

/* The call is about to be settled. From then on the key can have a newer one. */
static void end_in_ledger(struct record *record) {
    struct value *v = &record->value;
    pthread_mutex_lock(&v->stripe->lock);
    if (!v->is_kept) {
        record->settles = v->ended = moment();
        v->is_left_out = v->role == IS_LOAD && listed_beside(record, IS_VALUE);
        unlist(record);
    }
    pthread_mutex_unlock(&v->stripe->lock);
}

/* A Forget has closed the call, which is not recorded, or not for this call: it may have begun before the recording. */
static void close_unknown(struct record *record) {
    pthread_mutex_lock(&record->value.stripe->lock);
    unlist(record);
    close_value(record, &(struct moments){name_at(here() + 1, 0), record->asked, FOREVER});
    pthread_mutex_unlock(&record->value.stripe->lock);
}

static void put_idle(struct recorder *by, const struct noted *noted, const uint8_t *key, size_t len, const struct moments *at);

static void closes_key(const struct noted *noted, const uint8_t *key, size_t len) {
    struct recorder *by = noted->by;
    const struct moments closing = {name_at(here() + 1, 0), noted->from, moment()};
    uint8_t kept[RECORDED];
    bool is_digest = copy_key(by, key, len, kept);
    if (atomic_load(&by->number) != noted->recording) return;
    struct record *closed[IS_VALUE + 1] = {NULL};
    for (enum role role = IS_LOAD; role <= IS_VALUE; role++) {
        struct record *record = closed[role] = listed(by, place_of_key(by, key, len), role, kept, kept_of(len), is_digest);
        if (!record) continue;
        unlist(record);
        close_value(record, &closing);
    }
    if (closed[IS_VALUE]) return;
    if (closed[IS_LOAD]) closed[IS_LOAD]->value.is_alone = true;
    else put_idle(by, noted, key, len, &closing);
}

static void watches(struct noted *noted) {
    noted->from = 0;
    begins(noted);
    noted->is_late = false;
}

static void runs(const struct noted *noted, uint64_t clock) {
    if (!noted->record) return;
    noted->record->value.has_run = true;
    noted->record->value.clock = clock;
}

static struct record *attaches(const struct noted *noted, const uint32_t *places, unsigned count, bool is_any) {
    struct record *record = noted->record;
    if (!record) return NULL;
    atomic_fetch_add(&record->value.uses, 1);
    record->value.is_any = is_any;
    record->value.places = count > 0 ? malloc(count * sizeof *places) : NULL;
    if (record->value.places) {
        memcpy(record->value.places, places, count * sizeof *places);
        record->value.count = count;
    }
    return record;
}

static void drop_record(struct record *record) {
    if (atomic_fetch_sub(&record->value.uses, 1) != 1) return;
    free(record->value.places);
    free(record);
}

/* From here on the call is written, unless no hit of it is in a lane. With the stripe's lock. If the recording is over, the record does
 * not become live, and no hit of it gets to a lane any more either. */
static void make_live(struct record *record) {
    struct value *v = &record->value;
    struct lane *lane = &record->by->lanes[here()];
    if (v->lane) return;
    pthread_mutex_lock(&lane->lock);
    if (atomic_load(&record->by->number) == record->recording) {
        atomic_fetch_add(&v->uses, 1);
        v->lane = lane;
        v->earlier = &lane->live;
        v->later = lane->live;
        if (v->later) v->later->value.earlier = &v->later;
        lane->live = record;
    }
    pthread_mutex_unlock(&lane->lock);
}

static void keeps(struct record *record) {
    struct value *v = &record->value;
    pthread_mutex_lock(&v->stripe->lock);
    atomic_fetch_add(&record->parts, 1);
    v->is_kept = true;
    v->kept = record->settles = moment();
    if (v->role == IS_LOAD) v->role = IS_VALUE;
    make_live(record);
    pthread_mutex_unlock(&v->stripe->lock);
}

/* A get has joined the call of a value that is not kept. */
static void make_joined_live(struct record *record) {
    pthread_mutex_lock(&record->value.stripe->lock);
    make_live(record);
    pthread_mutex_unlock(&record->value.stripe->lock);
}

static void loses(struct record *record, bool makes_room, uint64_t from) {
    struct value *v = &record->value;
    pthread_mutex_lock(&v->stripe->lock);
    v->ended = moment();
    unlist(record);
    if (from > 0) close_value(record, &(struct moments){name_at(here() + 1, 0), from, v->ended});
    pthread_mutex_unlock(&v->stripe->lock);
    if (makes_room && atomic_load(&record->by->number) == record->recording) atomic_fetch_add(&record->by->evictions, 1);
    leave_record(record);
}

static bool holds(struct noted *noted, struct record *record) {
    if (record->recording != noted->recording) return true;
    unsigned parts = atomic_load(&record->parts);
    while (parts > 0 && !atomic_compare_exchange_weak(&record->parts, &parts, parts + 1)) {}
    if (parts > 0) noted->record = record;
    return parts > 0;
}

/* A get that began then has the value of the record, which it holds. */
static void enter_value(struct record *record, uint64_t from) {
    struct packed *packed;
    /* Nobody writes such a call. One that has not run has found a value from before the recording. */
    if (record->value.is_left_out || !record->value.has_run) return;
    /* Else the call could be dropped, or the recording end before it, after the hit is in a lane. */
    if (!record->value.is_kept) make_joined_live(record);
    uint64_t name = new_name(record->by);
    size_t size = size_of(0, record->len);
    struct lane *lane = name ? lane_for(record->by, record->recording, 1, size, &packed) : NULL;
    if (!lane) return;
    *packed = (struct packed){.size = size, .events = 1, .len = (uint16_t)record->len, .is_digest = record->is_digest, .is_hit = true,
                              .call = record->name, .first = {name, from, moment()}};
    memcpy(key_of(packed), record->key, record->len);
    atomic_fetch_add(&record->value.hits, 1);
    leave_lane(record->by, lane, 1);
}

static void enters(struct noted *noted, bool has) {
    struct record *record = noted->record;
    noted->record = NULL;
    if (!record) return;
    if (has) enter_value(record, noted->from);
    leave_record(record);
}

static void returns(const struct noted *noted, struct record *other, bool is_get) {
    if (!noted->record || other->recording != noted->recording) return;
    /* Its entry has a part. */
    atomic_fetch_add(&other->parts, 1);
    if (is_get) enter_value(other, noted->from);
    noted->record->value.instead = other;
}

static void forgot_tag(const struct noted *noted, uint32_t place, uint64_t number) {
    struct recorder *by = noted->by;
    pthread_mutex_lock(&by->tag_lock);
    by->tags[by->tag_count++ % TAGS] = (struct tag){number, place, {name_at(here() + 1, 0), noted->from, moment()}};
    pthread_mutex_unlock(&by->tag_lock);
}

static bool has_tag(const struct value *v, uint32_t place) {
    for (uint32_t i = 0; i < v->count; i++) if (v->places[i] == place) return true;
    return v->is_any;
}

/* Whether a ForgetTag came before the Forget that closed the call, and while its value was there. Where there was an older value, that
 * may have been returned until then. */
static bool may_close(const struct value *v, const struct moments *at) {
    if (at->from > v->ended || (v->is_closed && at->to >= v->closed)) return false;
    return !v->is_wide || (v->is_kept && at->to >= v->kept);
}

/* A ForgetTag closed the call, if one did before another Forget: the first that ended. */
static void close_by_tag(struct record *record) {
    struct recorder *by = record->by;
    struct value *v = &record->value;
    const struct tag *found = NULL;
    if (v->count == 0 && !v->is_any) return;
    pthread_mutex_lock(&by->tag_lock);
    uint64_t least = by->tag_count > TAGS ? by->tag_count - TAGS : 0;
    for (uint64_t i = by->tag_count, before = 0; i-- > least && before < SLACK;) {
        const struct tag *tag = &by->tags[i % TAGS];
        before += tag->number <= v->clock;
        if (tag->number <= v->clock || !has_tag(v, tag->place) || !may_close(v, &tag->at)) continue;
        if (!found || tag->at.to < found->at.to) found = tag;
    }
    if (found) v->closing = found->at;
    v->is_closed |= found != NULL;
    pthread_mutex_unlock(&by->tag_lock);
}

/* What is known at the end. With the stripe's lock. */
static void finish(struct record *record) {
    struct value *v = &record->value;
    if (v->is_finished) return;
    v->is_finished = true;
    record->settled = moment();
    if (v->ended == 0) v->ended = record->settled;
    if (atomic_load(&record->by->number) == record->recording || v->lane) close_by_tag(record);
    if (v->is_wide) {
        uint64_t to = v->is_closed && v->closing.to < record->settles ? v->closing.to : record->settles;
        if (to > record->led) record->led = to;
    }
    /* Where it closed the call before the load began, it took effect when that did. */
    if (v->is_closed && v->closing.to < record->led) v->closing.to = record->led;
}

/* The record as it stands in a lane, in this room. */
static void pack(struct record *record, struct packed *packed, size_t size) {
    const struct value *v = &record->value;
    *packed = (struct packed){.size = size, .events = 3 + v->is_closed, .len = (uint16_t)record->len, .is_call = true, .is_closed = v->is_closed,
                              .is_digest = record->is_digest, .settles = record->settles, .settled = record->settled, .hits = atomic_load(&v->hits),
                              .first = {record->name, record->asked, record->led}};
    if (v->is_closed) packed->rest[0] = v->closing;
    memcpy(key_of(packed), record->key, record->len);
}

/* Puts the call into the lane where it is live, also if that is full and there are hits of it: without the call nobody could tell
 * what was hit. It stays live if the recording is over, or if there is no memory. */
static void put_live(struct record *record, uint32_t events, size_t size) {
    struct value *v = &record->value;
    struct lane *lane = v->lane;
    struct packed *packed = NULL;
    pthread_mutex_lock(&lane->lock);
    bool is_over = atomic_load(&record->by->number) != record->recording;
    bool is_lost = !is_over && atomic_load(&v->hits) == 0 && is_full(lane, events);
    if (!is_over && !is_lost) packed = room_in(lane, size);
    if (packed) {
        pack(record, packed, size);
        lane->events += events;
    }
    if (is_lost) lose(record->by, record->recording, events);
    if (packed || is_lost) {
        *v->earlier = v->later;
        if (v->later) v->later->value.earlier = v->earlier;
    }
    pthread_mutex_unlock(&lane->lock);
    if (packed || is_lost) drop_record(record);
}

/* Nobody writes a call that has not run. So a Forget that closed that one alone is one that closed none. */
static void put_forget_alone(struct record *record) {
    struct packed *packed;
    size_t size = size_of(0, record->len);
    struct lane *lane = lane_for(record->by, record->recording, 1, size, &packed);
    if (!lane) return;
    *packed = (struct packed){.size = size, .events = 1, .len = (uint16_t)record->len, .is_digest = record->is_digest, .first = record->value.closing};
    memcpy(key_of(packed), record->key, record->len);
    leave_lane(record->by, lane, 1);
}

static void complete_value(struct record *record) {
    struct value *v = &record->value;
    struct packed *packed;
    if (v->instead) leave_record(v->instead);
    pthread_mutex_lock(&v->stripe->lock);
    finish(record);
    uint32_t events = 3 + v->is_closed;
    size_t size = size_of(v->is_closed, record->len);
    pthread_mutex_unlock(&v->stripe->lock);
    if (v->lane) {
        put_live(record, events, size);
    } else if (v->has_run && !v->is_left_out) {
        struct lane *lane = lane_for(record->by, record->recording, events, size, &packed);
        if (lane) {
            pack(record, packed, size);
            leave_lane(record->by, lane, events);
        }
    } else if (v->is_alone && !v->has_run) {
        put_forget_alone(record);
    }
    drop_record(record);
}

/* Nothing of a recording that has ended is in the ledger any more. */
static void empty_ledger(struct recorder *by) {
    for (uint64_t i = 0; by->keys && i < by->key_count; i++) {
        pthread_mutex_t *lock = &by->stripes[i % STRIPES].lock;
        pthread_mutex_lock(lock);
        while (by->keys[i]) unlist(by->keys[i]);
        pthread_mutex_unlock(lock);
    }
}

/* The leader's part in the course of its call. */

static void leads(struct noted *noted, struct post *post, uint64_t generation, const uint8_t *key, size_t len) {
    struct record *record = malloc(sizeof *record + kept_of(len));
    uint64_t name = record ? new_name(noted->by) : 0;
    if (name == 0) {
        free(record);
        lose(noted->by, noted->recording, 3);
        return;
    }
    memset(record, 0, sizeof *record);
    record->by = noted->by;
    record->recording = noted->recording;
    record->name = name;
    record->asked = noted->from;
    atomic_init(&record->parts, 1);
    record->len = (uint32_t)kept_of(len);
    record->is_digest = copy_key(noted->by, key, len, record->key);
    record->led = moment();
    if (noted->by->keys) lead_in_ledger(record, key, len);
    noted->record = record;
    atomic_store(&post->record, record);
    atomic_store(&post->recorded, generation);
}

/* From here on the key can have a newer call. */
static void settles(struct noted *noted) {
    if (noted->record && noted->record->value.stripe) end_in_ledger(noted->record);
    else if (noted->record) noted->record->settles = moment();
}

static void tells(struct noted *noted, uint64_t others) {
    if (noted->record) atomic_fetch_add(&noted->record->parts, (unsigned)others);
}

static struct bucket *bucket_of(struct recorder *by, const sflight_id *id) { return &by->buckets[id->cell % BUCKETS]; }

static bool is_same(const sflight_id *one, const sflight_id *other) {
    return one->table == other->table && one->cell == other->cell && one->generation == other->generation;
}

static void closes_record(struct record *record, struct event *event) {
    /* A Forget that began before the recording took effect after the call had begun. */
    if (event->from == 0) event->from = record->asked;
    add_event(record, event);
}

/* A Forget has closed the call. Returns whether the record stays in the bucket until the Forget comes, with the leader's part in it. */
static bool waits_for_forget(struct recorder *by, struct record *record, const sflight_id *id) {
    struct bucket *bucket = bucket_of(by, id);
    bool waits = false;
    pthread_mutex_lock(&bucket->lock);
    struct event **at = &bucket->events;
    while (*at && !is_same(&(*at)->id, id)) at = &(*at)->next;
    struct event *event = *at;
    if (event) {
        *at = event->next;
    } else if (record && bucket->unknown > 0) {
        bucket->unknown--;
        atomic_fetch_add(&record->lost, 1);
    } else if (record) {
        record->id = *id;
        record->next = bucket->records;
        bucket->records = record;
        waits = true;
    }
    pthread_mutex_unlock(&bucket->lock);
    if (event && record) closes_record(record, event);
    else free(event);
    return waits;
}

static void told(struct recorder *by, struct noted *noted, const sflight_id *id, bool is_forgotten) {
    struct record *record = noted->by ? noted->record : NULL;
    if (by->keys) {
        if (record && is_forgotten) close_unknown(record);
        if (record) leave_record(record);
        return;
    }
    /* The call could be joined until it was told. */
    if (record) record->settled = moment();
    if (is_forgotten && waits_for_forget(by, record, id)) return;
    if (record) leave_record(record);
}

/* A thread that joined a call has a part in its record once the call is told; before that it has the lock of the post. */
static void leaves(struct noted *noted, struct post *post, bool is_told) {
    struct record *record = atomic_load(&post->record);
    if (record->value.stripe) {
        noted->record = NULL;
        if (!is_told) return;
        if (noted->by && noted->recording == record->recording && !noted->is_late) {
            noted->record = record->value.instead ? record->value.instead : record;
            atomic_fetch_add(&noted->record->parts, 1);
        }
        leave_record(record);
        return;
    }
    if (noted->by && noted->recording == record->recording) {
        struct event *event = malloc(sizeof *event);
        uint64_t name = event ? new_name(noted->by) : 0;
        if (name != 0) {
            *event = (struct event){.name = name, .from = noted->from, .to = moment()};
            add_event(record, event);
        } else {
            free(event);
            atomic_fetch_add(&record->lost, 1);
        }
    }
    if (is_told) leave_record(record);
}

/* Forgets. */

/* A Forget has closed no call. */
static void put_idle(struct recorder *by, const struct noted *noted, const uint8_t *key, size_t len, const struct moments *at) {
    struct packed *packed;
    size_t size = size_of(0, kept_of(len));
    struct lane *lane = lane_for(by, noted->recording, 1, size, &packed);
    if (!lane) return;
    *packed = (struct packed){.size = size, .events = 1, .len = (uint16_t)kept_of(len), .first = *at};
    packed->is_digest = copy_key(by, key, len, key_of(packed));
    leave_lane(by, lane, 1);
}

static void closed(struct recorder *by, struct event *event, const sflight_id *id) {
    struct bucket *bucket = bucket_of(by, id);
    pthread_mutex_lock(&bucket->lock);
    struct record **at = &bucket->records;
    while (*at && !is_same(&(*at)->id, id)) at = &(*at)->next;
    struct record *record = *at;
    if (record) {
        *at = record->next;
    } else if (event) {
        event->next = bucket->events;
        bucket->events = event;
    } else {
        bucket->unknown++;
    }
    pthread_mutex_unlock(&bucket->lock);
    if (!record) return;
    if (event) closes_record(record, event);
    else atomic_fetch_add(&record->lost, 1);
    leave_record(record);
}

static void forgot(struct recorder *by, const struct noted *noted, const sflight_id *id, const uint8_t *key, size_t len) {
    uint64_t name = name_at(here() + 1, 0), to = moment();
    /* In a cache closes_key tells of it. */
    if (by->keys) return;
    if (id) {
        struct event *event = malloc(sizeof *event);
        if (event) *event = (struct event){.id = *id, .name = name, .from = noted->by ? noted->from : 0, .to = to, .is_forget = true};
        closed(by, event, id);
        return;
    }
    put_idle(by, noted, key, len, &(struct moments){name, noted->from, to});
}

/* Drops what waits for somebody that has not come before the recording ended. */
static void empty_buckets(struct recorder *by) {
    for (int i = 0; i < BUCKETS; i++) {
        struct bucket *bucket = &by->buckets[i];
        pthread_mutex_lock(&bucket->lock);
        struct record *records = bucket->records, *next;
        struct event *events = bucket->events;
        bucket->records = NULL;
        bucket->events = NULL;
        bucket->unknown = 0;
        pthread_mutex_unlock(&bucket->lock);
        drop_events(events);
        for (; records; records = next) {
            next = records->next;
            leave_record(records);
        }
    }
}

/* The thread of the recording, which writes. */

static void flush(struct recorder *by) {
    if (by->used > 0 && by->recorded.failed == 0) {
        by->recorded.failed = by->write(by->context, by->text, by->used);
        if (by->recorded.failed != 0) {
            /* Calls cost no more than without a recording from here on. */
            atomic_store(&by->number, 0);
            atomic_store(&by->pool->recorder, NULL);
        }
    }
    *(by->recorded.failed == 0 ? &by->recorded.events : &by->recorded.lost) += by->pending;
    by->pending = 0;
    by->used = 0;
}

static void put_text(struct recorder *by, const char *text) {
    size_t len = strlen(text);
    memcpy(by->text + by->used, text, len);
    by->used += len;
}

static void put_number(struct recorder *by, uint64_t number) {
    char digits[DIGITS];
    size_t at = sizeof digits;
    do digits[--at] = (char)('0' + number % 10);
    while ((number /= 10) > 0);
    memcpy(by->text + by->used, digits + at, sizeof digits - at);
    by->used += sizeof digits - at;
}

static void put_name(struct recorder *by, const char *what, uint64_t name) {
    put_text(by, what);
    put_number(by, name >> 32);
    put_text(by, ",");
    put_number(by, name & UINT32_MAX);
    put_text(by, "]");
}

static void begin_line(struct recorder *by, const char *event, uint64_t name) {
    if (by->used > TEXT - LINE) flush(by);
    put_text(by, "{\"e\":\"");
    put_text(by, event);
    put_text(by, "\",\"by\":");
    put_number(by, name >> 32);
}

static void end_line(struct recorder *by, uint64_t from, uint64_t to) {
    put_text(by, ",\"at\":[");
    put_number(by, from);
    put_text(by, ",");
    put_number(by, to);
    put_text(by, "]}\n");
    by->pending++;
}

static void put_format(struct recorder *by, uint64_t lost) {
    if (by->used > TEXT - LINE) flush(by);
    put_text(by, "{\"format\":4,\"lost\":");
    put_number(by, lost);
    put_text(by, "}\n");
}

/* How many bytes at the beginning are a character in UTF-8; 0 where they are none. */
static size_t character(const uint8_t *at, size_t len) {
    size_t more = at[0] < 0x80 ? 0 : at[0] < 0xe0 ? 1 : at[0] < 0xf0 ? 2 : 3;
    if (more == 0) return 1;
    if (at[0] < 0xc2 || at[0] > 0xf4 || more >= len) return 0;
    for (size_t i = 1; i <= more; i++) if (at[i] >> 6 != 2) return 0;
    /* Neither a longer form than is needed, nor half of a pair, nor beyond the last character. */
    if (at[0] == 0xe0 && at[1] < 0xa0) return 0;
    if (at[0] == 0xed && at[1] > 0x9f) return 0;
    if (at[0] == 0xf0 && at[1] < 0x90) return 0;
    if (at[0] == 0xf4 && at[1] > 0x8f) return 0;
    return more + 1;
}

static bool is_text(const uint8_t *key, size_t len) {
    for (size_t at = 0, step; at < len; at += step) {
        step = character(key + at, len - at);
        if (step == 0) return false;
    }
    return true;
}

/* The key as JSON has it; where it is no text, or could be taken for a digest, its digest. */
static void put_key(struct recorder *by, const struct packed *packed, const uint8_t *key) {
    static const char hex[] = "0123456789abcdef";
    uint8_t digest[DIGEST];
    size_t len = packed->len;
    if (!packed->is_digest && (!is_text(key, len) || (len >= 5 && memcmp(key, "hash:", 5) == 0))) {
        write_digest(by, key, len, digest);
        key = digest;
        len = DIGEST;
    }
    put_text(by, ",\"k\":\"");
    for (size_t i = 0; i < len; i++) {
        char *to = by->text + by->used;
        if (key[i] == '"' || key[i] == '\\') {
            to[0] = '\\';
            to[1] = (char)key[i];
            by->used += 2;
        } else if (key[i] < ' ') {
            memcpy(to, "\\u00", 4);
            to[4] = hex[key[i] >> 4];
            to[5] = hex[key[i] & 15];
            by->used += 6;
        } else {
            to[0] = (char)key[i];
            by->used++;
        }
    }
    put_text(by, "\"");
}

/* An Enter of the call. */
static void write_enter(struct recorder *by, const struct packed *packed, const uint8_t *key, uint64_t call, const struct moments *at) {
    begin_line(by, "enter", at->name);
    put_key(by, packed, key);
    put_name(by, ",\"c\":[", call);
    put_name(by, ",\"m\":[", at->name);
    end_line(by, at->from, at->to);
}

static void write_packed(struct recorder *by, struct packed *packed) {
    if (by->recorded.failed != 0) {
        by->recorded.lost += packed->events;
        return;
    }
    const uint8_t *key = key_of(packed);
    const struct moments *first = &packed->first, *at = packed->rest;
    if (packed->is_hit) {
        write_enter(by, packed, key, packed->call, first);
        return;
    }
    begin_line(by, packed->is_call ? "lead" : "forget", first->name);
    put_key(by, packed, key);
    if (!packed->is_call) {
        put_text(by, ",\"closed\":null");
        end_line(by, first->from, first->to);
        return;
    }
    put_name(by, ",\"c\":[", first->name);
    put_text(by, ",\"own\":null");
    end_line(by, first->from, first->to);
    for (uint32_t i = 0; i < packed->members; i++, at++) write_enter(by, packed, key, first->name, at);
    if (packed->is_closed) {
        begin_line(by, "forget", at->name);
        put_key(by, packed, key);
        put_name(by, ",\"closed\":[", first->name);
        end_line(by, at->from, at->to);
    }
    begin_line(by, "settle", first->name);
    put_name(by, ",\"c\":[", first->name);
    put_text(by, ",\"ok\":\"");
    put_number(by, first->name >> 32);
    put_text(by, ".");
    put_number(by, first->name & UINT32_MAX);
    put_text(by, "\",\"joiners\":");
    put_number(by, packed->members + packed->hits);
    end_line(by, packed->settles, packed->settled);
    begin_line(by, "handed", first->name);
    put_name(by, ",\"c\":[", first->name);
    end_line(by, packed->settles, packed->settled);
}

/* Writes what the lane has, which keeps one chunk. */
static void write_lane(struct recorder *by, struct lane *lane) {
    pthread_mutex_lock(&lane->lock);
    struct chunk *chunk = lane->first, *next, *kept = NULL;
    lane->first = lane->last = NULL;
    lane->events = 0;
    pthread_mutex_unlock(&lane->lock);
    for (; chunk; chunk = next) {
        next = chunk->next;
        for (size_t at = 0; at < chunk->used;) {
            struct packed *packed = (struct packed *)((uint8_t *)chunk->room + at);
            at += packed->size;
            write_packed(by, packed);
        }
        if (kept || chunk->size > CHUNK) free(chunk);
        else kept = chunk;
    }
    if (!kept) return;
    pthread_mutex_lock(&lane->lock);
    struct chunk *spare = lane->spare;
    lane->spare = kept;
    pthread_mutex_unlock(&lane->lock);
    free(spare);
}

/* Writes the calls that are live in the lane, after the recording is over and all lanes are written. */
static void write_live(struct recorder *by, struct lane *lane) {
    uint64_t room[(sizeof(struct packed) + sizeof(struct moments) + RECORDED + 7) / 8];
    struct packed *packed = (struct packed *)(void *)room;
    pthread_mutex_lock(&lane->lock);
    struct record *record = lane->live, *next;
    lane->live = NULL;
    pthread_mutex_unlock(&lane->lock);
    for (; record; record = next) {
        next = record->value.later;
        pthread_mutex_lock(&record->value.stripe->lock);
        finish(record);
        pack(record, packed, sizeof room);
        pthread_mutex_unlock(&record->value.stripe->lock);
        write_packed(by, packed);
        drop_record(record);
    }
}

static struct timespec after(int64_t nanoseconds) {
    uint64_t at = moment() + (uint64_t)nanoseconds;
    return (struct timespec){(time_t)(at / 1000000000), (long)(at % 1000000000)};
}

static void *write_all(void *at) {
    struct recorder *by = at;
    put_format(by, 0);
    for (bool is_last = false; !is_last;) {
        struct timespec deadline = after(EVERY);
        pthread_mutex_lock(&by->lock);
        if (!by->is_ending && by->recorded.failed == 0) pthread_cond_timedwait(&by->wake, &by->lock, &deadline);
        /* After a writer has failed, the lanes are emptied once more. */
        is_last = by->is_ending || by->recorded.failed != 0;
        pthread_mutex_unlock(&by->lock);
        for (int i = 0; i < LANES; i++) write_lane(by, &by->lanes[i]);
        for (int i = 0; is_last && i < LANES; i++) write_live(by, &by->lanes[i]);
        uint64_t missed = atomic_exchange(&by->missed[by->recordings % 2], 0);
        by->recorded.lost += missed;
        if (missed > 0) put_format(by, missed);
        flush(by);
    }
    return NULL;
}

static void free_recorder(struct recorder *by);

static void closes(sflight_pool *pool) {
    sflight_do_stop(pool, NULL);
    free_recorder(pool->kept);
}

static void stops(sflight_pool *pool) { sflight_do_stop(pool, NULL); }

static const struct recording recording = {begins, leads, settles, tells, told, leaves, forgot, closes, stops, lock_of_key, closes_key, watches, runs, attaches, keeps, loses,
                                           drop_record, holds, enters, returns, forgot_tag};

/* A recorder, of a cache that has so many keys, or of a pool that is no cache's. */
static struct recorder *new_recorder(sflight_pool *pool, uint64_t keys) {
    struct recorder *by = aligned_alloc(CACHE_LINE, sizeof *by);
    if (!by) return NULL;
    memset(by, 0, sizeof *by);
    if (getrandom(by->seeds, sizeof by->seeds, 0) != sizeof by->seeds) {
        free(by);
        return NULL;
    }
    if (keys > 0) {
        for (by->key_count = FEWEST_KEYS; by->key_count < MOST_KEYS && by->key_count < keys;) by->key_count *= 2;
        by->keys = calloc(by->key_count, sizeof *by->keys);
        if (!by->keys) {
            free(by);
            return NULL;
        }
    }
    pthread_condattr_t attributes;
    by->head.calls = &recording;
    by->pool = pool;
    for (int i = 0; i < LANES; i++) pthread_mutex_init(&by->lanes[i].lock, NULL);
    for (int i = 0; i < BUCKETS; i++) pthread_mutex_init(&by->buckets[i].lock, NULL);
    for (int i = 0; i < STRIPES; i++) pthread_mutex_init(&by->stripes[i].lock, NULL);
    pthread_mutex_init(&by->tag_lock, NULL);
    pthread_mutex_init(&by->lock, NULL);
    pthread_condattr_init(&attributes);
    pthread_condattr_setclock(&attributes, CLOCK_MONOTONIC);
    pthread_cond_init(&by->wake, &attributes);
    pthread_condattr_destroy(&attributes);
    return by;
}

static void free_recorder(struct recorder *by) {
    if (!by) return;
    empty_buckets(by);
    for (int i = 0; i < LANES; i++) pthread_mutex_destroy(&by->lanes[i].lock);
    for (int i = 0; i < BUCKETS; i++) pthread_mutex_destroy(&by->buckets[i].lock);
    for (int i = 0; i < STRIPES; i++) pthread_mutex_destroy(&by->stripes[i].lock);
    free(by->keys);
    pthread_mutex_destroy(&by->tag_lock);
    pthread_mutex_destroy(&by->lock);
    pthread_cond_destroy(&by->wake);
    free(by);
}

static int begin_recording(struct recorder *by, sflight_write *write, void *context) {
    sigset_t all, before;
    by->text = malloc(TEXT);
    if (!by->text) return SFLIGHT_DO_NO_MEMORY;
    by->recordings++;
    by->write = write;
    by->context = context;
    by->recorded = (sflight_recorded){0};
    by->used = 0;
    by->is_ending = false;
    atomic_store(&by->missed[by->recordings % 2], 0);
    atomic_store(&by->evictions, 0);
    pthread_mutex_lock(&by->tag_lock);
    by->tag_count = 0;
    pthread_mutex_unlock(&by->tag_lock);
    for (int i = 0; i < LANES; i++) atomic_store(&by->lanes[i].names, 0);
    atomic_store(&by->number, by->recordings);
    /* The program's signals are for its own threads. */
    sigfillset(&all);
    pthread_sigmask(SIG_SETMASK, &all, &before);
    int failed = pthread_create(&by->thread, NULL, write_all, by);
    pthread_sigmask(SIG_SETMASK, &before, NULL);
    if (failed != 0) {
        atomic_store(&by->number, 0);
        free(by->text);
        return SFLIGHT_DO_NO_THREAD;
    }
    atomic_store(&by->pool->recorder, by);
    /* Its first write may have failed already. */
    if (atomic_load(&by->number) == 0) atomic_store(&by->pool->recorder, NULL);
    return SFLIGHT_DO_DONE;
}

static void end_recording(struct recorder *by, sflight_recorded *recorded) {
    atomic_store(&by->pool->recorder, NULL);
    atomic_store(&by->number, 0);
    pthread_mutex_lock(&by->lock);
    by->is_ending = true;
    pthread_mutex_unlock(&by->lock);
    pthread_cond_signal(&by->wake);
    pthread_join(by->thread, NULL);
    for (int i = 0; i < LANES; i++) {
        free(by->lanes[i].spare);
        by->lanes[i].spare = NULL;
    }
    free(by->text);
    empty_buckets(by);
    empty_ledger(by);
    by->recorded.evictions = atomic_load(&by->evictions);
    if (recorded) *recorded = by->recorded;
}

/* Records a pool, which is that of a cache with so many keys, or of none. */
static int record_pool(sflight_pool *pool, uint64_t keys, sflight_write *write, void *context) {
    pthread_mutex_lock(&pool->lock);
    bool is_recorded = pool->is_recorded;
    if (!is_recorded) pool->is_recorded = pool->is_changing = true;
    pthread_mutex_unlock(&pool->lock);
    if (is_recorded) return SFLIGHT_DO_RECORDED;
    if (!pool->kept) pool->kept = new_recorder(pool, keys);
    int code = pool->kept ? begin_recording(pool->kept, write, context) : SFLIGHT_DO_NO_MEMORY;
    pthread_mutex_lock(&pool->lock);
    pool->is_recorded = code == SFLIGHT_DO_DONE;
    pool->is_changing = false;
    pthread_mutex_unlock(&pool->lock);
    return code;
}

int sflight_cache_record(sflight_cache *cache, sflight_write *write, void *context) {
    struct cache_head *head = (struct cache_head *)(void *)cache;
    return record_pool(head->pool, head->expected, write, context);
}

int sflight_cache_stop(sflight_cache *cache, sflight_recorded *recorded) {
    return sflight_do_stop(((struct cache_head *)(void *)cache)->pool, recorded);
}

int sflight_do_record(sflight_pool *pool, sflight_write *write, void *context) { return record_pool(pool, 0, write, context); }

int sflight_do_stop(sflight_pool *pool, sflight_recorded *recorded) {
    pthread_mutex_lock(&pool->lock);
    /* The recording's own thread cannot wait for itself. */
    bool is_meant = pool->is_recorded && !pool->is_changing && !pthread_equal(pool->kept->thread, pthread_self());
    if (is_meant) pool->is_changing = true;
    pthread_mutex_unlock(&pool->lock);
    if (!is_meant) return SFLIGHT_DO_NOT_RECORDED;
    end_recording(pool->kept, recorded);
    pthread_mutex_lock(&pool->lock);
    pool->is_recorded = pool->is_changing = false;
    pthread_mutex_unlock(&pool->lock);
    return SFLIGHT_DO_DONE;
}
