/* A get looks for the key in its shard, and asks the pool whether a Forget has ended what it finds. If
 * there is nothing, it gets the value through the pool (sflight_do.h), so which get leads, joins and is
 * forgotten is the library's word.
 *
 * Hits. A shard's table has a word for each entry: its address and a part of the key's hash. Entries come
 * and go with the shard's lock, and stay at their word. A get takes no lock:
 *
 *     get: reads the word; writes the entry into a place of its thread (hold); reads the word again
 *     out: clears the word; looks through the places of all threads (held_now)
 *
 * These are in one order for all threads. Where the get still finds the word, it was cleared later, so
 * whoever cleared it finds the place. Where the get finds another word, it lets go of the place and has
 * touched nothing. So a place that was seen without the entry, once that is out, never has it in use again.
 *
 * An entry that leaves while a place holds it waits for that place, in the place's list (`owed`). Whoever frees
 * the place takes its list. Each entry of the list then waits for the next place that holds it. Where there is
 * none, the cache's count for the entry ends. The release is two plain instructions where the list is empty:
 *
 *     release: clears the place; reads its list
 *     out:     adds the entry to the list; has all threads pass a fence (fence_all); reads the place again
 *
 * A release that reads the list after that fence finds the entry. One that has read it before had cleared
 * the place, so the thread that took the entry out sees that, and takes the list itself. So an entry is freed
 * once it is out and its last user has released it, by one of these two threads. A thread that is stopped between
 * two steps, or dies, delays at most the entries that it takes out and those that wait for its own places. No
 * lock is taken, and an entry passes each place once, however many hold it.
 *
 * The place may name an entry that is gone, whose memory is another entry by now. If that one leaves, it waits
 * until the get has found another word and lets go. A table that was too small is kept until the cache is
 * closed, with all its words cleared; such tables together are smaller than the last.
 *
 * The leader keeps its value before its call is settled, since the key's next load cannot begin sooner:
 * a value that is kept later is a newer one, unless the key was forgotten meanwhile. Then the older
 * one's stamp is ended, and no get takes it. A value that leaves the cache is told and dropped once
 * the call is settled: a drop function may get a key whose load waits for that very call.
 *
 * Tags. A Forget of a tag raises `clock`, and writes it as the age of the tag's cell. A value has the clock
 * from before its load began: it is current while none of its tags has a greater age. The group knows
 * nothing of tags, so a get may join a load from before:
 *
 *     load of k begins, its clock is 0; the tag t is forgotten: its age is 1, and that has returned
 *     get of k begins, reads the clock: 1; joins the load; has its value, with the tag t
 *
 * So a get that was told a value whose clock is less than the get's own, and of which a tag has an age
 * above the value's clock, asks again. It does not matter whether that age is above its own clock: a later
 * Forget may have written over the one that counts. One more time is enough: the call that told it is
 * settled, or was forgotten, so its next one begins after its clock was read; and what a leader finds in the
 * cache was current when it looked. A failure without tags counts as having them all: nobody knows which ones
 * the value would have had.
 *
 * Eviction is S3-FIFO (Yang and others, SOSP 2023) by weight: a value comes into the small queue of its
 * shard, and from there into the main one if it was used, or if its key left the small one lately. */
#ifndef _GNU_SOURCE
#define _GNU_SOURCE
#endif
#include "sflight_cache.h"
#include "sflight_inside.h"
#include <errno.h>
#include <linux/futex.h>
#include <linux/membarrier.h>
#include <limits.h>
#include <signal.h>
#include <stdlib.h>
#include <string.h>
#include <sys/random.h>
#include <sys/syscall.h>
#include <unistd.h>

/* A function that few hits call: in line it would make those longer that all of them call. */
#define APART __attribute__((noinline))

/* A part of each hit: as a function of its own it would save registers, and be passed what the hit has in them. */
#define IN_LINE static inline __attribute__((always_inline))

/* What is so in few hits. */
#define RARELY(it) __builtin_expect(!!(it), 0)

/* A step between two that other threads may see. Tests stop threads here. */
#ifndef SFLIGHT_POINT
#define SFLIGHT_POINT(where) ((void)0)
#endif

/* A store that other threads may see after a later load of this one. Tests have them see it late. */
#ifndef SFLIGHT_STORE
#define SFLIGHT_STORE(at, to) atomic_store_explicit(at, to, memory_order_release)
#endif

enum {
    SHARDS = 16,
    ENTRIES_PER_SHARD = 256, /* at least, or there is one shard */
    LOADS = 16,
    MOST_LOADS = 65536, /* that are asked for because of the entries */
    SMALL_GROUP = 256,  /* up to so many loads, there is one for four entries; and then one for sixteen */
    SMALL = 10,         /* the small queues have a tenth of the weight */
    MOST_USES = 3,
    MOST_PASSES = 1024, /* of an eviction, while others mark entries as used */
    PER_CHUNK = 7,          /* of a chunk */
    FULL = 5,           /* a table with so many entries for each chunk grows */
    WINDOW = 256,       /* ghosts are so many groups old at most */
    FEWEST_CELLS = 64,
    MOST_TAG_CELLS = 65536,
    TAG_CELLS_OF_ENTRY = 4, /* so that a ForgetTag seldom ends the values of another tag */
    FIRST_BUCKET = 1000, /* nanoseconds: a load that takes no more is in the first bucket */
    NEXT_BUCKET = 4,     /* each bucket reaches so many times as far as the one before it */
    SECOND_LINE = 16,   /* so far behind its head an entry reaches into its second line of memory, if it has one */
    IDLE_PART = 16,     /* a hit is written down in steps of this part of the idle time */
    ERAS = 64
};

/* Readings of the two clocks at one time differ by some nanoseconds, or more where the thread was stopped between
 * them. So much, in nanoseconds, is taken for that. */
#define SAME_ERA 1000000u
#define NO_ERA INT64_MIN

/* What a call is settled with where it has no value, in place of an entry; a failure with the clock of its load
 * (dated). An entry whose call has failed has a mark. */
enum { FAILED = 0, MISSING = 2, NO_MEMORY = 4, AGAIN = 6, CONSTANTS = 8, MARK = 1 };

#define DATED ((uint64_t)1 << 63)

/* What stands in a place where nothing is in use. */
enum { FREE_PLACE = 0 };

enum place { OUT, IN_SMALL, IN_MAIN };

/* Of an entry: the parts that it has before its key, in this order. Those before HAS_TAGS are of 8 bytes. */
enum { HAS_LIFE = 1, HAS_TTL = 2, HAS_AHEAD = 4, HAS_WEIGHT = 8, HAS_TAGS = 16, HAS_IDLE = 32, HAS_RECORD = 64 };

/* The weight that says that a part has it. */
#define HEAVY UINT32_MAX

/* What a get makes of an entry. Those from FRESH on may be returned. */
enum worth { GONE, EXPIRED, STALE, FRESH, DUE };

/* The time by both clocks. */
struct moment {
    int64_t steady, wall;
};

struct tags {
    uint64_t clock;
    uint32_t hashes[];
};

/* A value, or a kept failure, with its key. The shard's lock protects the links, the place and the reason; what is
 * atomic is for all; the rest is written before the entry is in a table. There is one for each value, so an entry has
 * the parts that it needs and no others:
 *
 *     HAS_LIFE    when its load began, by the steady clock
 *     HAS_TTL     its time to live, if that is not the cache's
 *     HAS_AHEAD   how far the wall clock was ahead of the steady one then, if no era of the cache says so
 *     HAS_WEIGHT  its weight, if that is HEAVY or more
 *     HAS_TAGS    struct tags
 *     HAS_IDLE    4 bytes: how old it was by the steady clock at its last hit, in ticks
 *     HAS_RECORD  its record */
struct sflight_entry {
    struct sflight_entry *older; /* in its queue, or among those that have left */
    union {
        struct sflight_entry *newer; /* in its queue */
        struct seat *seat;           /* once it has left: those before it have no place that holds it */
    };
    void *value;
    uint64_t age;  /* of its stamp */
    uint32_t slot; /* of its stamp, with the stamp's table in the upper byte */
    uint32_t weight;
    atomic_uint users; /* the cache, if it has it, and whoever has a count for it */
    uint32_t len;
    uint8_t place : 4, reason : 4;
    uint8_t code, has, tags, key_at, era;
    atomic_uchar uses;
    atomic_bool is_refreshing;
    uint64_t rest[];
};

struct queue {
    struct sflight_entry *oldest, *newest;
    uint64_t weight;
};

/* Entries whose keys' hashes say this chunk come into a later one where it is full: `passed` counts those. */
struct chunk {
    _Alignas(CACHE_LINE) atomic_ullong words[PER_CHUNK];
    atomic_uint passed;
};

struct table {
    struct table *last;
    uint64_t count;
    struct chunk chunks[];
};

/* The key of an entry that has left the small queue, as its hash says, and the group of those it was of. */
struct ghost {
    uint16_t tag, group;
};

/* What hits read shares no line with what misses write. */
struct shard {
    _Alignas(CACHE_LINE) _Atomic(struct table *) table; /* changed with the lock */
    _Alignas(CACHE_LINE) pthread_mutex_t lock;          /* protects the rest */
    uint64_t entries;
    struct queue queues[IN_MAIN + 1];
    struct ghost *ghosts;
    uint64_t ghost_count, ghosts_given;
    struct getting *loading;
    uint64_t loads, failures, refreshes, load_time, load_times[SFLIGHT_CACHE_BUCKETS], evictions, expirations;
};

struct sflight_cache {
    /* As struct cache_head has them. */
    sflight_pool *pool;
    uint64_t expected;
    sflight_cache_options options;
    uint64_t seeds[3];
    unsigned count; /* of shards */
    atomic_bool is_fenced; /* each release passes a fence of its own: the system has none for all threads */
    _Atomic(uint64_t) limit;
    _Atomic(int64_t) eras[ERAS]; /* how far the wall clock is ahead of the steady one, as births saw it; or NO_ERA */
    atomic_uint era;             /* that of the last birth */
    int64_t tick;                /* a step in which hits are written down */
    uint64_t jitter;             /* the most that is taken off the time to live */
    atomic_ullong all;   /* Forgets of all that have begun */
    atomic_ullong clock; /* Forgets of tags that have begun */
    atomic_ullong floor; /* of the ages of all tags, where there was no memory for them */
    _Atomic(atomic_ullong *) ages; /* of tags; null until one is forgotten */
    atomic_uint *forgets;          /* that have begun, by the hash of their key */
    uint64_t cells, forget_cells;  /* of each; powers of two */
    _Alignas(CACHE_LINE) atomic_llong room; /* what is left of the limit; below 0 while the cache is made smaller */
    atomic_ullong hits, misses;             /* of threads without a seat */
    atomic_ullong repeats, stale;           /* repeats: calls that were joined, and not by a get for good */
    atomic_ullong other_forgets;            /* Forgets that the pool does not count, less those that it counts besides */
    pthread_mutex_t lock;                   /* protects the rest, and changes of the limit */
    pthread_cond_t is_idle;
    bool is_closing;  /* nothing is kept any more; set before the shards are emptied, and while nothing runs */
    uint64_t running; /* loads in the background */
    struct runner *ended;
    struct shard shards[];
};

/* A get that found nothing, a refresh or a put. Where it leads, it is among those of its shard from before
 * its load begins until its call is settled. */
struct getting {
    sflight_cache *cache;
    const uint8_t *key;
    size_t len;
    uint64_t hash, clock;
    struct doing doing;
    struct moment began;
    struct sflight_entry *replaces; /* by a refresh, which has a count for it */
    struct sflight_entry *left;     /* what has left the cache meanwhile */
    uint64_t result;                /* what the call is settled with */
    uint64_t kept;                  /* that entry, once it is in the cache; or one from there; by the shard's lock */
    int64_t took;
    void *lost; /* a value that there was no memory to keep */
    bool is_led, is_joined, is_put, is_found, is_failure, is_lost;
    bool is_beside;      /* another key of its batch counts the time that the load took */
    uint8_t place, uses; /* of the value that was replaced */
    size_t item;         /* of a batch */
    struct getting *next, **before; /* by the shard's lock */
};

/* Gets that are led by another thread, or by one call of a batch's load function. */
struct work {
    sflight_cache *cache;
    sflight_cache_how how;
    atomic_uint state; /* a futex */
    size_t count, led;
    sflight_cache_loading *loadings;
    struct getting gettings[];
};

enum { RUNNING, DONE, LEFT };

/* A thread of the cache. */
struct runner {
    sflight_cache *cache;
    struct work *work;
    pthread_t thread;
    struct runner *next;
};

__extension__ typedef unsigned __int128 wide;

IN_LINE uint64_t fold(uint64_t a, uint64_t b) {
    wide product = (wide)a * b;
    return (uint64_t)product ^ (uint64_t)(product >> 64);
}

IN_LINE uint64_t eight_at(const uint8_t *bytes) {
    uint64_t word;
    memcpy(&word, bytes, 8);
    return word;
}

IN_LINE uint64_t four_at(const uint8_t *bytes) {
    uint32_t word;
    memcpy(&word, bytes, 4);
    return word;
}

/* Under secret seeds, so that nobody can choose keys that meet. The last 16 bytes are read as two words, or what
 * there is as words that overlap: they wait for no multiplication of those before. The length tells keys apart whose
 * words are the same, by the seed that it chooses. */
IN_LINE uint64_t hash_in_line(const sflight_cache *c, const uint8_t *key, size_t len) {
    uint64_t state = c->seeds[0], first = 0, second = 0, length = len;
    for (; len > 16; key += 16, len -= 16) state = fold(eight_at(key) ^ state, eight_at(key + 8) ^ c->seeds[1]);
    if (length >= 16) {
        first = eight_at(key + len - 16);
        second = eight_at(key + len - 8);
    } else if (len >= 8) {
        first = eight_at(key);
        second = eight_at(key + len - 8);
    } else if (len >= 4) {
        first = four_at(key);
        second = four_at(key + len - 4);
    } else if (len > 0) {
        first = (uint64_t)key[0] << 16 | (uint64_t)key[len / 2] << 8 | key[len - 1];
    }
    state += fold(first ^ c->seeds[0], second ^ c->seeds[2] * (2 * length + 1));
    return fold(state ^ c->seeds[1], c->seeds[2] ^ c->seeds[0]);
}

APART static uint64_t hash_of(const sflight_cache *c, const uint8_t *key, size_t len) { return hash_in_line(c, key, len); }

/* Whether the keys of this length are the same. Most have so few bytes that a call of memcmp takes longer than to compare
 * them as words, which overlap. */
IN_LINE bool are_same(const uint8_t *a, const uint8_t *b, size_t len) {
    if (len > 32 || len < 4) return len == 0 || memcmp(a, b, len) == 0;
    if (len < 8) return ((four_at(a) ^ four_at(b)) | (four_at(a + len - 4) ^ four_at(b + len - 4))) == 0;
    uint64_t ends = (eight_at(a) ^ eight_at(b)) | (eight_at(a + len - 8) ^ eight_at(b + len - 8));
    if (len > 16) ends |= (eight_at(a + 8) ^ eight_at(b + 8)) | (eight_at(a + len - 16) ^ eight_at(b + len - 16));
    return ends == 0;
}

IN_LINE struct shard *shard_of(sflight_cache *c, uint64_t hash) { return &c->shards[(hash >> 48) * c->count >> 16]; }

static int64_t time_of(const sflight_cache *c, bool is_wall) {
    struct timespec at;
    if (c->options.clock) return c->options.clock(c->options.context, is_wall);
    clock_gettime(is_wall ? CLOCK_REALTIME : CLOCK_MONOTONIC, &at);
    return at.tv_sec * 1000000000 + at.tv_nsec;
}

static struct moment now_of(const sflight_cache *c) { return (struct moment){time_of(c, false), time_of(c, true)}; }

/* Eras. An entry with a lifetime is to know what both clocks said at its birth. How far the wall clock is ahead of the
 * steady one changes when it is set, and when the machine is suspended. So the cache has that, and an entry has the number
 * of its era. An era is never less ahead than a birth that is of it, and SAME_ERA more at most: no entry seems older than it
 * is, and what the wall clock gains counts but for SAME_ERA. A cache that has seen ERAS of them has them in the entries. */

static bool is_of_era(sflight_cache *c, unsigned era, int64_t ahead) {
    return (uint64_t)atomic_load_explicit(&c->eras[era], memory_order_relaxed) - (uint64_t)ahead <= SAME_ERA;
}

/* The era of a birth, or ERAS where there is none. */
static unsigned era_of(sflight_cache *c, int64_t ahead) {
    unsigned era = atomic_load_explicit(&c->era, memory_order_relaxed);
    if (is_of_era(c, era, ahead)) return era;
    for (era = 0; era < ERAS; era++) {
        int64_t none = NO_ERA;
        if (!atomic_compare_exchange_strong(&c->eras[era], &none, ahead) && !is_of_era(c, era, ahead)) continue;
        atomic_store_explicit(&c->era, era, memory_order_relaxed);
        break;
    }
    return era;
}

/* Entries. */

/* How many parts of 8 bytes there are of these. */
static unsigned parts_of(unsigned has) { return (has & HAS_LIFE) + (has >> 1 & 1) + (has >> 2 & 1) + (has >> 3 & 1); }

/* A part of 8 bytes that the entry has. */
static uint64_t *part_of(struct sflight_entry *e, unsigned part) { return &e->rest[parts_of(e->has & (part - 1))]; }

static struct tags *tags_of(struct sflight_entry *e) { return (struct tags *)part_of(e, HAS_TAGS); }

/* The last hit. It is the last part before the record. */
static _Atomic(int32_t) *last_hit_of(struct sflight_entry *e) {
    return (_Atomic(int32_t) *)(void *)((char *)e->rest + e->key_at - (e->has & HAS_RECORD ? sizeof(struct record *) : 0) - sizeof(int32_t));
}

static uint64_t weight_of(struct sflight_entry *e) { return e->has & HAS_WEIGHT ? *part_of(e, HAS_WEIGHT) : e->weight; }

static sflight_do_stamp stamp_of(const struct sflight_entry *e) { return (sflight_do_stamp){e->slot >> 24, e->slot & UINT32_MAX >> 8, e->age}; }

/* The time to live without a part that is drawn for the entry, of which jitter is the most. */
static int64_t drawn_ttl(const sflight_cache *c, const struct sflight_entry *e, int64_t ttl, uint64_t jitter) {
    if (jitter == 0) return ttl;
    uint64_t drawn = fold((uintptr_t)e ^ e->rest[0], c->seeds[1] ^ e->age);
    return ttl - (int64_t)((wide)jitter * drawn >> 64);
}

/* The time to live of an entry with a lifetime; 0: for ever. */
static int64_t ttl_of(const sflight_cache *c, const struct sflight_entry *e) {
    if (e->has & HAS_TTL) return (int64_t)e->rest[1];
    return drawn_ttl(c, e, c->options.ttl, c->jitter);
}

static const uint8_t *key_of(const struct sflight_entry *e) { return (const uint8_t *)e->rest + e->key_at; }

/* In a recording. */

/* Where the record of an entry stands that has one: before its key. */
static struct record **place_of_record(struct sflight_entry *e) {
    return (struct record **)(void *)((char *)e->rest + e->key_at - sizeof(struct record *));
}

/* The record of the entry, or null. */
static struct record *record_of(struct sflight_entry *e) { return e->has & HAS_RECORD ? *place_of_record(e) : NULL; }

static const struct recording *recording_of(const sflight_cache *c) { return calls_of(c->pool->kept); }

/* A get, or a Forget of what is in the cache, begins. */
static void watch(sflight_cache *c, struct noted *noted) {
    noted->by = atomic_load_explicit(&c->pool->recorder, memory_order_acquire);
    if (noted->by) recording_of(c)->watches(noted);
}

/* Whether a get is recorded. One whose part is null is not. */
IN_LINE bool is_watched(const struct noted *noted) { return noted && noted->by; }

/* The get holds the record of the entry, if it has one of its recording. Returns false where the entry has left. */
IN_LINE bool holds_record(sflight_cache *c, struct noted *noted, struct sflight_entry *e) {
    return !is_watched(noted) || !(e->has & HAS_RECORD) || recording_of(c)->holds(noted, record_of(e));
}

/* The get lets go of it, and has its value or not. */
IN_LINE void enters(sflight_cache *c, struct noted *noted, bool has) {
    if (is_watched(noted)) recording_of(c)->enters(noted, has);
}

/* When the get began, for its asking. */
static uint64_t from_of(const struct noted *noted) { return is_watched(noted) ? noted->from : 0; }

static uint64_t hash_of_entry(const sflight_cache *c, const struct sflight_entry *e) { return hash_of(c, key_of(e), e->len); }

/* One count ends. The last one drops the value. No lock is held. */
APART static void leave_entry(sflight_cache *c, struct sflight_entry *e) {
    if (atomic_fetch_sub_explicit(&e->users, 1, memory_order_acq_rel) != 1) return;
    void *value = e->value;
    if (e->has & HAS_RECORD) recording_of(c)->drops(record_of(e));
    bool is_dropped = e->code == SFLIGHT_CACHE_HIT && c->options.drop;
    free(e);
    if (is_dropped) c->options.drop(c->options.context, value);
}

/* All threads of the process pass a fence. Where the system begins to refuse that, since the program has set a filter for
 * system calls, each release passes one of its own from then on. A value that is released at that very moment may be
 * dropped late: by the next release at its place, or by the close of the cache. */
static void fence_all(sflight_cache *c) {
    if (atomic_load(&c->is_fenced)) return;
    if (syscall(SYS_membarrier, MEMBARRIER_CMD_PRIVATE_EXPEDITED, 0, 0) != 0) atomic_store(&c->is_fenced, true);
}

/* The first place of the seat that holds the entry, or null. */
static struct hold *place_in(struct seat *seat, const struct sflight_entry *e) {
    for (int i = 0; i < HOLDS; i++) if (atomic_load_explicit(&seat->holds[i].entry, memory_order_seq_cst) == (uintptr_t)e) return &seat->holds[i];
    return NULL;
}

/* The first place that holds the entry, which is out of its table; or null. */
static struct hold *place_of(struct sflight_entry *e) {
    struct hold *place = NULL;
    while (e->seat && !(place = place_in(e->seat, e))) e->seat = e->seat->next;
    return place;
}

/* The entry waits for the place. From here on it belongs to whoever takes the place's list. */
static void owe(struct hold *place, struct sflight_entry *e) {
    struct sflight_entry *first = atomic_load_explicit(&place->owed, memory_order_relaxed);
    do e->older = first;
    while (!atomic_compare_exchange_weak(&place->owed, &first, e));
}

/* Takes those that wait for the place, and puts them before the list. */
static struct sflight_entry *take_owed(struct hold *place, struct sflight_entry *list) {
    struct sflight_entry *owed = atomic_exchange(&place->owed, NULL), **end = &owed;
    while (*end) end = &(*end)->older;
    *end = list;
    return owed;
}

/* Ends the cache's counts for those of the list that no place holds. Each of the others waits for the first place that does.
 * No lock is held. */
static void leave_unheld(sflight_cache *c, struct sflight_entry *list) {
    while (list) {
        struct sflight_entry *e = list;
        struct hold *place = place_of(e);
        list = e->older;
        if (place) {
            SFLIGHT_POINT("before owe");
            owe(place, e);
            fence_all(c);
            /* The place was freed meanwhile, by a release that may have read the list too soon. */
            if (atomic_load(&place->entry) != (uintptr_t)e) list = take_owed(place, list);
        } else {
            leave_entry(c, e);
        }
    }
}

/* Frees the place. Returns whether entries wait for that: then the caller is to call collect, once it is done with the place. */
IN_LINE bool let_go(sflight_cache *c, struct hold *place) {
    if (atomic_load_explicit(&c->is_fenced, memory_order_relaxed)) {
        atomic_store(&place->entry, FREE_PLACE);
        return atomic_load(&place->owed) != NULL;
    }
    SFLIGHT_STORE(&place->entry, FREE_PLACE);
    /* The compiler keeps this order, and fence_all has the processor keep it. */
    atomic_signal_fence(memory_order_seq_cst);
    bool is_owed = atomic_load_explicit(&place->owed, memory_order_relaxed) != NULL;
    SFLIGHT_POINT("let go");
    return is_owed;
}

/* Goes on with the entries that wait for the place. It may call functions of the program: after it the place may be in use
 * again, and the seat may be another thread's. */
APART static void collect(sflight_cache *c, struct hold *place) { leave_unheld(c, take_owed(place, NULL)); }

static uint64_t bit_of(uintptr_t entry) { return (uint64_t)1 << (entry * 0x9e3779b97f4a7c15u >> 58); }

/* The bits of all entries that places hold. */
static uint64_t held_now(sflight_cache *c) {
    uint64_t held = 0;
    for (struct seat *seat = atomic_load_explicit(&c->pool->seats, memory_order_seq_cst); seat; seat = seat->next) {
        for (int i = 0; i < HOLDS; i++) {
            uintptr_t entry = atomic_load_explicit(&seat->holds[i].entry, memory_order_seq_cst);
            if (entry != FREE_PLACE) held |= bit_of(entry);
        }
    }
    return held;
}

/* Tells of those that have left, and ends the cache's counts, or lets them wait for the places that hold them. All places are
 * looked through once, whatever the number of entries, and again for those whose bit is there. No lock is held. */
static void leave_all(sflight_cache *c, struct sflight_entry *list) {
    uint64_t held = list ? held_now(c) : 0;
    while (list) {
        struct sflight_entry *e = list;
        list = e->older;
        if (c->options.left && e->code == SFLIGHT_CACHE_HIT) c->options.left(c->options.context, key_of(e), e->len, e->value, e->reason);
        e->older = NULL;
        e->seat = held & bit_of((uintptr_t)e) ? atomic_load(&c->pool->seats) : NULL;
        leave_unheld(c, e);
    }
}

/* Goes on with the entries that wait still, since the system has refused fence_all. */
static void collect_all(sflight_cache *c) {
    for (struct seat *seat = atomic_load(&c->pool->seats); seat; seat = seat->next) for (int i = 0; i < HOLDS; i++) collect(c, &seat->holds[i]);
}

/* Tags. */

static uint64_t age_of(sflight_cache *c, uint32_t hash) {
    atomic_ullong *ages = atomic_load_explicit(&c->ages, memory_order_acquire);
    return ages ? atomic_load_explicit(&ages[hash & (c->cells - 1)], memory_order_acquire) : 0;
}

/* Whether no tag was forgotten since the entry's load began. */
static bool are_tags_still(sflight_cache *c, struct sflight_entry *e) {
    if (!(e->has & HAS_TAGS)) return true;
    struct tags *tags = tags_of(e);
    if (e->tags == 0) return atomic_load(&c->clock) == tags->clock;
    if (atomic_load_explicit(&c->floor, memory_order_acquire) > tags->clock) return false;
    for (unsigned i = 0; i < e->tags; i++) if (age_of(c, tags->hashes[i]) > tags->clock) return false;
    return true;
}

static void lift(atomic_ullong *to, unsigned long long least) {
    unsigned long long now = atomic_load(to);
    while (now < least && !atomic_compare_exchange_weak(to, &now, least)) {}
}

/* The ages of tags, made at the first Forget of one. Null where there is no memory. */
static atomic_ullong *ages_of(sflight_cache *c) {
    atomic_ullong *ages = atomic_load(&c->ages), *found = NULL;
    if (ages) return ages;
    ages = calloc(c->cells, sizeof *ages);
    if (!ages || atomic_compare_exchange_strong(&c->ages, &found, ages)) return ages;
    free(ages);
    return found;
}

void sflight_cache_forget_tag(sflight_cache *c, const uint8_t *tag, size_t len) {
    struct noted noted;
    watch(c, &noted);
    uint64_t hash = hash_of(c, tag, len);
    unsigned long long now = atomic_fetch_add(&c->clock, 1) + 1;
    atomic_fetch_add_explicit(&c->other_forgets, 1, memory_order_relaxed);
    atomic_ullong *ages = ages_of(c);
    SFLIGHT_POINT("before age");
    lift(ages ? &ages[hash & (c->cells - 1)] : &c->floor, now);
    if (noted.by) recording_of(c)->forgot_tag(&noted, (uint32_t)(hash & (c->cells - 1)), now);
}

sflight_cache_loaded sflight_cache_of_value(sflight_cache *c, void *value) { return (sflight_cache_loaded){.value = value, .weight = 1, .cache = c}; }

bool sflight_cache_add_tag(sflight_cache_loaded *l, const uint8_t *tag, size_t len) {
    if (l->tags < SFLIGHT_CACHE_MOST_TAGS) {
        l->tag[l->tags++] = (uint32_t)hash_of(l->cache, tag, len);
        return true;
    }
    l->tags = SFLIGHT_CACHE_MOST_TAGS + 1;
    return false;
}

/* States. */

/* How far the wall clock was ahead at the birth of an entry with a lifetime. */
static int64_t ahead_of(sflight_cache *c, struct sflight_entry *e) {
    if (__builtin_expect(e->has & HAS_AHEAD, 0)) return (int64_t)*part_of(e, HAS_AHEAD);
    return atomic_load_explicit(&c->eras[e->era], memory_order_relaxed);
}

/* Of the two clocks the one counts that says more. What the wall clock has gained since the birth counts as idle too:
 * if it were in the last hit, a clock that is set back would make that later than it was. */
static enum worth state_by_time(sflight_cache *c, struct sflight_entry *e, const struct moment *now) {
    int64_t gained = now->wall - now->steady - ahead_of(c, e);
    int64_t age = now->steady - (int64_t)e->rest[0] + (gained > 0 ? gained : 0), ttl = ttl_of(c, e), over = -1;
    if (ttl > 0) over = age - ttl;
    if (e->has & HAS_IDLE) {
        int64_t rest = age - atomic_load_explicit(last_hit_of(e), memory_order_relaxed) * c->tick;
        if (rest - c->options.idle > over) over = rest - c->options.idle;
    }
    bool is_value = e->code == SFLIGHT_CACHE_HIT;
    if (over >= 0) return is_value && over < c->options.stale_if_error ? STALE : EXPIRED;
    return is_value && c->options.refresh_after > 0 && age >= c->options.refresh_after ? DUE : FRESH;
}

/* What an entry is with tags, a lifetime, or both. Without a lifetime it reads no clock. */
static enum worth state_by_parts(sflight_cache *c, struct sflight_entry *e, struct moment *now) {
    if (!are_tags_still(c, e)) return GONE;
    if (!(e->has & HAS_LIFE)) return FRESH;
    *now = now_of(c);
    return state_by_time(c, e, now);
}

/* What the entry is, where `is_still` says whether no Forget of its key has ended it. */
IN_LINE enum worth state_of(sflight_cache *c, struct sflight_entry *e, bool is_still, struct moment *now) {
    if (!is_still) return GONE;
    return e->has & (HAS_TAGS | HAS_LIFE) ? state_by_parts(c, e, now) : FRESH;
}

static enum worth state_now(sflight_cache *c, struct sflight_entry *e) {
    const sflight_do_stamp stamp = stamp_of(e);
    struct moment now;
    return state_of(c, e, sflight_do_is_still(c->pool, &stamp), &now);
}

/* Notes when the entry was hit, which may be idle. */
APART static void note_hit(sflight_cache *c, struct sflight_entry *e, const struct moment *now) {
    int64_t age = now->steady - (int64_t)e->rest[0], tick = c->tick;
    _Atomic(int32_t) *last = last_hit_of(e);
    if ((uint64_t)(age - atomic_load_explicit(last, memory_order_relaxed) * tick) < (uint64_t)tick) return;
    /* Of an age of more than 2^31 ticks this is an earlier one: such an entry has its end. */
    atomic_store_explicit(last, (int32_t)(age / tick), memory_order_relaxed);
}

/* A get has found the entry. */
IN_LINE void use(sflight_cache *c, struct sflight_entry *e, const struct moment *now) {
    unsigned char uses = atomic_load_explicit(&e->uses, memory_order_relaxed);
    if (uses < MOST_USES) atomic_store_explicit(&e->uses, (unsigned char)(uses + 1), memory_order_relaxed);
    if (e->has & HAS_IDLE) note_hit(c, e, now);
}

/* Tables. */

static uint64_t tag_of(uint64_t hash) { return hash >> 32 << 48; }

static struct sflight_entry *entry_of(uint64_t word) { return (struct sflight_entry *)(uintptr_t)(word & UINT64_MAX >> 16); }

static uint64_t home_of(const struct table *t, uint64_t hash) { return (hash & UINT32_MAX) * t->count >> 32; }

IN_LINE bool is_of_key(const struct sflight_entry *e, const uint8_t *key, size_t len) {
    return e->len == len && are_same(key_of(e), key, len);
}

/* Entries are not spread evenly over shards: a table for so many has room for some more. */
static struct table *new_table(uint64_t entries, struct table *last) {
    uint64_t count = entries * 2 / (2 * FULL - 1) + 1;
    struct table *t = aligned_alloc(CACHE_LINE, sizeof(struct table) + count * sizeof(struct chunk));
    if (!t) return NULL;
    memset(t, 0, sizeof(struct table) + count * sizeof(struct chunk));
    t->last = last;
    t->count = count;
    return t;
}

/* Puts the entry into the first chunk from its own on that has room: there is one. With the shard's lock,
 * as all from here to make_room. */
static void put_in(struct table *t, uint64_t hash, struct sflight_entry *e) {
    for (uint64_t n = home_of(t, hash);; n = n + 1 == t->count ? 0 : n + 1) {
        struct chunk *chunk = &t->chunks[n];
        for (int i = 0; i < PER_CHUNK; i++) {
            if (atomic_load_explicit(&chunk->words[i], memory_order_relaxed)) continue;
            atomic_store(&chunk->words[i], (uintptr_t)e | tag_of(hash));
            return;
        }
        atomic_fetch_add_explicit(&chunk->passed, 1, memory_order_release);
    }
}

static void cut_out(struct table *t, uint64_t hash, struct sflight_entry *e) {
    uint64_t word = (uintptr_t)e | tag_of(hash);
    for (uint64_t n = home_of(t, hash);; n = n + 1 == t->count ? 0 : n + 1) {
        struct chunk *chunk = &t->chunks[n];
        for (int i = 0; i < PER_CHUNK; i++) {
            if (atomic_load_explicit(&chunk->words[i], memory_order_relaxed) != word) continue;
            atomic_store(&chunk->words[i], 0);
            return;
        }
        atomic_fetch_sub_explicit(&chunk->passed, 1, memory_order_release);
    }
}

static struct sflight_entry *find(struct shard *s, uint64_t hash, const uint8_t *key, size_t len) {
    struct table *t = atomic_load_explicit(&s->table, memory_order_relaxed);
    for (uint64_t n = home_of(t, hash), tries = 0; tries < t->count; n = n + 1 == t->count ? 0 : n + 1, tries++) {
        struct chunk *chunk = &t->chunks[n];
        for (int i = 0; i < PER_CHUNK; i++) {
            uint64_t word = atomic_load_explicit(&chunk->words[i], memory_order_relaxed);
            if (word && (word ^ tag_of(hash)) >> 48 == 0 && is_of_key(entry_of(word), key, len)) return entry_of(word);
        }
        if (atomic_load_explicit(&chunk->passed, memory_order_relaxed) == 0) break;
    }
    return NULL;
}

/* With more entries than are good for it the table is twice as large, if there is memory. The words of the
 * one before are cleared once the entries are in the next, and before any of them leaves. */
static void widen(const sflight_cache *c, struct shard *s) {
    struct table *old = atomic_load_explicit(&s->table, memory_order_relaxed), *t = new_table((2 * FULL - 1) * old->count, old);
    if (!t) return;
    for (uint64_t n = 0; n < old->count; n++) {
        for (int i = 0; i < PER_CHUNK; i++) {
            struct sflight_entry *e = entry_of(atomic_load_explicit(&old->chunks[n].words[i], memory_order_relaxed));
            if (e) put_in(t, hash_of_entry(c, e), e);
        }
    }
    atomic_store(&s->table, t);
    SFLIGHT_POINT("widened");
    for (uint64_t n = 0; n < old->count; n++) for (int i = 0; i < PER_CHUNK; i++) atomic_store_explicit(&old->chunks[n].words[i], 0, memory_order_seq_cst);
    struct ghost *ghosts = calloc(2 * s->ghost_count, sizeof *ghosts);
    if (!ghosts) return;
    free(s->ghosts);
    s->ghosts = ghosts;
    s->ghost_count *= 2;
}

/* Whether there is room in the table for one entry more. */
static bool has_room(const sflight_cache *c, struct shard *s) {
    if (s->entries >= FULL * atomic_load_explicit(&s->table, memory_order_relaxed)->count) widen(c, s);
    return s->entries < PER_CHUNK * atomic_load_explicit(&s->table, memory_order_relaxed)->count;
}

/* Queues. */

static void push(struct shard *s, struct sflight_entry *e, enum place place) {
    struct queue *q = &s->queues[place];
    e->place = place;
    e->newer = NULL;
    e->older = q->newest;
    *(q->newest ? &q->newest->newer : &q->oldest) = e;
    q->newest = e;
    q->weight += weight_of(e);
}

static void pull(struct shard *s, struct sflight_entry *e) {
    struct queue *q = &s->queues[e->place];
    *(e->older ? &e->older->newer : &q->oldest) = e->newer;
    *(e->newer ? &e->newer->older : &q->newest) = e->older;
    q->weight -= weight_of(e);
}

/* Takes the entry out of the cache, onto the list. A Forget that takes out what it found says when it began. */
static void take_out_by(sflight_cache *c, struct shard *s, uint64_t hash, struct sflight_entry *e, int reason, struct sflight_entry **left, uint64_t from) {
    cut_out(atomic_load_explicit(&s->table, memory_order_relaxed), hash, e);
    pull(s, e);
    e->place = OUT;
    e->reason = (uint8_t)reason;
    e->older = *left;
    *left = e;
    s->entries--;
    s->evictions += reason == SFLIGHT_CACHE_MADE_ROOM && e->code == SFLIGHT_CACHE_HIT;
    s->expirations += reason == SFLIGHT_CACHE_EXPIRED && e->code == SFLIGHT_CACHE_HIT;
    atomic_fetch_add(&c->room, (long long)weight_of(e));
    if (e->has & HAS_RECORD) recording_of(c)->loses(record_of(e), reason == SFLIGHT_CACHE_MADE_ROOM, from);
}

static void take_out(sflight_cache *c, struct shard *s, uint64_t hash, struct sflight_entry *e, int reason, struct sflight_entry **left) {
    take_out_by(c, s, hash, e, reason, left, 0);
}

/* Why an entry leaves that nobody will find; or the reason that is given, where it could be found. */
static int reason_of(enum worth state, int reason) {
    return state == GONE ? SFLIGHT_CACHE_FORGOTTEN : state < FRESH ? SFLIGHT_CACHE_EXPIRED : reason;
}

static struct ghost *ghost_of(struct shard *s, uint64_t hash) { return &s->ghosts[(hash & UINT32_MAX) * s->ghost_count >> 32]; }

/* The number of the group of ghosts that is given now; 0 is none. As many keys as there are entries are
 * remembered, which is half of the room: so many groups. */
static uint16_t group_of(const struct shard *s) { return (uint16_t)(s->ghosts_given / (s->ghost_count / 2 / WINDOW + 1) % UINT16_MAX + 1); }

static uint16_t groups_of(const struct shard *s) { return (uint16_t)(s->ghost_count / 2 / (s->ghost_count / 2 / WINDOW + 1)); }

static bool was_here(struct shard *s, uint64_t hash) {
    const struct ghost *g = ghost_of(s, hash);
    if (g->group == 0 || g->tag != (uint16_t)(hash >> 32)) return false;
    return (group_of(s) + UINT16_MAX - g->group) % UINT16_MAX <= groups_of(s);
}

static void leave_ghost(struct shard *s, uint64_t hash) {
    s->ghosts_given++;
    *ghost_of(s, hash) = (struct ghost){(uint16_t)(hash >> 32), group_of(s)};
}

/* Takes one value out that was not used lately. Returns false where there is none. Gets mark entries
 * meanwhile: so after many passes the next one leaves, whatever its marks. */
static bool evict(sflight_cache *c, struct shard *s, struct sflight_entry **left) {
    for (int passes = 0;; passes++) {
        struct queue *small = &s->queues[IN_SMALL], *from = &s->queues[IN_MAIN];
        if (!from->oldest || small->weight > atomic_load_explicit(&c->limit, memory_order_relaxed) / SMALL / c->count) from = small->oldest ? small : from;
        struct sflight_entry *e = from->oldest;
        if (!e) return false;
        unsigned uses = atomic_load_explicit(&e->uses, memory_order_relaxed);
        if (uses == 0 || passes == MOST_PASSES) {
            uint64_t hash = hash_of_entry(c, e);
            enum worth state = state_now(c, e);
            if (from == small && state >= FRESH) leave_ghost(s, hash);
            take_out(c, s, hash, e, reason_of(state, SFLIGHT_CACHE_MADE_ROOM), left);
            return true;
        }
        atomic_store_explicit(&e->uses, (unsigned char)(from == small ? 0 : uses - 1), memory_order_relaxed);
        pull(s, e);
        push(s, e, IN_MAIN);
    }
}

/* Takes so much of the limit, if it is there. */
static bool take_weight(sflight_cache *c, uint64_t weight) {
    long long room = atomic_load(&c->room);
    do {
        if (room < 0 || weight > (uint64_t)room) return false;
    } while (!atomic_compare_exchange_weak(&c->room, &room, room - (long long)weight));
    return true;
}

/* Makes room for so much, in the value's own shard first. Returns false where it cannot. */
static bool make_room(sflight_cache *c, uint64_t weight, unsigned first, struct sflight_entry **left) {
    for (unsigned i = 0; i < c->count;) {
        if (take_weight(c, weight)) return true;
        struct shard *s = &c->shards[(first + i) % c->count];
        pthread_mutex_lock(&s->lock);
        if (!evict(c, s, left)) i++;
        pthread_mutex_unlock(&s->lock);
    }
    return take_weight(c, weight);
}

/* Finding. */

/* A place of this thread that holds nothing, or null. */
IN_LINE struct hold *free_place(struct seat *seat) {
    for (int i = 0; i < HOLDS; i++) if (atomic_load_explicit(&seat->holds[i].entry, memory_order_acquire) == FREE_PLACE) return &seat->holds[i];
    return NULL;
}

/* Looks for the key in the chunk without a lock. Where it finds it, this place holds the entry. It can miss an entry that
 * comes or goes meanwhile. Where *is_owed, it has not looked everywhere, since entries wait for the place. */
IN_LINE struct sflight_entry *hold_in(sflight_cache *c, struct hold *place, struct chunk *chunk, uint64_t tag, const uint8_t *key, size_t len, bool *is_owed) {
    for (int i = 0; i < PER_CHUNK; i++) {
        uint64_t word = atomic_load_explicit(&chunk->words[i], memory_order_acquire);
        struct sflight_entry *e = entry_of(word);
        if ((word ^ tag) >> 48 != 0 || RARELY(!e)) continue;
        /* It may be freed, so it is not read before it is held. The processor can fetch its lines of memory all the same,
         * while it makes the store: no load behind that begins before it is done. */
        __builtin_prefetch(&e->value);
        __builtin_prefetch((const char *)&e->rest + SECOND_LINE);
        SFLIGHT_POINT("before hold");
        atomic_store(&place->entry, (uintptr_t)e);
        SFLIGHT_POINT("named");
        if (atomic_load(&chunk->words[i]) == word && is_of_key(e, key, len)) return e;
        if ((*is_owed = let_go(c, place))) return NULL;
    }
    return NULL;
}

/* Goes on in the chunks behind the key's own, as far as entries of that have passed. */
APART static struct sflight_entry *hold_behind(sflight_cache *c, struct hold *place, struct table *t, uint64_t n, uint64_t tag, const uint8_t *key,
                                               size_t len, bool *is_owed) {
    struct sflight_entry *e = NULL;
    for (uint64_t tries = 1; tries < t->count && !e && !*is_owed; tries++) {
        if (atomic_load_explicit(&t->chunks[n].passed, memory_order_acquire) == 0) break;
        n = n + 1 == t->count ? 0 : n + 1;
        e = hold_in(c, place, &t->chunks[n], tag, key, len, is_owed);
    }
    return e;
}

/* Looks for the key in the table of its shard as hold_in does. */
IN_LINE struct sflight_entry *hold(sflight_cache *c, struct hold *place, uint64_t hash, const uint8_t *key, size_t len, bool *is_owed) {
    struct table *t = atomic_load_explicit(&shard_of(c, hash)->table, memory_order_acquire);
    const uint64_t tag = tag_of(hash), n = home_of(t, hash);
    struct sflight_entry *e = hold_in(c, place, &t->chunks[n], tag, key, len, is_owed);
    if (e || *is_owed || atomic_load_explicit(&t->chunks[n].passed, memory_order_acquire) == 0) return e;
    return hold_behind(c, place, t, n, tag, key, len, is_owed);
}

static void count_look(sflight_cache *c, struct seat *seat, bool is_hit) {
    if (seat) add(is_hit ? &seat->hits : &seat->misses, 1);
    else atomic_fetch_add_explicit(is_hit ? &c->hits : &c->misses, 1, memory_order_relaxed);
}

static void refresh(sflight_cache *c, struct sflight_entry *e);

enum { NOT_THERE = -1 };

/* Finds the value of the key with the lock of its shard. Returns HIT, or the code of a kept failure; or
 * NOT_THERE. What nobody will find any more leaves. */
APART static int look_locked(sflight_cache *c, const uint8_t *key, size_t len, bool counts, sflight_value *value, struct noted *noted) {
    uint64_t hash = hash_of(c, key, len);
    struct shard *s = shard_of(c, hash);
    struct sflight_entry *left = NULL;
    struct moment now = {0, 0};
    enum worth state = GONE;
    pthread_mutex_lock(&s->lock);
    struct sflight_entry *e = find(s, hash, key, len);
    if (e) {
        const sflight_do_stamp stamp = stamp_of(e);
        state = state_of(c, e, sflight_do_is_still(c->pool, &stamp), &now);
        if (state >= FRESH) {
            atomic_fetch_add_explicit(&e->users, 1, memory_order_relaxed);
            holds_record(c, noted, e);
        } else if (state < STALE) take_out(c, s, hash, e, reason_of(state, 0), &left);
    }
    pthread_mutex_unlock(&s->lock);
    leave_all(c, left);
    if (counts) count_look(c, seat_of(c->pool), state >= FRESH);
    if (state < FRESH) return NOT_THERE;
    int code = e->code;
    enters(c, noted, counts || code == SFLIGHT_CACHE_HIT);
    if (counts) use(c, e, &now);
    if (counts && state == DUE) refresh(c, e);
    if (code == SFLIGHT_CACHE_HIT) *value = (sflight_value){e->value, e, NULL};
    else leave_entry(c, e);
    return code;
}

/* Finds the value of the key as look_locked does, with no lock where it is there and the thread has a place for it. A get
 * that is not recorded may have null for its part. */
IN_LINE int look_in_line(sflight_cache *c, uint64_t hash, const uint8_t *key, size_t len, bool counts, sflight_value *value, struct noted *noted) {
    struct seat *seat = seat_of(c->pool);
    bool is_owed = false;
    struct hold *place = seat ? free_place(seat) : NULL;
    if (!place) return look_locked(c, key, len, counts, value, noted);
    struct sflight_entry *e = hold(c, place, hash, key, len, &is_owed);
    if (!e) {
        if (is_owed) collect(c, place);
        /* What was there alone is worth a second look: a get asks the group next, and its leader looks again. */
        if (!counts || is_owed) return look_locked(c, key, len, counts, value, noted);
        add(&seat->misses, 1);
        return NOT_THERE;
    }
    SFLIGHT_POINT("held");
    const sflight_stamp stamp = {(e->slot >> 24) - 1, e->slot & UINT32_MAX >> 8, e->age};
    struct moment now;
    enum worth state = state_of(c, e, sflight_is_still(&seat->handle, &stamp), &now);
    if (state < FRESH || !holds_record(c, noted, e)) {
        if (let_go(c, place)) collect(c, place);
        return look_locked(c, key, len, counts, value, noted);
    }
    int code = e->code;
    enters(c, noted, counts || code == SFLIGHT_CACHE_HIT);
    if (counts) {
        add(&seat->hits, 1);
        use(c, e, &now);
        if (state == DUE) refresh(c, e);
    }
    if (code == SFLIGHT_CACHE_HIT) *value = (sflight_value){e->value, e, place};
    else if (let_go(c, place)) collect(c, place);
    return code;
}

/* The same for what is no plain get, and for one that is recorded. */
APART static int look(sflight_cache *c, uint64_t hash, const uint8_t *key, size_t len, bool counts, sflight_value *value, struct noted *noted) {
    return look_in_line(c, hash, key, len, counts, value, noted);
}

/* Loads. */

/* Gives the entry the record of its call. */
static void attach(struct getting *g, struct sflight_entry *e, const uint32_t *hashes, uint32_t count) {
    uint32_t places[SFLIGHT_CACHE_MOST_TAGS];
    for (uint32_t i = 0; i < count; i++) places[i] = hashes[i] & (uint32_t)(g->cache->cells - 1);
    *place_of_record(e) = recording_of(g->cache)->attaches(&g->doing.noted, places, count, count == 0 && e->has & HAS_TAGS);
}

/* The parts of an entry. */
static unsigned parts_for(struct getting *g, int code, const sflight_cache_loaded *l, int64_t ttl, uint32_t tags) {
    const sflight_cache_options *o = &g->cache->options;
    unsigned has = code == SFLIGHT_CACHE_HIT && o->idle > 0 ? HAS_IDLE : 0;
    if (ttl > 0 || has || o->refresh_after > 0) has |= HAS_LIFE;
    if (has & HAS_LIFE && (l->ttl > 0 || code != SFLIGHT_CACHE_HIT)) has |= HAS_TTL;
    if (code == SFLIGHT_CACHE_HIT && l->weight >= HEAVY) has |= HAS_WEIGHT;
    /* A value with too many tags is not kept. Those that have joined its call are to see a Forget of any tag. */
    if (tags > 0 || code != SFLIGHT_CACHE_HIT || l->tags > SFLIGHT_CACHE_MOST_TAGS) has |= HAS_TAGS;
    if (g->doing.noted.by && g->doing.noted.record) has |= HAS_RECORD;
    return has;
}

/* What they take before the key. */
static size_t size_of_parts(unsigned has, uint32_t tags) {
    size_t size = 8 * parts_of(has) + (has & HAS_TAGS ? sizeof(struct tags) + tags * sizeof(uint32_t) : 0) + (has & HAS_IDLE ? sizeof(int32_t) : 0);
    return has & HAS_RECORD ? (size + 7) / 8 * 8 + sizeof(struct record *) : size;
}

/* Fills the parts of the entry in. */
static void fill_parts(struct getting *g, struct sflight_entry *e, const sflight_cache_loaded *l, int64_t ttl, int64_t ahead) {
    if (e->has & HAS_LIFE) *part_of(e, HAS_LIFE) = (uint64_t)g->began.steady;
    if (e->has & HAS_TTL) *part_of(e, HAS_TTL) = (uint64_t)drawn_ttl(g->cache, e, ttl, (uint64_t)((double)ttl * g->cache->options.jitter));
    if (e->has & HAS_AHEAD) *part_of(e, HAS_AHEAD) = (uint64_t)ahead;
    if (e->has & HAS_WEIGHT) *part_of(e, HAS_WEIGHT) = l->weight;
    if (e->has & HAS_TAGS) {
        tags_of(e)->clock = g->clock;
        memcpy(tags_of(e)->hashes, l->tag, e->tags * sizeof(uint32_t));
    }
    if (e->has & HAS_IDLE) atomic_init(last_hit_of(e), 0);
    if (e->has & HAS_RECORD) attach(g, e, l->tag, e->tags);
}

/* An entry for a value that was loaded, or a failure. */
static struct sflight_entry *new_entry(struct getting *g, int code, const sflight_cache_loaded *l) {
    const sflight_cache_options *o = &g->cache->options;
    int64_t ttl = l->ttl > 0 ? l->ttl : code == SFLIGHT_CACHE_HIT ? o->ttl : code == SFLIGHT_CACHE_MISSING ? o->missing_ttl : o->failed_ttl;
    int64_t ahead = g->began.wall - g->began.steady;
    uint32_t tags = l->tags <= SFLIGHT_CACHE_MOST_TAGS ? l->tags : 0;
    unsigned has = parts_for(g, code, l, ttl, tags), era = has & HAS_LIFE ? era_of(g->cache, ahead) : 0;
    has |= era == ERAS ? HAS_AHEAD : 0;
    size_t parts = size_of_parts(has, tags);
    struct sflight_entry *e = g->len <= UINT32_MAX ? malloc(sizeof *e + parts + g->len) : NULL;
    if (!e) return NULL;
    const sflight_do_stamp *stamp = &g->doing.got.stamp;
    *e = (struct sflight_entry){.value = l->value, .len = (uint32_t)g->len, .code = (uint8_t)code, .has = (uint8_t)has, .tags = (uint8_t)tags,
        .key_at = (uint8_t)parts, .era = (uint8_t)era, .slot = (uint32_t)(stamp->slot | stamp->table << 24), .age = stamp->age};
    e->weight = code != SFLIGHT_CACHE_HIT ? 1 : has & HAS_WEIGHT ? HEAVY : (uint32_t)l->weight;
    atomic_init(&e->users, 1);
    fill_parts(g, e, l, ttl, ahead);
    if (g->len > 0) memcpy((uint8_t *)e->rest + parts, g->key, g->len);
    return e;
}

/* Whether no Forget of the key has ended the call. */
static bool is_wanted(struct getting *g) { return sflight_do_is_still(g->cache->pool, &g->doing.got.stamp); }

/* The key's older entry leaves, unless the call was forgotten: what was forgotten while it was loaded must
 * not take the place of a newer value. With the shard's lock. */
static bool displace(struct getting *g, struct shard *s) {
    struct sflight_entry *old = find(s, g->hash, g->key, g->len);
    if (!is_wanted(g)) return false;
    if (!old) return true;
    g->place = old->place;
    g->uses = atomic_load_explicit(&old->uses, memory_order_relaxed);
    take_out(g->cache, s, g->hash, old, g->is_put ? SFLIGHT_CACHE_REPLACED : reason_of(state_now(g->cache, old), SFLIGHT_CACHE_REPLACED), &g->left);
    return true;
}

/* Puts the entry into the cache, for which there is weight. With the shard's lock. */
static void insert(struct getting *g, struct shard *s, struct sflight_entry *e) {
    atomic_fetch_add_explicit(&e->users, 1, memory_order_relaxed);
    atomic_store_explicit(&e->uses, g->uses, memory_order_relaxed);
    if (e->has & HAS_RECORD) recording_of(g->cache)->keeps(record_of(e));
    put_in(atomic_load_explicit(&s->table, memory_order_relaxed), g->hash, e);
    s->entries++;
    push(s, e, g->place == IN_MAIN || was_here(s, g->hash) ? IN_MAIN : IN_SMALL);
    g->kept = (uintptr_t)e;
}

/* Puts the entry of a call that is not settled yet into the cache; or, where it is null, only takes the
 * older one out: that leaves also where this one is too heavy to be kept, since its key had been missed before
 * that was kept. Returns whether it is there. */
static bool keep(struct getting *g, struct sflight_entry *e) {
    sflight_cache *c = g->cache;
    struct shard *s = shard_of(c, g->hash);
    bool is_fit = e && !c->is_closing && (uintptr_t)e >> 48 == 0 && g->doing.got.stamp.slot >> 24 == 0, has_weight = false, is_kept = false;
    SFLIGHT_POINT("before keep");
    pthread_mutex_lock(&s->lock);
    while (displace(g, s) && is_fit && has_room(c, s) && weight_of(e) <= (uint64_t)atomic_load(&c->limit)) {
        while (!has_weight && !(has_weight = take_weight(c, weight_of(e))) && evict(c, s, &g->left)) {}
        if (has_weight) {
            insert(g, s, e);
            is_kept = true;
            break;
        }
        /* Its own shard has nothing more to give. A newer value may come meanwhile, if this one is forgotten. */
        pthread_mutex_unlock(&s->lock);
        has_weight = make_room(c, weight_of(e), (unsigned)(s - c->shards), &g->left);
        SFLIGHT_POINT("has room");
        pthread_mutex_lock(&s->lock);
        if (!has_weight) break;
    }
    if (has_weight && !is_kept) atomic_fetch_add(&c->room, (long long)weight_of(e));
    pthread_mutex_unlock(&s->lock);
    SFLIGHT_POINT("kept");
    return is_kept;
}

/* A failure of a load with this clock, as a result. */
static uint64_t dated(bool is_missing, uint64_t clock) { return DATED | clock * CONSTANTS | (is_missing ? MISSING : FAILED); }

/* The call of this get is to be settled with what another has loaded, whose entry is in the cache. */
static void returns(struct getting *g, struct sflight_entry *e) {
    if (g->doing.noted.by && e->has & HAS_RECORD) recording_of(g->cache)->returns(&g->doing.noted, record_of(e), !g->replaces);
}

/* The call of this get is about to load. Returns false where there is a value or a kept failure already: the
 * call before has ended since the get missed, and had kept that by then. A refresh does not stop at the value
 * that it is to replace. */
static bool begins(struct getting *g) {
    sflight_cache *c = g->cache;
    struct shard *s = shard_of(c, g->hash);
    g->clock = atomic_load(&c->clock);
    g->began = now_of(c);
    pthread_mutex_lock(&s->lock);
    g->before = &s->loading;
    g->next = s->loading;
    if (g->next) g->next->before = &g->next;
    s->loading = g;
    struct sflight_entry *e = g->is_put ? NULL : find(s, g->hash, g->key, g->len);
    g->is_found = e && e != g->replaces && state_now(c, e) >= FRESH;
    if (g->is_found) returns(g, e);
    else if (!g->is_put && g->doing.noted.by) recording_of(c)->runs(&g->doing.noted, g->clock);
    if (g->is_found && e->code == SFLIGHT_CACHE_HIT) {
        atomic_fetch_add_explicit(&e->users, 1, memory_order_relaxed);
        g->result = g->kept = (uintptr_t)e;
    } else if (g->is_found) {
        g->result = dated(e->code == SFLIGHT_CACHE_MISSING, tags_of(e)->clock);
    }
    if (!g->is_found && !g->is_put) s->loads++;
    if (!g->is_found && g->replaces) s->refreshes++;
    pthread_mutex_unlock(&s->lock);
    return !g->is_found;
}

/* Counts the load of this get. With the shard's lock. */
static void count_load(struct shard *s, const struct getting *g) {
    s->failures += g->is_failure;
    if (g->is_beside) return;
    int64_t time = g->took > 0 ? g->took : 0;
    unsigned bucket = 0;
    for (int64_t most = FIRST_BUCKET; bucket + 1 < SFLIGHT_CACHE_BUCKETS && time > most; most *= NEXT_BUCKET) bucket++;
    s->load_time += (uint64_t)time;
    s->load_times[bucket]++;
}

/* The call of this get, which was listed, ends. */
static void ends(struct getting *g) {
    struct shard *s = shard_of(g->cache, g->hash);
    g->doing.got.value = g->result;
    sflight_inside_settle(g->cache->pool, &g->doing);
    pthread_mutex_lock(&s->lock);
    *g->before = g->next;
    if (g->next) g->next->before = g->before;
    if (!g->is_found && !g->is_put) count_load(s, g);
    pthread_mutex_unlock(&s->lock);
    if (g->replaces) atomic_store(&g->replaces->is_refreshing, false);
}

/* What has left the cache because of this get is told and dropped: once no call is open that its thread
 * leads, since a drop function may get any key. */
static void drops(struct getting *g) {
    leave_all(g->cache, g->left);
    g->left = NULL;
    if (g->replaces) leave_entry(g->cache, g->replaces);
    if (g->is_lost && g->cache->options.drop) g->cache->options.drop(g->cache->options.context, g->lost);
}

/* The key's value from before, where the load has failed and that may be returned still: it is looked for
 * after the load, so a Forget since has ended it. */
static struct sflight_entry *old_value(struct getting *g) {
    struct shard *s = shard_of(g->cache, g->hash);
    pthread_mutex_lock(&s->lock);
    struct sflight_entry *e = find(s, g->hash, g->key, g->len);
    if (e && (e->code != SFLIGHT_CACHE_HIT || state_now(g->cache, e) < STALE)) e = NULL;
    if (e) {
        atomic_fetch_add_explicit(&e->users, 1, memory_order_relaxed);
        g->kept = (uintptr_t)e;
        returns(g, e);
    }
    pthread_mutex_unlock(&s->lock);
    return e;
}

/* The load has failed, or found nothing. That is kept where somebody said how long, but never in place of a
 * value that may be returned. */
static void has_failed(struct getting *g, bool is_missing, const sflight_cache_loaded *l) {
    const sflight_cache_options *o = &g->cache->options;
    sflight_cache_loaded failure = *l;
    struct sflight_entry *e = is_missing ? NULL : old_value(g);
    int code = is_missing ? SFLIGHT_CACHE_MISSING : SFLIGHT_CACHE_FAILED;
    failure.value = NULL;
    g->result = e ? (uintptr_t)e | MARK : dated(is_missing, g->clock);
    if (e) {
        atomic_fetch_add_explicit(&g->cache->stale, 1, memory_order_relaxed);
        return;
    }
    bool is_kept = l->ttl > 0 || (l->ttl == 0 && (is_missing ? o->missing_ttl : o->failed_ttl) > 0);
    if (is_kept) e = new_entry(g, code, &failure);
    if (!e && !is_missing) return;
    keep(g, e);
    if (e) leave_entry(g->cache, e);
}

/* The load has returned this. */
static void has_loaded(struct getting *g, int code, const sflight_cache_loaded *l) {
    bool is_missing = code == SFLIGHT_CACHE_MISSING, is_value = code == SFLIGHT_CACHE_LOADED || code == SFLIGHT_CACHE_HIT;
    g->took = time_of(g->cache, false) - g->began.steady;
    g->is_failure = !is_value && !is_missing;
    if (is_value) {
        struct sflight_entry *e = new_entry(g, SFLIGHT_CACHE_HIT, l);
        g->result = e ? (uintptr_t)e : NO_MEMORY;
        if (e) keep(g, l->ttl < 0 || l->tags > SFLIGHT_CACHE_MOST_TAGS ? NULL : e);
        g->is_lost = !e;
        g->lost = l->value;
    } else {
        has_failed(g, is_missing, l);
    }
    ends(g);
}

/* Loads the value of one key, whose call this get leads, and settles it. */
static void load_one(struct getting *g, const sflight_cache_how *how) {
    const sflight_cache_options *o = &g->cache->options;
    sflight_cache_loading one = {g->key, g->len, SFLIGHT_CACHE_MISSING, sflight_cache_of_value(g->cache, NULL)};
    SFLIGHT_POINT("before load");
    /* A key of a batch that is asked for again is a batch. */
    if (how->load_many) how->load_many(how->context, &one, 1);
    else if (how->load) one.code = how->load(how->context, g->key, g->len, &one.loaded);
    else one.code = o->load(o->context, g->key, g->len, &one.loaded);
    has_loaded(g, one.code, &one.loaded);
    drops(g);
}

/* Work in the background, and batches. */

/* The function that loads the keys of a batch by one call, or null. */
static sflight_cache_load_many *many_of(const sflight_cache *c, const sflight_cache_how *how) {
    return how->load_many ? how->load_many : how->load ? NULL : c->options.load_many;
}

static void run_batch(struct work *w) {
    size_t n = 0;
    for (size_t i = 0; i < w->count; i++) {
        struct getting *g = &w->gettings[i];
        if (g->is_led && !g->is_found)
            w->loadings[n++] = (sflight_cache_loading){g->key, g->len, SFLIGHT_CACHE_MISSING, sflight_cache_of_value(w->cache, NULL)};
    }
    SFLIGHT_POINT("before load");
    if (n > 0) many_of(w->cache, &w->how)(w->how.load_many ? w->how.context : w->cache->options.context, w->loadings, n);
    n = 0;
    for (size_t i = 0; i < w->count; i++) {
        struct getting *g = &w->gettings[i];
        if (!g->is_led || g->is_found) continue;
        g->is_beside = n > 0;
        has_loaded(g, w->loadings[n].code, &w->loadings[n].loaded);
        n++;
    }
    for (size_t i = 0; i < w->count; i++) if (w->gettings[i].is_led) drops(&w->gettings[i]);
}

/* Leads the calls of the work that are led. */
static void lead_work(struct work *w) {
    for (size_t i = 0; i < w->count; i++) {
        struct getting *g = &w->gettings[i];
        if (g->is_led && !begins(g)) ends(g);
    }
    if (w->loadings) run_batch(w);
    else if (!w->gettings[0].is_found) load_one(&w->gettings[0], &w->how);
    else drops(&w->gettings[0]);
}

static struct sflight_entry *entry_of_result(uint64_t result) {
    return result < CONSTANTS || result & DATED ? NULL : (struct sflight_entry *)(uintptr_t)(result & ~(uint64_t)MARK);
}

static void free_work(struct work *w) {
    free(w->loadings);
    free(w);
}

/* Nobody waits for the work. */
static void abandon(struct work *w) {
    for (size_t i = 0; i < w->count; i++) {
        struct sflight_entry *e = w->gettings[i].is_led ? entry_of_result(w->gettings[i].result) : NULL;
        if (e) leave_entry(w->cache, e);
    }
    free_work(w);
}

static void lead_apart(struct work *w) {
    lead_work(w);
    if (atomic_exchange(&w->state, DONE) == LEFT) abandon(w);
    /* The get that waits may have freed it already: then nobody sleeps there. */
    else syscall(SYS_futex, &w->state, FUTEX_WAKE_BITSET | FUTEX_PRIVATE_FLAG, INT_MAX, NULL, NULL, 2);
}

static void end_running(sflight_cache *c, struct runner *ended) {
    pthread_mutex_lock(&c->lock);
    if (ended) {
        ended->next = c->ended;
        c->ended = ended;
    }
    if (--c->running == 0) pthread_cond_broadcast(&c->is_idle);
    pthread_mutex_unlock(&c->lock);
}

static void run_work(void *work) {
    sflight_cache *c = ((struct work *)work)->cache;
    lead_apart(work);
    end_running(c, NULL);
}

static void *run_thread(void *at) {
    struct runner *runner = at;
    lead_apart(runner->work);
    end_running(runner->cache, runner);
    return NULL;
}

/* Frees the threads that have ended. It does not wait for one that is slow to: unless `waits`. */
static void join_ended(sflight_cache *c, bool waits) {
    pthread_mutex_lock(&c->lock);
    struct runner *list = c->ended, *slow = NULL, *next;
    c->ended = NULL;
    pthread_mutex_unlock(&c->lock);
    for (; list; list = next) {
        next = list->next;
        if ((waits ? pthread_join(list->thread, NULL) : pthread_tryjoin_np(list->thread, NULL)) == 0) {
            free(list);
        } else {
            list->next = slow;
            slow = list;
        }
    }
    pthread_mutex_lock(&c->lock);
    for (; slow; slow = next) {
        next = slow->next;
        slow->next = c->ended;
        c->ended = slow;
    }
    pthread_mutex_unlock(&c->lock);
}

static bool start_thread(sflight_cache *c, struct work *w) {
    sigset_t all, before;
    struct runner *runner = malloc(sizeof *runner);
    join_ended(c, false);
    if (!runner) return false;
    *runner = (struct runner){.cache = c, .work = w};
    sigfillset(&all);
    pthread_sigmask(SIG_SETMASK, &all, &before);
    bool is_started = pthread_create(&runner->thread, NULL, run_thread, runner) == 0;
    pthread_sigmask(SIG_SETMASK, &before, NULL);
    if (!is_started) free(runner);
    return is_started;
}

/* Lets another thread lead the work's calls. */
static bool starts(sflight_cache *c, struct work *w) {
    for (size_t i = 0; i < w->count; i++) if (w->gettings[i].is_led) sflight_inside_move(c->pool, &w->gettings[i].doing);
    pthread_mutex_lock(&c->lock);
    c->running++;
    pthread_mutex_unlock(&c->lock);
    if (c->options.start ? c->options.start(c->options.context, run_work, w) : start_thread(c, w)) return true;
    end_running(c, NULL);
    return false;
}

/* Ends the calls of work that no thread leads, with this. */
static void give_up(struct work *w, uint64_t result) {
    for (size_t i = 0; i < w->count; i++) {
        struct getting *g = &w->gettings[i];
        if (!g->is_led) continue;
        g->doing.got.value = g->result = result;
        sflight_inside_settle(w->cache->pool, &g->doing);
    }
}

static struct work *new_work(sflight_cache *c, size_t count, size_t keys) {
    if (count > (SIZE_MAX - sizeof(struct work) - keys) / sizeof(struct getting)) return NULL;
    struct work *w = calloc(1, sizeof *w + count * sizeof(struct getting) + keys);
    if (!w) return NULL;
    w->cache = c;
    w->count = count;
    return w;
}

/* Gives the get of the work this key: a copy of it at *room, where that is not null. */
static struct getting *getting_of(struct work *w, size_t i, uint64_t hash, const uint8_t *key, size_t len, uint8_t **room) {
    struct getting *g = &w->gettings[i];
    if (room) {
        if (len > 0) memcpy(*room, key, len);
        key = *room;
        *room += len;
    }
    *g = (struct getting){.cache = w->cache, .key = key, .len = len, .hash = hash};
    return g;
}

/* A time that has passed. */
static const struct timespec past = {0, 0};

/* Lets go of a call that was joined, which another thread leads, settled or not. */
static void leave_call_of(struct getting *g) {
    atomic_fetch_add_explicit(&g->cache->repeats, 1, memory_order_relaxed);
    if (!sflight_inside_wait(g->cache->pool, &g->doing, &past)) return;
    enters(g->cache, &g->doing.noted, false);
    struct sflight_entry *e = entry_of_result(g->doing.got.value);
    if (e) leave_entry(g->cache, e);
}

/* The value is due: one load begins in the background. The thread has the entry in use. */
static void refresh(sflight_cache *c, struct sflight_entry *e) {
    if (atomic_load_explicit(&e->is_refreshing, memory_order_relaxed) || atomic_exchange(&e->is_refreshing, true)) return;
    struct work *w = new_work(c, 1, e->len);
    uint32_t code = SFLIGHT_NO_MEMORY;
    if (w) {
        uint8_t *room = (uint8_t *)&w->gettings[1];
        struct getting *g = getting_of(w, 0, hash_of_entry(c, e), key_of(e), e->len, &room);
        atomic_init(&w->state, LEFT);
        code = sflight_inside_ask(c->pool, g->key, g->len, &past, &g->doing);
        if (code == SFLIGHT_LED) {
            atomic_fetch_add_explicit(&e->users, 1, memory_order_relaxed);
            g->is_led = true;
            g->replaces = e;
            if (starts(c, w)) return; /* its end gives the count back */
            /* Whoever has joined meanwhile asks again: the value from before may have been forgotten. */
            give_up(w, AGAIN);
            leave_entry(c, e);
        } else if (code == SFLIGHT_JOINED) {
            leave_call_of(g);
        }
        free_work(w);
    }
    atomic_store(&e->is_refreshing, false);
}

/* Waits for work in another thread. Returns false where the deadline passes first: then that frees it. */
static bool waits_for(struct work *w, const struct timespec *deadline) {
    unsigned state;
    while ((state = atomic_load(&w->state)) == RUNNING) {
        long code = syscall(SYS_futex, &w->state, FUTEX_WAIT_BITSET | FUTEX_PRIVATE_FLAG, RUNNING, deadline, NULL, 2);
        if (code != 0 && errno == ETIMEDOUT && atomic_compare_exchange_strong(&w->state, &state, LEFT)) return false;
    }
    return true;
}

/* Gets. */

/* What the get has of its call's result: a code, or NOT_THERE where it has to ask again. A value of a load that
 * began before the get, of which a tag was forgotten since, may be older than a Forget that the get is to
 * see. `clock` is from when the get began. */
static int take(sflight_cache *c, uint64_t result, uint64_t clock, int code, sflight_value *value) {
    struct sflight_entry *e = entry_of_result(result);
    uint64_t began = result % DATED / CONSTANTS;
    if (result & DATED && (code != SFLIGHT_CACHE_JOINED || began >= clock || began == atomic_load(&c->clock)))
        return result % CONSTANTS == MISSING ? SFLIGHT_CACHE_MISSING : SFLIGHT_CACHE_FAILED;
    switch (result & DATED ? AGAIN : result) {
    case NO_MEMORY: return SFLIGHT_CACHE_NO_MEMORY;
    case AGAIN: atomic_fetch_add_explicit(&c->repeats, 1, memory_order_relaxed); return NOT_THERE;
    default: break;
    }
    if (code == SFLIGHT_CACHE_JOINED && e->has & HAS_TAGS && tags_of(e)->clock < clock && !are_tags_still(c, e)) {
        atomic_fetch_add_explicit(&c->repeats, 1, memory_order_relaxed);
        leave_entry(c, e);
        return NOT_THERE;
    }
    *value = (sflight_value){e->value, e, NULL};
    return result & MARK ? SFLIGHT_CACHE_STALE : code;
}

/* What the get has of the call that it has joined and that has ended: as take has it. */
static int take_joined(struct getting *g, uint64_t clock, sflight_value *value) {
    int code = take(g->cache, g->doing.got.value, clock, SFLIGHT_CACHE_JOINED, value);
    enters(g->cache, &g->doing.noted, code != NOT_THERE && code != SFLIGHT_CACHE_NO_MEMORY);
    return code;
}

/* A get that had missed has found a value after all, since it led a call. */
static void count_found(sflight_cache *c) {
    struct seat *seat = seat_of(c->pool);
    if (seat) {
        add(&seat->hits, 1);
        add(&seat->misses, (uint64_t)-1);
        return;
    }
    atomic_fetch_add_explicit(&c->hits, 1, memory_order_relaxed);
    atomic_fetch_sub_explicit(&c->misses, 1, memory_order_relaxed);
}

/* The result of a call that this get has led, here or elsewhere. */
static int take_led(struct getting *g, sflight_value *value) {
    if (g->is_found) count_found(g->cache);
    return take(g->cache, g->result, 0, g->is_found ? SFLIGHT_CACHE_HIT : SFLIGHT_CACHE_LOADED, value);
}

/* Lets another thread load, and waits for it until the deadline. */
static int get_apart(struct getting *of, const sflight_cache_how *how, const struct timespec *deadline, sflight_value *value) {
    sflight_cache *c = of->cache;
    struct work *w = new_work(c, 1, of->len);
    if (!w) {
        of->doing.got.value = NO_MEMORY;
        sflight_inside_settle(c->pool, &of->doing);
        return SFLIGHT_CACHE_NO_MEMORY;
    }
    uint8_t *room = (uint8_t *)&w->gettings[1];
    struct getting *g = getting_of(w, 0, of->hash, of->key, of->len, &room);
    g->doing = of->doing;
    g->is_led = true;
    w->how = *how;
    int code = SFLIGHT_CACHE_NO_MEMORY;
    if (!starts(c, w)) give_up(w, NO_MEMORY);
    else if (!waits_for(w, deadline)) return SFLIGHT_CACHE_TIMED_OUT;
    else code = take_led(g, value);
    free_work(w);
    return code;
}

static const sflight_cache_how plain;

/* Gets a key that was missed. */
APART static int get_missing(sflight_cache *c, uint64_t hash, const uint8_t *key, size_t len, const sflight_cache_how *how,
                             const struct timespec *deadline, sflight_value *value, const struct noted *noted) {
    uint64_t clock = atomic_load(&c->clock);
    for (int code = NOT_THERE;;) {
        struct getting g = {.cache = c, .key = key, .len = len, .hash = hash, .doing.noted.from = from_of(noted)};
        SFLIGHT_POINT("looked");
        switch (sflight_inside_ask(c->pool, key, len, deadline, &g.doing)) {
        case SFLIGHT_LED:
            if (deadline) return get_apart(&g, how, deadline, value);
            if (begins(&g)) load_one(&g, how);
            else ends(&g); /* nothing has left */
            return take_led(&g, value);
        case SFLIGHT_JOINED:
            if (!sflight_inside_wait(c->pool, &g.doing, deadline)) return SFLIGHT_CACHE_TIMED_OUT;
            code = take_joined(&g, clock, value);
            break;
        case SFLIGHT_PENDING: return SFLIGHT_CACHE_TIMED_OUT;
        default: return SFLIGHT_CACHE_NO_MEMORY;
        }
        if (code != NOT_THERE) return code;
    }
}

static const struct timespec *deadline_of_get(const sflight_cache_how *how, struct timespec *at) {
    if (how->timeout == 0) return NULL;
    *at = sflight_inside_deadline(how->timeout);
    return at;
}

/* A get that was no hit with a value: its code says what its look has found. */
APART static int go_on(sflight_cache *c, int code, const uint8_t *key, size_t len, const sflight_cache_how *how, sflight_value *value,
                       const struct noted *noted) {
    struct timespec at;
    *value = (sflight_value){0};
    if (code != NOT_THERE) return code;
    sflight_cache_how alone = how ? *how : plain;
    alone.load_many = NULL;
    return get_missing(c, hash_of(c, key, len), key, len, &alone, deadline_of_get(&alone, &at), value, noted);
}

/* A get in a cache that is recorded. */
APART static int get_recorded(sflight_cache *c, const uint8_t *key, size_t len, const sflight_cache_how *how, sflight_value *value) {
    struct noted noted;
    watch(c, &noted);
    int code = look(c, hash_of(c, key, len), key, len, true, value, &noted);
    return code == SFLIGHT_CACHE_HIT ? code : go_on(c, code, key, len, how, value, &noted);
}

int sflight_cache_get_with(sflight_cache *c, const uint8_t *key, size_t len, const sflight_cache_how *how, sflight_value *value) {
    if (RARELY(atomic_load_explicit(&c->pool->recorder, memory_order_acquire))) return get_recorded(c, key, len, how, value);
    int code = look_in_line(c, hash_in_line(c, key, len), key, len, true, value, NULL);
    return code == SFLIGHT_CACHE_HIT ? code : go_on(c, code, key, len, how, value, NULL);
}

int sflight_cache_get(sflight_cache *c, const uint8_t *key, size_t len, sflight_value *value) {
    if (RARELY(atomic_load_explicit(&c->pool->recorder, memory_order_acquire))) return get_recorded(c, key, len, NULL, value);
    int code = look_in_line(c, hash_in_line(c, key, len), key, len, true, value, NULL);
    return code == SFLIGHT_CACHE_HIT ? code : go_on(c, code, key, len, NULL, value, NULL);
}

bool sflight_cache_peek(sflight_cache *c, const uint8_t *key, size_t len, sflight_value *value) {
    struct noted noted;
    watch(c, &noted);
    *value = (sflight_value){0};
    return look(c, hash_of(c, key, len), key, len, false, value, &noted) == SFLIGHT_CACHE_HIT;
}

void sflight_cache_release(sflight_cache *c, sflight_value *value) {
    struct sflight_entry *e = value->entry;
    struct hold *place = value->hold;
    *value = (sflight_value){0};
    if (place) {
        if (let_go(c, place)) collect(c, place);
    } else if (e) {
        leave_entry(c, e);
    }
}

/* Batches. */

struct batch {
    sflight_cache *cache;
    sflight_cache_item *items;
    const sflight_cache_how *how;
    const struct timespec *deadline;
    struct work *work;
    uint64_t clock;
    struct noted noted;
};

/* Asks for the keys that were missed, and waits for none. */
static void ask_for_items(struct batch *b, size_t count, uint8_t *room) {
    size_t n = 0;
    for (size_t i = 0; i < count; i++) {
        sflight_cache_item *item = &b->items[i];
        if (item->code != NOT_THERE) continue;
        struct getting *g = getting_of(b->work, n++, hash_of(b->cache, item->key, item->len), item->key, item->len, b->deadline ? &room : NULL);
        g->item = i;
        g->doing.noted.from = from_of(&b->noted);
        uint32_t code = sflight_inside_ask(b->cache->pool, g->key, g->len, &past, &g->doing);
        g->is_led = code == SFLIGHT_LED;
        b->work->led += g->is_led;
        if (code == SFLIGHT_NO_MEMORY) item->code = SFLIGHT_CACHE_NO_MEMORY;
        g->is_joined = code == SFLIGHT_JOINED;
    }
    b->work->count = n;
}

/* Waits for the keys that others load. */
static void wait_for_items(struct batch *b) {
    for (size_t i = 0; i < b->work->count; i++) {
        struct getting *g = &b->work->gettings[i];
        sflight_cache_item *item = &b->items[g->item];
        if (!g->is_joined) continue;
        if (!sflight_inside_wait(b->cache->pool, &g->doing, b->deadline)) item->code = SFLIGHT_CACHE_TIMED_OUT;
        else item->code = take_joined(g, b->clock, &item->value);
    }
}

/* Leads the calls of the batch, here, or with a deadline in another thread. Returns whether another has
 * begun. */
static bool lead_items(struct batch *b) {
    struct work *w = b->work;
    if (w->led == 0) return false;
    w->loadings = malloc(w->led * sizeof *w->loadings);
    if (!w->loadings) give_up(w, NO_MEMORY);
    else if (!b->deadline) lead_work(w);
    else if (starts(b->cache, w)) return true;
    else give_up(w, NO_MEMORY);
    return false;
}

/* Gets the items that were missed. It leads before it waits for any other, since that one's leader may wait
 * for one of these: two batches that overlap do not wait for each other. */
static void get_items(struct batch *b) {
    bool is_apart = lead_items(b);
    wait_for_items(b);
    for (size_t i = 0; i < b->work->count; i++) {
        if (b->work->gettings[i].is_led) b->items[b->work->gettings[i].item].code = SFLIGHT_CACHE_TIMED_OUT;
    }
    /* From here on the other thread has the work, if it is not done. */
    if (is_apart && !waits_for(b->work, b->deadline)) return;
    for (size_t i = 0; i < b->work->count; i++) {
        struct getting *g = &b->work->gettings[i];
        if (g->is_led) b->items[g->item].code = take_led(g, &b->items[g->item].value);
    }
    free_work(b->work);
}

/* Loads those of the items that were missed together. */
static void get_together(struct batch *b, size_t count, size_t missed, size_t keys) {
    b->work = new_work(b->cache, missed, keys);
    if (!b->work) {
        for (size_t i = 0; i < count; i++) if (b->items[i].code == NOT_THERE) b->items[i].code = SFLIGHT_CACHE_NO_MEMORY;
        return;
    }
    b->work->how = *b->how;
    SFLIGHT_POINT("looked");
    ask_for_items(b, count, (uint8_t *)&b->work->gettings[missed]);
    get_items(b);
}

void sflight_cache_get_many(sflight_cache *c, sflight_cache_item *items, size_t count, const sflight_cache_how *how) {
    struct timespec at;
    struct batch b = {.cache = c, .items = items, .how = how ? how : &plain};
    size_t missed = 0, keys = 0;
    b.deadline = deadline_of_get(b.how, &at);
    watch(c, &b.noted);
    b.clock = atomic_load(&c->clock);
    for (size_t i = 0; i < count; i++) {
        items[i].value = (sflight_value){0};
        items[i].code = look(c, hash_of(c, items[i].key, items[i].len), items[i].key, items[i].len, true, &items[i].value, &b.noted);
        if (items[i].code != NOT_THERE) continue;
        missed++;
        keys += b.deadline ? items[i].len : 0;
    }
    if (missed > 0 && many_of(c, b.how)) get_together(&b, count, missed, keys);
    /* One after the other, so that a load may get the next key; and those that are to ask again. */
    for (size_t i = 0; i < count; i++) {
        sflight_cache_item *item = &items[i];
        if (item->code == NOT_THERE) item->code = get_missing(c, hash_of(c, item->key, item->len), item->key, item->len, b.how, b.deadline, &item->value, &b.noted);
    }
}

/* Forgets. */

static atomic_uint *forgets_of(sflight_cache *c, uint64_t hash) { return &c->forgets[hash & (c->forget_cells - 1)]; }

/* What a Forget has ended leaves at once, since its weight is needed. */
static void take_out_forgotten(sflight_cache *c, uint64_t hash, const uint8_t *key, size_t len) {
    struct shard *s = shard_of(c, hash);
    struct sflight_entry *left = NULL;
    pthread_mutex_lock(&s->lock);
    struct sflight_entry *e = find(s, hash, key, len);
    if (e && state_now(c, e) == GONE) take_out(c, s, hash, e, SFLIGHT_CACHE_FORGOTTEN, &left);
    pthread_mutex_unlock(&s->lock);
    leave_all(c, left);
}

void sflight_cache_forget(sflight_cache *c, const uint8_t *key, size_t len) {
    uint64_t hash = hash_of(c, key, len);
    /* Counted first: a put that does not see the count has asked before, and its call is closed by what follows. */
    atomic_fetch_add(forgets_of(c, hash), 1);
    /* From here on no get takes a value from before. */
    sflight_do_forget(c->pool, key, len);
    SFLIGHT_POINT("before take out");
    take_out_forgotten(c, hash, key, len);
}

bool sflight_cache_forget_if(sflight_cache *c, const sflight_value *value) {
    struct sflight_entry *e = value->entry, *left = NULL;
    if (!e) return false;
    struct noted noted;
    watch(c, &noted);
    uint64_t hash = hash_of_entry(c, e);
    struct shard *s = shard_of(c, hash);
    atomic_fetch_add(forgets_of(c, hash), 1);
    SFLIGHT_POINT("before take out");
    pthread_mutex_lock(&s->lock);
    bool is_there = e->place != OUT;
    if (is_there) take_out_by(c, s, hash, e, SFLIGHT_CACHE_FORGOTTEN, &left, from_of(&noted));
    if (is_there) atomic_fetch_add_explicit(&c->other_forgets, 1, memory_order_relaxed);
    /* A call that is about to be settled with it can be joined still. */
    for (struct getting *g = s->loading; g; g = g->next) {
        if (g->kept == (uintptr_t)e) sflight_inside_forget_call(c->pool, g->key, g->len, &g->doing);
    }
    pthread_mutex_unlock(&s->lock);
    leave_all(c, left);
    return is_there;
}

/* Takes all entries of the shard out. With its lock. */
static void empty(sflight_cache *c, struct shard *s, int reason, struct sflight_entry **left, uint64_t from) {
    for (int place = IN_SMALL; place <= IN_MAIN; place++) {
        for (struct sflight_entry *e; (e = s->queues[place].oldest);) take_out_by(c, s, hash_of_entry(c, e), e, reason, left, from);
    }
}

/* A load that a get may join is among those of its shard, or begins after this has passed the shard. */
void sflight_cache_forget_all(sflight_cache *c) {
    struct noted noted;
    watch(c, &noted);
    atomic_fetch_add(&c->all, 1);
    unsigned long long closed = 0;
    for (unsigned i = 0; i < c->count; i++) {
        struct shard *s = &c->shards[i];
        struct sflight_entry *left = NULL;
        pthread_mutex_lock(&s->lock);
        for (struct getting *l = s->loading; l; l = l->next, closed++) sflight_do_forget(c->pool, l->key, l->len);
        empty(c, s, SFLIGHT_CACHE_FORGOTTEN, &left, from_of(&noted));
        pthread_mutex_unlock(&s->lock);
        leave_all(c, left);
    }
    /* It is one Forget. */
    atomic_fetch_add_explicit(&c->other_forgets, 1 - closed, memory_order_relaxed);
}

/* Puts. */

sflight_cache_token sflight_cache_draw(sflight_cache *c, const uint8_t *key, size_t len) {
    return (sflight_cache_token){atomic_load(&c->all), atomic_load(&c->clock), atomic_load(forgets_of(c, hash_of(c, key, len)))};
}

/* The call of a put, which this thread leads. Returns whether the value is kept; *is_taken says whether it
 * is in an entry. Nobody has forgotten the key since the token was drawn, but the put itself; whoever does
 * from here on ends the call, so no get that begins after that has this value. */
static bool put_value(struct getting *g, const sflight_cache_loaded *l, const sflight_cache_token *token, bool *is_taken) {
    sflight_cache *c = g->cache;
    g->is_put = true;
    begins(g);
    g->clock = token->clock;
    g->result = AGAIN;
    SFLIGHT_POINT("before check");
    bool is_right = atomic_load(&c->all) == token->all && atomic_load(forgets_of(c, g->hash)) == token->forgets + 1;
    if (is_right && g->doing.noted.by) recording_of(c)->runs(&g->doing.noted, g->clock);
    struct sflight_entry *e = is_right ? new_entry(g, SFLIGHT_CACHE_HIT, l) : NULL;
    *is_taken = e != NULL;
    bool is_kept = e && keep(g, l->ttl < 0 || l->tags > SFLIGHT_CACHE_MOST_TAGS ? NULL : e);
    if (e) g->result = (uintptr_t)e;
    ends(g);
    drops(g);
    if (e) leave_entry(c, e);
    return is_kept;
}

bool sflight_cache_put(sflight_cache *c, const uint8_t *key, size_t len, const sflight_cache_loaded *l, const sflight_cache_token *token) {
    const sflight_cache_token own = token ? *token : sflight_cache_draw(c, key, len);
    struct getting g = {.cache = c, .key = key, .len = len, .hash = hash_of(c, key, len)};
    bool is_kept = false, is_taken = false;
    atomic_fetch_add(forgets_of(c, g.hash), 1);
    sflight_do_forget(c->pool, key, len);
    switch (sflight_inside_ask(c->pool, key, len, &past, &g.doing)) {
    case SFLIGHT_LED: is_kept = put_value(&g, l, &own, &is_taken); break;
    case SFLIGHT_JOINED: leave_call_of(&g); break; /* a newer load */
    default: break;
    }
    if (!is_kept) take_out_forgotten(c, g.hash, key, len);
    if (!is_taken && c->options.drop) c->options.drop(c->options.context, l->value);
    return is_kept;
}

/* Looking in. */

uint64_t sflight_cache_len(sflight_cache *c) {
    uint64_t entries = 0;
    for (unsigned i = 0; i < c->count; i++) {
        pthread_mutex_lock(&c->shards[i].lock);
        entries += c->shards[i].entries;
        pthread_mutex_unlock(&c->shards[i].lock);
    }
    return entries;
}

uint64_t sflight_cache_limit(sflight_cache *c) { return atomic_load(&c->limit); }

uint64_t sflight_cache_weight(sflight_cache *c) {
    pthread_mutex_lock(&c->lock);
    uint64_t weight = atomic_load(&c->limit) - (uint64_t)atomic_load(&c->room);
    pthread_mutex_unlock(&c->lock);
    return weight;
}

static uint64_t limit_of(uint64_t limit) { return limit > INT64_MAX ? INT64_MAX : limit; }

void sflight_cache_resize(sflight_cache *c, uint64_t limit) {
    struct sflight_entry *left = NULL;
    limit = limit_of(limit);
    pthread_mutex_lock(&c->lock);
    /* With no room below 0 nothing comes in, however little it weighs. */
    atomic_fetch_add(&c->room, (long long)limit - (long long)atomic_load(&c->limit));
    atomic_store(&c->limit, limit);
    pthread_mutex_unlock(&c->lock);
    for (unsigned i = 0; atomic_load(&c->room) < 0;) {
        struct shard *s = &c->shards[i];
        pthread_mutex_lock(&s->lock);
        bool is_empty = !evict(c, s, &left);
        pthread_mutex_unlock(&s->lock);
        if (is_empty) i = (i + 1) % c->count;
        leave_all(c, left);
        left = NULL;
    }
}

/* The entries of the shard that may be returned, with a count for each. Returns false where there is no
 * memory. */
static bool list_entries(sflight_cache *c, struct shard *s, struct sflight_entry ***list, uint64_t *count) {
    *count = 0;
    pthread_mutex_lock(&s->lock);
    *list = malloc((s->entries + 1) * sizeof **list);
    for (int place = IN_SMALL; *list && place <= IN_MAIN; place++) {
        for (struct sflight_entry *e = s->queues[place].newest; e; e = e->older) {
            if (e->code != SFLIGHT_CACHE_HIT || state_now(c, e) < FRESH) continue;
            atomic_fetch_add_explicit(&e->users, 1, memory_order_relaxed);
            (*list)[(*count)++] = e;
        }
    }
    pthread_mutex_unlock(&s->lock);
    return *list != NULL;
}

bool sflight_cache_each(sflight_cache *c, bool (*call)(void *context, const uint8_t *key, size_t len, void *value), void *context) {
    bool goes_on = true;
    for (unsigned i = 0; i < c->count && goes_on; i++) {
        struct sflight_entry **list;
        uint64_t count;
        if (!list_entries(c, &c->shards[i], &list, &count)) return false;
        for (uint64_t n = 0; n < count; n++) {
            struct sflight_entry *e = list[n];
            /* It may have been forgotten since, by the call before too. */
            goes_on = goes_on && (state_now(c, e) < FRESH || call(context, key_of(e), e->len, e->value));
            leave_entry(c, e);
        }
        free(list);
    }
    return true;
}

static void count_seats(sflight_cache *c, sflight_cache_stats *stats) {
    for (struct seat *seat = atomic_load(&c->pool->seats); seat; seat = seat->next) {
        stats->hits += atomic_load_explicit(&seat->hits, memory_order_relaxed);
        stats->misses += atomic_load_explicit(&seat->misses, memory_order_relaxed);
    }
    /* A get that is found to be a hit after all may be seen in part. */
    if (stats->misses > INT64_MAX) stats->misses = 0;
}

sflight_cache_stats sflight_cache_statistics(sflight_cache *c) {
    const sflight_stats pool = sflight_do_statistics(c->pool);
    uint64_t repeats = atomic_load(&c->repeats);
    sflight_cache_stats stats = {
        .joins = pool.joins > repeats ? pool.joins - repeats : 0, .forgets = pool.forgets + atomic_load(&c->other_forgets), .in_use = pool.in_use,
        .hits = atomic_load(&c->hits), .misses = atomic_load(&c->misses), .stale = atomic_load(&c->stale)};
    count_seats(c, &stats);
    for (unsigned i = 0; i < c->count; i++) {
        struct shard *s = &c->shards[i];
        pthread_mutex_lock(&s->lock);
        stats.loads += s->loads;
        stats.failures += s->failures;
        stats.refreshes += s->refreshes;
        stats.evictions += s->evictions;
        stats.expirations += s->expirations;
        stats.entries += s->entries;
        stats.load_time += s->load_time;
        for (unsigned b = 0; b < SFLIGHT_CACHE_BUCKETS; b++) stats.load_times[b] += s->load_times[b];
        pthread_mutex_unlock(&s->lock);
    }
    stats.weight = sflight_cache_weight(c);
    stats.limit = sflight_cache_limit(c);
    return stats;
}

/* Opening and closing. */

static void share_value(uint64_t value, uint32_t others) {
    struct sflight_entry *e = entry_of_result(value);
    if (e) atomic_fetch_add_explicit(&e->users, others, memory_order_relaxed);
}

static void free_cache(sflight_cache *c) {
    for (unsigned i = 0; i < c->count; i++) {
        pthread_mutex_destroy(&c->shards[i].lock);
        for (struct table *t = atomic_load(&c->shards[i].table), *last; t; t = last) {
            last = t->last;
            free(t);
        }
        free(c->shards[i].ghosts);
    }
    sflight_do_close(c->pool);
    free(atomic_load(&c->ages));
    free(c->forgets);
    pthread_cond_destroy(&c->is_idle);
    pthread_mutex_destroy(&c->lock);
    free(c);
}

static bool are_right(const sflight_cache_options *o) {
    return o->limit > 0 && o->entries > 0 && o->load && o->loads <= SFLIGHT_MOST_CELLS && o->ttl >= 0 && o->idle >= 0 && o->refresh_after >= 0
        && o->stale_if_error >= 0 && o->failed_ttl >= 0 && o->missing_ttl >= 0 && o->jitter >= 0 && o->jitter < 1;
}

/* The parts of a shard for so many entries. */
static bool open_shard(struct shard *s, uint64_t entries) {
    pthread_mutex_init(&s->lock, NULL);
    s->ghost_count = 2 * entries;
    atomic_init(&s->table, new_table(entries, NULL));
    s->ghosts = calloc(s->ghost_count, sizeof *s->ghosts);
    return atomic_load(&s->table) && s->ghosts;
}

sflight_cache *sflight_cache_open(const sflight_cache_options *options) {
    if (!are_right(options)) return NULL;
    unsigned count = options->entries / ENTRIES_PER_SHARD;
    count = count < 1 ? 1 : count > SHARDS ? SHARDS : count;
    size_t size = sizeof(sflight_cache) + count * sizeof(struct shard);
    sflight_cache *c = aligned_alloc(CACHE_LINE, (size + CACHE_LINE - 1) / CACHE_LINE * CACHE_LINE);
    if (!c) return NULL;
    memset(c, 0, size);
    c->options = *options;
    c->expected = options->entries;
    c->count = count;
    /* In a process with threads the first time takes some milliseconds. */
    atomic_init(&c->is_fenced, syscall(SYS_membarrier, MEMBARRIER_CMD_REGISTER_PRIVATE_EXPEDITED, 0, 0) != 0);
    atomic_init(&c->limit, limit_of(options->limit));
    atomic_init(&c->room, (long long)limit_of(options->limit));
    for (int i = 0; i < ERAS; i++) atomic_init(&c->eras[i], NO_ERA);
    c->tick = options->idle / IDLE_PART > 0 ? options->idle / IDLE_PART : 1;
    c->jitter = (uint64_t)((double)options->ttl * options->jitter);
    pthread_mutex_init(&c->lock, NULL);
    pthread_cond_init(&c->is_idle, NULL);
    for (c->cells = FEWEST_CELLS; c->cells < MOST_TAG_CELLS && c->cells < (uint64_t)options->entries * TAG_CELLS_OF_ENTRY;) c->cells *= 2;
    c->forget_cells = c->cells / TAG_CELLS_OF_ENTRY;
    if (c->forget_cells < FEWEST_CELLS) c->forget_cells = FEWEST_CELLS;
    c->forgets = calloc(c->forget_cells, sizeof *c->forgets);
    /* The group has four hash slots for each load, and a Forget of one key ends the stamps of others of its slot: of one value
     * more, and of about four in a large cache, where more slots would cost more memory than that is worth. */
    unsigned loads = options->loads ? options->loads : LOADS, enough = options->entries / 4;
    if (enough > SMALL_GROUP) enough = SMALL_GROUP + (enough - SMALL_GROUP) / 4;
    enough = enough > MOST_LOADS ? MOST_LOADS : enough;
    c->pool = sflight_do_open(loads > enough ? loads : enough, share_value);
    bool is_well = c->forgets && c->pool && getrandom(c->seeds, sizeof c->seeds, 0) == sizeof c->seeds;
    for (unsigned i = 0; i < count; i++) is_well &= open_shard(&c->shards[i], options->entries / count + 1);
    if (is_well) return c;
    free_cache(c);
    return NULL;
}

/* Waits for the loads in the background. */
static void wait_idle(sflight_cache *c) {
    pthread_mutex_lock(&c->lock);
    while (c->running > 0) pthread_cond_wait(&c->is_idle, &c->lock);
    pthread_mutex_unlock(&c->lock);
    join_ended(c, true);
}

void sflight_cache_close(sflight_cache *c) {
    /* The writer of a recording may use the cache until then. */
    if (c->pool->kept) recording_of(c)->stops(c->pool);
    wait_idle(c);
    /* The program's functions get keys meanwhile. What they load has no place any more, and is waited for. */
    c->is_closing = true;
    for (unsigned i = 0; i < c->count; i++) {
        struct sflight_entry *left = NULL;
        struct shard *s = &c->shards[i];
        pthread_mutex_lock(&s->lock);
        empty(c, s, SFLIGHT_CACHE_CLOSED, &left, 0);
        pthread_mutex_unlock(&s->lock);
        leave_all(c, left);
    }
    wait_idle(c);
    collect_all(c);
    wait_idle(c);
    free_cache(c);
}
