/* A cache for programs with threads, over sflight_do.h: of the threads that want one key at one time,
 * one loads its value and the others share it. Values are kept within a limit of weight. Compile
 * sflight_cache.c and sflight_do.c into the program, and link libsflight.a and -lpthread.
 *
 * - After a Forget (sflight_cache_forget, _forget_tag, _forget_all, _forget_if or _put) has returned,
 *   no get that begins later returns a value or a kept failure whose load began before it: not an
 *   expired one, not a refreshed one, not one of a batch, not one of a load that was under way.
 * - At most one load of a key runs at a time, unless a Forget ended the earlier one. So without a
 *   Forget the values of a key never go back to an older one.
 * - A hit takes no lock, while its thread has at most eight values in use. No get waits for the load of
 *   another key.
 * - The values in the cache never weigh more than the limit.
 * - The function `left` is told of each value that leaves the cache once.
 * - A Forget always forgets, also if there is no memory.
 *
 * A value is a pointer to what the program loaded. The cache counts its users, and calls `drop`
 * once, when it has left the cache and the last user has released it.
 *
 * Every function may be called from any thread, but sflight_cache_close alone. The functions that the
 * cache calls (load, drop, left, each) may use the cache: no lock is held meanwhile. But a load that
 * gets its own key waits for itself. They return: they do not longjmp out, and their thread is not
 * cancelled meanwhile. No function is called from a signal handler, or from the forked child of a
 * process with threads.
 *
 * Times are nanoseconds. Ages count from when a load began, by CLOCK_MONOTONIC and by CLOCK_REALTIME,
 * and that counts which says "older": a machine that was suspended, or a clock that was set back,
 * makes no value live longer.
 *
 * In C++ the functions that the cache calls throw no exception: the key could not be loaded again.
 * From C++17 on their types are noexcept, so that one that may throw does not compile. */
#ifndef SFLIGHT_CACHE_H
#define SFLIGHT_CACHE_H

#include "sflight.h"
#include "sflight_do.h"
#include <stdbool.h>
#include <stddef.h>
#include <stdint.h>

#ifdef __cplusplus
extern "C" {
#endif

/* A cache, which threads share. */
typedef struct sflight_cache sflight_cache;

/* A value that is in use: its pointer, and the entry by which it is released. */
typedef struct sflight_value {
    void *at;
    struct sflight_entry *entry; /* the cache's own; null: nothing is in use */
    void *hold;                  /* the cache's own */
} sflight_value;

/* The results of a get, and what a load function returns. */
enum sflight_cache_code {
    SFLIGHT_CACHE_HIT = 0,       /* the value was there */
    SFLIGHT_CACHE_LOADED = 1,    /* it was loaded for this get; a load function returns this too */
    SFLIGHT_CACHE_JOINED = 2,    /* another get loaded it meanwhile */
    SFLIGHT_CACHE_STALE = 3,     /* its load failed, and this is the value from before */
    SFLIGHT_CACHE_FAILED = 4,    /* its load failed, here, in the get that was joined, or lately */
    SFLIGHT_CACHE_MISSING = 5,   /* its load found that it does not exist */
    SFLIGHT_CACHE_TIMED_OUT = 6, /* the timeout passed; the load goes on, and its value is kept */
    SFLIGHT_CACHE_NO_MEMORY = 7  /* there was no memory, or no thread for a load with a timeout */
};

/* Returns whether a get with this result has a value, which is to be released. */
static inline bool sflight_cache_has_value(int code) { return code <= SFLIGHT_CACHE_STALE; }

/* The most tags of one value. */
#define SFLIGHT_CACHE_MOST_TAGS 32u

/* A value that is loaded or put, and how it is kept. */
typedef struct sflight_cache_loaded {
    void *value;
    uint64_t weight; /* 1 unless it says otherwise */
    /* How long it may be returned. 0 is the cache's default. Below 0: the gets that wait for it have
     * it, and it is not kept. For a load that failed or found nothing: how long that is kept. */
    int64_t ttl;
    sflight_cache *cache; /* the rest is the cache's own: sflight_cache_add_tag */
    uint32_t tags;
    uint32_t tag[SFLIGHT_CACHE_MOST_TAGS];
} sflight_cache_loaded;

/* Loads the value of the key, and writes it into `loaded`. Returns SFLIGHT_CACHE_LOADED;
 * SFLIGHT_CACHE_FAILED where it failed; or SFLIGHT_CACHE_MISSING where there is no such value. */
typedef int sflight_cache_load(void *context, const uint8_t *key, size_t len,
                               sflight_cache_loaded *loaded) SFLIGHT_NOEXCEPT;

/* A key of a batch that is loaded. */
typedef struct sflight_cache_loading {
    const uint8_t *key;
    size_t len;
    int code; /* as sflight_cache_load returns it; SFLIGHT_CACHE_MISSING unless the function sets it */
    sflight_cache_loaded loaded;
} sflight_cache_loading;

/* Loads the values of so many keys, each of which stands there once. */
typedef void sflight_cache_load_many(void *context, sflight_cache_loading *loadings,
                                     size_t count) SFLIGHT_NOEXCEPT;

/* Why a value left the cache. */
enum sflight_cache_reason {
    SFLIGHT_CACHE_MADE_ROOM = 0, /* others needed its room */
    SFLIGHT_CACHE_EXPIRED = 1,   /* it was past its time to live or to idle */
    SFLIGHT_CACHE_FORGOTTEN = 2, /* a Forget ended it */
    SFLIGHT_CACHE_REPLACED = 3,  /* a newer load or put took its place */
    SFLIGHT_CACHE_CLOSED = 4     /* the cache was closed */
};

/* How a cache is made. A field that is 0 has its default, but for limit, entries and load. */
typedef struct sflight_cache_options {
    uint64_t limit;   /* the most that all values weigh together; not 0 */
    uint32_t entries; /* about how many values there will be, from 1 on */
    uint32_t loads;   /* about how many loads run at one time, up to 1,048,576; 0 means 16 */
    sflight_cache_load *load; /* not null */
    /* May be null, where values need not be freed. */
    void (*drop)(void *context, void *value) SFLIGHT_NOEXCEPT;
    void *context; /* for all functions of the cache */

    /* Loads a batch by one call; null: the keys one after the other, by `load`. */
    sflight_cache_load_many *load_many;
    /* Is told once of each value that has left the cache, before it is dropped; may be null. */
    void (*left)(void *context, const uint8_t *key, size_t len, void *value,
                 int reason) SFLIGHT_NOEXCEPT;
    int64_t ttl;  /* how long a value may be returned; 0: for ever */
    /* How long since the last hit; 0: for ever. A hit is noted to a sixteenth of that, by the steady
     * clock. So a value may end so much earlier, and earlier by what the wall clock was set on since
     * its load. It does not end later. */
    int64_t idle;
    /* A part of each time to live, from 0 to below 1: it is drawn between (1 - jitter) of it and it. */
    double jitter;
    /* The first get that finds a value of this age returns it, and begins its load anew in the
     * background; 0: none does. */
    int64_t refresh_after;
    /* So long after its expiry a value is returned where its load fails; 0: not at all. */
    int64_t stale_if_error;
    int64_t failed_ttl;  /* how long a failure is kept, and returned again; 0: not at all */
    int64_t missing_ttl; /* the same for a key that does not exist */
    /* The time, by a steady clock or the wall clock; null: that of the system. For tests. */
    int64_t (*clock)(void *context, bool is_wall) SFLIGHT_NOEXCEPT;
    /* Lets another thread call run(work) once. Returns false if it cannot, and does not call it then.
     * Null: the cache starts a thread for each load in the background. */
    bool (*start)(void *context, void (*run)(void *work), void *work) SFLIGHT_NOEXCEPT;
} sflight_cache_options;

/* How one get is made. All zeros is as in sflight_cache_get. */
typedef struct sflight_cache_how {
    sflight_cache_load *load;           /* null: that of the cache */
    sflight_cache_load_many *load_many; /* for a batch; null: `load`, or that of the cache */
    void *context;                      /* for the functions above, where one is not null */
    /* Bounds the whole wait of this get: 0 does not, and below 0 it waits for nothing. A load for it
     * then runs in a thread of the cache (see `start`) and goes on after it has returned. So the
     * context has to last until the load has returned. */
    int64_t timeout;
} sflight_cache_how;

/* A key of sflight_cache_get_many, and what it got. */
typedef struct sflight_cache_item {
    const uint8_t *key;
    size_t len;
    int code;            /* as sflight_cache_get returns it */
    sflight_value value; /* in use where the code says so */
} sflight_cache_item;

/* A write of a key to the store, drawn before it by sflight_cache_draw. */
typedef struct sflight_cache_token {
    uint64_t all, clock;
    uint32_t forgets;
} sflight_cache_token;

/* The load times are counted by powers of 4: bucket i has those up to 4^i microseconds, and the last
 * one the rest, above 67 seconds. */
#define SFLIGHT_CACHE_BUCKETS 15u

/* The counts of a cache since it was opened. The names mean the same in each package. */
typedef struct sflight_cache_stats {
    uint64_t hits;        /* gets that found a value, or a kept failure */
    uint64_t misses;      /* gets that found none: each loaded, or joined */
    uint64_t loads;       /* keys that were loaded, each of a batch, also in the background; not those of puts */
    uint64_t failures;    /* keys whose load failed; not those that were missing */
    uint64_t joins;       /* gets that joined the load of another thread */
    uint64_t forgets;     /* Forgets of a key, of a tag and of all, puts, and Forgets of one value that forgot */
    uint64_t refreshes;   /* loads in the background, since a value was due */
    uint64_t stale;       /* loads that failed, in whose place an old value was returned */
    uint64_t evictions;   /* values that left the cache to make room */
    uint64_t expirations; /* values that left the cache past their time */
    uint64_t entries;     /* how many values and kept failures there are now */
    uint64_t weight;      /* the sum of their weights, which is never more than the limit */
    uint64_t limit;
    uint64_t in_use;      /* loads that run now: calls that are led and not settled */
    uint64_t load_time;   /* nanoseconds of all loads together; that of a batch counts once */
    uint64_t load_times[SFLIGHT_CACHE_BUCKETS]; /* how many loads took so long; one of a batch is one */
} sflight_cache_stats;

/* Opens a cache. An entry takes at most 120 bytes beside its key and value, with a lifetime too: about
 * 35 of them at once, and the others while its value is there. It takes 8 more where the load said
 * how long it lives, and 8 and 4 for each tag. It uses membarrier(2), and does without where the
 * system refuses that; a filter for system calls may not end the program for it. Returns null where
 * an option is out of range, there is no memory, or the processor is too old (see sflight_open). */
SFLIGHT_MUST_USE
sflight_cache *sflight_cache_open(const sflight_cache_options *options);

/* Waits for the loads in the background, ends a recording, closes the cache, and drops all its values.
 * What `left` and `drop` load meanwhile is dropped too. No other call is running in it, and nothing of
 * it is in use. */
void sflight_cache_close(sflight_cache *cache);

/* Gets the value of the key of `len` bytes: from the cache, by the load function, or from the thread
 * that is loading it, for which it waits. Where sflight_cache_has_value of the result,
 * *value is in use until sflight_cache_release; else it is empty. A key has fewer than 2^32 bytes. */
SFLIGHT_MUST_USE
int sflight_cache_get(sflight_cache *cache, const uint8_t *key, size_t len, sflight_value *value);

/* sflight_cache_get with a loader of its own, or with a timeout. `how` may be null. */
SFLIGHT_MUST_USE
int sflight_cache_get_with(sflight_cache *cache, const uint8_t *key, size_t len,
                           const sflight_cache_how *how, sflight_value *value);

/* Gets the values of so many keys. Those that are there are returned, those that other threads load
 * are waited for, and the rest is loaded by one call of the batch's load function, which may not get
 * any of them. It has loaded before it waits, so two batches that overlap do not wait for each other.
 * `how` may be null. A key may stand there twice. */
void sflight_cache_get_many(sflight_cache *cache, sflight_cache_item *items, size_t count,
                            const sflight_cache_how *how);

/* Gets the value of the key if the cache has it. Returns whether it has; then *value is in use. It is
 * not counted as a hit or a miss, nor as a use. */
SFLIGHT_MUST_USE
bool sflight_cache_peek(sflight_cache *cache, const uint8_t *key, size_t len, sflight_value *value);

/* Ends the use of a value, and does nothing to an empty one. Any thread may do it. */
void sflight_cache_release(sflight_cache *cache, sflight_value *value);

/* Forgets the key. */
void sflight_cache_forget(sflight_cache *cache, const uint8_t *key, size_t len);

/* Forgets the value, which is in use, and spares a newer one of its key. Returns whether the cache had
 * that value still. */
bool sflight_cache_forget_if(sflight_cache *cache, const sflight_value *value);

/* Forgets each value that has the tag, whatever its key, also those of loads that run. It takes the
 * same time whatever their number. A kept failure without tags is forgotten too, since nobody knows
 * which ones the value would have had. Such a value leaves the cache when a get finds it, or others need
 * its room. In about one case of as many tags as there are slots (4 for each of the `entries`, 64 to
 * 65,536), values of another tag are forgotten too. */
void sflight_cache_forget_tag(sflight_cache *cache, const uint8_t *tag, size_t len);

/* Forgets every key, in time that grows with the number of entries. */
void sflight_cache_forget_all(sflight_cache *cache);

/* Returns a value to put, of weight 1, with the cache's time to live and without tags. */
sflight_cache_loaded sflight_cache_of_value(sflight_cache *cache, void *value);

/* Gives a tag to a value that is loaded or put. Returns false where it has SFLIGHT_CACHE_MOST_TAGS:
 * such a value is not kept. */
bool sflight_cache_add_tag(sflight_cache_loaded *loaded, const uint8_t *tag, size_t len);

/* Returns a token of a write, to be drawn before the value is written to the store. */
sflight_cache_token sflight_cache_draw(sflight_cache *cache, const uint8_t *key, size_t len);

/* Forgets the key, and puts a value that was written to the store in its place. With a token it keeps
 * nothing if the key was forgotten since, by whatever call, as that may be of a later write. `token`
 * may be null: then the writes of a key are one after another, each with its put. Returns whether the
 * value is kept: not where a newer load has begun, it is too heavy, or there is no memory. The value
 * is the cache's in any case: one that is not kept is dropped. */
bool sflight_cache_put(sflight_cache *cache, const uint8_t *key, size_t len,
                       const sflight_cache_loaded *loaded, const sflight_cache_token *token);

/* Returns how many values and kept failures there are, and what they weigh together. */
uint64_t sflight_cache_len(sflight_cache *cache);
uint64_t sflight_cache_weight(sflight_cache *cache);

/* Returns the limit of weight. */
uint64_t sflight_cache_limit(sflight_cache *cache);

/* Sets the limit of weight, which is not 0. Returns when no more than that is there. */
void sflight_cache_resize(sflight_cache *cache, uint64_t limit);

/* Calls the function for each value that may be returned now, until it returns false. What comes or
 * leaves meanwhile may be among them or not. The value is in use during the call. Returns false where
 * there is no memory; the function has been called for some of them then. */
SFLIGHT_MUST_USE
bool sflight_cache_each(sflight_cache *cache,
                        bool (*call)(void *context, const uint8_t *key, size_t len,
                                     void *value) SFLIGHT_NOEXCEPT,
                        void *context);

/* The next two are in sflight_record.c, which a program that records compiles in too.
 *
 * Begins to record what the cache does, as records in format 4, by which `sfctl check --timed` judges
 * that no get returned a value or a failure from before a Forget that had returned when the get
 * began, and that one load of a key ran at a time. Returns what sflight_do_record returns.
 *
 * - A load is a call of the history, which stays open as long as its value is in the cache. Each get
 *   that returned the value, or the load's failure, is an Enter of it; but not the get that ran the
 *   load. The Settle comes when the value has left.
 * - A put is a Forget, and then a call that is loaded at once. A Forget of all, or of a tag, is a
 *   Forget of each call that it has closed.
 * - What was loaded before is not in the recording, nor is a get of it.
 * - A load that failed, or whose value was not kept, while an older value was still returned is left
 *   out. So is a get without a result: one that timed out, or had no memory.
 * - Values that make room are no events: `evictions` counts them.
 *
 * All else is as in sflight_do_record. The writer may use the cache. */
int sflight_cache_record(sflight_cache *cache, sflight_write *write, void *context);

/* Ends the recording of the cache, as sflight_do_stop does. */
int sflight_cache_stop(sflight_cache *cache, sflight_recorded *recorded);

/* Returns the counts of the cache, over all threads. */
sflight_cache_stats sflight_cache_statistics(sflight_cache *cache);

#ifdef __cplusplus
}
#endif

#endif
