/* Singleflight for programs with threads: sflight_do runs a load function once for all threads that
 * ask for one key at one time. It stands on sflight.h. Compile sflight_do.c into the program, and
 * link libsflight.a and -lpthread.
 *
 * - No call waits for the load of another key. A load function may ask its pool for other keys.
 * - At most one load of a key runs at a time, unless sflight_do_forget ended the earlier one. So
 *   without a Forget the answers for a key never go back to an older value.
 * - A pool never wears out.
 * - sflight_do_forget always forgets, also if there is no memory.
 * - A pool is small at first, and grows with its use. No call waits while it grows.
 * - What its calls do can be recorded, and judged by `sfctl check --timed` (sflight_do_record).
 *
 * A thread keeps what it needs of a pool until it exits; then other threads of the pool use it.
 *
 * Every function but sflight_do_close can be called from any thread. None may be called from a
 * signal handler, or from the forked child of a process with threads. A load function has to
 * return: it does not longjmp out of sflight_do, and its thread is not cancelled meanwhile.
 *
 * A function of a program in C++ that is called here throws no exception: its key could not be loaded
 * again. From C++17 on the types of these functions are noexcept, so that one that may throw does not
 * compile. A load that fails returns a number that says so. */
#ifndef SFLIGHT_DO_H
#define SFLIGHT_DO_H

#include "sflight.h"
#include <stdbool.h>
#include <stddef.h>
#include <stdint.h>

#ifdef __cplusplus
extern "C" {
#endif

/* A pool, which all threads that ask for the same keys share. */
typedef struct sflight_pool sflight_pool;

/* Says of an answer whether a Forget has ended it: 24 plain bytes, to be kept with the answer. All
 * zeros is the stamp of no answer, which may never be used. */
typedef struct sflight_do_stamp {
    uint64_t table, slot, age;
} sflight_do_stamp;

typedef struct sflight_got {
    uint64_t value;    /* what the load function returned */
    uint32_t joiners;  /* the number of threads that joined its call and got the value */
    bool led;          /* whether the load function ran in this thread */
    sflight_do_stamp stamp; /* all zeros if the key was forgotten while it was loaded */
} sflight_got;

/* The counts of a pool since it was opened. The names mean the same in each package; a pool has no
 * cache, so its hits, misses and evictions are 0. */
typedef struct sflight_stats {
    uint64_t loads;     /* calls of the load function */
    uint64_t joins;     /* calls that joined the load of another thread, also those that timed out */
    uint64_t hits;      /* gets that found a value in the cache */
    uint64_t misses;    /* gets that found none */
    uint64_t forgets;   /* keys that were forgotten, loaded or not */
    uint64_t evictions; /* values that left the cache to make room */
    uint64_t in_use;    /* loads that run now: calls that are led and not settled */
} sflight_stats;

/* Loads the value of a key. The context is the one given to sflight_do. A load that fails returns a
 * number that says so. */
typedef uint64_t sflight_load(void *context, const uint8_t *key, size_t len) SFLIGHT_NOEXCEPT;

/* The results of sflight_do. */
enum {
    SFLIGHT_DO_DONE = 0,
    SFLIGHT_DO_TIMED_OUT = 1, /* the load of another thread takes longer; it goes on */
    SFLIGHT_DO_NO_MEMORY = 2  /* nothing was done */
};

/* The results of sflight_do_record and sflight_do_stop, beside SFLIGHT_DO_DONE and
 * SFLIGHT_DO_NO_MEMORY. */
enum {
    SFLIGHT_DO_RECORDED = 3,    /* the pool is recorded already */
    SFLIGHT_DO_NO_THREAD = 4,   /* no thread could be made */
    SFLIGHT_DO_NOT_RECORDED = 5 /* the pool is not recorded */
};

/* Takes text of a recording: whole lines of `len` bytes, without a 0 at the end. Returns 0, or
 * another number if it fails. */
typedef int sflight_write(void *context, const char *text, size_t len) SFLIGHT_NOEXCEPT;

/* The counts of a recording that has ended. */
typedef struct sflight_recorded {
    uint64_t events; /* lines that were written, beside those of the format */
    uint64_t lost;   /* events that were dropped */
    int failed;      /* what the writer returned, if that was not 0 */
    /* Recorded values of a cache that left it to make room, which is no event. */
    uint64_t evictions;
} sflight_recorded;

/* A timeout that never passes. */
#define SFLIGHT_DO_FOREVER INT64_MAX

/* Opens a pool. `loads` says about how many loads run at one time, up to 1,048,576; 0 means 64. It
 * takes about 64 bytes for each, and the pool grows where there are more. `share` may be null. If it
 * is not, the thread that loaded a value calls it before other threads get the value, with their
 * number: a program that counts references adds that many. `share` must not use the pool. Returns
 * null if there is no memory, if `loads` is out of range, or if the processor is too old (see
 * sflight_open). */
sflight_pool *sflight_do_open(uint32_t loads,
                              void (*share)(uint64_t value, uint32_t others) SFLIGHT_NOEXCEPT);

/* Ends a recording of the pool, if there is one, and frees the pool. No call may be running in it.
 * Threads that have used it may exit later. */
void sflight_do_close(sflight_pool *pool);

/* Gets the value of the key of `len` bytes. It runs `load`, or blocks until the thread that is
 * already loading the value has it, for at most `timeout` nanoseconds. The timeout does not bound a
 * load that this thread runs itself. */
int sflight_do(sflight_pool *pool, const uint8_t *key, size_t len, sflight_load *load,
               void *context, int64_t timeout, sflight_got *got);

/* Keeps a value in a cache of the program's own. The thread that loaded the value calls it, with the
 * context of sflight_do_and_keep, before the value is anybody's and while the key's next load cannot
 * begin. So a value that is kept later is a newer one, unless the key was forgotten meanwhile. */
typedef void sflight_keep(void *context, const uint8_t *key, size_t len, uint64_t value,
                          const sflight_do_stamp *stamp) SFLIGHT_NOEXCEPT;

/* Does what sflight_do does, and lets `keep` put the value into a cache. A cache that takes its values
 * from sflight_do instead may put an older value in place of a newer one, since its thread can be
 * stopped before it does so. */
int sflight_do_and_keep(sflight_pool *pool, const uint8_t *key, size_t len, sflight_load *load,
                        sflight_keep *keep, void *context, int64_t timeout, sflight_got *got);

/* Forgets the key: a thread that asks from now on never gets a value whose load began before.
 * Returns whether a load was running. */
bool sflight_do_forget(sflight_pool *pool, const uint8_t *key, size_t len);

/* Returns whether the answer with this stamp may still be used: its key was not forgotten. It can
 * return false too early, if a key of the same hash slot was forgotten. */
bool sflight_do_is_still(sflight_pool *pool, const sflight_do_stamp *stamp);

/* Returns the numbers of the pool. */
sflight_stats sflight_do_statistics(sflight_pool *pool);

/* The next two are in sflight_record.c, which a program that records compiles in too.
 *
 * Begins to record what the calls of the pool do, as records in format 4, by which `sfctl check
 * --timed` judges whether they kept the promises. A thread of the recording gives the records to
 * `write`, with the context, until sflight_do_stop. Returns SFLIGHT_DO_DONE, SFLIGHT_DO_RECORDED if
 * the pool is recorded already, or SFLIGHT_DO_NO_MEMORY or SFLIGHT_DO_NO_THREAD. Only the first
 * means that a recording has begun.
 *
 * - A call that ran a load function is recorded when it has ended and each thread that joined it
 *   has the value: its Lead, an Enter of each that joined, the Forget that closed it, its Settle
 *   and its Handed. A Forget that found no load of its key is recorded when it has ended.
 * - A call that began before sflight_do_record is not in the recording, nor is one that has not
 *   ended at sflight_do_stop, with all that was done to it.
 * - The caller of a record is one of 64, by the thread. The value of a call is its name, such as
 *   "3.17"; nothing is told of the value itself. The key stands as it is. One of more than 250
 *   bytes, one that is no UTF-8, and one that begins with "hash:" stand as "hash:" and two hashes
 *   of 64 bits, whose secret seeds the pool keeps. Times are nanoseconds of CLOCK_MONOTONIC.
 * - No call waits for the writer. Events that it does not take in time are dropped and counted, and
 *   so are calls that there is no memory to record. Then a line {"format":4,"lost":n} stands between
 *   two calls, and `sfctl merge` makes one recording of that.
 * - The recording ends at the first write that does not return 0. The pool is still recorded then,
 *   until sflight_do_stop.
 * - The writer may call the pool, but cannot stop the recording, and must not close the pool. It
 *   returns: it does not longjmp out, and its thread is not cancelled. All signals are blocked in
 *   its thread. */
int sflight_do_record(sflight_pool *pool, sflight_write *write, void *context);

/* Ends the recording of the pool, and returns when all that was recorded is written. Returns
 * SFLIGHT_DO_DONE, or SFLIGHT_DO_NOT_RECORDED if the pool is not recorded, if another thread is
 * ending its recording, or if the writer calls this. `recorded` may be null. */
int sflight_do_stop(sflight_pool *pool, sflight_recorded *recorded);

/* Returns the version that sflight_do.c was compiled for, such as "0.2.0". It equals
 * SFLIGHT_VERSION if the program includes the same header. */
const char *sflight_version(void);

#ifdef __cplusplus
}
#endif

#endif
